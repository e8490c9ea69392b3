"""Very many resources: the memory that davd has for each, and the time until it is back."""
import argparse
import concurrent.futures
import random
import time

import folder_look
import folder_measure
from connection import Wrong
from endure_client import Client
from folder_host import Place
from folder_measure import Peak, room_of
from harness import Run

RESOURCES = 300_000
# The members of a directory. The files of some directories are stored one by one, and the others are copies of them.
MEMBERS = 1000
STORED = 3
CLIENTS = 8
# After this part of the resources, and after all, davserve is started again.
FIRST_PART = 3
SAMPLED_DIRECTORIES = 5
SAMPLED_FILES = 300
LOAD_SECONDS = 300


def name_of(number: int) -> str:
    return f"file-{number:05}.txt"


class Many:
    """The directories. `/d7` has the bytes of the stored directory `7 % STORED`."""

    def __init__(self, place: Place, options: argparse.Namespace):
        self.place, self.seed = place, options.seed
        self.chance = random.Random(f"{options.seed}.many")
        self.wanted = max(options.resources // MEMBERS, FIRST_PART)
        self.folder = place.part("many")
        self.peak = Peak()
        self.directories = 0
        self.host = place.start(self.folder)
        self.empty = 0

    def client(self) -> Client:
        return Client(self.host.port, "", "")

    def resources(self) -> int:
        return self.directories * (MEMBERS + 1)

    def bytes(self, directory: int, number: int) -> bytes:
        return f"{self.seed}.{directory % STORED}.{number}".encode()

    # ---- filling

    def fill(self, directories: int):
        while self.directories < directories:
            if self.directories < STORED:
                self.store()
            else:
                source = f"/d{self.directories % STORED}"
                fields = {"Destination": f"/d{self.directories}"}
                self.host.ask("COPY", source, fields=fields, status=201, seconds=60)
            self.directories += 1

    def store(self):
        """Stores the files of a directory, by several clients at once."""
        self.client().ask("MKCOL", f"/d{self.directories}", status=201)
        with concurrent.futures.ThreadPoolExecutor(CLIENTS) as pool:
            for future in [pool.submit(self.store_some, range(it, MEMBERS, CLIENTS)) for it in range(CLIENTS)]:
                future.result()

    def store_some(self, numbers: range):
        client = self.client()
        for it in numbers:
            path = f"/d{self.directories}/{name_of(it)}"
            client.ask("PUT", path, self.bytes(self.directories, it), status=201)
        client.close()

    # ---- the checks

    def begins(self):
        self.fill(1)
        self.empty = folder_measure.memory(self.host).davd

    def fills_some(self) -> str:
        return self.fills(self.wanted // FIRST_PART)

    def fills_all(self) -> str:
        return self.fills(self.wanted)

    def fills(self, directories: int) -> str:
        before, began = self.resources(), time.monotonic()
        self.fill(directories)
        seconds, more = time.monotonic() - began, self.resources() - before
        return f"{more:,} more in {seconds:.0f} s. {self.measured()}"

    def measured(self) -> str:
        now = folder_measure.memory(self.host)
        each = (now.davd - self.empty) / max(self.resources() - MEMBERS - 1, 1)
        return (f"{self.resources():,} resources: {now}, or {each:.0f} bytes of davd for each, with names of "
                f"{len(name_of(0))} bytes. {room_of(self.folder)}")

    def starts_again(self) -> str:
        self.peak.note(self.host)
        self.host.stop()
        began = time.monotonic()
        self.host = self.place.start(self.folder, is_awaited=False)
        self.host.await_health(seconds=LOAD_SECONDS)
        seconds = time.monotonic() - began
        note = f"davd was back after {seconds:.1f} s. {self.measured()}"
        self.compare()
        return note

    def compare(self):
        """Compares the names of all directories, those of the members of some, and the bytes of some files."""
        client = self.client()
        self.compare_names(client, "/", {f"/d{it}" for it in range(self.directories)})
        for it in self.chance.sample(range(self.directories), min(SAMPLED_DIRECTORIES, self.directories)):
            self.compare_names(client, f"/d{it}", {f"/d{it}/{name_of(number)}" for number in range(MEMBERS)})
        for _ in range(SAMPLED_FILES):
            directory, number = self.chance.randrange(self.directories), self.chance.randrange(MEMBERS)
            path = f"/d{directory}/{name_of(number)}"
            if (got := client.ask("GET", path, status=200)).body != self.bytes(directory, number):
                raise Wrong(f"{path}: expected {self.bytes(directory, number)!r}, got {got}")
        client.close()

    def compare_names(self, client: Client, path: str, names: set[str]):
        found = set(folder_look.list_folder(client, path)) - {path.rstrip("/")}
        if found != names:
            raise Wrong(f"the members of {path}: {len(found - names)} too much, {len(names - found)} missing")

    def ends(self) -> str:
        self.peak.note(self.host)
        self.host.stop()
        return f"at most {self.peak.most}"


CHECKS = {
    "the first directory is stored": Many.begins,
    "a part of the resources is made": Many.fills_some,
    "a part of the resources is right after davserve was started again": Many.starts_again,
    "all resources are made": Many.fills_all,
    "all resources are right after davserve was started again": Many.starts_again,
    "davserve ends with status 0": Many.ends,
}


def run(place: Place, options: argparse.Namespace, counts: Run):
    folder_measure.run_checks("many", CHECKS, Many(place, options), counts)

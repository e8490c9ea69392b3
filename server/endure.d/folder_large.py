"""Files from one byte to gigabytes: they are right after a new start, and their room is used again."""
import argparse
import concurrent.futures
import random
import shutil
import time

import folder_measure
import folder_stream
from connection import Wrong
from folder_host import Place
from folder_measure import BESIDE, RESERVE, Peak, Probe, room_of, shown
from folder_stream import Content, Part, length_of
from harness import Run, Skipped

GIGABYTES = 20
# The largest file has this part of all bytes.
LARGEST = 5
MOST_BYTES = 4 << 30
PARALLEL = 3
RANGES = 8
MOST_RANGE = 4 << 20
# Of davserve and davd together.
MOST_MEMORY = 10**9
# The files that are replaced have this part of all bytes, and all of them are replaced so often.
REPLACED = 10
TURNS = 5
REPLACED_FILES = 16
# The folder may have so many times the bytes of its files.
TIMES = 3
LOAD_SECONDS = 300


class Large:
    """The files, and the server that has them."""

    def __init__(self, place: Place, options: argparse.Namespace):
        self.place = place
        self.total = int(options.gigabytes * 10**9)
        self.chance = random.Random(f"{options.seed}.large")
        self.seed = options.seed
        self.folder = place.part("large")
        self.peak = Peak()
        self.serial = 0
        self.files: dict[str, Content] = {}
        self.host = self.start()

    def start(self):
        host = self.place.start(self.folder, is_awaited=False, flags=("-max-body", MOST_BYTES))
        host.await_health(seconds=LOAD_SECONDS)
        return host

    def start_again(self) -> float:
        """Starts davserve again. Returns the seconds until it serves."""
        self.peak.note(self.host)
        self.host.stop()
        began = time.monotonic()
        self.host = self.start()
        return time.monotonic() - began

    def content(self, length: int) -> Content:
        """Bytes that no other file has."""
        self.serial += 1
        return (Part(f"{self.seed}.{self.serial}", length),)

    def lengths(self, total: int) -> list[int]:
        """Lengths of one file of each order of magnitude again and again, with so many bytes together."""
        largest = min(max(total // LARGEST, 1), MOST_BYTES)
        lengths, left = [largest], total - largest
        while left > 0:
            for power in range(largest.bit_length()):
                length = min(self.chance.randrange(1 << power, 2 << power), largest, left)
                lengths += [length] if length else []
                left -= length
        return lengths

    def each(self, action, items):
        """Does something with each of the items, a few at once. Raises what the first one raises."""
        pool = concurrent.futures.ThreadPoolExecutor(PARALLEL)
        try:
            for future in [pool.submit(action, it) for it in items]:
                future.result()
        finally:
            pool.shutdown(cancel_futures=True)

    def put(self, path: str):
        folder_stream.put(self.host.port, path, self.files[path])

    # ---- the checks

    def stores(self) -> str:
        """The largest file first, and others beside it."""
        self.files = {f"/file-{at}": self.content(it) for at, it in enumerate(self.lengths(self.total))}
        began = time.monotonic()
        with Probe(self.host) as probe:
            self.each(self.put, self.files)
        seconds = time.monotonic() - began
        return (f"{len(self.files)} files from {min(map(length_of, self.files.values()))} byte to "
                f"{shown(length_of(self.files['/file-0']))}, {shown(self.total)} together, in {seconds:.0f} s. "
                f"Another request waited up to {probe.longest:.1f} s. {room_of(self.folder)}")

    def is_right(self) -> str:
        seconds, began = self.start_again(), time.monotonic()
        self.each(self.compare, self.files)
        return f"davd was back after {seconds:.1f} s. All was read in {time.monotonic() - began:.0f} s"

    def compare(self, path: str):
        """Reads a file whole, and then some ranges of it."""
        content, chance = self.files[path], random.Random(f"{self.seed}.{path}")
        folder_stream.compare(self.host.port, path, content)
        for _ in range(RANGES):
            first = chance.randrange(length_of(content))
            end = min(first + chance.randint(1, MOST_RANGE), length_of(content))
            folder_stream.compare(self.host.port, path, content, first, end)

    def copies(self) -> str:
        """The copy shares the room. When it changes, the other one stays."""
        content, before, began = self.files["/file-0"], room_of(self.folder).data, time.monotonic()
        self.host.ask("COPY", "/file-0", fields={"Destination": "/copy"}, status=201, seconds=60)
        milliseconds, grown = (time.monotonic() - began) * 1000, room_of(self.folder).data - before
        if grown:
            raise Wrong(f"a COPY of {shown(length_of(content))} makes `data` longer by {shown(grown)}")
        more = self.content(100_000)
        folder_stream.append(self.host.port, "/copy", more[0])
        self.files["/copy"] = content + more
        for path in ("/copy", "/file-0"):
            self.compare(path)
        return f"{shown(length_of(content))} in {milliseconds:.0f} ms"

    def uses_again(self) -> str:
        """Half of the files are removed, and others are stored. `data` may have twice what files had at most."""
        most = self.live()
        for path in list(self.files)[1::2]:
            self.delete(path)
        left, before = self.live(), room_of(self.folder).data
        more = {f"/more-{at}": self.content(it) for at, it in enumerate(self.lengths(self.total // 4))}
        self.files |= more
        self.each(self.put, more)
        after = room_of(self.folder).data
        if after > 2 * most + BESIDE:
            raise Wrong(f"`data` has {shown(after)}, and the files never had more than {shown(most)}")
        self.each(self.compare, more)
        return (f"files had {shown(most)}, {shown(left)} after the DELETEs and {shown(self.live())} after the PUTs. "
                f"`data` had {shown(before)}, and then {shown(after)}")

    def live(self) -> int:
        """How many bytes the files have. Those that a copy shares count once."""
        return sum(it.length for it in {part for content in self.files.values() for part in content})

    def delete(self, path: str):
        self.host.ask("DELETE", path, status=204, seconds=60)
        del self.files[path]

    def gives_back(self) -> str:
        for path in list(self.files):
            self.delete(path)
        before = room_of(self.folder)
        self.start_again()
        after = room_of(self.folder)
        if after.data:
            raise Wrong(f"without a file `data` has {shown(after.data)} after a new start")
        return f"before the new start {before}, and then {after}"

    def replaces(self) -> str:
        """Replaces files by others of the same length."""
        size, most, wrote = self.total // REPLACED // REPLACED_FILES, 0, 0
        for turn in range(TURNS):
            self.files = {f"/replaced-{at}": self.content(size) for at in range(REPLACED_FILES)}
            for path in self.files:
                self.put(path)
                wrote += size
                most = max(most, room_of(self.folder).total())
        self.each(self.compare, self.files)
        if most > TIMES * self.live() + BESIDE + RESERVE:
            raise Wrong(f"the folder had {shown(most)} for {shown(self.live())}")
        return f"for files of {shown(self.live())} {shown(wrote)} were written, and the folder had up to {shown(most)}"

    def has_little_memory(self) -> str:
        self.peak.note(self.host)
        return self.peak.check(MOST_MEMORY)

    def ends(self):
        self.host.stop()


CHECKS = {
    "files of all sizes are stored": Large.stores,
    "each is right after davserve was started again, whole and in ranges": Large.is_right,
    "a COPY of the largest takes no room": Large.copies,
    "the room of removed files is used again": Large.uses_again,
    "after a new start an empty folder takes no room for files": Large.gives_back,
    f"while files are replaced the folder has at most {TIMES} times their bytes": Large.replaces,
    f"davserve and davd together have less than {shown(MOST_MEMORY)} of memory": Large.has_little_memory,
    "davserve ends with status 0": Large.ends,
}


def run(place: Place, options: argparse.Namespace, counts: Run):
    try:
        check_room(place, options)
    except Skipped as reason:
        counts.skip("large", str(reason))
        return
    large = Large(place, options)
    folder_measure.run_checks("large", CHECKS, large, counts)
    shutil.rmtree(large.folder, ignore_errors=True)


def check_room(place: Place, options: argparse.Namespace):
    """`data` may have twice what the files have at most."""
    needed, free = int(options.gigabytes * 10**9 * 2) + BESIDE, shutil.disk_usage(place.folder).free
    if free < needed:
        raise Skipped(f"{place.folder} has room for {shown(free)}, and {shown(needed)} may be used: see --gigabytes")

"""A mixed load for some minutes: what the folder takes of the disk, compared with what its files have."""
import argparse
import collections
import concurrent.futures
import math
import random
import threading
import time

import folder_host
import folder_measure
import folder_stream
from connection import Wrong
from folder_host import Place
from folder_measure import BESIDE, RESERVE, Memory, Room, room_of, shown
from folder_stream import Content, Part
from harness import Run

MINUTES = 5
WORKERS = 4
# How many bytes the files of a worker have, about.
LIVE = 75_000_000
LARGEST = 16 << 20
MOST_APPENDED = 200_000
DIRECTORIES = 5
# What the folder has is noted at most so often, and with at least so many seconds between.
NOTES = 48
NOTED_SECONDS = 30
SAMPLED_SECONDS = 0.5
TIMES = 3
RESTS = (0.0, 0.05)
# How often each action is chosen: a PUT of a new file, one onto a file, a PATCH, a COPY, a MOVE, a GET.
OFTEN = (30, 25, 20, 8, 12, 5)


class Worker:
    """Changes files below a directory of its own, and knows what they are."""

    def __init__(self, number: int, seed: str, port: int):
        self.number, self.seed, self.port = number, seed, port
        self.chance = random.Random(f"{seed}.steady.{number}")
        self.serial = 0
        self.files: dict[str, Content] = {}
        self.counts: collections.Counter[str] = collections.Counter()
        self.is_warm = False  # once it has had as many bytes as it should have

    def ask(self, method: str, path: str, status: int, **fields):
        got = folder_stream.send(self.port, method, path, (), fields, (status,))
        self.counts[method] += 1
        return got

    def begin(self):
        for path in (self.root(), *(f"{self.root()}/{it}" for it in range(DIRECTORIES))):
            self.ask("MKCOL", path, 201)

    def root(self) -> str:
        return f"/w{self.number}"

    def work(self, stop: threading.Event):
        actions = (self.put, self.replace, self.append, self.copy, self.move, self.read)
        while not stop.is_set():
            self.chance.choices(actions, OFTEN)[0]()
            while self.live() > LIVE:
                self.is_warm = True
                self.delete()
            time.sleep(self.chance.uniform(*RESTS))

    def live(self) -> int:
        """How many bytes the files have. Those that copies share count once."""
        return sum(it.length for it in {part for content in list(self.files.values()) for part in content})

    # ---- what it does

    def part(self, most: int) -> Part:
        """Bytes that no other file has. There are as many small ones as large ones."""
        self.serial += 1
        length = int(math.exp(self.chance.uniform(0, math.log(most))))
        return Part(f"{self.seed}.{self.number}.{self.serial}", length)

    def new_path(self) -> str:
        self.serial += 1
        return f"{self.root()}/{self.chance.randrange(DIRECTORIES)}/file-{self.serial}"

    def some(self) -> str | None:
        return self.chance.choice(list(self.files)) if self.files else None

    def put(self, path: str | None = None):
        path = path or self.new_path()
        content = (self.part(LARGEST),)
        folder_stream.put(self.port, path, content, (204,) if path in self.files else (201,))
        self.counts["PUT"] += 1
        self.files[path] = content

    def replace(self):
        self.put(self.some())

    def append(self):
        if path := self.some():
            part = self.part(MOST_APPENDED)
            folder_stream.append(self.port, path, part)
            self.counts["PATCH"] += 1
            self.files[path] += (part,)

    def copy(self):
        if source := self.some():
            target = self.new_path()
            self.ask("COPY", source, 201, Destination=target)
            self.files[target] = self.files[source]

    def move(self):
        if source := self.some():
            target = self.new_path()
            self.ask("MOVE", source, 201, Destination=target)
            self.files[target] = self.files.pop(source)

    def delete(self):
        path = self.some()
        self.ask("DELETE", path, 204)
        del self.files[path]

    def read(self):
        if path := self.some():
            folder_stream.compare(self.port, path, self.files[path])
            self.counts["GET"] += 1

    def compare(self):
        for path, content in self.files.items():
            folder_stream.compare(self.port, path, content)


class Sample:
    """What the folder and the files had at a time."""

    def __init__(self, began: float, room: Room, live: int, memory: Memory):
        self.seconds = time.monotonic() - began
        self.room, self.live, self.memory = room, live, memory

    def __str__(self):
        return f"{self.seconds:4.0f} s: files {shown(self.live)}, {self.room}, {self.memory}"


class Steady:
    """The workers, the server, and what is seen while they work."""

    def __init__(self, place: Place, options: argparse.Namespace, counts: Run):
        self.place, self.counts = place, counts
        self.seconds = options.minutes * 60
        self.folder = place.part("steady")
        self.host = place.start(self.folder)
        self.workers = [Worker(it, options.seed, self.host.port) for it in range(WORKERS)]
        self.worst: tuple[float, Sample] | None = None

    def sample(self, began: float) -> Sample:
        live = sum(it.live() for it in self.workers)
        return Sample(began, room_of(self.folder), live, folder_measure.memory(self.host))

    def works(self) -> str:
        """Lets the workers work, and looks at the folder meanwhile."""
        stop, began = threading.Event(), time.monotonic()
        with concurrent.futures.ThreadPoolExecutor(WORKERS) as pool:
            for worker in self.workers:
                worker.begin()
            futures = [pool.submit(it.work, stop) for it in self.workers]
            try:
                self.watch(began, futures)
            finally:
                stop.set()
            for future in futures:
                future.result()
        total = sum((it.counts for it in self.workers), collections.Counter())
        return ", ".join(f"{count:,} {it}" for it, count in sorted(total.items()))

    def watch(self, began: float, futures):
        noted, pause = began, max(NOTED_SECONDS, self.seconds / NOTES)
        while time.monotonic() < began + self.seconds and not any(it.done() for it in futures):
            time.sleep(SAMPLED_SECONDS)
            sample = self.sample(began)
            if all(it.is_warm for it in self.workers):
                self.judge(sample)
            if time.monotonic() >= noted + pause:
                noted += pause
                self.counts.note(str(sample))

    def judge(self, sample: Sample):
        """Keeps the sample in which the folder has the most for what the files have."""
        times = (sample.room.total() - BESIDE - RESERVE) / sample.live
        if not self.worst or times > self.worst[0]:
            self.worst = times, sample

    def stays_small(self) -> str:
        if not self.worst:
            raise Wrong(f"the files never had {shown(WORKERS * LIVE)}: it takes more minutes")
        times, sample = self.worst
        beside = f"beside {shown(BESIDE)} and {shown(RESERVE)}"
        if times > TIMES:
            raise Wrong(f"expected at most {TIMES} times {shown(sample.live)} {beside}, found {sample}")
        return f"at the worst {times:.2f} times {beside}: {sample}"

    def is_right(self):
        self.host.stop()
        self.host = self.place.start(self.folder)
        for worker in self.workers:
            worker.port = self.host.port
        with concurrent.futures.ThreadPoolExecutor(WORKERS) as pool:
            for future in [pool.submit(it.compare) for it in self.workers]:
                future.result()
        return f"after the new start: {room_of(self.folder)}"

    def ends(self):
        self.host.stop()


CHECKS = {
    "workers change and read files": Steady.works,
    f"the folder has at most {TIMES} times what its files have, and {BESIDE + RESERVE >> 20} MiB": Steady.stays_small,
    "each file is right after davserve was started again": Steady.is_right,
    "davserve ends with status 0": Steady.ends,
}


def run(place: Place, options: argparse.Namespace, counts: Run):
    steady = Steady(place, options, counts)
    folder_measure.run_checks("steady", CHECKS, steady, counts)

"""A worker: a process that sends requests to a folder of its own, and compares each response with a model."""
import collections
import dataclasses
import multiprocessing
import random
import traceback

import endure_files
import endure_locks
import endure_properties
import endure_shared
import endure_trees
from connection import Wrong
from endure_client import Client
from endure_model import Tree
from endure_shared import Shares

# How long the workers wait for each other.
BARRIER_SECONDS = 900
LARGEST = 16 << 20
# How often each action is chosen, beside the others.
WEIGHTS = {
    endure_files.put: 14, endure_files.get: 12, endure_files.head: 3, endure_files.range_: 8, endure_files.ranges: 2,
    endure_files.conditional_get: 6, endure_files.patch: 5, endure_files.missing: 2, endure_files.vanish: 4,
    endure_files.vanish_reading: 2, endure_trees.make: 5, endure_trees.delete: 4, endure_trees.copy: 5,
    endure_trees.move: 5, endure_trees.list_: 8, endure_trees.page: 2, endure_trees.malformed: 2,
    endure_properties.set_: 6, endure_properties.read: 4, endure_properties.protected: 1, endure_locks.lock_file: 3,
    endure_locks.lock_folder: 2, endure_locks.expire: 0.2, endure_shared.count: 3, endure_shared.count_locked: 3,
    endure_shared.replace: 2, endure_shared.read: 3, endure_shared.take_ball: 2,
}


@dataclasses.dataclass
class Signals:
    """What the main process and the workers share. An odd epoch means that davd is being killed."""

    epoch: multiprocessing.Value
    pause: multiprocessing.Event
    barrier: multiprocessing.Barrier
    stop: multiprocessing.Event


@dataclasses.dataclass
class Result:
    """What a worker did. `shares` counts what it changed in the shared folder since davd started."""

    number: int
    requests: int = 0
    actions: dict[str, int] = dataclasses.field(default_factory=dict)
    slowest: tuple[float, str] = (0.0, "no request")
    failure: str | None = None
    shares: Shares = dataclasses.field(default_factory=Shares)


class Worker:
    """What the actions use: chance, the client, the model."""

    def __init__(self, number: int, port: int, accounts: list[tuple[str, str]], seed: str, signals: Signals):
        self.number = number
        self.chance = random.Random(f"{seed}.{number}")
        self.client = Client(port, *accounts[number])
        self.other = Client(port, *accounts[number - 1])
        self.signals = signals
        self.root = f"/w{number}"
        self.tree = Tree(self.root)
        self.shares = Shares()
        self.serial = 0
        self.actions: collections.Counter[str] = collections.Counter()
        self.requests = multiprocessing.Value("Q", 0)
        self.epoch = signals.epoch.value
        self.failure: str | None = None

    def work(self, results):
        """Works until it must stop. After a failure it only waits with the others."""
        self.attempt(self.start)
        while not self.signals.stop.is_set():
            if self.signals.pause.is_set():
                self.wait_and_clear()
            elif self.failure:
                self.signals.pause.wait(1)
            else:
                self.attempt(self.act)
        slowest = max(self.client.slowest, self.other.slowest)
        results.put(Result(self.number, self.total(), dict(self.actions), slowest, self.failure, self.shares))

    def total(self) -> int:
        return self.client.requests + self.other.requests

    def attempt(self, action):
        """Does something. If it goes wrong because davd was killed, everything begins again with an empty folder."""
        try:
            self.follow_epoch()
            action()
        except Exception as error:
            if self.is_killed():
                return
            self.failure = self.described(error)
        self.requests.value = self.total()

    def act(self):
        action = self.chance.choices(list(WEIGHTS), WEIGHTS.values())[0]
        self.actions[f"{action.__module__.removeprefix('endure_')} {action.__name__.strip('_')}"] += 1
        action(self)

    def described(self, error: Exception) -> str:
        text = str(error) if isinstance(error, Wrong) else traceback.format_exc().strip()
        lately = "\n  ".join([*self.client.lately])
        return f"{text}\nthe last requests of the worker:\n  {lately}"

    # ---- when davd was killed

    def is_killed(self) -> bool:
        return self.signals.epoch.value != self.epoch

    def follow_epoch(self):
        """After davd was killed, waits until it is back, and begins again."""
        while self.is_killed():
            while self.signals.epoch.value % 2 and not self.signals.stop.is_set():
                self.signals.stop.wait(0.1)
            self.epoch = self.signals.epoch.value
            self.close()
            self.shares = Shares()
            self.start()

    def start(self):
        """Makes the folder of the worker."""
        self.tree = Tree(self.root)
        self.client.ask("MKCOL", self.root, status=201)

    # ---- together with the others

    def wait_and_clear(self):
        """Compares all resources with the model, removes them, and stores and removes a large file with the others."""
        for step in (self.compare_and_remove, self.start, self.store_largest):
            if not self.failure:
                self.attempt(step)
            self.signals.barrier.wait(BARRIER_SECONDS)
        self.signals.barrier.wait(BARRIER_SECONDS)  # The memory is read before this one.

    def compare_and_remove(self):
        endure_trees.compare_all(self)
        self.client.ask("DELETE", self.root, status=204)

    def store_largest(self):
        data, path = self.bytes(LARGEST), f"{self.root}/largest"
        self.client.ask("PUT", path, data, status=201)
        got = self.client.ask("GET", path, status=200)
        if got.body != data:
            raise Wrong("a large file is not what was stored")
        self.client.ask("DELETE", path, status=204)
        self.close()

    def close(self):
        self.client.close()
        self.other.close()

    # ---- for the actions

    def bytes(self, size: int) -> bytes:
        """Bytes that no other file has."""
        self.serial += 1
        block = self.chance.randbytes(min(size, 4096))
        mark = f"{self.number}.{self.serial}.".encode()
        return (mark + block * (size // max(len(block), 1) + 1))[:size]

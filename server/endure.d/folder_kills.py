"""davd and davserve are killed at random moments while workers write. Nothing that was answered may be lost."""
import argparse
import collections
import concurrent.futures
import random
import threading
import time

import folder_host
from connection import Wrong
from folder_host import Place
from folder_worker import Tags, Worker
from harness import Run

# Each kill comes after a time between these, in seconds.
EARLIEST, LATEST = 0.05, 1.2
# How long the workers go on after it.
AFTER = 0.3
# How often the next davd is killed too, and so many seconds after its start at the latest.
TWICE = 0.2
LOADING = 0.02
# Every so often davserve is killed too, and everything is compared.
HOST_EVERY = 4
ALL_EVERY = 10


class Kills:
    """The workers, and the server that is killed."""

    def __init__(self, place: Place, options: argparse.Namespace, counts: Run):
        self.place, self.counts = place, counts
        self.kills = options.kills
        self.chance = random.Random(f"{options.seed}.kills")
        self.folder = place.part("kills")
        self.host = place.start(self.folder)
        tags = Tags()
        self.workers = [Worker(it, self.host.port, f"{options.seed}.kills", tags) for it in range(options.workers)]
        self.pool = concurrent.futures.ThreadPoolExecutor(options.workers)
        self.failures: dict[int, str] = {}
        self.killed: collections.Counter[str] = collections.Counter()
        self.began = time.monotonic()

    def run(self):
        self.each(Worker.begin)
        for number in range(1, self.kills + 1):
            self.round(number)
            if self.failures:
                break
        self.judge()

    def each(self, action):
        """Lets all workers do something at once. The first failure of a worker is kept."""
        futures = {it.number: self.pool.submit(action, it) for it in self.workers}
        self.take(futures)

    def take(self, futures: dict[int, concurrent.futures.Future]):
        for number, future in futures.items():
            try:
                future.result()
            except (Wrong, OSError) as wrong:
                self.failures.setdefault(number, self.workers[number].described(wrong))

    def round(self, number: int):
        """Kills while the workers write, and lets them compare."""
        stop, is_host_killed = threading.Event(), number % HOST_EVERY == 0
        futures = {it.number: self.pool.submit(it.work, stop) for it in self.workers}
        time.sleep(self.chance.uniform(EARLIEST, LATEST))
        try:
            self.kill(is_host_killed)
            time.sleep(self.chance.uniform(0, AFTER))
        finally:
            stop.set()
        self.take(futures)
        if is_host_killed:
            self.start_again()
        self.host.await_health(seconds=folder_host.BACK_SECONDS)
        is_all = number % ALL_EVERY == 0
        self.each(lambda it: it.settle_and_compare(is_all))

    def kill(self, is_host_killed: bool):
        if is_host_killed:
            folder_host.kill_both(self.host, self.chance.random() < 0.5)
            self.killed["both"] += 1
            return
        self.killed["davd"] += folder_host.kill_davd(self.host)
        if self.chance.random() < TWICE:
            self.killed["davd while it loads"] += folder_host.kill_next_davd(self.host, self.chance.uniform(0, LOADING))

    def start_again(self):
        self.host.check_log()
        self.host = self.place.start(self.folder)
        for worker in self.workers:
            worker.connect(self.host.port)

    # ---- the judgement

    def judge(self):
        if not self.failures:
            self.each(lambda it: it.settle_and_compare(True))
        for worker in self.workers:
            self.check(f"worker {worker.number} found all that was answered, and nothing half done",
                       lambda it=worker.number: self.check_worker(it))
        self.check("davserve ends with status 0, without a panic in its log", self.host.stop)
        self.check("everything is there when davserve is started again", self.check_again)
        self.check("davd --check finds no damage", self.check_folder)
        self.note()

    def check(self, name: str, run):
        name = f"kills: {name}"
        try:
            run()
        except (Wrong, OSError) as wrong:
            self.counts.fail(name, str(wrong))
        else:
            self.counts.pass_(name)

    def check_worker(self, number: int):
        if number in self.failures:
            raise Wrong(self.failures[number])

    def check_again(self):
        if self.failures:
            raise Wrong("it was not tried after the failures above")
        self.start_again()
        self.each(lambda it: it.compare(True))
        self.host.stop()
        if self.failures:
            raise Wrong("\n".join(self.failures.values()))

    def check_folder(self):
        if damaged := folder_host.check(self.place, self.folder):
            raise Wrong("\n".join(damaged))

    def note(self):
        total = sum((it.counts for it in self.workers), collections.Counter())
        self.counts.note(
            f"kills in {time.monotonic() - self.began:.0f} s: "
            + ", ".join(f"{count:,} {it}" for counts in (self.killed, total) for it, count in sorted(counts.items()))
        )


def run(place: Place, options: argparse.Namespace, counts: Run):
    Kills(place, options, counts).run()

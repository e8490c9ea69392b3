"""The run: starts the workers, stops them at times to compare and to measure, and judges at the end."""
import argparse
import collections
import functools
import multiprocessing
import pathlib
import queue
import signal
import tempfile
import time
import typing

import endure_desktops
import endure_shared
import endure_watch
import multistatus
from connection import Wrong
from endure_client import Client
from endure_host import Host, Programs, start
from endure_worker import BARRIER_SECONDS, Result, Signals, Worker
from harness import Run, Skipped

# At how many times, evenly apart, all resources are compared and the memory is read. After the first it is warm.
STOPS = 6
SETTLE_SECONDS = 3
RESULT_SECONDS = 60
KILL_SECONDS = 20


class Endurance:
    """One run of so many minutes, of davserve with or without the race detector."""

    def __init__(self, options: argparse.Namespace, minutes: float, programs: Programs, counts: Run, folder):
        self.options = options
        self.minutes = minutes
        self.is_race = programs.has_race_detector()
        self.counts = counts
        self.folder: pathlib.Path = folder
        self.numbers = range(options.workers)
        self.accounts = [(f"user{it}", f"the password of {it}") for it in range(options.workers + 1)]
        self.host: Host = start(programs, self.accounts, folder)
        self.client = Client(self.host.port, *self.accounts[-1])
        self.memories: list[endure_watch.Memory] = []
        self.results: dict[int, Result] = {}
        self.processes: list[multiprocessing.Process] = []
        self.kills = 0

    def run(self):
        try:
            self.run_all()
        finally:
            for process in self.processes:
                process.terminate()
                process.join()

    def run_all(self):
        self.start_workers()
        self.host.log = endure_watch.Log(self.host.process)
        self.use_desktops("at the start")
        endure_shared.prepare(self.client)
        self.began = self.killed = time.monotonic()
        self.stop_all()  # So they begin together.
        self.memories.clear()
        for stop in range(1, STOPS + 1):
            self.wait_until(self.began + self.minutes * 60 * stop / STOPS)
            self.stop_all()
        self.signals.stop.set()
        self.judge_all()

    # ---- the workers

    def start_workers(self):
        """Starts the processes of the workers, before this process has threads."""
        self.signals = Signals(
            multiprocessing.Value("Q", 0), multiprocessing.Event(), multiprocessing.Barrier(len(self.numbers) + 1),
            multiprocessing.Event(),
        )
        self.signals.pause.set()
        self.queue = multiprocessing.Queue()
        port, seed = self.host.port, self.options.seed
        self.workers = [Worker(it, port, self.accounts, seed, self.signals) for it in self.numbers]
        for worker in self.workers:
            process = multiprocessing.Process(target=work, args=(worker, self.queue), daemon=True)
            process.start()
            self.processes.append(process)

    def stop_all(self):
        """Lets all workers compare and remove what they made, and reads the memory."""
        self.signals.pause.set()
        for _ in range(3):
            self.signals.barrier.wait(BARRIER_SECONDS)
        time.sleep(SETTLE_SECONDS)
        self.memories.append(endure_watch.memory(self.host.process.pid))
        minutes, requests = (time.monotonic() - self.began) / 60, sum(it.requests.value for it in self.workers)
        self.counts.note(f"after {minutes:.1f} minutes and {requests:,} requests: {self.memories[-1]}")
        self.signals.pause.clear()
        self.signals.barrier.wait(BARRIER_SECONDS)

    def wait_until(self, end: float):
        """Waits, watches that davserve runs, and kills davd now and then if that is wanted."""
        while (now := time.monotonic()) < end:
            self.host.expect_running()
            if self.options.kill and self.killed + KILL_SECONDS < now < end - 5:
                self.kill_davd()
                self.killed = time.monotonic()
            time.sleep(max(0, min(1, end - now)))

    def kill_davd(self):
        """Kills davd, with which everything is lost. The workers begin again, and the shared folder is made again."""
        self.signals.epoch.value += 1
        self.host.kill_davd()
        self.client.close()
        endure_shared.prepare(self.client)
        self.kills += 1
        self.signals.epoch.value += 1

    # ---- the judgement

    def judge(self, name: str, check: typing.Callable[[], str | None]):
        """Counts a check, which raises what is wrong or returns a note."""
        name = f"{'with' if self.is_race else 'without'} the race detector: {name}"
        try:
            note = check()
        except Skipped as reason:
            self.counts.skip(name, str(reason))
        except (Wrong, OSError) as wrong:
            self.counts.fail(name, str(wrong))
        else:
            self.counts.pass_(name)
            if note:
                self.counts.note(note)

    def judge_all(self):
        self.take_results()
        for number in self.numbers:
            self.judge(f"worker {number} found what it must", functools.partial(self.check_worker, number))
        if self.options.kill:
            self.judge("davd was killed, and davserve started another", self.check_kills)
        self.judge("no update of the shared folder is lost", self.check_shared)
        self.judge("the file that the workers move exists once", self.check_ball)
        self.judge("nothing else exists", self.check_rest)
        whose = "memory of davd" if self.is_race else "memory"
        self.judge(f"{whose} and open files do not grow with the same content", self.check_memory)
        self.use_desktops("at the end")
        self.client.close()
        self.judge("davserve ends with status 0", self.host.end)
        self.judge("no panic in the log", self.host.check_panics)
        if self.is_race:
            self.judge("no data race", self.host.check_races)

    def take_results(self):
        total = collections.Counter()
        for _ in self.numbers:
            try:
                result = self.queue.get(timeout=RESULT_SECONDS)
            except queue.Empty:
                break
            self.results[result.number] = result
            total.update(result.actions)
        self.counts.note("actions: " + ", ".join(f"{name} {count:,}" for name, count in sorted(total.items())))

    def check_worker(self, number: int) -> str:
        result = self.results.get(number)
        if not result or result.failure:
            raise Wrong(result.failure if result else "it did not end")
        return f"{result.requests:,} requests, the slowest took {result.slowest[0]:.1f} s: {result.slowest[1]}"

    def check_kills(self) -> str:
        if not self.kills:
            raise Wrong("davd was not killed: the run is too short")
        return f"{self.kills} times"

    def check_shared(self) -> str:
        """The numbers in the shared folder are as often counted up as the workers say."""
        counted = []
        for path, name in ((endure_shared.COUNT, "by_tag"), (endure_shared.LOCKED, "by_lock")):
            got = endure_shared.number_of(self.client.ask("GET", path, status=200))
            wanted = sum(getattr(it.shares, name) for it in self.results.values())
            if got != wanted:
                raise Wrong(f"{path}: expected {wanted:,}, got {got:,}")
            counted.append(f"{got:,}")
        return f"counted up {counted[0]} times by If-Match, {counted[1]} times under a lock"

    def check_ball(self):
        if (got := self.client.ask("GET", endure_shared.BALL, status=200)).body != b"ball":
            raise Wrong(f"expected the ball\n{got}")

    def check_rest(self):
        for folder in (endure_shared.SHARED, *(it.root for it in self.workers)):
            self.client.ask("DELETE", folder, status=204)
        left = multistatus.resources(self.client.ask("PROPFIND", "/", None, {"Depth": "1"}, 207))
        if set(left) != {"/"}:
            raise Wrong(f"these exist beside what the workers made: {sorted(left)}")

    def check_memory(self) -> str:
        if grown := endure_watch.growth(self.memories[0], self.memories[-1], self.is_race):
            raise Wrong(grown)
        return f"first {self.memories[0]}; last {self.memories[-1]}"

    # ---- the desktops

    def use_desktops(self, when: str):
        with tempfile.TemporaryDirectory(dir=self.folder, ignore_cleanup_errors=True) as folder:
            pathlib.Path(folder).chmod(0o755)
            desk = endure_desktops.Desk(self.client, self.accounts[-1][1], pathlib.Path(folder))
            endure_desktops.prepare(desk)
            for name, check in endure_desktops.CHECKS.items():
                self.judge(f"{name} {when}", functools.partial(check, desk))
            endure_desktops.clear(desk)


def work(worker: Worker, results):
    """The process of a worker. The main process decides when it ends."""
    signal.signal(signal.SIGINT, signal.SIG_IGN)
    signal.signal(signal.SIGTERM, signal.SIG_DFL)
    worker.work(results)

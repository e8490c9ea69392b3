"""Calls of davd on the files of its folder fail: writes, reads and syncs, at random.

davd ends when it cannot keep a batch. The next one has all that was answered. If calls fail at its start, it refuses
the folder.
"""
import argparse
import collections
import errno
import pathlib
import random
import threading
import time

import folder_host
import folder_requests
import folder_shim
from connection import Wrong
from folder_host import Place
from folder_worker import Tags, Worker
from harness import Run, Skipped

# Each call with the ways in which it fails.
WAYS = {
    "pwrite": (errno.EIO, errno.ENOSPC, "short"), "pread": (errno.EIO, "short"), "fsync": (errno.EIO,),
    "fdatasync": (errno.EIO,), "ftruncate": (errno.EIO,),
}
TRIALS = 8
REQUESTS = 60
# How often the call that fails is one after the folder is loaded.
LATE = 0.7
MORE_REQUESTS = 8
WAITED_SECONDS = 5
MOST_SECONDS = 4


class Errors:
    """One worker, one folder, and a davd whose calls fail."""

    def __init__(self, place: Place, seed: str):
        self.place = place
        self.chance = random.Random(f"{seed}.errors")
        self.folder = place.part("errors")
        self.shim = folder_shim.compile_shim(self.folder)
        self.note, self.counts, self.when = (self.folder / it for it in ("failed", "counts", "when"))
        self.results: collections.Counter[str] = collections.Counter()
        self.host = place.start(self.folder, davd=self.davd())
        self.worker = Worker(0, self.host.port, f"{seed}.errors", Tags())
        self.worker.most_bytes = 2 << 20
        self.worker.unread, self.worker.not_done = (500, 503), (500, 503, 507)
        self.worker.begin()
        self.loaded: dict[str, int] = {}
        self.made: dict[str, int] = {}
        self.measure()

    def measure(self):
        """Counts the calls of a davd that loads the folder and serves requests."""
        self.host.stop()
        self.loaded = self.counted(0)
        self.made = self.counted(REQUESTS)

    def counted(self, requests: int) -> dict[str, int]:
        self.counts.unlink(missing_ok=True)
        self.begin(self.davd())
        for _ in range(requests):
            self.request()
        self.host.stop()
        return {name: int(count) for name, count in (it.split() for it in self.counts.read_text().splitlines())}

    def begin(self, davd: pathlib.Path | None = None):
        """Starts davserve, without failing calls if no davd is named."""
        self.host = self.place.start(self.folder, davd=davd, is_awaited=False)
        self.worker.connect(self.host.port)

    def davd(self, **failing) -> pathlib.Path:
        """A davd of which calls fail so. Each one counts its calls."""
        known = {"LD_PRELOAD": self.shim, "FAIL_FOLDER": self.folder / "kept", "FAIL_NOTE": self.note,
                 "COUNTS": self.counts, **failing}
        words = " ".join(f"'{name}={value}'" for name, value in known.items())
        script = self.folder / "davd"
        script.write_text(f"#!/bin/sh\nexec env {words} '{self.place.programs.davd}' \"$@\"\n")
        script.chmod(0o755)
        return script

    # ---- a trial

    def trial(self, call: str, how, is_always: bool):
        """Serves while calls fail, and then compares everything without failures."""
        for file in (self.note, self.when):
            file.unlink(missing_ok=True)
        loaded, served = self.loaded[call], self.made[call] - self.loaded[call]
        is_late = served > 0 and self.chance.random() < LATE
        failing = {"FAIL_CALL": call, "FAIL_HOW": how, "FAIL_ALWAYS": int(is_always)}
        if is_late:
            failing["FAIL_WHEN"] = self.when
        self.begin(self.davd(FAIL_AT=self.chance.randint(1, (served if is_late else loaded) or 1), **failing))
        result = self.refused() or self.served(is_always)
        if self.host.is_running():
            folder_host.kill_both(self.host, self.chance.random() < 0.5)
        self.begin()
        self.host.await_health()
        self.worker.settle()
        self.worker.compare(True)
        self.host.stop()
        self.results[f"{call}, {how_of(how)}{', always' if is_always else ''}: {result}"] += 1

    def refused(self) -> str | None:
        """Why the folder is refused, if it is. Then a call has failed."""
        why = folder_host.refusal(self.host)
        if why and not self.note.exists():
            raise Wrong(f"the folder is refused without a failed call: {why}")
        return f"refused at the start ({why})" if why else None

    def served(self, is_always: bool) -> str:
        """Serves for a limited time: without a davd a request has no answer for 40 seconds."""
        timer = threading.Timer(MOST_SECONDS, folder_host.kill_both, (self.host, True))
        timer.start()
        self.when.touch()
        try:
            self.serve(is_always)
        finally:
            timer.cancel()
            timer.join()
        return self.seen()

    def serve(self, is_always: bool):
        """Sends requests until a call has failed, and some more."""
        more = MORE_REQUESTS
        for _ in range(REQUESTS):
            if not self.request():
                if is_always or not self.is_back():
                    return
                self.worker.settle()
            more -= self.note.exists()
            if not more:
                return

    def request(self) -> bool:
        """Sends a request. Returns whether the server may be asked more."""
        if self.chance.random() < 0.4:
            self.worker.read_some()
            return True
        got = self.worker.perform(folder_requests.some_request(self.worker))
        return got is not None and got.status not in self.worker.not_done

    def is_back(self) -> bool:
        """Waits until davserve answers. It does not if it was killed meanwhile."""
        end = time.monotonic() + WAITED_SECONDS
        while self.host.health() != 200 and self.host.is_running():
            if time.monotonic() > end:
                return False
            time.sleep(0.05)
        return self.host.is_running()

    def seen(self) -> str:
        """What the log says of the failure."""
        if not self.note.exists():
            return "no call failed"
        ended = [it for it in self.host.log().splitlines() if "davd ended" in it]
        if not ended:
            return "davd serves on"
        return "davd ended: " + ended[0].partition("davd ended (")[2].partition(").")[0]


def how_of(how) -> str:
    return how if isinstance(how, str) else errno.errorcode[how]


def run(place: Place, options: argparse.Namespace, counts: Run):
    try:
        errors = Errors(place, options.seed)
    except Skipped as reason:
        counts.skip("errors", str(reason))
        return
    for name, made in (("loads the folder", errors.loaded), ("serves, too", errors.made)):
        counts.note(f"calls of a davd that {name}: " + ", ".join(f"{count} {it}" for it, count in made.items()))
    for call, ways in WAYS.items():
        for how in ways:
            for is_always in (False, True):
                if not check(errors, call, how, is_always, counts):
                    return
    for result, count in sorted(errors.results.items()):
        counts.note(f"{count} times {result}")
    counts.note(", ".join(f"{count:,} {it}" for it, count in sorted(errors.worker.counts.items())))


def check(errors: Errors, call: str, how, is_always: bool, counts: Run) -> bool:
    """Whether the model of the worker is still that of the folder."""
    what = f"each {call} from some time on" if is_always else f"one {call}"
    name = f"errors: nothing is lost when {what} fails ({how_of(how)})"
    if not errors.made[call]:
        counts.skip(name, "davd does not call it")
        return True
    try:
        errors.measure()
        for _ in range(TRIALS):
            errors.trial(call, how, is_always)
    except (Wrong, OSError) as wrong:
        failed = f" ({errors.note.read_text().strip()})" if errors.note.exists() else ""
        counts.fail(name, errors.worker.described(wrong) + failed, folder_host.tail(errors.host))
        return False
    counts.pass_(name)
    return True

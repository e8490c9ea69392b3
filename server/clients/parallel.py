"""Runs groups of checks in a few processes at once, each with ports of its own."""
import contextlib
import os
import pathlib
import signal
import sys
import traceback

import server
from harness import Group, Run, end_all
from server import Programs

WORKERS = 3


class Child:
    """A process that runs one group. What it prints goes to a file, and its counts to another."""

    def __init__(self, group: Group, programs: Programs, word: str, slot: int, name: pathlib.Path):
        self.group = group
        self.slot = slot
        self.printed, self.counted = name.with_suffix(".out"), name.with_suffix(".counts")
        self.process = os.fork()
        if self.process == 0:
            self.run(programs, word)

    def run(self, programs: Programs, word: str):
        """The life of the process. It does not return."""
        signal.signal(signal.SIGTERM, lambda *_: sys.exit(143))
        server.PORTS[:] = list(server.ALL_PORTS)[self.slot :: WORKERS]
        status = 1
        try:
            with self.printed.open("w", encoding="utf-8") as sys.stdout:
                counts = Run(word)
                counts.group(self.group, programs)
            self.counted.write_text(f"{counts.passed} {counts.failed} {counts.skipped}")
            status = 0
        except Exception:
            traceback.print_exc()
        finally:
            end_all()
            os._exit(status)

    def report(self, counts: Run):
        """Prints what the process has printed, and adds its counts."""
        print(self.printed.read_text(encoding="utf-8"), end="", flush=True)
        if self.counted.exists():
            passed, failed, skipped = map(int, self.counted.read_text().split())
            counts.passed, counts.failed, counts.skipped = (
                counts.passed + passed, counts.failed + failed, counts.skipped + skipped
            )
        else:
            counts.fail(self.group.name, "the process of this group ended early")


def run(groups: list[Group], programs: Programs, counts: Run):
    """Runs the groups. Those that measure are run after the others, one at a time."""
    waiting = [it for it in groups if not it.is_measured]
    running: dict[int, Child] = {}
    started = 0
    try:
        while waiting or running:
            while waiting and len(running) < WORKERS:
                slot = min(set(range(WORKERS)) - {it.slot for it in running.values()})
                child = Child(waiting.pop(0), programs, counts.word, slot, programs.folder / f"group-{started}")
                running[child.process] = child
                started += 1
            ended, _ = os.wait()
            if ended in running:
                running.pop(ended).report(counts)
    finally:
        for process in running:
            with contextlib.suppress(ProcessLookupError):
                os.kill(process, signal.SIGTERM)
        for process in running:
            with contextlib.suppress(ChildProcessError):
                os.waitpid(process, 0)
    for group in groups:
        if group.is_measured:
            counts.group(group, programs)

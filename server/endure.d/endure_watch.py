"""Watches davserve: what it logs, and what memory it and davd have."""
import collections
import dataclasses
import pathlib
import subprocess
import threading

from server import BAD_IN_LOG, memory_of

KEPT_LINES = 300
KEPT_BAD = 80


class Log:
    """Reads the standard error of a process to its end. It keeps the last lines, and those after a bad one."""

    def __init__(self, process: subprocess.Popen):
        self.process = process
        self.last: collections.deque[str] = collections.deque(maxlen=KEPT_LINES)
        self.bad: list[str] = []
        self.lines = 0
        self.thread = threading.Thread(target=self.read, daemon=True)
        self.thread.start()

    def read(self):
        for line in self.process.stderr:
            text = line.decode(errors="replace").rstrip("\n")
            self.lines += 1
            self.last.append(text)
            if len(self.bad) < KEPT_BAD and (self.bad or BAD_IN_LOG.search(text)):
                self.bad.append(text)


def child_of(process: int) -> int | None:
    """The process of davd, or `None` if there is none."""
    try:
        files = list(pathlib.Path(f"/proc/{process}/task").glob("*/children"))
        children = [int(it) for file in files for it in file.read_text().split()]
    except (OSError, ValueError):
        return None
    return children[0] if children else None


@dataclasses.dataclass
class Memory:
    """The resident memory of both, in bytes, and how many files davserve has open."""

    davserve: int
    davd: int
    files: int

    def __str__(self):
        return f"davserve {self.davserve >> 20} MiB, davd {self.davd >> 20} MiB, {self.files} open files"


def memory(process: int) -> Memory:
    davd = child_of(process)
    files = sum(1 for _ in pathlib.Path(f"/proc/{process}/fd").iterdir())
    return Memory(memory_of(process), memory_of(davd) if davd else 0, files)


# How much more may be in use at the end, with the same content and no connection: what heaps and collectors leave.
MORE_PART = 0.25
MORE_BYTES = 32 << 20
MORE_FILES = 4


def growth(first: Memory, last: Memory, is_race: bool) -> str:
    """What has grown too much, or nothing. The race detector itself uses more and more memory of davserve."""
    grown = []
    for name in ("davd",) if is_race else ("davserve", "davd"):
        before, after = getattr(first, name), getattr(last, name)
        if after > before * (1 + MORE_PART) + MORE_BYTES:
            grown.append(f"{name} has {after >> 20} MiB after {before >> 20} MiB")
    if last.files > first.files + MORE_FILES:
        grown.append(f"davserve has {last.files} open files after {first.files}")
    return ", ".join(grown)

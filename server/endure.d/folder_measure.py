"""How much room a folder takes of the disk, and how much memory davserve and davd have had."""
import pathlib
import threading
import time
import typing

import folder_host
from connection import Wrong
from harness import Run
from server import Server, memory_of

# davd keeps so many bytes back in `data-wal`.
RESERVE = 16 << 20
# As long as `data` has no more in use, davd does not look for room that can be used again.
BESIDE = 64 << 20
PROBE_SECONDS = 0.2


def run_checks(part: str, checks: dict, given, counts: Run):
    """Runs the checks of a part in order, each with what is given. They need those before them: one that fails ends the
    part. What a check returns is noted."""
    for name, check in checks.items():
        try:
            note = check(given)
        except (Wrong, OSError) as wrong:
            counts.fail(f"{part}: {name}", str(wrong), folder_host.tail(given.host) if given.host else "")
            return
        counts.pass_(f"{part}: {name}")
        if note:
            counts.note(note)


class Room(typing.NamedTuple):
    """The lengths of the files of a folder."""

    data: int
    database: int
    log: int
    reserve: int

    def total(self) -> int:
        return sum(self)

    def __str__(self):
        return (f"data {shown(self.data)}, meta.db {shown(self.database)}, meta.db-wal {shown(self.log)}, "
                f"data-wal {shown(self.reserve)}")


def room_of(folder: pathlib.Path) -> Room:
    """The room of the folder `kept` of a folder."""
    return Room(*(length_of(folder / "kept" / it) for it in ("data", "meta.db", "meta.db-wal", "data-wal")))


def length_of(file: pathlib.Path) -> int:
    return file.stat().st_size if file.exists() else 0


def shown(count: int) -> str:
    """A number of bytes for people, with a decimal unit."""
    for unit, size in (("GB", 10**9), ("MB", 10**6), ("kB", 1000)):
        if count >= size:
            return f"{count / size:.1f} {unit}"
    return f"{count} bytes"


class Memory(typing.NamedTuple):
    """The memory of both programs, in bytes."""

    davserve: int
    davd: int

    def __str__(self):
        return f"davserve {self.davserve >> 20} MiB, davd {self.davd >> 20} MiB"


def memory(host: Server, what: str = "VmRSS") -> Memory:
    """The memory of a server that serves: `VmRSS` at present, `VmHWM` at most so far."""
    davd = folder_host.davd_of(host)
    if not davd:
        raise Wrong("davserve has no davd")
    return Memory(memory_of(host.process.pid, what), memory_of(davd, what))


class Peak:
    """The most memory of the servers of a part, one after the other."""

    def __init__(self):
        self.most = Memory(0, 0)

    def note(self, host: Server):
        """To be called before a server is stopped."""
        self.most = max(self.most, memory(host, "VmHWM"), key=sum)

    def check(self, limit: int) -> str:
        if sum(self.most) > limit:
            raise Wrong(f"expected at most {shown(limit)} together, found {self.most}")
        return str(self.most)


class Probe:
    """Sends a small request again and again while it is used. `longest` is the longest time until the response."""

    def __init__(self, host: Server):
        self.host = host
        self.longest = 0.0
        self.ended = threading.Event()
        self.thread = threading.Thread(target=self.run, daemon=True)

    def __enter__(self):
        self.thread.start()
        return self

    def __exit__(self, *_):
        self.ended.set()
        self.thread.join()

    def run(self):
        while not self.ended.wait(PROBE_SECONDS):
            began = time.monotonic()
            try:
                self.host.ask("OPTIONS", "/", seconds=120)
            except (OSError, Wrong):
                continue  # What else runs says what is wrong.
            self.longest = max(self.longest, time.monotonic() - began)

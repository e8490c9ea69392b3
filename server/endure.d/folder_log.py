"""A batch that changes very much, so that the log is as long: davd is killed while it keeps it, and after that."""
import argparse
import hashlib
import pathlib
import re
import signal
import subprocess
import threading
import time
import typing

import folder_measure
import frames
from connection import Wrong
from folder_host import Place
from folder_measure import room_of, shown
from frames import Element, Request
from harness import Run, Skipped
from server import memory_of

MEGABYTES = 1100
# Each file has one property of so many bytes.
PROPERTY = 1_000_000
# davd needs about so many times the bytes of the properties to load them.
MEMORY_TIMES = 4
MOST_BATCH = 1 << 40
MADE_AT_ONCE = 200
KILL_SECONDS = 600


def dav(name: str, *nodes) -> Element:
    return Element(name, "D", "DAV:", (), nodes)


def text_of(turn: int, number: int) -> str:
    """The property of a file after a turn."""
    mark = hashlib.sha256(f"{turn}.{number}".encode()).hexdigest()
    return (mark * (PROPERTY // len(mark) + 1))[:PROPERTY]


def patch(turn: int, number: int) -> bytes:
    property = Element("big", "x", "urn:x", (), (text_of(turn, number),))
    body = dav("propertyupdate", dav("set", dav("prop", property)))
    return frames.encode_frame(Request(b"PROPPATCH", f"/f{number}", body=body))


class Davd:
    """A davd over a folder, without davserve."""

    def __init__(self, program: pathlib.Path, folder: pathlib.Path):
        words = [program, "-max-batch", str(MOST_BATCH), folder]
        self.began = time.monotonic()
        self.process = subprocess.Popen(words, stdin=subprocess.PIPE, stdout=subprocess.PIPE, stderr=subprocess.PIPE)
        self.number = 0
        self.process.stdin.write(frames.encode_batch(0, 0, ()))
        self.process.stdin.flush()
        self.number = int.from_bytes(self.read(frames.HEADER_BYTES)[:8], "big")
        self.seconds = time.monotonic() - self.began

    def read(self, count: int) -> bytes:
        got = bytearray()
        while len(got) < count:
            if not (more := self.process.stdout.read(count - len(got))):
                raise Wrong(f"davd ended with status {self.process.wait()}: {self.process.stderr.read().decode()}")
            got += more
        return bytes(got)

    def write(self, count: int, length: int, encoded: typing.Iterable[bytes]):
        """Sends a batch of so many frames, which have so many bytes together. Only one of them is in memory."""
        self.number += 1
        head = frames.number(self.number) + frames.number(int(time.time()))
        self.process.stdin.write(head + frames.number(8 + 8 * count + length) + frames.number(count))
        for it in encoded:
            self.process.stdin.write(frames.text(it))
        self.process.stdin.flush()

    def replies(self) -> list[frames.Reply]:
        head = self.read(frames.HEADER_BYTES)
        if (status := int.from_bytes(head[8:16], "big")) != 200:
            raise Wrong(f"expected status 200 of a batch, got {status}")
        count = int.from_bytes(head[16:], "big")
        return [frames.decode_reply(self.read(int.from_bytes(self.read(8), "big"))) for _ in range(count)]

    def send(self, *requests: Request) -> list[frames.Reply]:
        encoded = [frames.encode_frame(it) for it in requests]
        self.write(len(encoded), sum(map(len, encoded)), encoded)
        return self.replies()

    def memory(self) -> int:
        return memory_of(self.process.pid, "VmHWM")

    def written(self) -> int:
        """How many bytes it has written so far."""
        counts = pathlib.Path(f"/proc/{self.process.pid}/io").read_text()
        return int(re.search(r"^wchar: (\d+)$", counts, re.M)[1])

    def kill(self):
        self.process.send_signal(signal.SIGKILL)
        self.process.wait()


class Log:
    """The folder, and what its properties are. `turn` is the last one that was kept."""

    host = None

    def __init__(self, place: Place, options: argparse.Namespace):
        self.program = place.programs.davd
        self.count = max(options.megabytes * 10**6 // PROPERTY, 1)
        self.folder = place.part("log")
        self.turn = 0
        self.davd = self.start()
        for first in range(0, self.count, MADE_AT_ONCE):
            numbers = range(first, min(first + MADE_AT_ONCE, self.count))
            self.davd.send(*[Request(b"PUT", f"/f{it}", body=b"x") for it in numbers])

    def start(self) -> Davd:
        return Davd(self.program, self.folder / "kept")

    def change(self):
        """Sends a batch that replaces all properties."""
        turn = self.turn + 1
        length = sum(len(patch(turn, it)) for it in range(self.count))
        self.davd.write(self.count, length, (patch(turn, it) for it in range(self.count)))

    def turn_of(self, number: int) -> int | None:
        """After which of the last turns a file has its property. There is none after the turn 0."""
        asked = dav("propfind", dav("prop", Element("big", "x", "urn:x")))
        got = self.davd.send(Request(b"PROPFIND", f"/f{number}", fields=((b"depth", b"0"),), body=asked))[0]
        texts = [it for it in texts_in(got.tree) if len(it) == PROPERTY]
        turns = [it for it in (self.turn, self.turn + 1) if texts == ([text_of(it, number)] if it else [])]
        return turns[0] if turns else None

    def compare(self) -> int:
        """The turn after which all files have their properties."""
        turns = {self.turn_of(it) for it in range(self.count)}
        if len(turns) != 1 or None in turns:
            raise Wrong(f"expected all properties of one turn, found those of {turns}")
        return turns.pop()

    def start_again(self) -> str:
        self.davd.kill()
        self.davd = self.start()
        return (f"with {room_of(self.folder)} davd was back after {self.davd.seconds:.1f} s, and had up to "
                f"{self.davd.memory() >> 20} MiB")

    def kill_when(self, is_time: typing.Callable[[], bool]) -> threading.Thread:
        """Kills davd when something is so."""

        def wait():
            end = time.monotonic() + KILL_SECONDS
            while not is_time() and time.monotonic() < end:
                time.sleep(0.002)
            self.davd.kill()

        thread = threading.Thread(target=wait)
        thread.start()
        return thread

    # ---- the checks

    def keeps(self) -> str:
        self.change()
        if any(it.status != 207 for it in self.davd.replies()):
            raise Wrong("a PROPPATCH is not 207")
        most = self.davd.memory()
        note = self.start_again()
        if self.compare() != 1:
            raise Wrong("the properties of the batch are missing")
        self.turn = 1
        return f"a batch of {shown(self.count * PROPERTY)} took up to {most >> 20} MiB. Then {note}"

    def copies(self) -> str:
        """The next batch copies the log into the database. davd is killed in the middle."""
        half = room_of(self.folder).database + self.count * PROPERTY // 2
        self.killed_when(lambda: room_of(self.folder).database > half, Request(b"PUT", "/next", body=b"x"))
        return self.expect((1,))

    def killed(self) -> str:
        """davd is killed when it has written half of the changes of a batch to the log."""
        self.davd.send(Request(b"PUT", "/next", body=b"y"))  # The log begins anew.
        half = self.davd.written() + self.count * PROPERTY // 2
        self.killed_when(lambda: self.davd.written() > half, None)
        return self.expect((1, 2))

    def killed_when(self, is_time: typing.Callable[[], bool], request: Request | None):
        """Sends a request, or a batch that replaces all, and kills davd when something is so."""
        thread = self.kill_when(is_time)
        try:
            if request:
                self.davd.send(request)
            else:
                self.change()
                self.davd.replies()
        except (Wrong, OSError):
            pass  # It was killed.
        thread.join()

    def expect(self, turns: tuple[int, ...]) -> str:
        note = self.start_again()
        if (found := self.compare()) not in turns:
            raise Wrong(f"expected the properties of the turns {turns}, found {found}")
        self.turn = found
        return f"after the turn {found}: {note}"

    def ends(self):
        self.davd.kill()


CHECKS = {
    "a large batch that was answered is there after a kill": Log.keeps,
    "nothing is lost when davd is killed while it copies the log into the database": Log.copies,
    "a large batch is there wholly or not at all when davd is killed while it keeps it": Log.killed,
    "davd ends": Log.ends,
}


def texts_in(element: Element) -> typing.Iterator[str]:
    for node in element.nodes:
        if isinstance(node, str):
            yield node
        else:
            yield from texts_in(node)


def run(place: Place, options: argparse.Namespace, counts: Run):
    try:
        check_memory(options.megabytes * 10**6 * MEMORY_TIMES)
    except Skipped as reason:
        counts.skip("log", str(reason))
        return
    log = Log(place, options)
    try:
        folder_measure.run_checks("log", CHECKS, log, counts)
    finally:
        log.davd.kill()


def check_memory(needed: int):
    lines = pathlib.Path("/proc/meminfo").read_text().splitlines()
    available = next(int(it.split()[1]) * 1024 for it in lines if it.startswith("MemAvailable:"))
    if available < needed:
        raise Skipped(f"{shown(available)} of memory are available, and {shown(needed)} are needed: see --megabytes")

"""Runs `davd` on batches of frames."""
import collections
import pathlib
import random
import subprocess
import tempfile
import threading
import typing

import frames
from tool import TOP, Missing, shown

SECONDS = 60

Ended = collections.namedtuple("Ended", "status wrote said")


class Wrong(Exception):
    """What a program did is not what it must do. The message says both."""


class Sent(typing.NamedTuple):
    """A batch as it is sent: its number, its time, and its frames, or its content if that is not a list of frames."""

    number: int
    now: int
    frames: tuple[bytes, ...]
    content: bytes | None = None

    def encode(self) -> bytes:
        content = frames.encode_content(self.frames) if self.content is None else self.content
        return frames.with_header(self.number, self.now, content)


def program_at(name: str | None, crate: str) -> pathlib.Path:
    """The program that an option names, or that of a crate."""
    file = pathlib.Path(name).resolve() if name else TOP / f"crates/{crate}/out/{crate}"
    if not file.is_file():
        advice = "" if name else f": build it first (`rt run` in crates/{crate}, or `rt ci`)"
        raise Missing(f"no program {shown(file)}{advice}")
    return file


def arguments_of(prefix: str | None, is_anyone_unlocking: bool = True) -> list[str]:
    words = [] if prefix is None else ["-prefix", prefix]
    return [*words, "-anyone-unlocks"] if is_anyone_unlocking else words


def run(program, arguments: list[str], source: bytes, environment=None, seconds=SECONDS) -> Ended:
    """How a program ends on an input. The status is `None` if it does not end in time."""
    options = {"input": source, "capture_output": True, "timeout": seconds, "env": environment}
    try:
        ran = subprocess.run([program, *arguments], **options)
    except subprocess.TimeoutExpired as cut:
        return Ended(None, cut.stdout or b"", cut.stderr or b"")
    return Ended(ran.returncode, ran.stdout, ran.stderr)


def converse(program, arguments: list[str], batches: list[bytes], chance: random.Random) -> Ended:
    """As `run`, but sends each batch in pieces, and only after the replies to the one before have arrived."""
    pipes = {"stdin": subprocess.PIPE, "stdout": subprocess.PIPE, "bufsize": 0}
    with tempfile.TemporaryFile() as said, subprocess.Popen([program, *arguments], stderr=said, **pipes) as child:
        timer = threading.Timer(SECONDS, child.kill)
        timer.start()
        wrote = b""
        try:
            for batch in batches:
                for piece in pieces(batch, chance):
                    child.stdin.write(piece)
                wrote += read_reply_batch(child.stdout)
        except BrokenPipeError:
            pass
        child.stdin.close()
        wrote += child.stdout.read()
        child.wait()
        timer.cancel()
        said.seek(0)
        return Ended(child.returncode, wrote, said.read())


def pieces(source: bytes, chance: random.Random) -> list[bytes]:
    """Cuts bytes at a few places."""
    cuts = sorted(chance.randrange(len(source) + 1) for _ in range(chance.randrange(4)))
    return [source[start:end] for start, end in zip([0, *cuts], [*cuts, len(source)])]


def read_reply_batch(stream: typing.BinaryIO) -> bytes:
    """Reads one batch of replies, or what is left of it."""

    def read(count):
        found = b""
        while len(found) < count and (more := stream.read(count - len(found))):
            found += more
        return found

    wrote = read(frames.HEADER_BYTES)
    for _ in range(int.from_bytes(wrote[16:], "big") if len(wrote) == frames.HEADER_BYTES else 0):
        length = read(8)
        wrote += length + read(int.from_bytes(length, "big"))
    return wrote


def answers(ended: Ended, count: int) -> list[frames.ReplyBatch]:
    """The batches of replies that a run wrote for so many batches. Raises `Wrong` if it did not end well."""
    if ended.status is None:
        raise Wrong(f"davd did not end in {SECONDS} seconds")
    if ended.status or ended.said:
        raise Wrong(f"davd ended with status {ended.status}: {ended.said.decode(errors='replace')[-2000:]}")
    try:
        batches = frames.decode_reply_batches(ended.wrote)
    except frames.Malformed as malformed:
        raise Wrong(f"davd did not write batches of replies: {malformed}") from None
    if len(batches) != count:
        raise Wrong(f"davd answered {len(batches)} batches of {count}")
    return batches


def replies_of(batch: frames.ReplyBatch, number: int, count: int) -> list[frames.Reply]:
    """The replies to so many frames, in the batch of replies to the batch of this number."""
    if (batch.number, batch.status, len(batch.replies)) != (number, 200, count):
        got = f"number {batch.number}, status {batch.status} and {len(batch.replies)} replies"
        raise Wrong(f"davd answered batch {number} with {got}, and not with status 200 and {count} replies")
    try:
        return [frames.decode_reply(it) for it in batch.replies]
    except frames.Malformed as malformed:
        raise Wrong(f"a reply of batch {number} cannot be read: {malformed}") from None


def split(items: list, chance: random.Random) -> list[list]:
    """Cuts a list into pieces of random sizes."""
    greatest = chance.choice((1, 3, 10, 40))
    cut = []
    while items:
        size = chance.randint(1, greatest)
        cut.append(items[:size])
        items = items[size:]
    return cut

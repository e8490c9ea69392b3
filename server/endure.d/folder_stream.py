"""Files of any size, whose bytes follow from a name: they are sent and compared as streams, a piece at a time."""
import random
import typing

from connection import Answer, Connection, Wrong, head
from endure_client import SECONDS, escaped

PIECE = 1 << 20
# The bytes of a part are a pattern of this length, again and again. It is odd, and davd's blocks have 64 KiB: no two
# blocks of a part with less than 64 GiB are the same.
PERIOD = PIECE - 3


class Part(typing.NamedTuple):
    """Bytes that follow from a name."""

    name: str
    length: int

    def pattern(self) -> bytes:
        return random.Random(self.name).randbytes(min(self.length, PERIOD))


# The parts of a file, one behind the other.
Content = tuple[Part, ...]


def length_of(content: Content) -> int:
    return sum(it.length for it in content)


def pieces(content: Content, first: int = 0, end: int | None = None) -> typing.Iterator[memoryview]:
    """The bytes from a place on, up to another one, in pieces."""
    end = length_of(content) if end is None else end
    begins = 0
    for part in content:
        start, stop = max(first - begins, 0), min(end - begins, part.length)
        if start < stop:
            yield from pieces_of(part, start, stop)
        begins += part.length


def pieces_of(part: Part, start: int, stop: int) -> typing.Iterator[memoryview]:
    pattern = part.pattern()
    twice = memoryview(pattern + pattern)
    while start < stop:
        place = start % len(pattern)
        count = min(stop - start, len(pattern))
        yield twice[place : place + count]
        start += count


def put(port: int, path: str, content: Content, statuses=(201, 204)) -> Answer:
    """Sends a PUT. Raises `Wrong` if the answer has none of the statuses."""
    return send(port, "PUT", path, content, {}, statuses)


def append(port: int, path: str, part: Part, statuses=(204,)) -> Answer:
    """Sends a PATCH that adds a part behind the others."""
    fields = {"X-Update-Range": "append", "Content-Type": "application/x-sabredav-partialupdate"}
    return send(port, "PATCH", path, (part,), fields, statuses)


def send(port: int, method: str, path: str, content: Content, fields: dict, statuses) -> Answer:
    with Connection(port, seconds=SECONDS) as connection:
        try:
            sent = {**fields, "Content-Length": length_of(content)}
            connection.send(head(method, escaped(path), port, None, sent))
            for piece in pieces(content):
                connection.send(piece)
        except OSError:
            pass  # The server may answer before it has the whole body. The response says why.
        return expected(connection.answer(method), statuses, f"{method} {path}")


def expected(got: Answer, statuses, request: str) -> Answer:
    if got.status not in statuses:
        raise Wrong(f"{request}: expected {' or '.join(map(str, statuses))}, got {got}")
    return got


def compare(port: int, path: str, content: Content, first: int = 0, end: int | None = None):
    """Reads a file, whole or a range of it, and compares its bytes. Raises `Wrong` if they differ."""
    length = length_of(content)
    is_whole = first == 0 and end is None
    end = length if end is None else end
    fields = {} if is_whole else {"Range": f"bytes={first}-{end - 1}"}
    with Connection(port, seconds=SECONDS) as connection:
        connection.request("GET", escaped(path), None, fields)
        got = expected(connection.head(), (200 if is_whole else 206,), f"GET {path} {fields or ''}")
        if got.field("Content-Length") != str(end - first):
            raise Wrong(f"GET {path} {fields or ''}: expected {end - first} bytes, got {got}")
        place = first
        for piece in pieces(content, first, end):
            if connection.exactly(len(piece)) != piece:
                raise Wrong(f"GET {path} {fields or ''}: other bytes within {len(piece)} from {place} on")
            place += len(piece)

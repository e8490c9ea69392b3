"""The space that a folder takes: its data file, what is read from the blocks there, and the room that is kept back."""
import pathlib
import random

import metrics
from harness import Group, Starter
from kept import kill, start
from kept_rows import query
from server import Server, expect

GROUP = Group("space in a folder", is_shared=False)
GROUPS = [GROUP]

BLOCK = 65536
"""How many bytes of a body have a digest of their own, at most."""


def patch(server: Server, path: str, update: str, body: bytes):
    """Writes a part of a file. `update` is an offset with a `-`, or `append`."""
    update = update if update == "append" else f"bytes={update}"
    fields = [("Content-Type", "application/x-sabredav-partialupdate"), ("X-Update-Range", update)]
    server.ask("PATCH", path, body, fields=fields, status=(201, 204))


def size(starter: Starter) -> int:
    data: pathlib.Path = starter.folder / "kept" / "data"
    return data.stat().st_size


@GROUP.check("a file that was written in parts reads back, also after davd was killed")
def parts(starter: Starter):
    server = start(starter)
    server.ask("PUT", "/a", b"\1" * 70_000, status=201)
    patch(server, "/a", "70000-", b"end")
    patch(server, "/a", f"{BLOCK - 6}-", b"\2" * 10)
    for _ in range(2):
        for first, last, want in (
            (BLOCK - 7, BLOCK + 4, b"\1" + b"\2" * 10 + b"\1"),
            (69_999, 70_007, b"\1end"),
            (0, 1, b"\1\1"),
        ):
            found = server.ask("GET", "/a", fields=[("Range", f"bytes={first}-{last}")], status=206)
            expect(f"the bytes from {first} on", found.body, want)
        kill(server)
    server.stop()


@GROUP.check("two files that grow in turn have few parts")
def in_turn(starter: Starter):
    server = start(starter)
    for _ in range(100):
        patch(server, "/one", "append", b"one line")
        patch(server, "/other", "append", b"the next")
    expect("/one", server.ask("GET", "/one", status=200).body, b"one line" * 100)
    expect("/other", server.ask("GET", "/other", status=200).body, b"the next" * 100)
    server.stop()
    found = query(starter, "SELECT length(pieces) FROM extent ORDER BY number")
    expect("the rows", len(found), 2)
    for (length,) in found:
        expect("whether a file of 100 lines has at most ten parts", length <= 8 + 10 * 41, True)


@GROUP.check("space is used again: a file of 8 MiB that is written 25 times takes less than 100 MiB", seconds=60)
def again(starter: Starter):
    server = start(starter)
    content = random.Random(5)
    kept, body = content.randbytes(1 << 20), b""
    server.ask("PUT", "/kept", kept, status=201)
    for _ in range(25):
        body = content.randbytes(1 << 20) * 8
        server.ask("PUT", "/again", body, status=(201, 204))
    expect("/kept", server.ask("GET", "/kept", status=200).body, kept)
    expect("whether /again has the last body", server.ask("GET", "/again", status=200).body == body, True)
    server.stop()
    if size(starter) > 100 << 20:
        expect("the size of the data file", size(starter), "at most 100 MiB")


RESERVE = 16 << 20
"""How many bytes are kept back in `data-wal`."""


def expect_kept_back(starter: Starter, port: int, when: str, want: int):
    """The reserve has so many bytes, and the metrics say so."""
    expect(f"the size of data-wal {when}", (starter.folder / "kept" / "data-wal").stat().st_size, want)
    samples = metrics.scrape(port)
    for name, value in (("reserve", want), ("reserve_wanted", RESERVE)):
        expect(f"{name} in the metrics {when}", samples[f"davserve_folder_{name}_bytes"], value)


def kept_back(starter: Starter, changes):
    """Starts over a folder with files, and makes changes that write no bytes of a file."""
    server = start(starter)
    for path in ("/a", "/b"):
        server.ask("PUT", path, b"x" * 70_000, status=201)
    server.stop()
    server, port = metrics.start(starter)
    server.ask("GET", "/a", status=200)
    expect_kept_back(starter, port, "before a change", 0)
    for method, path, fields in changes:
        server.ask(method, path, fields=fields, status=(201, 204))
        expect_kept_back(starter, port, f"after {method} {path}", RESERVE)
    kill(server)
    expect_kept_back(starter, port, "after davd was killed", 0)
    server.ask("MKCOL", "/last", status=201)
    expect_kept_back(starter, port, "after the next change", RESERVE)
    server.stop()


COPIES = [
    ("COPY", "/a", [("Destination", "/c")]), ("DELETE", "/a", []), ("COPY", "/c", [("Destination", "/d")]), ("DELETE", "/c", []),
]

GROUP.add("after a start the first MKCOL has 16 MiB kept back again", kept_back, [("MKCOL", "/e", [])])
GROUP.add("after a start COPYs and DELETEs alone have 16 MiB kept back again", kept_back, COPIES)

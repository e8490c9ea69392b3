"""Clients that leave once they have sent a whole request, before its response."""
import time

from connection import Wrong, chunked
from harness import Group
from server import Server, expect

MEMORY = Group("leaving")
FOLDER = Group("leaving a folder", "-folder", "{folder}/store")
GROUPS = [MEMORY, FOLDER]
TIMES = 10
SMALL, LARGE = b"0123456789", b"z" * 600_000
SECONDS = 10


def awaited(server: Server, path: str, status: int):
    """Waits until a PROPFIND of a path has this status."""
    end = time.monotonic() + SECONDS
    while (got := server.ask("PROPFIND", path, fields={"Depth": "0"}).status) != status:
        if time.monotonic() > end:
            raise Wrong(f"expected {status} for {path}, got {got} for {SECONDS} s")
        time.sleep(0.02)


def send(server: Server, method: str, path: str, body: bytes | None = None, fields=()):
    """Sends a request and closes the connection at once."""
    with server.connect() as connection:
        connection.request(method, path, body, fields)


def puts(server: Server, name: str, content: bytes, is_chunked: bool):
    fields = {"Transfer-Encoding": "chunked"} if is_chunked else {"Content-Length": str(len(content))}
    paths = [f"/{name}-{number}" for number in range(TIMES)]
    for path in paths:
        send(server, "PUT", path, chunked(content) if is_chunked else content, fields)
    for path in paths:
        awaited(server, path, 207)
        expect(path, server.ask("GET", path, status=200).body, content)


def others(server: Server):
    """The methods without a body."""
    for number in range(TIMES):
        a, b, c = (f"/{name}-{number}/" for name in ("made", "copied", "moved"))
        send(server, "MKCOL", a)
        awaited(server, a, 207)
        send(server, "COPY", a, fields={"Destination": server.url(b)})
        awaited(server, b, 207)
        send(server, "MOVE", b, fields={"Destination": server.url(c)})
        awaited(server, c, 207)
        awaited(server, b, 404)
        send(server, "DELETE", c)
        awaited(server, c, 404)


def unlocks(server: Server):
    """UNLOCK. A LOCK is not tried: nobody would know the token of the lock."""
    server.ask("PUT", "/unlocked", SMALL, status=201)
    token = server.ask("LOCK", "/unlocked", LOCK, status=200).field("Lock-Token")
    send(server, "UNLOCK", "/unlocked", fields={"Lock-Token": token})
    end = time.monotonic() + SECONDS
    while server.ask("PUT", "/unlocked", SMALL).status == 423:
        if time.monotonic() > end:
            raise Wrong("expected that the lock is removed")
        time.sleep(0.02)


LOCK = (
    b'<lockinfo xmlns="DAV:"><lockscope><exclusive/></lockscope><locktype><write/></locktype></lockinfo>'
)

for group in GROUPS:
    for name, content in (("small", SMALL), ("large", LARGE)):
        for is_chunked in (False, True):
            how = "in chunks" if is_chunked else "with its length"
            group.add(f"a {name} PUT {how} is stored though its client leaves", puts, f"{name}-{is_chunked}", content, is_chunked)
    group.add("MKCOL, COPY, MOVE and DELETE are served though their client leaves", others)
    group.add("an UNLOCK is served though its client leaves", unlocks)

"""Large bodies: how long others wait, and that no two versions of a file are mixed."""
import threading
import time

from connection import Connection, Cut, Wrong, chunked, head
from harness import Group
from server import Server, expect, expected

MB = 1 << 20
SIZE = 64 * MB
SHOULD, MUST = 0.1, 1.0  # seconds that a small GET may wait
GROUP = Group("uploads", "-memory", "2G", is_measured=True)
AT_ONCE = Group("uploads at once")
GROUPS = [AT_ONCE, GROUP]


class Reader(threading.Thread):
    """Reads a small file again and again, and keeps the longest time that a response took."""

    def __init__(self, server: Server):
        super().__init__()
        self.server = server
        self.stopped = threading.Event()
        self.slowest = 0.0
        self.count = 0
        self.wrong: str | None = None

    def run(self):
        try:
            with self.server.connect() as connection:
                while not self.stopped.is_set():
                    began = time.monotonic()
                    connection.request("GET", "/small")
                    answer = connection.answer()
                    self.slowest = max(self.slowest, time.monotonic() - began)
                    self.count += 1
                    if answer.status != 200 or len(answer.body) != 1024:
                        self.wrong = str(answer)
        except (OSError, Wrong) as error:
            self.wrong = str(error)

    def end(self, what: str) -> str:
        self.stopped.set()
        self.join()
        if self.wrong:
            raise Wrong(f"expected each GET to be answered during {what}, got {self.wrong}")
        if self.slowest > MUST:
            raise Wrong(f"expected that no GET waits longer than {MUST} s during {what}, got {self.slowest:.2f} s")
        late = f", more than {SHOULD} s" if self.slowest > SHOULD else ""
        return f"the slowest of {self.count} GETs took {self.slowest * 1000:.0f} ms{late}"


def upload(server: Server, path: str, is_chunked: bool, status: int) -> str:
    """An upload while small files are read."""
    server.ask("PUT", "/small", b"s" * 1024, status=(201, 204))
    reader = Reader(server)
    reader.start()
    piece = b"u" * MB
    fields = {"Transfer-Encoding": "chunked"} if is_chunked else {"Content-Length": str(SIZE)}
    with server.connect(seconds=40) as connection:
        connection.send(head("PUT", path, server.port, None, fields))
        for _ in range(SIZE // MB):
            connection.send(chunked(piece)[:-5] if is_chunked else piece)
        if is_chunked:
            connection.send(b"0\r\n\r\n")
        expected(connection.answer("PUT"), status, f"PUT {path}")
    return reader.end("an upload")


GROUP.add("a PUT of 64 MB by length while others read", upload, "/large", False, 201)
GROUP.add("a PUT of 64 MB in chunks while others read", upload, "/large", True, 204)


@GROUP.check("the file of 64 MB comes back whole")
def whole(server):
    with server.connect(seconds=40) as connection:
        connection.request("GET", "/large")
        answer = connection.answer()
    expect("the length", len(answer.body), SIZE)
    expect("whether all bytes are right", answer.body == b"u" * SIZE, True)


@GROUP.check("COPY and DELETE of 64 MB while others read")
def copy(server):
    reader = Reader(server)
    reader.start()
    server.ask("COPY", "/large", None, {"Destination": "/copy"}, 201, seconds=20)
    server.ask("DELETE", "/copy", status=204, seconds=20)
    return reader.end("a COPY")


@GROUP.check("a listing of 2000 members while others read")
def listing(server):
    server.ask("MKCOL", "/many/", status=201)
    with server.connect() as connection:
        for number in range(2000):
            connection.request("PUT", f"/many/{number}", b"")
            expected(connection.answer("PUT"), 201, "PUT")
    reader = Reader(server)
    reader.start()
    for _ in range(3):
        server.ask("PROPFIND", "/many/", None, {"Depth": "1"}, 207, seconds=30)
    return reader.end("a PROPFIND")


def letters(body: bytes) -> set[int]:
    return set(body[:: 4096]) | set(body[-4096:])


@GROUP.check("a GET of a file that is replaced breaks off, and never mixes versions")
def replaced(server):
    server.ask("PUT", "/changing", b"1" * SIZE, status=201, seconds=30)
    with server.connect(window=65536, seconds=20) as connection:
        connection.request("GET", "/changing")
        answer = expected(connection.head(), 200, "GET /changing")
        expect("Content-Length", answer.field("Content-Length"), str(SIZE))
        start = connection.exactly(MB)
        server.ask("PUT", "/changing", b"2" * SIZE, status=204, seconds=30)
        try:
            rest = connection.exactly(SIZE - MB)
        except Cut as cut:
            rest = cut.body
        else:
            raise Wrong("expected that the response breaks off, got all bytes")
    expect("the versions that came", letters(start + rest), {ord("1")})
    expect("the new version", letters(server.ask("GET", "/changing", seconds=30).body), {ord("2")})


@GROUP.check("a GET of a file that is removed breaks off")
def removed(server):
    with server.connect(window=65536, seconds=20) as connection:
        connection.request("GET", "/changing")
        expected(connection.head(), 200, "GET /changing")
        start = connection.exactly(MB)
        server.ask("DELETE", "/changing", status=204)
        try:
            connection.exactly(SIZE - MB)
        except Cut as cut:
            expect("the versions that came", letters(start + cut.body), {ord("2")})
        else:
            raise Wrong("expected that the response breaks off, got all bytes")


@GROUP.check("GETs of a file that is replaced all the time return one version each")
def versions(server):
    stopped = threading.Event()
    failed: list[str] = []

    def write():
        number = 0
        while not stopped.is_set():
            number += 1
            body = bytes([65 + number % 26]) * (700_000 + number % 3 * 100_000)
            status = server.ask("PUT", "/turning", body, seconds=20).status
            if status not in (201, 204):
                failed.append(f"a PUT is answered {status}")

    server.ask("PUT", "/turning", b"A" * 700_000, status=201)
    writer = threading.Thread(target=write)
    writer.start()
    whole = cut = 0
    end = time.monotonic() + 3
    try:
        while time.monotonic() < end:
            try:
                body = server.ask("GET", "/turning", status=200).body
                whole += 1
            except Cut as broken:
                body = broken.body
                cut += 1
            if len(set(body)) > 1:
                failed.append(f"a GET returned {len(set(body))} versions")
    finally:
        stopped.set()
        writer.join()
    expect("what failed", failed, [])
    return f"{whole} whole responses, {cut} that broke off"


@GROUP.check("readers of ranges at once with an upload")
def ranges(server):
    path = "/ranged"
    content = bytes(range(256)) * 40_000
    server.ask("PUT", path, content, status=201, seconds=20)
    wrong: list[str] = []

    def read(number):
        connection: Connection
        with server.connect() as connection:
            for place in range(number * 1000, 10_000_000, 1_234_567):
                connection.request("GET", path, None, {"Range": f"bytes={place}-{place + 999}"})
                answer = connection.answer()
                if answer.status != 206 or answer.body != content[place : place + 1000]:
                    wrong.append(f"{answer.status} for the bytes from {place}")

    threads = [threading.Thread(target=read, args=(number,)) for number in range(16)]
    for it in threads:
        it.start()
    upload(server, "/beside", False, 201)
    for it in threads:
        it.join()
    expect("what is wrong", wrong, [])


# ---- with the race detector


@AT_ONCE.check("12 clients that write and read files of 3 MB")
def at_once(server):
    wrong: list[str] = []

    def work(number):
        for turn in range(3):
            body = bytes([65 + number + turn]) * (3 * MB + number)
            path = f"/{number % 6}-{turn}"
            try:
                status = server.ask("PUT", path, body, seconds=30).status
                got = server.ask("GET", path, seconds=30)
            except Cut:
                continue  # Another client has replaced the file meanwhile.
            if status not in (201, 204) or got.status != 200 or len(letters(got.body)) != 1:
                wrong.append(f"PUT {status}, GET {got.status} with {len(letters(got.body))} versions")

    threads = [threading.Thread(target=work, args=(number,)) for number in range(12)]
    for it in threads:
        it.start()
    for it in threads:
        it.join()
    expect("what is wrong", wrong, [])

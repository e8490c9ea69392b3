"""Clients that are slow, wrong, or leave."""
import os
import random
import threading
import time

from connection import Answer, Connection, Cut, Wrong, chunked, head
from harness import Group
from server import Server, expect, expected

HEADER, STALL, IDLE = 1, 2, 3
FLAGS = "-header-timeout", f"{HEADER}s", "-stall-timeout", f"{STALL}s", "-idle-timeout", f"{IDLE}s"
GROUP = Group("hostile", *FLAGS, "-max-body", "64M", "-host", "x")
GROUPS = [GROUP]
SLACK = 4  # seconds beyond a timeout, for a busy machine



@GROUP.check("a file for the other checks")
def file(server):
    server.ask("PUT", "/file", b"x", status=201)


# ---- clients that are slow


def closed_after(connection: Connection, seconds: float, what: str):
    """The server ends the connection about so many seconds from now, and not long before."""
    began = time.monotonic()
    is_closed = connection.ends_within(seconds + SLACK)
    took = time.monotonic() - began
    if not is_closed or took < seconds * 0.5:
        state = "it was closed" if is_closed else "it was still open"
        raise Wrong(f"expected that {what} is closed after {seconds} s, but {state} after {took:.1f} s")


HEADS = [("no byte", b""), ("half a request line", b"GET /he"), ("half a header", b"GET / HTTP/1.1\r\nHost: x\r\nA: ")]


def slow_head(server: Server, start: bytes):
    with server.connect() as connection:
        connection.send(start)
        closed_after(connection, HEADER, "a connection without a header")


for name, start in HEADS:
    GROUP.add(f"{name} is closed after -header-timeout", slow_head, start)


@GROUP.check("a header that arrives byte by byte is closed after -header-timeout")
def trickle(server):
    with server.connect() as connection:
        began = time.monotonic()
        try:
            for byte in head("GET", "/", server.port, None, {"X-Long": "x" * 1000}):
                connection.send(bytes([byte]))
                time.sleep(0.05)
                if time.monotonic() - began > HEADER + SLACK:
                    raise Wrong(f"expected an end of the connection after {HEADER} s")
        except OSError:
            return
        raise Wrong("expected an end of the connection, got none")


@GROUP.check("an idle connection is closed after -idle-timeout")
def idle(server):
    with server.connect() as connection:
        connection.request("GET", "/none")
        expected(connection.answer(), 404, "GET /none")
        closed_after(connection, IDLE, "an idle connection")


BODIES = [
    ("of a PUT by length", "PUT", {"Content-Length": "1000000"}, b"x" * 1000),
    ("of a large PUT by length", "PUT", {"Content-Length": "20000000"}, b"x" * 1_000_000),
    ("of a PUT in chunks", "PUT", {"Transfer-Encoding": "chunked"}, b"3e8\r\n" + b"x" * 1000 + b"\r\n"),
    ("of a PUT inside a chunk", "PUT", {"Transfer-Encoding": "chunked"}, b"fffff\r\n" + b"x" * 1000),
    ("of a PROPFIND", "PROPFIND", {"Content-Length": "1000", "Depth": "0"}, b'<propfind xmlns="DAV:">'),
    ("of a LOCK", "LOCK", {"Content-Length": "1000"}, b"<lockinfo"),
    ("of a MKCOL, which is rejected,", "MKCOL", {"Content-Length": "1000"}, b"<mkcol"),
    ("of a PUT to another place, which is rejected,", "PUT",
     {"Content-Length": "1000", "Content-Range": "bytes 999999999999-/*"}, b"x"),
    ("of a POST, which is rejected,", "POST", {"Content-Length": "1000"}, b"x"),
    ("of a DELETE in chunks, which is rejected,", "DELETE", {"Transfer-Encoding": "chunked"}, b"5\r\n"),
]


def stalls(server: Server, method: str, fields: dict, start: bytes):
    """The connection ends, the file stays as it was, and the server goes on."""
    path = server.folder() + "a"
    server.ask("PUT", path, b"old", status=201)
    with server.connect() as connection:
        connection.send(head(method, path, server.port, None, fields) + start)
        closed_after(connection, STALL, "a body that stalls")
    expect("the file", server.ask("GET", path).body, b"old")
    server.ask("PUT", path, b"new", status=204)


for name, method, fields, start in BODIES:
    GROUP.add(f"a body {name} that stalls is closed after -stall-timeout", stalls, method, fields, start)


@GROUP.check("a body that arrives slowly, but arrives, is stored")
def slow_body(server):
    body = b"0123456789" * 40
    with server.connect() as connection:
        connection.send(head("PUT", "/slow", server.port, None, {"Content-Length": str(len(body))}))
        for byte in range(0, len(body), 40):
            connection.send(body[byte : byte + 40])
            time.sleep(0.3)
        expected(connection.answer("PUT"), 201, "PUT /slow")
    expect("the file", server.ask("GET", "/slow").body, body)


@GROUP.check("a reader that stalls is closed after -stall-timeout, and others are served")
def slow_reader(server):
    server.ask("PUT", "/large", b"x" * 40_000_000, status=201)
    with server.connect(window=4096) as connection:
        connection.request("GET", "/large")
        expected(connection.head(), 200, "GET /large")
        time.sleep(STALL + SLACK)
        server.ask("GET", "/file", status=200)
        try:
            connection.exactly(40_000_000)
        except Cut:
            return
    raise Wrong("expected that the response breaks off, got all of it")


@GROUP.check("a reader that is slow, but reads, gets all")
def steady_reader(server):
    server.ask("PUT", "/steady", b"y" * 3_000_000, status=201)
    with server.connect(window=65536) as connection:
        connection.request("GET", "/steady")
        expected(connection.head(), 200, "GET /steady")
        received = len(connection.received)
        for _ in range(10):
            connection.received.clear()
            connection.more()
            received += len(connection.received)
            time.sleep(0.4)
        connection.received.clear()
        received += len(connection.exactly(3_000_000 - received))
    expect("the bytes", received, 3_000_000)


# ---- clients that leave


def vanishes(server: Server, fields: dict, start: bytes, is_reset: bool, old: bytes | None):
    """No file or the old file remains."""
    path = server.folder() + "a"
    if old is not None:
        server.ask("PUT", path, old, status=201)
    connection = server.connect()
    connection.send(head("PUT", path, server.port, None, fields) + start)
    time.sleep(0.05)
    if is_reset:
        connection.reset()
    else:
        connection.close()
    time.sleep(0.2)
    answer = server.ask("GET", path, status=404 if old is None else 200)
    expect("the file", answer.body if old is not None else None, old)
    server.ask("PUT", path, b"new", status=201 if old is None else 204)


for name, fields, start in [
    ("a small PUT", {"Content-Length": "1000"}, b"x" * 999),
    ("a large PUT", {"Content-Length": "5000000"}, b"x" * 4_999_999),
    ("a small PUT in chunks", {"Transfer-Encoding": "chunked"}, chunked(b"x" * 1000)[:-2]),
    ("a large PUT in chunks", {"Transfer-Encoding": "chunked"}, chunked(b"x" * 3_000_000)[:-5]),
]:
    for is_reset in (False, True):
        for old in (None, b"old"):
            how = "resets" if is_reset else "closes"
            what = "no file" if old is None else "the old file"
            title = f"a client that {how} in the middle of {name} leaves {what}"
            GROUP.add(title, vanishes, fields, start, is_reset, old)


@GROUP.check("300 clients that leave at once")
def many_leave(server):
    connections = [server.connect() for _ in range(300)]
    for number, connection in enumerate(connections):
        connection.send(head("PUT", f"/leave-{number}", server.port, None, {"Content-Length": "400000"}) + b"x" * 1000)
    for number, connection in enumerate(connections):
        connection.reset() if number % 2 else connection.close()
    server.ask("GET", "/file", status=200)
    time.sleep(0.5)
    server.ask("GET", "/leave-7", status=404)


# ---- requests that are wrong


@GROUP.check("100 pipelined requests are answered in order")
def pipelined(server):
    path = server.folder()
    requests = []
    for number in range(50):
        body = b"%d" % number
        requests.append(head("PUT", f"{path}{number}", server.port, body) + body)
        requests.append(head("GET", f"{path}{number}", server.port))
    with server.connect() as connection:
        sender = threading.Thread(target=connection.send, args=(b"".join(requests),))
        sender.start()
        for number in range(50):
            expected(connection.answer("PUT"), 201, f"PUT {number}")
            expect("the body", connection.answer().body, b"%d" % number)
        sender.join()


SMUGGLED = b"GET /smuggled HTTP/1.1\r\nHost: x\r\n\r\n"
CHUNKED = {"Transfer-Encoding": "chunked"}
TWICE = [("Transfer-Encoding", "chunked"), ("Transfer-Encoding", "chunked")]
TWO_LENGTHS = [
    ("Content-Length and Transfer-Encoding", {"Content-Length": "4", **CHUNKED}, b"0\r\n\r\n", True),
    ("Transfer-Encoding and Content-Length", {**CHUNKED, "Content-Length": "0"}, b"1\r\nx\r\n0\r\n\r\n", True),
    ("Transfer-Encoding: chunked twice", TWICE, b"0\r\n\r\n", False),
    ("Transfer-Encoding: identity and a length", {"Transfer-Encoding": "identity", "Content-Length": "1"}, b"x", False),
    ("Transfer-Encoding: chunked in other case", {"Transfer-Encoding": "Chunked"}, b"1\r\nx\r\n0\r\n\r\n", True),
    ("Transfer-Encoding with a tab", {"Transfer-Encoding": "\x0bchunked"}, b"0\r\n\r\n", False),
    ("a chunk size with a sign", CHUNKED, b"+1\r\nx\r\n0\r\n\r\n", False),
    ("a chunk size beyond 64 bits", CHUNKED, b"1ffffffffffffffff\r\nx\r\n0\r\n\r\n", False),
    ("a chunk without its end", CHUNKED, b"1\r\nxy\r\n0\r\n\r\n", False),
]


def two_lengths(server: Server, fields, body: bytes, is_allowed: bool):
    """Rejected with the connection closed, or served as chunks alone (RFC 9112, sections 6.1 and 6.3)."""
    with server.connect() as connection:
        connection.send(head("PUT", "/two", server.port, None, fields) + body + SMUGGLED)
        answers = []
        try:
            while len(answers) < 2:
                answers.append(connection.answer())
                if answers[-1].is_last():
                    break
        except Wrong:
            pass
    statuses = [it.status for it in answers]
    served = [201, 404] if is_allowed else None
    if statuses not in ([400], [501], served):
        raise Wrong(f"expected 400 and nothing more, got {statuses}")
    server.ask("DELETE", "/two", status=204 if statuses[0] == 201 else 404)


for name, fields, body, is_allowed in TWO_LENGTHS:
    GROUP.add(f"a PUT with {name}", two_lengths, fields, body, is_allowed)

GARBAGE = [
    ("a TLS hello", b"\x16\x03\x01\x02\x00\x01\x00\x01\xfc\x03\x03" + b"\x55" * 500),
    ("random bytes", bytes(range(256)) * 100),
    ("NULs", b"\0" * 100_000),
    ("line ends", b"\r\n" * 50_000),
    ("an endless line", b"A" * 300_000),
    ("an endless header", b"GET / HTTP/1.1\r\nHost: x\r\n" + b"A: b\r\n" * 100_000),
    ("SMTP", b"EHLO example.org\r\n"),
    ("HTTP/0.9", b"GET /\r\n"),
    ("HTTP/3.0", b"GET / HTTP/3.0\r\nHost: x\r\n\r\n"),
]


def garbage(server: Server, data: bytes):
    """The connection ends in time, with an error or without a word, and the server goes on."""
    with server.connect() as connection:
        try:
            connection.send(data)
        except OSError:
            pass
        if not connection.ends_within(HEADER + SLACK):
            raise Wrong("expected an end of the connection, got none")
        first = bytes(connection.received[:12])
    if first and not first.startswith((b"HTTP/1.1 4", b"HTTP/1.1 50", b"HTTP/1.0 4")):
        raise Wrong(f"expected an error or nothing, got {first!r}")
    server.ask("GET", "/file", status=200)


for name, data in GARBAGE:
    GROUP.add(f"{name} instead of HTTP", garbage, data)


@GROUP.check("1000 random mutations of a request")
def mutations(server):
    seed = int.from_bytes(os.urandom(4), "big")
    chance = random.Random(seed)
    good = head("PROPFIND", "/", server.port, b"<propfind xmlns='DAV:'><allprop/></propfind>", {"Depth": "0"})
    good += b"<propfind xmlns='DAV:'><allprop/></propfind>"
    for _ in range(1000):
        bad = bytearray(good)
        for _ in range(chance.randint(1, 4)):
            bad[chance.randrange(len(bad))] = chance.randrange(256)
        with server.connect() as connection:
            connection.send(bytes(bad))
            connection.socket.shutdown(1)
            if not connection.ends_within(HEADER + SLACK):
                raise Wrong(f"expected an end of the connection with seed {seed}, got none for {bytes(bad)!r}")
            got: Answer | bytes = bytes(connection.received)
        if got and not got.startswith(b"HTTP/1."):
            raise Wrong(f"expected a response with seed {seed}, got {got[:100]!r} for {bytes(bad)!r}")
    server.ask("GET", "/file", status=200)

"""What one client cannot do to the others: each check reaches a limit, and another client is served meanwhile."""
import socket
import threading
import time

import accounts
from connection import Connection, Wrong, head
from harness import Group, Starter
from http2 import CANCEL, CONTINUATION, HEADERS, PING, RST_STREAM, Http2, block, frame, headers
from server import Server, expect, expected

GREEDY, MODEST = "127.0.0.2", "127.0.0.3"  # two clients on the loopback
MB = 1 << 20
CONNECTIONS, REQUESTS, STALL = 32, 16, 2
SHARED = Group("shares", "-max-connections", str(CONNECTIONS), "-max-requests", str(REQUESTS))
PACE = Group("least rate", "-stall-timeout", f"{STALL}s")
SECURE = Group("shares of http2", "{tls}", "-max-requests", str(REQUESTS), "-stall-timeout", f"{STALL}s", is_measured=True)
WITHOUT = Group("no http2", "{tls}", "-http2=false")
BYTES = Group("shares of bytes", "-max-uploads", "8M", "-xml-memory", "16M")
LISTS = Group("shares of lists", is_shared=False, is_measured=True)
USERS = Group("shares of users", *accounts.FLAGS, "-max-requests", str(REQUESTS), files=accounts.FILES)
LOGINS = Group("shares of logins", "-users", "{users}", is_measured=True, files={
    # The same passwords, and a check takes as long as by `htpasswd -B -C 10`.
    "users.txt": "anna:$2a$10$uCMpBJHD7fEa9y2bwnUwAuvJUAP8Pf10ybdh2DLrqm2AdR5pn7vlq\n"
    "bert:$2a$10$kWWIHSClfTyPZ3OufySV9e7Yj4LaiZibAi.rzFKdPof3YkfIHyImW\n",
})
PROXIED = Group("shares behind a proxy", "-trusted-proxy", "127.0.0.9/32", "-max-requests", str(REQUESTS))
HOSTS = Group("hosts", "-host", "dav.example", "-host", "other.example")
GROUPS = [SHARED, PACE, SECURE, WITHOUT, BYTES, LISTS, USERS, LOGINS, PROXIED, HOSTS]


def asked(server: Server, source: str, method="GET", path="/none", status=404, seconds: float = 5, fields=()):
    """A request of another client, which is served soon."""
    began = time.monotonic()
    with server.connect(source=source, seconds=seconds) as connection:
        connection.request(method, path, None, fields)
        expected(connection.answer(method), status, f"{method} {path}")
    return time.monotonic() - began


def held(server: Server, source: str, count: int, fields=()) -> list[Connection]:
    """Uploads of one client whose bodies do not come. Those that are served are `100 Continue`, and the others 503."""
    connections = [server.connect(source=source) for _ in range(count)]
    announced = {"Content-Length": "1000", "Expect": "100-continue", **dict(fields)}
    for number, it in enumerate(connections):
        it.send(head("PUT", f"/held-{number}", server.port, None, announced))
    statuses = sorted(it.head().status for it in connections)
    expect("the statuses of the uploads", statuses, [100] * (REQUESTS // 2) + [503] * (count - REQUESTS // 2))
    return connections


def close(connections):
    for it in connections:
        it.close()


@SHARED.check(f"{CONNECTIONS} idle connections of one client: another one is served at once")
def idle(server):
    connections = [server.connect(source=GREEDY) for _ in range(CONNECTIONS + 8)]
    time.sleep(0.3)
    for _ in range(3):
        took = asked(server, MODEST)
        if took > 2:
            raise Wrong(f"expected a response at once, got one after {took:.1f} s")
    close(connections)


def waits(connection: Connection) -> bool:
    """Whether nothing comes on a connection now."""
    connection.socket.settimeout(0.001)
    try:
        connection.socket.recv(1, socket.MSG_PEEK)
        return False
    except TimeoutError:
        return True


@SHARED.check("a client has at most half of -max-requests, and its other requests are 503 after a second")
def half(server):
    began = time.monotonic()
    connections = held(server, GREEDY, REQUESTS)
    if not 0.5 < time.monotonic() - began < 5:
        raise Wrong(f"expected 503 after a second, got it after {time.monotonic() - began:.1f} s")
    asked(server, MODEST)
    close(connections)


@PACE.check("a body of single bytes ends after -stall-timeout, and one at -least-rate does not")
def pace(server):
    with server.connect(source=GREEDY) as slow, server.connect(source=MODEST) as steady:
        slow.send(head("PUT", "/slow", server.port, None, {"Content-Length": "1000"}))
        steady.send(head("PUT", "/steady", server.port, None, {"Content-Length": "1000"}))
        is_open = True
        for _ in range(20):
            steady.send(b"x" * 50)
            try:
                slow.send(b"x")
            except OSError:
                is_open = False
            time.sleep(0.2)
        expected(steady.answer("PUT"), 201, "PUT /steady")
        if is_open and not slow.ends_within(1):
            raise Wrong("expected the end of a body of single bytes")


# ---- HTTP/2

BLOCKED = 2 * MB


def put_large(server: Server):
    server.ask("PUT", "/large", b"x" * BLOCKED, status=(201, 204))


def many_resets(server: Server, path: str, ended: list, seconds: float):
    """Begins requests and resets them, on one connection after the other."""
    end = time.monotonic() + seconds
    while time.monotonic() < end:
        try:
            with Http2(server.port, seconds=2, source=GREEDY) as connection:
                while time.monotonic() < end:
                    connection.send(b"".join(
                        headers(it, "GET", path) + frame(RST_STREAM, 0, it, CANCEL) for it in connection.streams(500)
                    ))
        except (OSError, Wrong):
            ended.append(1)


def resets(server: Server, path: str):
    """Connections that reset their requests are closed. Memory does not grow, and another client is served."""
    before = server.resident()
    ended: list[int] = []
    threads = [threading.Thread(target=many_resets, args=(server, path, ended, 3)) for _ in range(4)]
    for it in threads:
        it.start()
    took = [asked(server, MODEST) for _ in range(3)]
    for it in threads:
        it.join()
    if not ended:
        raise Wrong("expected that the connections are closed")
    grown = (server.resident() - before) // MB
    if grown > 200:
        raise Wrong(f"expected at most 200 MB more, got {grown} MB")
    return f"{len(ended)} connections were closed, {grown} MB more, another client waited at most {max(took):.2f} s"


for path in ("/-/health", "/"):
    SECURE.add(f"requests for {path} that are reset", resets, path)


@SECURE.check("windows of 0: another client is served, and the connections end after -stall-timeout")
def windows(server):
    put_large(server)
    connections = [Http2(server.port, window=0, source=GREEDY) for _ in range(2)]
    for it in connections:
        it.send(b"".join(headers(stream, "GET", "/large") for stream in it.streams(100)))
    time.sleep(0.3)
    asked(server, MODEST, path="/large", status=200)
    is_ended = connections[0].ends_within(STALL + 3)
    if not is_ended and not connections[1].ends_within(1):  # One of the two may have nothing but refused requests.
        raise Wrong("expected the end of a connection whose responses are not received")
    asked(server, GREEDY, path="/large", status=200)
    close(connections)


@SECURE.check("a short response that a window of 0 holds up ends after -stall-timeout, too")
def short(server):
    with Http2(server.port, window=0, source=GREEDY) as connection:
        connection.request("GET", "/none")
        expect("the end of the connection", connection.ends_within(STALL + 3), True)


RATE, AHEAD, SHAKE_SECONDS = 50, 100, 3


@SECURE.check(f"an address makes {RATE} handshakes a second, and {AHEAD} at once, and another one connects meanwhile")
def handshakes(server):
    end, made = time.monotonic() + SHAKE_SECONDS, []

    def shake():
        while time.monotonic() < end:
            with server.connect(source=GREEDY, seconds=10):
                made.append(time.monotonic())

    threads = [threading.Thread(target=shake) for _ in range(16)]
    for it in threads:
        it.start()
    took = []
    while time.monotonic() < end:
        took.append(asked(server, MODEST))
    for it in threads:
        it.join()
    soon = sum(it < end for it in made)
    if not AHEAD < soon < AHEAD + RATE * (SHAKE_SECONDS + 1):
        raise Wrong(f"expected {AHEAD} handshakes and {RATE} a second, got {soon} in {SHAKE_SECONDS} s")
    return f"{soon} in {SHAKE_SECONDS} s, and another client waited at most {max(took):.2f} s"


FLOODS = [
    ("pings", lambda _: frame(PING, 0, 0, bytes(8))),
    ("empty DATA", lambda it: frame(0, 0, it)),
    ("CONTINUATION", lambda it: frame(CONTINUATION, 0, it, b"\x82")),
    ("requests that the server resets", lambda it: headers(it, "GET", "/") + frame(8, 0, it, bytes(4))),
]


def flood(server: Server, begin: bool, piece):
    with Http2(server.port, source=GREEDY) as connection:
        first = connection.streams(1)[0]
        if begin:
            connection.send(frame(HEADERS, 0, first, block("GET", "/")[:2]))
        try:
            for it in range(20):
                connection.send(b"".join(piece(first if begin else stream) for stream in connection.streams(200)))
                time.sleep(0.01)
        except OSError:
            return
        expect("the end of the connection", connection.ends_within(3), True)


for name, piece in FLOODS:
    SECURE.add(f"a flood of {name} ends the connection", flood, name == "CONTINUATION", piece)


@SECURE.check("a client of HTTP/2 that makes room for its responses gets them")
def honest(server):
    with Http2(server.port, source=GREEDY) as connection:
        connection.send(b"".join(headers(it, "GET", "/large") for it in connection.streams(2)))
        got = 0
        for kind, flags, stream, payload in connection.frames():
            if kind == 0 and payload:
                got += len(payload)
                more = len(payload).to_bytes(4, "big")
                connection.send(frame(8, 0, 0, more) + frame(8, 0, stream, more))
                if got == 2 * BLOCKED:
                    return
    raise Wrong(f"expected {2 * BLOCKED} bytes, got {got}")


@WITHOUT.check("with -http2=false a server with TLS speaks HTTP/1.1 only")
def without(server):
    try:
        Http2(server.port).close()
    except (OSError, Wrong):
        server.ask("GET", "/none", status=404)
        return
    raise Wrong("expected that HTTP/2 is not offered")


# ---- bytes


@BYTES.check("bytes of uploads under way: a client has half of -max-uploads, and another one may upload")
def uploads(server):
    size = {"Content-Length": str(3 * MB)}
    with server.connect(source=GREEDY) as first, server.connect(source=GREEDY) as second:
        first.send(head("PUT", "/first", server.port, None, size) + b"x")
        time.sleep(0.2)
        second.send(head("PUT", "/second", server.port, None, size) + b"x")
        answer = expected(second.answer("PUT"), 503, "PUT /second")
        expect("Retry-After", answer.field("Retry-After"), "1")
        with server.connect(source=MODEST) as other:
            other.request("PUT", "/third", b"x" * (3 * MB))
            expected(other.answer("PUT"), 201, "PUT /third")
        first.send(b"x" * (3 * MB - 1))
        expected(first.answer("PUT"), 201, "PUT /first")


@BYTES.check("an upload in chunks counts as it comes, and alone may be longer than its share")
def chunks(server):
    piece = b"%x\r\n%s\r\n" % (MB, b"x" * MB)
    fields = {"Transfer-Encoding": "chunked"}
    with server.connect(source=GREEDY) as alone:
        alone.send(head("PUT", "/alone", server.port, None, fields) + piece * 6 + b"0\r\n\r\n")
        expected(alone.answer("PUT"), 201, "PUT /alone")
    with server.connect(source=GREEDY) as first, server.connect(source=GREEDY) as second:
        first.send(head("PUT", "/first", server.port, None, {"Content-Length": str(3 * MB)}) + b"x")
        time.sleep(0.2)
        second.send(head("PUT", "/second", server.port, None, fields))
        try:
            second.send(piece * 3)
        except OSError:
            pass
        expected(second.answer("PUT"), 503, "PUT /second")


@BYTES.check("a list of members that needs all of -xml-memory is served, and lists of one client wait for each other")
def lists(server):
    with server.connect(seconds=30) as connection:
        connection.request("MKCOL", "/many/")
        expected(connection.answer(), 201, "MKCOL")
        for number in range(800):
            connection.request("PUT", f"/many/{number}", b"")
            expected(connection.answer("PUT"), 201, "PUT")
    statuses = []

    def ask():
        statuses.append(server.ask("PROPFIND", "/many/", None, {"Depth": "1"}, seconds=20).status)

    threads = [threading.Thread(target=ask) for _ in range(8)]
    for it in threads:
        it.start()
    for it in threads:
        it.join()
    if not set(statuses) <= {207, 503} or 207 not in statuses:
        raise Wrong(f"expected 207, or 503 of some, got {statuses}")
    return f"{statuses.count(207)} of {len(statuses)} were served"


@BYTES.check("XML bodies count by their length: one client has half of -xml-memory, and short ones are free")
def xml(server):
    fields = {"Content-Length": "700000", "Depth": "0"}
    short = b'<propfind xmlns="DAV:"><allprop/></propfind>'
    with server.connect(source=GREEDY) as first, server.connect(source=GREEDY) as second:
        first.send(head("PROPFIND", "/", server.port, None, fields) + b" ")
        time.sleep(0.2)
        second.send(head("PROPFIND", "/", server.port, None, fields) + b" " * 700_000)
        with server.connect(source=GREEDY) as third:
            third.request("PROPFIND", "/", short, {"Depth": "0"})
            expected(third.answer(), 207, "PROPFIND /")
        expected(second.answer(), 503, "PROPFIND /")


# ---- lists

MEMBERS, AT_ONCE = 6000, 100
XML_MEMORY, MOST_MEMORY = 64, 150
"""In MB. What is garbage is collected early, so that the rest is counted."""


def fill(server: Server, path: str, numbers: range):
    with server.connect(seconds=30) as connection:
        for number in numbers:
            connection.request("MKCOL", f"{path}{number}/")
            expected(connection.answer(), 201, "MKCOL")


def together(calls: list):
    """Makes the calls at the same time, and returns when all have ended."""
    threads = [threading.Thread(target=it) for it in calls]
    for it in threads:
        it.start()
    for it in threads:
        it.join()


@LISTS.check(f"{AT_ONCE} lists of {MEMBERS} members that nobody has listed before need at most {MOST_MEMORY} MB, and another client is served", 120)
def first_lists(starter: Starter):
    flags = ("-xml-memory", f"{XML_MEMORY}M", "-max-requests", "1024")
    server = starter.start(*flags, variables={"GOGC": "25"})
    server.ask("MKCOL", "/long/", status=201)
    parts = [range(start, start + MEMBERS // 8) for start in range(0, MEMBERS, MEMBERS // 8)]
    together([lambda part=part: fill(server, "/long/", part) for part in parts])
    before, statuses, waited = server.resident(), [], []
    ends = threading.Event()

    def ask(number: int):
        source = f"127.0.1.{1 + number % 50}"
        with server.connect(source=source, seconds=60) as connection:
            connection.request("PROPFIND", "/long/", None, {"Depth": "1"})
            statuses.append(connection.answer("PROPFIND").status)

    def modest():
        while not ends.is_set():
            waited.append(asked(server, MODEST, seconds=60))
            time.sleep(0.05)

    other = threading.Thread(target=modest)
    other.start()
    together([lambda number=number: ask(number) for number in range(AT_ONCE)])
    ends.set()
    other.join()
    if not set(statuses) <= {207, 503} or 207 not in statuses:
        raise Wrong(f"expected 207, or 503 of some, got {statuses}")
    grown = (server.resident() - before) // MB
    if grown > MOST_MEMORY:
        raise Wrong(f"expected at most {MOST_MEMORY} MB more, got {grown} MB")
    return f"{statuses.count(207)} of {AT_ONCE} were served, {grown} MB more, another client waited at most {max(waited):.2f} s"


# ---- users and addresses


@USERS.check("two users at one address have a share each")
def users(server):
    connections = held(server, GREEDY, REQUESTS, accounts.AS_ANNA.items())
    asked(server, GREEDY, fields=accounts.AS_BERT)
    close(connections)


@LOGINS.check("250 addresses try wrong passwords of one user: another user logs in within a second")
def logins(server):
    connections = [server.connect(source=f"127.0.{10 + it // 100}.{1 + it % 100}") for it in range(250)]
    for number, it in enumerate(connections):
        it.request("GET", "/none", None, accounts.basic("anna", f"wrong {number}"))
    time.sleep(0.5)
    took = asked(server, MODEST, fields=accounts.basic("bert", "right"), seconds=20)
    waited = sum(waits(it) for it in connections)
    close(connections)
    if waited < 100:
        raise Wrong(f"expected that many wrong passwords wait, got {waited}")
    if took > 1:
        raise Wrong(f"expected a login within a second, got one after {took:.2f} s")
    return f"{took:.2f} s, while {waited} waited"


@PROXIED.check("clients of a trusted proxy have a share each, by X-Forwarded-For")
def forwarded(server):
    connections = held(server, "127.0.0.9", REQUESTS, {"X-Forwarded-For": "192.0.2.1"}.items())
    asked(server, "127.0.0.9", fields={"X-Forwarded-For": "192.0.2.2"})
    # What a client itself has sent does not count, and neither does that of a stranger.
    asked(server, "127.0.0.9", status=503, fields={"X-Forwarded-For": "192.0.2.3, 192.0.2.1"})
    close(connections)


NAMES = [
    ("localhost", 200), ("127.0.0.1", 200), ("127.1.2.3:99", 200), ("[::1]:80", 200), ("dav.example", 200),
    ("OTHER.example:8080", 200), ("evil.example", 421), ("localhost.evil.example", 421), ("192.0.2.1", 421),
]


@HOSTS.check("on the loopback without users only names of the loopback and of -host are served")
def names(server):
    for name, status in NAMES:
        answer = server.ask("GET", "/", None, {"Host": name}, status)
        if status == 421:
            expect("the lines of the response", answer.body.count(b"\n"), 1)
        server.ask("PUT", "/x", b"x", {"Host": name}, 421 if status == 421 else (201, 204))

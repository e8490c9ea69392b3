"""The limits on connections, requests and memory."""
import os
import signal
import threading
import time

import operator_locks
from connection import Cut, Wrong, chunked, head
from harness import Group, Starter
from multistatus import lockinfo, token_of
from server import expect, expected, memory_of

MB = 1 << 20
CONNECTIONS = Group("max-connections", "-max-connections", "4")
REQUESTS = Group("max-requests", "-max-requests", "2", "-client-share", "100", "-stall-timeout", "20s")
MEMORY = Group("memory", is_shared=False, is_measured=True)
GROUPS = [CONNECTIONS, REQUESTS, MEMORY]


@CONNECTIONS.check("connections beyond -max-connections wait, and are served when others end")
def wait(server):
    held = [server.connect() for _ in range(4)]
    for it in held:
        it.request("GET", "/none")
        expected(it.answer(), 404, "GET /none")
    late = [server.connect() for _ in range(3)]
    for it in late:
        it.request("GET", "/none")
    time.sleep(0.5)
    for it in late:
        it.socket.settimeout(0.2)
        try:
            it.answer()
        except Wrong:
            it.socket.settimeout(10)
        else:
            raise Wrong("expected that a connection beyond the limit waits, got a response")
    for it in held:
        it.close()
    for it in late:
        expected(it.answer(), 404, "GET /none")
        it.close()


@CONNECTIONS.check("40 clients at once are all served")
def many(server):
    statuses = []

    def ask():
        statuses.append(server.ask("GET", "/none", None, {"Connection": "close"}, seconds=20).status)

    threads = [threading.Thread(target=ask) for _ in range(40)]
    for it in threads:
        it.start()
    for it in threads:
        it.join()
    expect("the statuses", statuses, [404] * 40)


@REQUESTS.check("requests beyond -max-requests are 503 after a second, or served")
def too_many(server):
    held = [server.connect() for _ in range(2)]
    for number, it in enumerate(held):
        it.send(head("PUT", f"/held-{number}", server.port, None, {"Content-Length": "10"}) + b"x")
    time.sleep(0.3)
    began = time.monotonic()
    answer = server.ask("GET", "/none", status=503)
    if not 0.5 < time.monotonic() - began < 5:
        raise Wrong(f"expected 503 after a second, got it after {time.monotonic() - began:.1f} s")
    expect("Retry-After", (answer.field("Retry-After") or "").isdigit(), True)
    server.ask("GET", "/-/health", status=200)
    for it in held:
        it.send(b"x" * 9)
        expected(it.answer("PUT"), 201, "PUT")
        it.close()
    server.ask("GET", "/none", status=404)


# ---- memory

UPLOADS, UPLOAD = 16, 16 * MB
HOST_BOUND = 160 * MB
READERS, READER_BOUND = 100, 3 * MB


def upload_all(server, is_chunked: bool):
    """Many uploads at once, each in pieces that wait for the others."""
    statuses = []
    barrier = threading.Barrier(UPLOADS)
    piece = b"x" * MB

    def upload(number):
        fields = {"Transfer-Encoding": "chunked"} if is_chunked else {"Content-Length": str(UPLOAD)}
        with server.connect(seconds=40) as connection:
            connection.send(head("PUT", f"/upload-{number}", server.port, None, fields))
            for _ in range(UPLOAD // MB):
                connection.send(chunked(piece)[:-5] if is_chunked else piece)
            barrier.wait(40)
            if is_chunked:
                connection.send(b"0\r\n\r\n")
            statuses.append(connection.answer("PUT").status)

    threads = [threading.Thread(target=upload, args=(number,)) for number in range(UPLOADS)]
    for it in threads:
        it.start()
    for it in threads:
        it.join()
    return statuses


@MEMORY.check(f"{UPLOADS} uploads of {UPLOAD // MB} MB at once: the host stays below {HOST_BOUND // MB} MB")
def uploads(starter: Starter):
    server = starter.start("-memory", "3G")
    expect("the statuses by length", upload_all(server, False), [201] * UPLOADS)
    expect("the statuses in chunks", upload_all(server, True), [204] * UPLOADS)
    used = server.resident()
    if used > HOST_BOUND:
        raise Wrong(f"expected at most {HOST_BOUND // MB} MB, got {used // MB} MB")
    return f"the host used {used // MB} MB, davd {memory_of(server.davd()) // MB} MB"


@MEMORY.check(f"{READERS} readers that are slow: the host stays below {READER_BOUND // MB} MB for each")
def readers(starter: Starter):
    server = starter.start()
    server.ask("PUT", "/large", b"x" * 64 * MB, status=201, seconds=30)
    connections = [server.connect(window=4096) for _ in range(READERS)]
    for it in connections:
        it.request("GET", "/large")
    time.sleep(2)
    used = server.resident()
    for it in connections:
        it.close()
    if used > READERS * READER_BOUND:
        raise Wrong(f"expected at most {READERS * READER_BOUND // MB} MB, got {used // MB} MB")
    return f"the host used {used // MB} MB"


@MEMORY.check("uploads that are abandoned are dropped from davd")
def abandoned(starter: Starter):
    """With 512 MB for davd, twelve abandoned uploads of 60 MB leave enough for another one."""
    server = starter.start("-memory", "512M")
    for number in range(12):
        connection = server.connect(seconds=30)
        connection.send(head("PUT", f"/gone-{number}", server.port, None, {"Content-Length": str(61 * MB)}))
        connection.send(b"x" * (60 * MB))
        connection.reset() if number % 2 else connection.close()
    time.sleep(1)
    server.ask("PUT", "/kept", b"y" * (60 * MB), status=201, seconds=30)
    expect("the length", server.ask("HEAD", "/kept").field("Content-Length"), str(60 * MB))


@MEMORY.check("davd at the end of its memory: 507, and reads go on")
def full(starter: Starter):
    server = starter.start("-memory", "200M")
    server.ask("PUT", "/kept", b"kept", status=201)
    statuses = []
    for number in range(12):
        statuses.append(server.ask("PUT", f"/fill-{number}", b"x" * (24 * MB), seconds=30).status)
        if statuses[-1] != 201:
            break
    expect("the last status", statuses[-1], 507)
    expect("the file", server.ask("GET", "/kept", status=200).body, b"kept")
    # The engine opens the file before it writes: docs/GUARANTEES.md, PUT, "Out of memory".
    left = server.ask("GET", f"/fill-{len(statuses) - 1}", status=(200, 404))
    expect("what is left of the file", left.body if left.status == 200 else b"", b"")
    server.ask("DELETE", "/fill-0", status=204)
    server.ask("PUT", "/again", b"x" * MB, status=201)


@MEMORY.check("a PROPFIND of 2000 members of 1 KB properties is bounded")
def properties(starter: Starter):
    server = starter.start()
    with server.connect() as connection:
        connection.request("MKCOL", "/many/")
        expected(connection.answer(), 201, "MKCOL")
        value = b'<v xmlns="urn:v">' + b"v" * 1000 + b"</v>"
        body = b'<propertyupdate xmlns="DAV:"><set><prop>' + value + b"</prop></set></propertyupdate>"
        for number in range(2000):
            connection.request("PUT", f"/many/{number}", b"")
            expected(connection.answer("PUT"), 201, "PUT")
            connection.request("PROPPATCH", f"/many/{number}", body)
            expected(connection.answer(), 207, "PROPPATCH")
    answer = server.ask("PROPFIND", "/many/", None, {"Depth": "1"}, 207, seconds=30)
    if len(answer.body) < 2_000_000:
        raise Wrong(f"expected all properties, got {len(answer.body)} bytes")
    used = server.resident()
    if used > HOST_BOUND:
        raise Wrong(f"expected at most {HOST_BOUND // MB} MB, got {used // MB} MB")
    return f"the host used {used // MB} MB for a response of {len(answer.body) // 1000} KB"


# ---- what frees memory when it is full

FILLED, ROUNDS = 24 * MB, 12
FILLED_FLAG = "-memory", f"{FILLED // MB}M"
LENGTHS = 100_000, 4096, 500, 30


def thousand(server, path: str):
    """Makes a collection of 1000 files."""
    server.ask("MKCOL", path, status=201)
    with server.connect() as connection:
        for number in range(1000):
            connection.request("PUT", f"{path}/{number}", b"x")
            expected(connection.answer("PUT"), 201, "PUT")


def copy_all(server, target: str) -> int:
    """Copies the collection /a to others until one is refused. Returns the number of that one."""
    number = 1
    while server.ask("COPY", "/a", None, {"Destination": f"{target}{number}"}, (201, 503, 507)).status == 201:
        number += 1
    return number


def fill_rest(server, turn: int = 0):
    """Fills what is left by properties, each shorter than the one before, until none is set any more."""
    for length in LENGTHS:
        for number in range(1000):
            value = b"<v%d xmlns='urn:v'>%b</v%d>" % (turn, b"v" * length, turn)
            body = b"<propertyupdate xmlns='DAV:'><set><prop>%b</prop></set></propertyupdate>" % value
            if server.ask("PROPPATCH", f"/a/{number}", body, status=(207, 507)).status == 507:
                break


@MEMORY.check("a folder was copied into itself until -memory was full: a DELETE of 1000 members is 204, and locks are removed")
def frees(starter: Starter):
    server = starter.start(*FILLED_FLAG, "-socket", "{folder}/s")
    thousand(server, "/a")
    tokens = []
    for path in ("/locked", "/left"):
        server.ask("PUT", path, b"x", status=201)
        tokens.append(token_of(server.ask("LOCK", path, lockinfo(), status=200)))
    copy_all(server, "/a/b")
    fill_rest(server)
    server.ask("COPY", "/a/b1", None, {"Destination": "/c"}, 507)
    server.ask("UNLOCK", "/locked", None, {"Lock-Token": tokens[0]}, 204)
    operator_locks.run(starter, "remove", tokens[1][1:-1], where=("-socket", starter.folder / "s"))
    server.ask("DELETE", "/a/b1", status=204)
    server.ask("GET", "/a/1", status=200)
    server.ask("PUT", "/new", b"x", status=201)
    for path in ("/locked", "/left"):
        server.ask("DELETE", path, status=204)


@MEMORY.check(f"what {ROUNDS} DELETEs free is filled again: each is 204, and davd has no more than -memory", seconds=120)
def in_turn(starter: Starter):
    server = starter.start(*FILLED_FLAG)
    thousand(server, "/a")
    count = copy_all(server, "/b")
    if count <= ROUNDS:
        raise Wrong(f"expected {ROUNDS} copies, got {count - 1}")
    fill_rest(server)
    statuses = []
    for turn in range(1, ROUNDS + 1):
        server.ask("DELETE", f"/b{turn}", status=204)
        statuses.append(server.ask("PUT", "/new", b"x", status=(201, 204, 507)).status)
        fill_rest(server, turn)
    if "for what frees memory" not in server.log():
        raise Wrong(f"expected that half of the reserve is used, got statuses {statuses} of PUT")
    for path in (*(f"/b{turn}" for turn in range(ROUNDS + 1, count)), "/a"):
        server.ask("DELETE", path, status=204)
    server.ask("PUT", "/new", b"x", status=(201, 204))
    most = memory_of(server.davd(), "VmPeak")
    if most > FILLED:
        raise Wrong(f"expected at most {FILLED} bytes, got {most}")
    return f"PUT after each DELETE: {' '.join(map(str, statuses))}; davd had up to {most // 1024} KiB"


@MEMORY.check("over a folder that has filled -memory a DELETE of 1000 members is 204, and then a PUT after a start")
def frees_folder(starter: Starter):
    server = starter.start(*FILLED_FLAG, "-folder", "{folder}/kept")
    server.ask("MKCOL", "/a", status=201)
    with server.connect() as connection:
        for number in range(FILES):
            connection.request("PUT", f"/a/{number}", b"x")
            expected(connection.answer("PUT"), 201, "PUT")
    server.ask("MKCOL", "/tree", status=201)
    for number in range(TREES):
        server.ask("COPY", "/a", None, {"Destination": f"/tree/{number}"}, 201)
    server.ask("COPY", "/tree", None, {"Destination": "/other"}, 201)
    count = copy_all(server, "/b")
    server.await_health()
    for path in ("/tree", "/other", *(f"/b{number}" for number in range(1, count))):
        server.ask("DELETE", path, status=204)
    server.stop()
    server = starter.start(*FILLED_FLAG, "-folder", "{folder}/kept")
    server.ask("PUT", "/new", b"x", status=201)
    server.stop()
    return f"{count - 1} copies of {FILES} files"


# ---- the memory of a davd over a folder

SMALL_FOLDER = ("-memory", "32M", "-folder", "{folder}/kept")
SMALL = 32 * MB
# Less than a folder needs that has filled the above.
LESS_FOLDER = ("-memory", "24M", "-folder", "{folder}/kept")
LESS = 24 * MB
# What davd may have while it loads its folder: loadFactor in internal/davd/memory.go.
AT_START = 4 * SMALL
TREES, FILES = 20, 50
PROPERTY = b'<propertyupdate xmlns="DAV:"><set><prop><v xmlns="urn:v">' + b"v" * 300_000 + b"</v></prop></set></propertyupdate>"


def copy_trees(server) -> int:
    """Copies trees of a thousand files until memory runs out. Returns how many copies there are."""
    server.ask("MKCOL", "/files", status=201)
    server.ask("MKCOL", "/tree-0", status=201)
    with server.connect() as connection:
        for number in range(FILES):
            connection.request("PUT", f"/files/{number}", b"x")
            expected(connection.answer("PUT"), 201, "PUT")
    for number in range(TREES):
        server.ask("COPY", "/files", None, {"Destination": f"/tree-0/{number}"}, 201)
    count = 1
    while (got := server.ask("COPY", "/tree-0", None, {"Destination": f"/tree-{count}"})).status == 201:
        count += 1
    if got.status not in (503, 507):  # 503: davd could not keep the copy, and was started again.
        raise Wrong(f"expected 503 or 507, got {got}")
    return count


@MEMORY.check("a folder that needs more than -memory is served under it: what adds something is 507, and DELETE 204")
def served_again(starter: Starter):
    server = starter.start(*SMALL_FOLDER)
    count = copy_trees(server)
    server.stop()
    server = starter.start(*LESS_FOLDER)
    if f"-memory allows {LESS // 1024} KiB" not in server.log():
        raise Wrong(f"expected that -memory is too small for the folder, got\n{server.log()}")
    expect("a file", server.ask("GET", "/tree-1/7/7", status=200).body, b"x")
    server.ask("PROPFIND", "/tree-1/", None, {"Depth": "1"}, 207)
    for method, body in (("PUT", b"x"), ("PUT", b"x" * MB), ("MKCOL", None)):
        server.ask(method, "/new", body, status=507)
    server.ask("COPY", "/files", None, {"Destination": "/new"}, 507)
    for number in range(1, count):
        server.ask("DELETE", f"/tree-{number}", status=204)
    server.ask("GET", "/tree-1/7/7", status=404)
    server.stop()
    server = starter.start(*LESS_FOLDER)
    server.ask("PUT", "/new", b"x", status=201)
    server.stop()
    return f"{count * (TREES * (FILES + 1) + 1)} resources"


def set_properties(server, turn: int) -> int:
    """Sets long properties until one is refused. Returns how many were set."""
    for number in range(AT_START // len(PROPERTY)):
        try:
            if server.ask("PUT", f"/{turn}-{number}", b"").status != 201:
                return number
            answer = server.ask("PROPPATCH", f"/{turn}-{number}", PROPERTY)
        except Cut:
            return number
        if answer.status != 207 or b"HTTP/1.1 200" not in answer.body:
            return number
    raise Wrong("expected that memory runs out")


@MEMORY.check("over a folder davd does not have more memory each time that it has filled -memory and is started again")
def not_more(starter: Starter):
    server = starter.start(*SMALL_FOLDER)
    counts, peaks = [], []
    for turn in range(3):
        counts.append(set_properties(server, turn))
        server.await_health()
        os.kill(server.davd(), signal.SIGKILL)
        server.await_health()
        peaks.append(memory_of(server.davd(), "VmPeak") // MB)
    if max(peaks) > AT_START // MB:
        raise Wrong(f"expected at most {AT_START // MB} MB, got {peaks}")
    if counts[0] < 10:
        raise Wrong(f"expected that properties are set, got {counts}")
    expect("what was set after davd was started again", counts[1:], [0, 0])
    server.ask("DELETE", "/0-1", status=204)
    server.stop()
    return f"{counts[0]} properties of 300 KB, and then davd had up to {max(peaks)} MB"

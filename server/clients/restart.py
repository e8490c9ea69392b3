"""davd is killed: what clients get, what the log says, and how it is started again."""
import os
import re
import signal
import threading
import time

import multistatus
from connection import Wrong, head
from harness import Group, Starter
from server import Server, expect, expected

GROUP = Group("davd is killed", is_shared=False)
GROUPS = [GROUP]


def kill(server: Server) -> int:
    """Kills davd with SIGKILL, and returns its process."""
    child = server.davd()
    if child is None:
        raise Wrong("expected a process of davd, got none")
    os.kill(child, signal.SIGKILL)
    return child


@GROUP.check("it is started again, and reads and writes go on")
def again(starter: Starter):
    server = starter.start()
    lost = server.ask("PUT", "/a", b"x", status=201).field("ETag")
    first = kill(server)
    server.await_health()
    server.ask("GET", "/a", status=404)
    given = server.ask("PUT", "/a", b"new", status=201).field("ETag")
    expect("whether it is the tag of the lost file", given == lost, False)
    expect("the file", server.ask("GET", "/a", status=200).body, b"new")
    expect("whether it is another process", server.davd() != first, True)
    server.stop()


@GROUP.check("the log says how it ended and that everything is lost")
def log(starter: Starter):
    server = starter.start()
    server.ask("PUT", "/a", b"x", status=201)
    kill(server)
    server.await_health()
    lines = [it for it in server.log().splitlines() if "davd ended" in it]
    if len(lines) != 1 or "killed" not in lines[0] or "lost" not in lines[0]:
        raise Wrong(f"expected one line that davd was killed and what is lost, got {lines}")


def while_stopped(starter: Starter, method: str, body: bytes | None, fields: dict, statuses: tuple[int, ...]):
    """A request is under way while davd stands still, and then davd is killed."""
    server = starter.start()
    server.ask("PUT", "/a", b"x", status=201)
    child = server.davd()
    os.kill(child, signal.SIGSTOP)
    try:
        with server.connect(seconds=15) as connection:
            connection.request(method, "/a", body, fields)
            time.sleep(0.3)
            os.kill(child, signal.SIGKILL)
            answer = expected(connection.answer(method), statuses, f"{method} /a")
    finally:
        os.kill(child, signal.SIGCONT) if server.davd() == child else None
    if answer.status == 503:
        expect("Retry-After", (answer.field("Retry-After") or "").isdigit(), True)
    server.await_health()
    if method not in ("GET", "PROPFIND", "OPTIONS") and f"{method} /a" not in server.log().replace('"', ""):
        raise Wrong(f"expected {method} /a among what davd had not answered, got\n{server.log()}")


# What only reads is sent again, to a davd that has no file: also what the server asks before it reads a long body.
UNDER_WAY = [
    ("PUT", b"new", {}, (503,)),
    ("PUT", b"new" * 1_000_000, {}, (201, 503)),
    ("DELETE", None, {}, (503,)),
    ("MKCOL", None, {}, (503,)),
    ("COPY", None, {"Destination": "/b"}, (503,)),
    ("PROPPATCH", b'<propertyupdate xmlns="DAV:"><set><prop><v>1</v></prop></set></propertyupdate>', {}, (503,)),
    ("LOCK", multistatus.lockinfo(), {}, (503,)),
    ("GET", None, {}, (404, 503)),
    ("PROPFIND", None, {"Depth": "0"}, (404, 503)),
    ("OPTIONS", None, {}, (200, 503)),
]
for method, body, fields, statuses in UNDER_WAY:
    size = f" of {len(body) // 1_000_000} MB" if body and len(body) > 1_000_000 else ""
    wanted = " or ".join(map(str, statuses))
    GROUP.add(f"a {method}{size} under way is {wanted}", while_stopped, method, body, fields, statuses)


@GROUP.check("an upload that has begun is 503, and leaves no file")
def upload(starter: Starter):
    server = starter.start()
    with server.connect(seconds=15) as connection:
        connection.send(head("PUT", "/large", server.port, None, {"Content-Length": "4000000"}) + b"x" * 2_000_000)
        time.sleep(0.3)
        kill(server)
        server.await_health()
        try:
            connection.send(b"x" * 2_000_000)
        except OSError:
            pass  # The host has answered before all was sent.
        expected(connection.answer("PUT"), 503, "PUT /large")
    server.ask("GET", "/large", status=404)


@GROUP.check("a download that has begun breaks off")
def download(starter: Starter):
    server = starter.start()
    server.ask("PUT", "/large", b"x" * 30_000_000, status=201)
    with server.connect(seconds=15, window=65536) as connection:
        connection.request("GET", "/large")
        expected(connection.head(), 200, "GET /large")
        connection.exactly(1_000_000)
        kill(server)
        server.await_health()
        try:
            connection.exactly(29_000_000)
        except Wrong:
            return
    raise Wrong("expected that the response breaks off, got all bytes")


@GROUP.check("while davd stands still the health is 503, and 200 when it goes on")
def stands_still(starter: Starter):
    server = starter.start()
    server.ask("PUT", "/a", b"x", status=201)
    child = server.davd()
    os.kill(child, signal.SIGSTOP)
    try:
        server.ask("GET", "/-/health", status=503, seconds=15)
    finally:
        os.kill(child, signal.SIGCONT)
    server.await_health()
    server.ask("GET", "/a", status=200)
    server.stop()


@GROUP.check("a davd that is stopped is killed after -hang-timeout, and the log says so")
def hangs(starter: Starter):
    server = starter.start("-hang-timeout", "2s")
    child = server.davd()
    os.kill(child, signal.SIGSTOP)
    server.ask("OPTIONS", "/", status=200, seconds=30)
    expect("whether it is another process", server.davd() != child, True)
    lines = [it for it in server.log().splitlines() if "has not run for 2s" in it]
    expect("how many lines say that it hangs", len(lines), 1)
    server.stop()


@GROUP.check("locks are lost with it, and their tokens do not count again")
def locks(starter: Starter):
    server = starter.start()
    server.ask("PUT", "/a", b"x", status=201)
    token = multistatus.token_of(server.ask("LOCK", "/a", multistatus.lockinfo(), status=200))
    kill(server)
    server.await_health()
    server.ask("PUT", "/a", b"y", status=201)
    server.ask("UNLOCK", "/a", None, {"Lock-Token": token}, 409)
    second = multistatus.token_of(server.ask("LOCK", "/a", multistatus.lockinfo(), status=200))
    expect("whether the token is another", second != token, True)


@GROUP.check("pauses grow when it is killed again and again")
def pauses(starter: Starter):
    """Each pause is longer than the one before, until it is clear that they grow."""
    server = starter.start()
    took = []
    for _ in range(5):
        kill(server)
        began = time.monotonic()
        server.await_health()
        took.append(time.monotonic() - began)
    if not took[4] > 2 * took[0] or took[4] < 0.5:
        raise Wrong(f"expected pauses that grow, got {[round(it, 2) for it in took]}")
    server.ask("PUT", "/a", b"x", status=201)
    server.stop()
    return f"the pauses took {', '.join(f'{it:.1f}' for it in took)} s"


@GROUP.check("clients at work see only 503 and true responses")
def load(starter: Starter):
    """Eight clients write and read while davd is killed twice. A response of 2xx is true until the next kill."""
    server = starter.start()
    stopped = threading.Event()
    wrong: list[str] = []

    def work(number):
        count = 0
        while not stopped.is_set():
            count += 1
            body = b"%d %d" % (number, count)
            try:
                statuses = [server.ask("PUT", f"/{number}", body).status, server.ask("GET", f"/{number}")]
            except (OSError, Wrong) as error:
                wrong.append(f"a request has no response: {error}")
                return
            got = statuses[1]
            if statuses[0] not in (201, 204, 503) or got.status not in (200, 404, 503):
                wrong.append(f"PUT {statuses[0]}, GET {got.status}")
            if statuses[0] != 503 and got.status == 200 and got.body != body:
                wrong.append(f"expected {body!r}, got {got.body!r}")

    threads = [threading.Thread(target=work, args=(number,)) for number in range(8)]
    for it in threads:
        it.start()
    try:
        for _ in range(2):
            time.sleep(0.7)
            kill(server)
            server.await_health()
        time.sleep(0.3)
    finally:
        stopped.set()
        for it in threads:
            it.join()
    expect("what is wrong", wrong[:3], [])
    server.stop()


@GROUP.check("SIGTERM ends the host while davd does not run")
def stop_during_pause(starter: Starter):
    server = starter.start()
    for _ in range(4):
        kill(server)
        server.await_health()
    kill(server)
    time.sleep(0.1)
    server.stop()


@GROUP.check("davd ends with the host, also if the host is killed")
def orphan(starter: Starter):
    server = starter.start()
    child = server.davd()
    os.kill(server.process.pid, signal.SIGKILL)
    server.process.wait()
    end = time.monotonic() + 5
    while os.path.exists(f"/proc/{child}") and not is_zombie(child):
        if time.monotonic() > end:
            raise Wrong("expected that davd ends within 5 s of the host")
        time.sleep(0.05)


def is_zombie(process: int) -> bool:
    try:
        with open(f"/proc/{process}/stat") as file:
            return re.search(r"\) (\w)", file.read())[1] == "Z"
    except FileNotFoundError:
        return True

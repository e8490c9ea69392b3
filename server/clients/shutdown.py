"""SIGTERM: what is under way is answered, nothing new is accepted, and the exit status is 0."""
import signal
import time

from connection import Connection, Wrong, head
from harness import Group, Starter
from server import Server, expect, expected

GROUP = Group("shutdown", is_shared=False)
GROUPS = [GROUP]


def begun(server: Server, path: str, size: int, sent: int) -> Connection:
    """An upload of which a part was sent."""
    connection = server.connect(seconds=15)
    connection.send(head("PUT", path, server.port, None, {"Content-Length": str(size)}) + b"x" * sent)
    time.sleep(0.3)
    return connection


def await_refusal(server: Server):
    """Waits until no connection is accepted."""
    end = time.monotonic() + 5
    while time.monotonic() < end:
        try:
            with server.connect(seconds=1) as connection:
                connection.request("GET", "/")
                connection.answer()
        except (OSError, Wrong):
            return
        time.sleep(0.05)
    raise Wrong("expected that new connections are refused within 5 s of SIGTERM")


def ends(server: Server, seconds: float, status: int = 0):
    expect(f"the exit status within {seconds} s", server.ended(seconds), status)


def under_way(starter: Starter, size: int, number: int):
    """A PUT that is under way is answered, new connections are refused, and the status is 0."""
    server = starter.start("-shutdown-timeout", "8s")
    connection = begun(server, "/a", size, size // 2)
    server.process.send_signal(number)
    await_refusal(server)
    connection.send(b"x" * (size - size // 2))
    expected(connection.answer("PUT"), 201, "PUT /a")
    ends(server, 8)


GROUP.add("SIGTERM during a small PUT", under_way, 1000, signal.SIGTERM)
GROUP.add("SIGTERM during a PUT of 3 MB", under_way, 3_000_000, signal.SIGTERM)
GROUP.add("SIGINT during a PUT", under_way, 1000, signal.SIGINT)


@GROUP.check("SIGTERM without requests ends at once")
def idle(starter: Starter):
    server = starter.start("-shutdown-timeout", "20s")
    kept = server.connect()
    kept.request("GET", "/")
    expected(kept.answer(), 200, "GET /")
    server.terminate()
    ends(server, 5)
    child = server.davd()
    expect("a process of davd", child, None)


@GROUP.check("a PUT that does not end is broken off after -shutdown-timeout")
def broken_off(starter: Starter):
    server = starter.start("-shutdown-timeout", "1s", "-stall-timeout", "1m")
    connection = begun(server, "/a", 1000, 10)
    server.terminate()
    status = server.ended(8)
    if status is None:
        raise Wrong("expected an end within 8 s of SIGTERM, with -shutdown-timeout 1s")
    expect("the exit status", status, 0)
    expect("whether the connection has ended", connection.ends_within(2), True)


@GROUP.check("a response that is under way is sent to its end")
def download(starter: Starter):
    server = starter.start("-shutdown-timeout", "15s")
    server.ask("PUT", "/large", b"x" * 20_000_000, status=201)
    with server.connect(window=65536, seconds=15) as connection:
        connection.request("GET", "/large")
        expected(connection.head(), 200, "GET /large")
        connection.exactly(100_000)
        server.terminate()
        await_refusal(server)
        expect("the rest", len(connection.exactly(19_900_000)), 19_900_000)
    ends(server, 15)


@GROUP.check("two SIGTERMs are one")
def twice(starter: Starter):
    server = starter.start("-shutdown-timeout", "5s")
    connection = begun(server, "/a", 100, 10)
    server.terminate()
    time.sleep(0.3)
    server.terminate()
    time.sleep(0.3)
    connection.send(b"x" * 90)
    expected(connection.answer("PUT"), 201, "PUT /a")
    ends(server, 6)

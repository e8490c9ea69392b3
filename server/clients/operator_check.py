"""Files that are damaged: an operator has them all read by `davserve check`, while clients read and write."""
import json
import random
import signal
import subprocess
import threading
import time

import accounts
import kept
import operator_locks
from accounts import AS_ANNA, AS_BERT
from connection import Wrong
from harness import Group, Starter
from metrics import await_samples
from server import PROCESSES, PORTS, Server, expect, free_port

GROUP = Group("operator check", files=accounts.FILES, is_shared=False)
GROUPS = [GROUP]

SECONDS = 20
LENGTH = 300_000
"""Of each file, in bytes: it is read in two parts."""


def command(starter: Starter, *words) -> list:
    return [starter.programs.race, "check", "-folder", starter.folder / "kept", *words]


def run(starter: Starter, status: int, *words) -> list[str]:
    """Runs `davserve check` for the server of the folder `kept`, and returns what it prints without the time that it took."""
    ran = PROCESSES.run(command(starter, *words), SECONDS)
    expect(f"the exit status, with {ran.stdout}", ran.returncode, status)
    return [it.partition(", in ")[0] for it in ran.stdout.splitlines()]


def fill(server: Server, fields=(), count=30) -> list[bytes]:
    """Makes files in two collections, and returns what they contain."""
    content = random.Random(7)
    bodies = [content.randbytes(LENGTH) for _ in range(count)]
    for name in ("/d", "/d/e"):
        server.ask("MKCOL", name, None, fields, 201)
    for number, body in enumerate(bodies):
        server.ask("PUT", path_of(number), body, fields, 201)
    return bodies


def path_of(number: int) -> str:
    return f"{('', '/d', '/d/e')[number % 3]}/file%20{number}"


def flip(starter: Starter, body: bytes):
    """Flips a bit in the last block of a file, in place: davd goes on writing others. The block has more than 30,000 bytes."""
    with (starter.folder / "kept/data").open("r+b") as data:
        at = data.read().find(body[-30_000:])
        if at < 0:
            raise Wrong("the bytes of the file are not in the data file")
        data.seek(at + 100)
        data.write(bytes([body[-29_900] ^ 1]))


class Client(threading.Thread):
    """Reads a file and writes another, again and again. Keeps what went wrong, and how long a request took at most."""

    def __init__(self, server: Server, number: int, read: str, body: bytes):
        super().__init__()
        self.server, self.number, self.read, self.body = server, number, read, body
        self.ends = threading.Event()
        self.rounds, self.longest, self.wrong = 0, 0.0, None

    def run(self):
        try:
            while not self.ends.is_set():
                began = time.monotonic()
                self.server.ask("PUT", f"/own-{self.number}", self.body[: 1000 + self.rounds % 1000], status=(201, 204))
                expect(self.read, self.server.ask("GET", self.read, status=200).body, self.body)
                self.longest = max(self.longest, time.monotonic() - began)
                self.rounds += 1
        except Exception as error:
            self.wrong = error


@GROUP.check("while clients read and write, the check names exactly the file in which a bit was flipped")
def named(starter: Starter):
    port = free_port()
    PORTS.remove(port)
    server = kept.start(starter, "-metrics", f"127.0.0.1:{port}")
    bodies = fill(server)
    clients = [Client(server, it, path_of(it), bodies[it]) for it in range(3)]
    for client in clients:
        client.start()
    try:
        run(starter, 0)
        flip(starter, bodies[17])
        printed = run(starter, 1)
        damaged = f"damaged: {path_of(17)}"
        expect("what is named", printed[:-1], [damaged])
        expect("quietly", run(starter, 1, "-quiet", "-rate", "0"), [damaged])
    finally:
        for client in clients:
            client.ends.set()
        for client in clients:
            client.join()
    for client in clients:
        if client.wrong or client.rounds < 2:
            raise Wrong(f"a client had {client.rounds} rounds, and then {client.wrong}")
    expect("without clients", run(starter, 1), [damaged, f"32 files, {server_bytes(server, bodies)} bytes, 1 damaged"])
    await_samples(port, {
        "davserve_check_running": 0, "davserve_check_files": 32, "davserve_check_damaged_files": 1,
        'davserve_checks_total{result="right"}': 1, 'davserve_checks_total{result="damaged"}': 3,
    })
    status, text = operator_locks.request(starter.folder / "kept/control", "GET", "/check")
    state = json.loads(text)
    expect("the last check", (status, state["state"], state["files"], state["damaged"]), (200, "done", 32, 1))
    server.ask("DELETE", path_of(17), status=204)
    run(starter, 0)
    if f'the file "{path_of(17)}" is damaged' not in server.log():
        raise Wrong("the log does not name the file")
    server.stop()
    return f"a round of a client took up to {max(it.longest for it in clients):.2f} s"


def server_bytes(server: Server, bodies: list[bytes]) -> int:
    """The bytes of all files but the damaged one."""
    own = [len(server.ask("GET", f"/own-{it}", status=200).body) for it in range(3)]
    return sum(own) + LENGTH * (len(bodies) - 1)


HIDES = """
[[rule]]
everyone = true
at_and_below = "/d/e"
allow = []
"""
RULES = """
[[rule]]
user = "anna"
at_and_below = "/"
allow = ["list", "read", "write"]

[[rule]]
everyone = true
at_and_below = "/own-bert"
allow = ["list", "read", "write"]
""" + HIDES


@GROUP.check("access rules hide nothing from the check, and hold for each client meanwhile")
def hidden(starter: Starter):
    starter.write("rules.toml", RULES.partition(HIDES)[0])
    server = kept.start(starter, *accounts.FLAGS, "-rights", "{folder}/rules.toml")
    bodies = fill(server, AS_ANNA, 9)
    starter.write("rules.toml", RULES)
    server.process.send_signal(signal.SIGHUP)
    # HEAD reads no byte: a GET that is under way when the rules change is broken off.
    while server.ask("HEAD", path_of(2), None, AS_ANNA, (200, 403)).status == 200:
        time.sleep(0.05)
    ends, wrong = threading.Event(), []

    def bert():
        while not ends.is_set():
            try:
                server.ask("PUT", "/own-bert", b"x", AS_BERT, (201, 204))
                server.ask("GET", path_of(0), None, AS_BERT, 403)
            except Exception as error:
                wrong.append(error)
                return

    server.ask("PUT", "/own-bert", b"x", AS_BERT, 201)  # the tenth file is there before the check begins
    client = threading.Thread(target=bert)
    client.start()
    try:
        expect("all files", run(starter, 0, "-rate", "0")[0].split(",")[0], "10 files")
        server.ask("GET", path_of(2), None, AS_ANNA, 403)
        flip(starter, bodies[2])
        expect("a damaged file", run(starter, 1, "-quiet"), [f"damaged: {path_of(2)}"])
    finally:
        ends.set()
        client.join()
    if wrong:
        raise Wrong(f"of a client: {wrong[0]}")
    server.stop()


@GROUP.check("one check at a time goes on, an interrupt ends it, and so does the end of the server")
def interrupted(starter: Starter):
    server = kept.start(starter)
    server.ask("PUT", "/a", bytes(2_000_000), status=201)
    expect("an unknown rate", run(starter, 2, "-rate", "fast")[0].split(":")[0], 'invalid value "fast" for flag -rate')

    def begin() -> subprocess.Popen:
        process = PROCESSES.start(command(starter, "-rate", "100K"), stdout=subprocess.PIPE, stderr=subprocess.STDOUT)
        await_state(starter, "running")
        return process

    first = begin()
    second = run(starter, 3)
    expect("the second", second, ["davserve check: the server checks nothing: another check is under way (status 409)"])
    first.send_signal(signal.SIGINT)
    printed, _ = first.communicate(timeout=SECONDS)
    expect("the exit status after SIGINT", first.returncode, 3)
    if b"it was interrupted" not in printed:
        raise Wrong(f"after SIGINT it prints {printed!r}")
    await_state(starter, "failed")
    expect("then", run(starter, 0), ["1 file, 2000000 bytes, 0 damaged"])
    last = begin()
    server.stop()
    expect("the exit status after the end of the server", last.wait(SECONDS), 3)
    expect("without a server", run(starter, 3)[0].partition(" at ")[0], "davserve check: no server answers")


def await_state(starter: Starter, wanted: str):
    """Waits for a state of the last check."""
    end = time.monotonic() + SECONDS
    while True:
        state = json.loads(operator_locks.request(starter.folder / "kept/control", "GET", "/check")[1])
        if state["state"] == wanted:
            return
        if time.monotonic() > end:
            raise Wrong(f"expected the state {wanted}, got {state}")
        time.sleep(0.05)

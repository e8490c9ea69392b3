"""Backups of a folder while it is served: what they have, and that what is not whole is none."""
import hashlib
import os
import pathlib
import random
import re
import shutil
import signal
import sqlite3
import threading
import time
import xml.etree.ElementTree as ElementTree

import backup_client as client
import kept
from connection import Cut, Wrong
from harness import Group, Skipped, Starter
from server import PROCESSES, Server, expect

GROUP = Group("backup", is_shared=False)
GROUPS = [GROUP]

WRITERS = 8
FILES = 4  # of each writer
SIZES = (10, 3_000, 200_000, 900_000)
FIRST = 20 << 20  # bytes of a file that stays, so that davd looks for space that is not used any more
ENOUGH = 44 << 20  # bytes that are written during a backup: without it, davd would use space again


class Writer(threading.Thread):
    """Writes, moves and deletes files in a directory of its own, and remembers what it had after each request."""

    def __init__(self, server: Server, number: int, ends: threading.Event):
        super().__init__()
        self.server, self.folder, self.ends = server, f"/w{number}", ends
        self.chance = random.Random(number)
        self.states: list[dict[str, str]] = [{}]  # after each request, the digest of each file
        self.asked = 0  # how many requests were sent
        self.written = 0  # bytes
        self.wrong: Exception | None = None

    def run(self):
        try:
            while not self.ends.is_set():
                self.step()
        except Exception as error:  # The check raises it.
            self.wrong = error

    def step(self):
        state = dict(self.states[-1])
        name, other = (f"f{it}" for it in self.chance.sample(range(FILES), 2))
        kind = self.chance.choice(("PUT", "PUT", "PUT", "MOVE", "DELETE")) if name in state else "PUT"
        self.asked += 1
        if kind == "PUT":
            body = self.chance.randbytes(self.chance.choice(SIZES))
            self.server.ask("PUT", f"{self.folder}/{name}", body, status=(201, 204))
            state[name] = digest(body)
            self.written += len(body)
        elif kind == "MOVE":
            to = [("Destination", f"{self.folder}/{other}")]
            self.server.ask("MOVE", f"{self.folder}/{name}", fields=to, status=(201, 204))
            state[other] = state.pop(name)
        else:
            self.server.ask("DELETE", f"{self.folder}/{name}", status=204)
            del state[name]
        self.states.append(state)


def digest(body: bytes) -> str:
    return hashlib.sha256(body).hexdigest()


class Load:
    """Writers that write until the end of a block."""

    def __init__(self, server: Server):
        self.ends = threading.Event()
        self.writers = [Writer(server, it, self.ends) for it in range(WRITERS)]
        for writer in self.writers:
            server.ask("MKCOL", writer.folder, status=201)

    def __enter__(self):
        for writer in self.writers:
            writer.start()
        return self

    def __exit__(self, *_):
        self.ends.set()
        for writer in self.writers:
            writer.join()

    def check(self):
        for writer in self.writers:
            if writer.wrong:
                raise writer.wrong

    def answered(self) -> list[int]:
        return [len(it.states) - 1 for it in self.writers]

    def asked(self) -> list[int]:
        return [it.asked for it in self.writers]

    def written(self) -> int:
        return sum(it.written for it in self.writers)


def state_of(server: Server, folder: str) -> dict[str, str]:
    """The digest of each file in a directory."""
    listed = ElementTree.fromstring(server.ask("PROPFIND", folder + "/", fields=[("Depth", "1")], status=207).body)
    paths = [it.text for it in listed.iter("{DAV:}href")]
    names = [it.rpartition("/")[2] for it in paths if not it.endswith("/")]
    return {it: digest(server.ask("GET", f"{folder}/{it}", status=200).body) for it in names}


def compare(server: Server, load: Load, answered: list[int], asked: list[int], first: str):
    """Each directory is as it was after a request that was sent before the end, and not before what was answered."""
    expect("the file that stays", digest(server.ask("GET", "/first", status=200, seconds=20).body), first)
    for writer, least, most in zip(load.writers, answered, asked):
        found = state_of(server, writer.folder)
        if found not in writer.states[least : most + 1]:
            raise Wrong(f"{writer.folder} has {found}, which it had never between requests {least} and {most}")


@GROUP.check("under load a backup has each directory as it was at one time, also if it is read slowly", seconds=90)
def under_load(starter: Starter):
    server = kept.start(starter)
    first = random.Random(1).randbytes(FIRST)
    server.ask("PUT", "/first", first, status=201, seconds=30)
    backups = []
    with Load(server) as load:
        time.sleep(1)
        answered = load.answered()
        client.succeed(starter, starter.folder / "one")
        backups.append((starter.folder / "one", answered, load.asked()))
        answered, before = load.answered(), load.written()
        stream = client.Stream(client.socket_of(starter))
        stream.save(starter.folder / "two.tar", lambda: load.written() - before > ENOUGH)
        backups.append((starter.folder / "two", answered, load.asked()))
        written = load.written() - before
    load.check()
    client.unpack(starter.folder / "two.tar", starter.folder / "two")
    for folder, answered, asked in backups:
        copy = client.serve(starter, folder)
        compare(copy, load, answered, asked, digest(first))
        copy.ask("PUT", "/new", b"new", status=201)
        copy.stop()
    compare(server, load, load.answered(), load.asked(), digest(first))
    server.stop()
    waits = re.findall(r"requests have waited (\S+)", server.log())
    return f"{written >> 20} MiB were written during the second backup; requests waited {' and '.join(waits)}"


@GROUP.check("a backup has all that was answered, and its database can be read")
def whole(starter: Starter):
    server = kept.start(starter)
    long = kept.fill(server)
    before = kept.look(server, long)
    target = starter.folder / "target"
    said = client.succeed(starter, target)
    client.check_message(said, f"{target}: ", " bytes of data, ", " bytes of the database, in ")
    expect("the files", set(os.listdir(target)) | {"meta.db-wal"}, client.FILES)
    for name in os.listdir(target):
        expect(f"the mode of {name}", (target / name).stat().st_mode & 0o777, 0o600)
    readable = starter.folder / "readable"
    shutil.copytree(target, readable)
    database = sqlite3.connect(readable / "meta.db")
    database.executescript((pathlib.Path(__file__).parents[1] / "views.sql").read_text())
    expect("the paths", len(database.execute("SELECT path FROM paths").fetchall()), 6)
    database.close()
    expect("the status of cp", PROCESSES.run(["cp", "-r", target, starter.folder / "restored"], 10).returncode, 0)
    copy = client.serve(starter, starter.folder / "restored")
    expect("the versions and times", kept.versions(kept.look(copy, long)), kept.versions(before))
    copy.stop()
    server.ask("GET", "/d/short", status=200)
    server.stop()


@GROUP.check("a second backup at once is refused, and the first goes on")
def second(starter: Starter):
    server = kept.start(starter)
    server.ask("PUT", "/large", random.Random(2).randbytes(8 << 20), status=201)
    stream = client.Stream(client.socket_of(starter))
    stream.read(1 << 16)
    target = starter.folder / "target"
    client.fail(starter, target, "another backup is under way", "409")
    expect("whether the target is there", target.exists(), False)
    expect("the state", client.state(client.socket_of(starter))["state"], "running")
    stream.save(starter.folder / "rest")
    client.await_state(client.socket_of(starter), "done")
    client.succeed(starter, target)
    server.stop()


@GROUP.check("a client that leaves ends its backup, and the next one is made")
def leaves(starter: Starter):
    server = kept.start(starter)
    server.ask("PUT", "/large", bytes(8 << 20), status=201)
    stream = client.Stream(client.socket_of(starter))
    stream.read(1 << 16)
    stream.close()
    found = client.await_state(client.socket_of(starter), "failed")
    expect("the reason", found["error"], "the client has left")
    client.succeed(starter, starter.folder / "target")
    server.stop()


class Halfway:
    """`davserve backup` in the middle of a backup."""

    def __init__(self, starter: Starter):
        self.server = kept.start(starter)
        self.server.ask("PUT", "/large", random.Random(3).randbytes(4 << 20), status=201)
        self.socket = client.socket_of(starter)
        self.target, self.said = starter.folder / "target", starter.folder / "said"
        self.gate = client.Gate(starter.folder / "gate", self.socket)
        words = client.command(starter, "-socket", starter.folder / "gate", self.target)
        with self.said.open("wb") as said:
            self.process = PROCESSES.start(words, stdout=said, stderr=said)
        client.await_state(self.socket, "running")
        while not list(self.target.glob("*/meta.db")):
            time.sleep(0.01)

    def fails(self, *wanted: str):
        """It goes on, fails with this message, and leaves nothing."""
        self.gate.opened.set()
        expect("the exit status", self.process.wait(client.SECONDS), 1)
        client.check_message(self.said.read_text(), *wanted)
        expect("whether the target is there", self.target.exists(), False)


@GROUP.check("a backup is broken off when davd is killed, and the next one is made")
def davd_killed(starter: Starter):
    halfway = Halfway(starter)
    kept.kill(halfway.server)
    halfway.fails("the server broke the backup off: ", "davd ended during the backup")
    halfway.server.ask("PUT", "/new", b"new", status=201)
    client.succeed(starter, halfway.target)
    halfway.server.stop()
    copy = client.serve(starter, halfway.target)
    expect("/new", copy.ask("GET", "/new", status=200).body, b"new")
    copy.stop()


@GROUP.check("a backup is broken off when the server ends")
def server_ends(starter: Starter):
    halfway = Halfway(starter)
    halfway.server.stop()
    halfway.fails("the server broke the backup off: ")
    client.check_message(halfway.server.log(), "the backup failed: the server ends")


@GROUP.check("a backup is broken off when the server is killed")
def server_killed(starter: Starter):
    halfway = Halfway(starter)
    halfway.server.kill()
    halfway.fails("the server broke the backup off: unexpected EOF")


@GROUP.check("an interrupt ends davserve backup, which leaves nothing")
def interrupted(starter: Starter):
    halfway = Halfway(starter)
    halfway.process.send_signal(signal.SIGINT)
    halfway.fails("it was interrupted")
    halfway.server.stop()


@GROUP.check("an archive that is cut is refused when it is served")
def cut(starter: Starter):
    server = kept.start(starter)
    server.ask("PUT", "/large", random.Random(4).randbytes(4 << 20), status=201)
    stream = client.Stream(client.socket_of(starter))
    begun = stream.read(3 << 20)
    kept.kill(server)
    try:
        while stream.read(1 << 20):
            pass
        raise Wrong("the archive ends as if it was whole")
    except Cut:
        pass
    server.stop()
    target = starter.folder / "target"
    target.mkdir()
    (starter.folder / "cut.tar").write_bytes(begun)
    PROCESSES.run(["tar", "xf", starter.folder / "cut.tar", "-C", target], 10)
    expect("the files", "meta.db" in os.listdir(target), True)
    copy = starter.start("-folder", "{folder}/target", is_awaited=False)
    expect("the exit status", copy.ended(), 1)


@GROUP.check("a backup goes into an empty folder, and not into another one")
def targets(starter: Starter):
    server = kept.start(starter)
    server.ask("PUT", "/a", b"x", status=201)
    target = starter.folder / "target"
    target.mkdir()
    client.succeed(starter, target)
    content = {it.name: it.read_bytes() for it in target.iterdir()}
    client.fail(starter, target, f"{target} is not empty")
    expect("the files", {it.name: it.read_bytes() for it in target.iterdir()}, content)
    client.fail(starter, starter.folder / "none/target", "no such file or directory")
    client.fail(starter, target / "data", "not a directory")
    server.stop()


@GROUP.check("without a server there is no backup, and a server replaces the socket of one that was killed")
def nobody(starter: Starter):
    target = starter.folder / "target"
    client.fail(starter, target, f"no server answers at {client.socket_of(starter)}")
    server = kept.start(starter)
    expect("the mode of the socket", client.socket_of(starter).stat().st_mode & 0o777, 0o600)
    server.kill()
    client.fail(starter, target, "no server answers")
    expect("whether the target is there", target.exists(), False)
    server = kept.start(starter)
    client.succeed(starter, target)
    server.stop()
    expect("whether the socket is there", client.socket_of(starter).exists(), False)


@GROUP.check("-socket names another place, and without a socket the server serves")
def elsewhere(starter: Starter):
    place = starter.folder / "s"
    server = kept.start(starter)
    server.stop()
    server = starter.start("-folder", "{folder}/kept", "-socket", "{folder}/s")
    server.ask("PUT", "/a", b"x", status=201)
    client.succeed(starter, starter.folder / "target", "-socket", place)
    server.stop()
    expect("whether the socket is there", place.exists(), False)
    long = "x" * 100
    server = starter.start("-folder", "{folder}/kept", "-socket", "{folder}/" + long, is_awaited=False)
    expect("the exit status", server.ended(), 1)
    client.check_message(server.log(), "at most 107 are possible")
    server = starter.start("-folder", "{folder}/" + long)
    server.ask("PUT", "/a", b"x", status=201)
    client.check_message(server.log(), "no backup can be made, no file checked, and no lock removed: ")
    client.check_message(server.log(), "at most 107 are possible (-socket names another place)")
    client.fail(starter, starter.folder / "none", "at most 107", words=("-folder", starter.folder / long))
    server.stop()


@GROUP.check("curl and tar make a backup")
def by_curl(starter: Starter):
    if not shutil.which("curl"):
        raise Skipped("curl is not installed")
    server = kept.start(starter)
    long = kept.fill(server)
    before = kept.look(server, long)
    (starter.folder / "target").mkdir()
    script = "curl -fsS -X POST --unix-socket kept/control -o backup.tar http://davserve/backup && tar -xf backup.tar -C target"
    ran = PROCESSES.run(["sh", "-c", script], client.SECONDS, cwd=starter.folder)
    expect(f"the exit status, with {ran.stdout}", ran.returncode, 0)
    copy = client.serve(starter, starter.folder / "target")
    expect("the versions and times", kept.versions(kept.look(copy, long)), kept.versions(before))
    copy.stop()
    server.stop()

"""What `make install` leaves: the programs serve from there, and the manual pages and the unit are right."""
import os
import pathlib
import re
import shlex
import shutil
import socket
import subprocess
import time

import server as servers
from connection import Connection, Wrong
from harness import Group, Skipped, Starter
from programs import TOP
from server import PROCESSES, expect, expected

GROUP = Group("install", needs="make", is_shared=False)
GROUPS = [GROUP]

MAKE_SECONDS = 120
NOTIFY_SECONDS = 20
MODES = {
    "bin/davserve": 0o755,
    "bin/davd": 0o755,
    "share/man/man1/davserve.1": 0o644,
    "share/man/man1/davd.1": 0o644,
    "lib/systemd/system/davserve.service": 0o644,
    "lib/sysusers.d/davserve.conf": 0o644,
}


def make(starter: Starter, target: str, *variables: str):
    ran = PROCESSES.run(["make", "-C", TOP, target, f"DAVD={starter.programs.davd}", *variables], MAKE_SECONDS)
    expect(f"the status of `make {target} {' '.join(variables)}`\n{ran.stdout}", ran.returncode, 0)


def installed(starter: Starter) -> pathlib.Path:
    """Installs in a folder with the names that the files have there, and returns it."""
    root = starter.folder / "root"
    make(starter, "install", f"PREFIX={root}", f"SYSCONFDIR={root}/etc")
    return root


def program(command: list, root: pathlib.Path, name: str, is_good):
    """Runs a program that says what is wrong with what was installed. It is skipped where it does not exist."""
    if not shutil.which(command[0]):
        raise Skipped(f"{command[0]} is not installed")
    ran = PROCESSES.run(command, 30, env={**os.environ, "MANPATH": f"{root}/share/man"})
    if not is_good(ran):
        raise Wrong(f"{name}: `{shlex.join(map(str, command))}` ends with status {ran.returncode}:\n{ran.stdout}")


@GROUP.check("each file is in its place, with the folder of a package and without")
def places(starter: Starter):
    root = starter.folder / "package"
    variables = f"DESTDIR={root}", "PREFIX=/usr"
    make(starter, "install", *variables)
    found = {str(it.relative_to(root)): it.stat().st_mode & 0o7777 for it in root.rglob("*") if it.is_file()}
    expect("the files", found, {**{f"usr/{name}": mode for name, mode in MODES.items()}, "etc/default/davserve": 0o644})
    unit = (root / "usr/lib/systemd/system/davserve.service").read_text()
    for line in ("ExecStart=/usr/bin/davserve -folder ${STATE_DIRECTORY} $DAVSERVE_OPTIONS", "EnvironmentFile=-/etc/default/davserve"):
        expect(f"the unit has {line}", line in unit.splitlines(), True)
    (root / "etc/default/davserve").write_text("kept")
    make(starter, "install", *variables)
    make(starter, "uninstall", *variables)
    expect("what is left", [it.name for it in root.rglob("*") if it.is_file()], ["davserve"])
    expect("the options", (root / "etc/default/davserve").read_text(), "kept")


class Manager:
    """What systemd is to a service: the socket at which the service says its state."""

    def __init__(self, folder: pathlib.Path):
        self.path = folder / "notify"
        self.socket = socket.socket(socket.AF_UNIX, socket.SOCK_DGRAM)
        self.socket.bind(str(self.path))
        self.socket.settimeout(NOTIFY_SECONDS)

    def expect(self, state: bytes):
        expect("the state of the service", self.socket.recv(100), state)


def started_by_unit(root: pathlib.Path, folder: pathlib.Path, port: int, manager: Manager) -> subprocess.Popen:
    """Starts what the unit starts, with the options of its file and another port, and waits until it serves."""
    unit = (root / "lib/systemd/system/davserve.service").read_text()
    words = re.search(r"^ExecStart=(.*)$", unit, re.M)[1]
    options = re.search(r'^DAVSERVE_OPTIONS="(.*)"$', (root / "etc/default/davserve").read_text(), re.M)[1]
    words = words.replace("${STATE_DIRECTORY}", str(folder)).replace("$DAVSERVE_OPTIONS", options)
    environment = {**os.environ, "NOTIFY_SOCKET": str(manager.path)}
    with (manager.path.parent / "log").open("wb") as log:
        command = [*shlex.split(words), "-listen", f"127.0.0.1:{port}"]
        process = PROCESSES.start(command, env=environment, stdout=log, stderr=log)
    manager.expect(b"READY=1")
    return process


def ask(port: int, method: str, path: str, status: int, body: bytes | None = None) -> bytes:
    with Connection(port) as connection:
        connection.request(method, path, body)
        return expected(connection.answer(method), status, f"{method} {path}").body


@GROUP.check("the command of the unit serves from there, and a backup is made")
def serves(starter: Starter):
    root, port = installed(starter), servers.free_port()
    kept, target = starter.folder / "state", starter.folder / "target"
    kept.mkdir()
    manager = Manager(starter.folder)
    process = started_by_unit(root, kept, port, manager)
    ask(port, "PUT", "/a", 201, b"installed")
    backup = PROCESSES.run([root / "bin/davserve", "backup", "-folder", kept, target], 30)
    expect(f"the status of the backup ({backup.stdout})", backup.returncode, 0)
    expect("the file", ask(port, "GET", "/a", 200), b"installed")
    process.terminate()
    manager.expect(b"STOPPING=1")
    expect("the exit status", process.wait(servers.END_SECONDS), 0)
    checked = PROCESSES.run([root / "bin/davd", "--check", target], 30)
    expect(f"the check of the backup ({checked.stdout})", checked.returncode, 0)


@GROUP.check("server/run builds davserve, and serves with its options", seconds=MAKE_SECONDS)
def runs(starter: Starter):
    if not (TOP / "crates/davd/out/davd").is_file():
        raise Skipped("server/run would compile davd first")
    port, log = servers.free_port(), starter.folder / "log"
    with log.open("wb") as file:
        process = PROCESSES.start([TOP / "server/run", "-listen", f"127.0.0.1:{port}", "-prefix", "/dav"], stdout=file, stderr=file)
    while "serving WebDAV" not in log.read_text():
        expect(f"the exit status ({log.read_text()})", process.poll(), None)
        time.sleep(0.1)
    ask(port, "PUT", "/dav/a", 201, b"run")
    process.terminate()
    expect("the exit status", process.wait(servers.END_SECONDS), 0)


@GROUP.check("man and mandoc have nothing to say of the manual pages")
def pages(starter: Starter):
    root = installed(starter)
    for name in ("davserve.1", "davd.1"):
        page = root / "share/man/man1" / name
        words = ["man", "--warnings", "-E", "UTF-8", "-l", "-Tutf8", "-Z", page]
        program(words, root, name, lambda ran: ran.returncode == 0 and "warning" not in ran.stdout)
        if shutil.which("mandoc"):
            program(["mandoc", "-Tlint", "-W", "warning", page], root, name, lambda ran: not ran.stdout.strip())


@GROUP.check("systemd reads the unit")
def unit(starter: Starter):
    root = installed(starter)
    file = root / "lib/systemd/system/davserve.service"
    program(["systemd-analyze", "verify", file], root, "the unit", lambda ran: "davserve.service" not in ran.stdout)

"""A folder whose last time is another one than that of the machine: the start is refused, or its locks end in time."""
import email.utils
import pathlib
import subprocess
import sys
import time

sys.path.insert(0, str(pathlib.Path(__file__).resolve().parents[2] / "tools"))

import frames
from harness import Group, Starter
from import_export import run, said
from kept import LOCK, start
from server import PROCESSES, Server, expect

GROUP = Group("a folder of another time", is_shared=False)
GROUPS = [GROUP]

HOUR, YEAR = 3600, 365 * 86400
ALLOWED = ("-max-clock-change", "876000h")  # a hundred years


def make(starter: Starter, away: int):
    """Makes a folder with a file, whose last time is so many seconds after that of the machine."""
    folder = starter.folder / "kept"
    folder.mkdir()
    put = frames.encode_frame(frames.Request(b"PUT", "/old", token="urn:one", body=b"old"))
    batch = frames.encode_batch(1, int(time.time()) + away, [put])
    ran = subprocess.run([starter.programs.davd, folder], input=batch, stdout=subprocess.PIPE, timeout=30, check=True)
    expect("the status of the batch", int.from_bytes(ran.stdout[8:16], "big"), 200)


def modified(server: Server, path: str) -> float:
    """How far the time of a file is after that of the machine, in seconds."""
    found = server.ask("GET", path, status=200).field("last-modified")
    return email.utils.parsedate_to_datetime(found).timestamp() - time.time()


def locks_end(server: Server, path: str = "/new"):
    """A lock of two seconds keeps others out, and has ended after three."""
    server.ask("PUT", path, b"new", status=201)
    server.ask("LOCK", path, LOCK, {"Timeout": "Second-2"}, status=200)
    server.ask("PUT", path, b"newer", status=423)
    time.sleep(3.2)
    server.ask("PUT", path, b"newer", status=204)


def refused(starter: Starter, *flags):
    """The server does not start, and says why."""
    words = ["-listen", "127.0.0.1:0", "-davd", starter.programs.davd, "-folder", starter.folder / "kept", *flags]
    ran = PROCESSES.run([starter.programs.race, *words], seconds=30)
    expect(f"the exit status, with\n{ran.stdout}", ran.returncode, 1)
    said(ran.stdout, "the clock of the machine shows", "-max-clock-change")


def is_near(what: str, found: float, wanted: float):
    expect(f"{what} is {found:.1f} s after the time of the machine, which is near {wanted}", abs(found - wanted) < 30, True)


@GROUP.check("one that is fifty years ahead is refused, unless -max-clock-change allows it: then its locks end")
def ahead(starter: Starter):
    make(starter, 50 * YEAR)
    refused(starter)
    run(starter, "import", "kept", starter.folder, status=1)
    run(starter, "export", "kept", starter.folder / "copy")
    expect("the file that was exported", (starter.folder / "copy" / "old").read_bytes(), b"old")
    server = start(starter, *ALLOWED)
    locks_end(server)
    is_near("a new file", modified(server, "/new"), 50 * YEAR)
    said(server.log(), "behind the last change in the folder")


@GROUP.check("one that is an hour ahead goes on from there: its locks end, and the log says so")
def an_hour(starter: Starter):
    make(starter, HOUR)
    server = start(starter)
    locks_end(server)
    is_near("a new file", modified(server, "/new"), HOUR)
    said(server.log(), "behind the last change in the folder", "three seconds a minute")
    server.stop()
    locks_end(start(starter), "/again")


@GROUP.check("one that was not changed for eleven years is refused, unless -max-clock-change allows it: then the time is that of the machine")
def behind(starter: Starter):
    make(starter, -11 * YEAR)
    refused(starter)
    server = start(starter, *ALLOWED)
    locks_end(server)
    is_near("a new file", modified(server, "/new"), 0)
    said(server.log(), "the last change in the folder was 4015 days ago")
    server.stop()
    locks_end(start(starter), "/again")

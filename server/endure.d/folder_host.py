"""Starts davserve over a folder, kills it and davd, and says what was seen if something is wrong."""
import os
import pathlib
import shutil
import signal
import time

import endure_host
import endure_watch
import server
from connection import Wrong
from server import Server

LOG_SHOWN = 3000
END_SECONDS = 20
CHECK_SECONDS = 60
BACK_SECONDS = 60
LOCK = "2h"
SERVES = "serving WebDAV at"


class Place:
    """The programs, and the folder in which a run has all its files."""

    def __init__(self, programs: endure_host.Programs, folder: pathlib.Path):
        server.PORTS[:] = endure_host.PORTS
        self.programs = programs
        self.folder = folder

    def part(self, name: str) -> pathlib.Path:
        """A folder for a part of the run."""
        part = self.folder / name
        part.mkdir()
        return part

    def start(self, folder: pathlib.Path, davd: pathlib.Path | None = None, is_awaited=True, flags=()) -> Server:
        """Starts davserve over the folder `kept` of this folder. Its log is a file of the run."""
        plain = self.programs.davserve
        programs = server.Programs(plain, plain, self.programs.davd, [], self.folder)
        all_flags = ("-folder", folder / "kept", "-max-lock", LOCK, *flags)
        host = Server(programs, self.folder, all_flags, True, davd=davd, is_awaited=False)
        if is_port_taken(host):
            return self.start(folder, davd, is_awaited, flags)
        if is_awaited:
            host.await_health()
        return host


def check(place: Place, folder: pathlib.Path) -> list[str]:
    """What `davd --check` says of the damage in the folder `kept` of this folder, which nobody uses."""
    command = [place.programs.davd, "--check", folder / "kept"]
    checked = server.PROCESSES.run(command, seconds=CHECK_SECONDS)
    lines = checked.stdout.splitlines()
    if checked.returncode not in (0, 1) or not lines:
        raise Wrong(f"davd --check ends with status {checked.returncode}\n{checked.stdout}")
    return [it for it in lines if it.startswith("damaged: ")]


def is_port_taken(host: Server) -> bool:
    """Waits until davserve serves or has ended. Another program may have taken its port."""
    end = time.monotonic() + BACK_SECONDS
    while SERVES not in host.log() and host.is_running() and time.monotonic() < end:
        time.sleep(0.01)
    return not host.is_running() and "address already in use" in host.log()


def davd_of(host: Server) -> int | None:
    return endure_watch.child_of(host.process.pid)


def kill_davd(host: Server) -> bool:
    """Kills davd, if there is one, and waits until it has ended."""
    child = davd_of(host)
    if child:
        kill(child)
        await_end(child)
    return bool(child)


def kill_next_davd(host: Server, seconds: float) -> bool:
    """Kills the davd that follows one that was killed, so many seconds after its start."""
    end = time.monotonic() + END_SECONDS
    while not (child := davd_of(host)) or not is_alive(child):
        if time.monotonic() > end:
            return False
        time.sleep(0.001)
    time.sleep(seconds)
    kill(child)
    return True


def kill(process: int):
    try:
        os.kill(process, signal.SIGKILL)
    except ProcessLookupError:
        pass


def kill_both(host: Server, is_davd_first: bool):
    """Kills davserve and davd, and waits until both have ended."""
    os.kill(host.process.pid, signal.SIGSTOP)  # It starts no other davd meanwhile.
    child = davd_of(host)
    if child and is_davd_first:
        kill(child)
    server.PROCESSES.end(host.process)
    if child:
        kill(child)
        await_end(child)


def await_end(process: int):
    end = time.monotonic() + END_SECONDS
    while is_alive(process):
        if time.monotonic() > end:
            raise Wrong(f"the process {process} does not end after SIGKILL")
        time.sleep(0.005)


def is_alive(process: int) -> bool:
    """Whether a process runs. One that has ended and is not yet waited for does not."""
    try:
        return pathlib.Path(f"/proc/{process}/stat").read_text().rpartition(")")[2].split()[0] != "Z"
    except (FileNotFoundError, ProcessLookupError):
        return False


def refusal(host: Server, seconds: float = BACK_SECONDS) -> str | None:
    """Waits until davserve serves, and returns `None`, or until it refuses the folder, and returns why."""
    end = time.monotonic() + seconds
    while host.health() != 200:
        if (status := host.process.poll()) is not None:
            return refusal_in(host, status)
        if time.monotonic() > end:
            raise Wrong(f"davserve neither serves nor ends within {seconds} s:\n{tail(host)}")
        time.sleep(0.02)
    return None


def refusal_in(host: Server, status: int) -> str:
    """Why davserve refused the folder: exit status 1, and a line that says so."""
    lines = [it for it in host.log().splitlines() if "cannot serve the folder" in it]
    if status != 1 or not lines:
        raise Wrong(f"expected exit status 1 and why the folder is refused, got {status}:\n{tail(host)}")
    return lines[-1].rpartition(": ")[2]


def tail(host: Server) -> str:
    return host.log()[-LOG_SHOWN:]


def copy(folder: pathlib.Path, target: pathlib.Path):
    """Copies what is kept, without the socket of a host that was killed."""
    shutil.rmtree(target, ignore_errors=True)
    shutil.copytree(folder, target, ignore=shutil.ignore_patterns("control"))

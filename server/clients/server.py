"""Starts davserve and other programs, and ends them."""
import contextlib
import os
import pathlib
import random
import re
import signal
import socket
import subprocess
import time
import typing

from connection import SECONDS, Answer, Connection, Wrong

ALL_PORTS = range(18100, 18200)
START_SECONDS = 20
END_SECONDS = 20
BAD_IN_LOG = re.compile(r"WARNING: DATA RACE|^panic:|^fatal error:|^goroutine \d+ |http: panic|superfluous", re.M)


class Programs(typing.NamedTuple):
    """What a check starts. `race` is davserve with the race detector."""

    davserve: pathlib.Path
    race: pathlib.Path
    davd: pathlib.Path
    certificate: list[str]  # the flags that name it
    folder: pathlib.Path


class Processes:
    """The processes that run. Each leads a group of its own."""

    def __init__(self):
        self.running: list[subprocess.Popen] = []

    def start(self, command: list, **options) -> subprocess.Popen:
        words = [str(it) for it in command]
        process = subprocess.Popen(words, start_new_session=True, **{"stdin": subprocess.DEVNULL, **options})
        self.running.append(process)
        return process

    def end(self, process: subprocess.Popen):
        """Kills what is left of a process and its group."""
        try:
            os.killpg(process.pid, signal.SIGKILL)
        except ProcessLookupError:
            pass
        process.wait()
        if process in self.running:
            self.running.remove(process)

    def end_all(self):
        for process in list(self.running):
            self.end(process)

    def run(self, command: list, seconds: float, **options) -> subprocess.CompletedProcess:
        """Runs a program to its end and returns what it printed. Its status is `None` if it does not end in time."""
        process = self.start(command, stdout=subprocess.PIPE, stderr=subprocess.STDOUT, **options)
        try:
            printed, _ = process.communicate(timeout=seconds)
            status = process.returncode
        except subprocess.TimeoutExpired:
            os.killpg(process.pid, signal.SIGKILL)
            printed, status = process.communicate()[0], None
        finally:
            self.end(process)
        return subprocess.CompletedProcess(command, status, printed.decode(errors="replace"))


PROCESSES = Processes()
PORTS = list(ALL_PORTS)  # A process that runs checks beside others has a part of them.


def free_port(ports=PORTS) -> int:
    """A port of some on which nothing listens."""
    for port in random.sample(ports, len(ports)):
        with socket.socket() as probe:
            probe.setsockopt(socket.SOL_SOCKET, socket.SO_REUSEADDR, 1)
            try:
                probe.bind(("0.0.0.0", port))
                return port
            except OSError:
                pass
    raise Wrong(f"no free port of {len(ports)} from {min(ports)} on")


class Server:
    """A davserve on loopback that answers."""

    def __init__(self, programs: Programs, files: pathlib.Path, flags, is_measured: bool, davd=None, host="127.0.0.1",
                 is_awaited=True, variables=()):
        self.programs = programs
        self.files = files  # a folder for what the checks need on disk
        self.flags = [str(it) for it in flags]
        self.port = free_port()
        self.is_tls = "-cert" in self.flags or "-tls-self-signed" in self.flags
        self.prefix = self.flags[self.flags.index("-prefix") + 1] if "-prefix" in self.flags else ""
        self.notes: dict = {}
        self.folders = 0
        self.log_file = files / f"log-{self.port}-{time.monotonic_ns()}"
        program = programs.davserve if is_measured else programs.race
        command = [program, "-listen", f"{host}:{self.port}", "-davd", davd or programs.davd, *self.flags]
        environment = {**os.environ, "GORACE": "halt_on_error=0", **dict(variables)}
        with self.log_file.open("wb") as log:
            self.process = PROCESSES.start(command, stdout=log, stderr=log, env=environment)
        if is_awaited:
            self.await_health()

    # ---- how it runs

    def health(self) -> int | None:
        try:
            return self.ask("GET", "/-/health", seconds=3).status
        except (OSError, Wrong):
            return None

    def await_health(self, wanted: int = 200, seconds: float = START_SECONDS):
        """Waits for a status of /-/health."""
        end = time.monotonic() + seconds
        while (got := self.health()) != wanted:
            if self.process.poll() is not None:
                raise Wrong(f"davserve ended with status {self.process.returncode}")
            if time.monotonic() > end:
                raise Wrong(f"expected {wanted} of /-/health within {seconds} s, got {got}")
            time.sleep(0.05)

    def is_running(self) -> bool:
        return self.process.poll() is None

    def log(self, start: int = 0) -> str:
        """The log from a place on."""
        return self.log_file.read_bytes()[start:].decode(errors="replace")

    def log_length(self) -> int:
        return self.log_file.stat().st_size

    def terminate(self):
        self.process.send_signal(signal.SIGTERM)

    def ended(self, seconds: float = END_SECONDS) -> int | None:
        """The exit status, or `None` if it does not end in time."""
        try:
            return self.process.wait(seconds)
        except subprocess.TimeoutExpired:
            return None

    def stop(self):
        """Ends it as an operator does, and raises `Wrong` if it does not end well."""
        try:
            self.terminate()
            status = self.ended()
            self.check_log()
            if status != 0:
                raise Wrong(f"expected exit status 0 within {END_SECONDS} s of SIGTERM, got {status}")
        finally:
            self.kill()

    def check_log(self):
        if found := BAD_IN_LOG.search(self.log()):
            raise Wrong(f"{found[0]} in the log:\n{self.log(max(0, found.start() - 200))[:3000]}")

    def kill(self):
        """Kills it, and davd, which is in a process group of its own."""
        child = self.davd() if self.is_running() else None
        PROCESSES.end(self.process)
        if child:
            with contextlib.suppress(ProcessLookupError):
                os.kill(child, signal.SIGKILL)

    def resident(self) -> int:
        """The greatest resident memory so far, in bytes."""
        return memory_of(self.process.pid, "VmHWM")

    def davd(self) -> int | None:
        """The process of davd, or `None` if there is none."""
        children = pathlib.Path(f"/proc/{self.process.pid}/task").glob("*/children")
        found = [int(it) for file in children for it in file.read_text().split()]
        return found[0] if found else None

    # ---- requests

    def connect(self, **options) -> Connection:
        return Connection(self.port, tls=self.is_tls, **options)

    def ask(self, method: str, path: str, body: bytes | None = None, fields=(), status=None, seconds=SECONDS) -> Answer:
        """Sends a request on a connection of its own. `status` is what must come: a status or several."""
        with self.connect(seconds=seconds) as connection:
            connection.request(method, path, body, fields)
            answer = connection.answer(method)
        return expected(answer, status, f"{method} {path}", fields)

    def url(self, path: str = "/") -> str:
        return f"http{'s' if self.is_tls else ''}://127.0.0.1:{self.port}{path}"

    def folder(self, fields=()) -> str:
        """Makes a collection for one check, and returns its path with a trailing slash."""
        self.folders += 1
        path = f"{self.prefix}/check-{self.folders}/"
        self.ask("MKCOL", path, None, fields, 201)
        return path


def expected(answer: Answer, status, request: str, fields=()) -> Answer:
    """Raises `Wrong` if the answer has not one of the statuses."""
    wanted = (status,) if isinstance(status, int) else status
    if wanted and answer.status not in wanted:
        pairs = fields.items() if isinstance(fields, dict) else fields
        sent = "".join(f"\n    {key}: {value}" for key, value in pairs)
        raise Wrong(f"{request}{sent}\n  expected {' or '.join(map(str, wanted))}, got {answer}")
    return answer


def expect(what: str, got, wanted):
    """Raises `Wrong` if a value is not the one that must come."""
    if got != wanted:
        raise Wrong(f"{what}: expected {short(wanted)}, got {short(got)}")


def short(value) -> str:
    text = repr(value)
    return text if len(text) <= 600 else f"{text[:500]}.. ({len(text)} characters)"


def memory_of(process: int, what: str = "VmRSS") -> int:
    """The memory of a process in bytes."""
    text = pathlib.Path(f"/proc/{process}/status").read_text()
    return int(re.search(rf"^{what}:\s+(\d+) kB", text, re.M)[1]) * 1024

"""Starts davserve, with users."""
import crypt
import dataclasses
import os
import pathlib
import signal
import subprocess
import time
import typing

import endure_watch
from connection import Wrong
from endure_client import Client
from server import PROCESSES, free_port

PORTS = range(18300, 18400)
START_SECONDS = 30
END_SECONDS = 60
RACE = "WARNING: DATA RACE"


class Programs(typing.NamedTuple):
    davserve: pathlib.Path
    davd: pathlib.Path

    def has_race_detector(self) -> bool:
        return "-race=true" in PROCESSES.run(["go", "version", "-m", self.davserve], 20).stdout


@dataclasses.dataclass
class Host:
    """The davserve that runs, and its log once it is read."""

    process: subprocess.Popen
    port: int
    log: endure_watch.Log | None = None

    def is_healthy(self) -> bool:
        try:
            return Client(self.port, "", "").ask("GET", "/-/health").status == 200
        except (OSError, Wrong):
            return False

    def await_health(self):
        end = time.monotonic() + START_SECONDS
        while not self.is_healthy():
            self.expect_running()
            if time.monotonic() > end:
                raise Wrong("davserve does not answer")
            time.sleep(0.1)

    def expect_running(self):
        if self.process.poll() is not None:
            said = "\n".join(self.log.last) if self.log else self.process.stderr.read(4000).decode(errors="replace")
            raise Wrong(f"davserve ended with status {self.process.returncode}:\n{said[-3000:]}")

    def kill_davd(self):
        """Kills davd, and waits until davserve has started another."""
        davd = endure_watch.child_of(self.process.pid)
        if not davd:
            raise Wrong("davserve has no davd")
        os.kill(davd, signal.SIGKILL)
        time.sleep(0.1)
        self.await_health()

    # ---- the end

    def end(self):
        """Ends it as an operator does. Raises `Wrong` if it does not end well."""
        self.process.terminate()
        try:
            status = self.process.wait(END_SECONDS)
        except subprocess.TimeoutExpired:
            raise Wrong(f"davserve does not end within {END_SECONDS} s of SIGTERM") from None
        if status:
            raise Wrong(f"davserve ends with status {status} after SIGTERM")

    def check_panics(self) -> str:
        self.log.thread.join(END_SECONDS)
        if self.log.bad and RACE not in self.log.bad[0]:
            raise Wrong("\n".join(self.log.bad))
        return f"{self.log.lines:,} lines"

    def check_races(self):
        self.log.thread.join(END_SECONDS)
        if any(RACE in it for it in self.log.bad):
            raise Wrong("\n".join(self.log.bad))


def start(programs: Programs, accounts: list[tuple[str, str]], folder: pathlib.Path) -> Host:
    """Starts davserve with these users and passwords, and waits until it answers."""
    users = folder / "users"
    salt = crypt.mksalt(crypt.METHOD_BLOWFISH, rounds=1 << 5)
    users.write_text("".join(f"{name}:{crypt.crypt(password, salt)}\n" for name, password in accounts))
    port = free_port(PORTS)
    command = [programs.davserve, "-listen", f"127.0.0.1:{port}", "-davd", programs.davd, "-users", users]
    environment = {**os.environ, "GORACE": "halt_on_error=0"}
    process = PROCESSES.start(command, stdout=subprocess.DEVNULL, stderr=subprocess.PIPE, env=environment)
    host = Host(process, port)
    host.await_health()
    return host

"""Checks, the groups that they form, and how they are run, counted and shown."""
import contextlib
import pathlib
import shutil
import signal
import time
import typing

from connection import Wrong
from server import PROCESSES, Programs, Server

CHECK_SECONDS = 60
LOG_SHOWN = 6000


class Skipped(Exception):
    """A check cannot be tried. The message says why."""


class TooLong(Exception):
    """A check does not end in time."""


class Check(typing.NamedTuple):
    name: str
    run: typing.Callable
    seconds: float = CHECK_SECONDS


class Group:
    """Checks that share one server, which is started with these flags. They are run in order.

    In a flag `{folder}` is a folder of the group, and `{file}` for each of `files` the path of a file with its content.
    With `needs` the checks are skipped unless that program is installed. With `is_measured` the server is built without
    the race detector. If `is_shared` is false there is no server, and each check is passed a `Starter`.
    """

    def __init__(self, name: str, *flags, files=None, needs=None, is_measured=False, is_shared=True):
        self.name = name
        self.flags = flags
        self.files: dict[str, str] = files or {}
        self.needs: str | None = needs
        self.is_measured = is_measured
        self.is_shared = is_shared
        self.checks: list[Check] = []

    def add(self, name: str, run: typing.Callable, *arguments, seconds=CHECK_SECONDS):
        """Adds a check that calls `run` with the server and the arguments."""
        self.checks.append(Check(name, lambda given: run(given, *arguments), seconds))

    def check(self, name: str, seconds=CHECK_SECONDS):
        """Makes the function below a check."""

        def added(run):
            self.checks.append(Check(name, run, seconds))
            return run

        return added


class Starter:
    """What starts the servers of a check that has its own. They are ended after it."""

    def __init__(self, programs: Programs, group: Group):
        self.programs = programs
        self.group = group
        self.servers: list[Server] = []
        self.folder = programs.folder / f"{group.name.replace(' ', '-')}-{time.monotonic_ns()}"
        self.folder.mkdir()
        for name, content in group.files.items():
            self.write(name, content)

    def write(self, name: str, content: str) -> pathlib.Path:
        file = self.folder / name
        file.write_text(content)
        return file

    def filled(self, flags) -> list[str]:
        """Flags with the names of the folder and the files in place of {..}."""
        names = {"folder": self.folder, **{it.partition(".")[0]: self.folder / it for it in self.group.files}}
        return [word for it in flags for word in (self.programs.certificate if it == "{tls}" else [it.format(**names)])]

    def start(self, *flags, **options) -> Server:
        server = Server(self.programs, self.folder, self.filled(flags), self.group.is_measured, **options)
        self.servers.append(server)
        return server

    def log(self) -> str:
        return "\n".join(it.log() for it in self.servers)

    def end(self):
        """Kills the servers, and raises `Wrong` if a log shows a race or a panic."""
        for server in self.servers:
            server.kill()
        for server in self.servers:
            server.check_log()


@contextlib.contextmanager
def at_most(seconds: float):
    """Raises `TooLong` after so many seconds."""

    def stop(*_):
        raise TooLong(f"it took more than {seconds} s")

    signal.signal(signal.SIGALRM, stop)
    signal.setitimer(signal.ITIMER_REAL, seconds)
    try:
        yield
    finally:
        signal.setitimer(signal.ITIMER_REAL, 0)


class Run:
    """The run of the checks whose names have a word."""

    def __init__(self, word: str):
        self.word = word
        self.passed = self.failed = self.skipped = 0

    def is_wanted(self, name: str) -> bool:
        return self.word.lower() in name.lower()

    def pass_(self, name: str, seconds: float = 0):
        self.passed += 1
        print(f"passed   {name}" + (f" ({seconds:.1f} s)" if seconds >= 1 else ""), flush=True)

    def fail(self, name: str, message: str, log: str = ""):
        self.failed += 1
        shown = f"\n  the log of the server:\n{log[-LOG_SHOWN:]}" if log else ""
        print(f"FAILED   {name}: {message}{shown}".replace("\n", "\n    "), flush=True)

    def skip(self, name: str, message: str):
        self.skipped += 1
        print(f"skipped  {name}: {message}", flush=True)

    def note(self, text: str):
        print(f"         {text}", flush=True)

    def group(self, group: Group, programs: Programs):
        """Runs the wanted checks of a group. If they share a server, one may need those before it: all are run."""
        checks = [it for it in group.checks if self.is_wanted(f"{group.name}: {it.name}")]
        if not checks:
            return
        if group.needs and not shutil.which(group.needs):
            self.skip(group.name, f"{group.needs} is not installed")
            return
        if group.is_shared:
            self.shared(group, programs)
            return
        for check in checks:
            self.alone(group, check, programs)

    def shared(self, group: Group, programs: Programs):
        starter = Starter(programs, group)
        try:
            server = starter.start(*group.flags)
        except Wrong as wrong:
            self.fail(f"{group.name}: the start", f"{wrong} (flags {group.flags})", starter.log())
            starter.end()
            return
        for check in group.checks:
            start = server.log_length()
            self.try_(f"{group.name}: {check.name}", check, server, lambda start=start: server.log(start))
        ends = Check("no race or panic in the log, and status 0 after SIGTERM", lambda it: it.stop())
        self.try_(f"{group.name}: {ends.name}", ends, server, server.log)

    def alone(self, group: Group, check: Check, programs: Programs):
        starter = Starter(programs, group)

        def run(given):
            try:
                return check.run(given)
            finally:
                given.end()

        self.try_(f"{group.name}: {check.name}", Check(check.name, run, check.seconds), starter, starter.log)

    def try_(self, name: str, check: Check, given, log: typing.Callable):
        began = time.monotonic()
        try:
            with at_most(check.seconds):
                note = check.run(given)
        except Skipped as reason:
            self.skip(name, str(reason))
        except (Wrong, TooLong) as wrong:
            self.fail(name, str(wrong), log())
        except Exception as error:  # A check that itself fails must not hide the others.
            place = error.__traceback__
            while place.tb_next:
                place = place.tb_next
            file = pathlib.Path(place.tb_frame.f_code.co_filename).name
            self.fail(name, f"{type(error).__name__}: {error} ({file}:{place.tb_lineno})", log())
        else:
            self.pass_(name, time.monotonic() - began)
            if isinstance(note, str):
                self.note(note)


def end_all():
    PROCESSES.end_all()

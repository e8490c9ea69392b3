"""What makes a backup: `davserve backup`, and a client of its socket that reads as slowly as a check wants."""
import contextlib
import http.client
import json
import pathlib
import socket
import subprocess
import tarfile
import threading
import time

from connection import Cut, Wrong
from harness import Starter
from server import PROCESSES, Server, expect

SECONDS = 20
FILES = {"meta.db", "meta.db-wal", "last", "last-wal", "data"}
"""The files of a backup, of which a database that is whole may lack its log."""


def socket_of(starter: Starter) -> pathlib.Path:
    return starter.folder / "kept/control"


def command(starter: Starter, *words) -> list:
    return [starter.programs.race, "backup", *words]


def run(starter: Starter, target: pathlib.Path, *words) -> subprocess.CompletedProcess:
    """Runs `davserve backup` on the folder `kept`, or on what the words name."""
    return PROCESSES.run(command(starter, *(words or ("-folder", starter.folder / "kept")), target), SECONDS)


def succeed(starter: Starter, target: pathlib.Path, *words) -> str:
    """Makes a backup, and returns what is printed."""
    ran = run(starter, target, *words)
    if ran.returncode != 0:
        raise Wrong(f"expected a backup, got status {ran.returncode}: {ran.stdout}")
    return ran.stdout


def fail(starter: Starter, target: pathlib.Path, *wanted: str, words=()):
    """Makes no backup, because of what the message must have."""
    ran = run(starter, target, *words)
    expect(f"the exit status, with {ran.stdout}", ran.returncode, 1)
    check_message(ran.stdout, *wanted)


def check_message(text: str, *wanted: str):
    for want in wanted:
        if want not in text:
            raise Wrong(f"expected a message with {want!r}, got {text!r}")


class Stream:
    """A backup that is read from the socket."""

    def __init__(self, path: pathlib.Path, method="POST"):
        self.connection = http.client.HTTPConnection("davserve", timeout=SECONDS)
        self.connection.sock = socket.socket(socket.AF_UNIX)
        self.connection.sock.settimeout(SECONDS)
        self.connection.sock.connect(str(path))
        self.connection.request(method, "/backup")
        self.response = self.connection.getresponse()
        self.received = 0

    def close(self):
        self.response.close()
        self.connection.close()

    def read(self, count: int) -> bytes:
        """Reads so many bytes, fewer at the end. Raises `Cut` if the archive is broken off."""
        pieces = []
        while count > 0:
            try:
                piece = self.response.read(min(count, 1 << 16))
            except (http.client.IncompleteRead, ConnectionError) as error:
                raise Cut(f"{self.received} bytes came of a backup: {error}") from None
            if not piece:
                break
            pieces.append(piece)
            count -= len(piece)
            self.received += len(piece)
        return b"".join(pieces)

    def save(self, file: pathlib.Path, is_enough=lambda: True, seconds: float = 12):
        """Reads it to the end, slowly until it is enough, or until so many seconds are over."""
        end = time.monotonic() + seconds
        with file.open("wb") as written:
            while not is_enough() and time.monotonic() < end:
                written.write(self.read(1 << 18))
                time.sleep(0.1)
            while piece := self.read(1 << 20):
                written.write(piece)
        self.close()


class Gate(threading.Thread):
    """A socket that passes on what arrives to another, and of the first response only a part until it is opened."""

    PART = 1 << 20

    def __init__(self, path: pathlib.Path, beyond: pathlib.Path):
        super().__init__(daemon=True)
        self.beyond = beyond
        self.opened = threading.Event()
        self.listener = socket.socket(socket.AF_UNIX)
        self.listener.bind(str(path))
        self.listener.listen()
        self.start()

    def run(self):
        left = self.PART
        while True:
            near, _ = self.listener.accept()
            far = socket.socket(socket.AF_UNIX)
            try:
                far.connect(str(self.beyond))
            except OSError:
                near.close()
                continue
            threading.Thread(target=self.pump, args=(near, far, 0), daemon=True).start()
            threading.Thread(target=self.pump, args=(far, near, left), daemon=True).start()
            left = 0

    def pump(self, source: socket.socket, to: socket.socket, least: int):
        """Passes bytes on until an end. With `least` it waits after so many."""
        try:
            while piece := source.recv(1 << 16):
                to.sendall(piece)
                least -= len(piece)
                if least <= 0 < least + len(piece):
                    self.opened.wait(SECONDS)
        except OSError:
            pass
        for it in (source, to):
            with contextlib.suppress(OSError):
                it.shutdown(socket.SHUT_RDWR)


def state(path: pathlib.Path) -> dict:
    """The state of the last backup."""
    asked = Stream(path, "GET")
    found = json.loads(asked.response.read())
    asked.close()
    return found


def await_state(path: pathlib.Path, wanted: str, seconds: float = 5) -> dict:
    end = time.monotonic() + seconds
    while (found := state(path))["state"] != wanted:
        if time.monotonic() > end:
            raise Wrong(f"expected that the last backup is {wanted}, got {found}")
        time.sleep(0.01)
    return found


def unpack(archive: pathlib.Path, folder: pathlib.Path):
    """Unpacks an archive, which has the files of a backup and no other."""
    with tarfile.open(archive) as opened:
        names = opened.getnames()
        if set(names) | {"meta.db-wal"} != FILES or names[-1] != "data":
            raise Wrong(f"expected the files of a backup with data as the last, got {names}")
        folder.mkdir()
        opened.extractall(folder)


def serve(starter: Starter, target: pathlib.Path) -> Server:
    """Serves a backup."""
    return starter.start("-folder", str(target).replace(str(starter.folder), "{folder}"))

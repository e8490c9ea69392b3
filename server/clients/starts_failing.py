"""A folder when a call on one of its files fails, or when davd is killed there: while it is opened, and when its number is written."""
import contextlib
import errno
import os
import pathlib
import shutil
import subprocess
import tarfile
import time

import folder_shim
from connection import Wrong
from harness import Group, Starter
from kept import start
from server import PROCESSES, expect
from starts import NO_STORE, OLD, REST, SIZES, counted

GROUP = Group("a folder whose calls fail", is_shared=False)
GROUPS = [GROUP]

CALLS = ("pwrite", "fsync", "fdatasync", "ftruncate")
"""The calls that change a file, or bring it to the disk."""

MOST_CALLS = 100
"""No start over such a folder makes more of one kind."""


def serve_nothing(starter: Starter, folder: pathlib.Path, **variables) -> int:
    """Runs davd over a folder until the end of an empty input, and returns its exit status."""
    known = {name: str(value) for name, value in variables.items()}
    command = [starter.programs.davd, folder]
    return PROCESSES.run(command, seconds=30, stdin=subprocess.DEVNULL, env=os.environ | known).returncode


def new(folder: pathlib.Path):
    """Leaves no folder."""
    shutil.rmtree(folder, ignore_errors=True)


def version_1(folder: pathlib.Path):
    """Leaves a folder of version 1."""
    new(folder)
    with tarfile.open(OLD) as archive:
        archive.extractall(folder)


def version_1_without_number(folder: pathlib.Path):
    """Leaves a folder of version 1 without the files of the number."""
    version_1(folder)
    for name in ("last", "last-wal"):
        (folder / name).unlink()


def each_call(starter: Starter, make, how):
    """Opens a folder, once for each call that fails in this way; the next start finds no fault."""
    folder, shim = starter.folder / "kept", folder_shim.compile_shim(starter.folder)
    failed = 0
    for call in CALLS:
        for number in range(1, MOST_CALLS):
            make(folder)
            variables = {"FAIL_FOLDER": folder, "FAIL_CALL": call, "FAIL_HOW": how, "FAIL_AT": number}
            if serve_nothing(starter, folder, LD_PRELOAD=shim, **variables) == 0:
                break
            failed += 1
            checked(starter, folder, f"the check after {call} {number}")
            expect(f"the next start after {call} {number}", serve_nothing(starter, folder), 0)
        else:
            raise Wrong(f"a start has {MOST_CALLS} calls of {call} or more")
    expect("whether calls failed", failed > 20, True)


def checked(starter: Starter, folder: pathlib.Path, what: str):
    """A check finds the store whole, or none in a new folder, as the next start does."""
    ended = PROCESSES.run([starter.programs.davd, "--check", folder], seconds=30)
    if ended.returncode != 0:
        expect(what, (ended.returncode, ended.stdout), (4, NO_STORE))


FOLDERS = (("a new folder", new), ("a folder of version 1", version_1), ("a folder of version 1 without a number", version_1_without_number))

for what, make in FOLDERS:
    for way, how in (("fails", errno.EIO), ("is the last one before a kill", "kill")):
        GROUP.add(f"{what} is served after a start of which any call {way}", each_call, make, how)


@GROUP.check("a folder of version 1 has all its files after a start that was killed at one of its syncs")
def upgraded(starter: Starter):
    folder, shim = starter.folder / "kept", folder_shim.compile_shim(starter.folder)
    for number in range(1, 20, 3):
        version_1_without_number(folder)
        serve_nothing(starter, folder, LD_PRELOAD=shim, FAIL_FOLDER=folder, FAIL_CALL="fdatasync", FAIL_HOW="kill", FAIL_AT=number)
        server = start(starter)
        for path, size in SIZES:
            expect(path, server.ask("GET", path, status=200).body, counted(size))
        server.stop()


@GROUP.check("a write beyond the greatest length of a file fails, and does not end davd")
def too_long(starter: Starter):
    program = starter.write("davd", f"#!/bin/sh\nulimit -f 2000\nexec '{starter.programs.davd}' \"$@\"\n")
    program.chmod(0o755)
    server = start(starter, davd=program)
    before = server.davd()
    server.ask("PUT", "/long", b"x" * 3_000_000, status=(500, 507))
    server.ask("GET", "/", status=200)
    expect("the process of davd", server.davd(), before)
    server.stop()


def failing(starter: Starter, call: str) -> pathlib.Path:
    """A davd of which this call on the files of the number fails once, when there is a file `when`."""
    shim, folder = folder_shim.compile_shim(starter.folder), starter.folder
    known = {
        "LD_PRELOAD": shim, "FAIL_FOLDER": folder / "kept" / "last", "FAIL_CALL": call, "FAIL_HOW": errno.EIO, "FAIL_AT": 1,
        "FAIL_WHEN": folder / "when", "FAIL_NOTE": folder / "note",
    }
    words = " ".join(f"'{name}={value}'" for name, value in known.items())
    program = starter.write("davd", f"#!/bin/sh\nexec env {words} '{starter.programs.davd}' \"$@\"\n")
    program.chmod(0o755)
    return program


def number_fails(starter: Starter, call: str):
    server = start(starter, davd=failing(starter, call))
    server.ask("PUT", "/before", b"before", status=201)
    (starter.folder / "when").touch()
    if call == "pwrite":
        with contextlib.suppress(Wrong):
            server.ask("PUT", "/meanwhile", b"meanwhile")
    time.sleep(REST)
    server.await_health()
    expect("what the log says", "everything is kept, but the number of the last batch" in server.log(), True)
    server.ask("PUT", "/after", b"after", status=201)
    server.ask("GET", "/before", status=200)
    server.ask("GET", "/meanwhile", status=200 if call == "pwrite" else 404)
    server.stop()


for call in ("pwrite", "fdatasync"):
    GROUP.add(f"a number whose {call} fails ends davd, the next one has all that was kept, and the log says it", number_fails, call)

"""Starts and checks of a folder of which a file is missing, empty, cut or damaged: each says what is wrong, and changes nothing."""
import contextlib
import hashlib
import os
import pathlib
import random
import shutil
import signal
import sqlite3
import subprocess
import tarfile
import time

import backup_client
from harness import Group, Starter
from kept import ASKED, check, count_rows, start
from server import PROCESSES, Server, expect

GROUP = Group("a folder with a file missing or damaged", is_shared=False)
GROUPS = [GROUP]

TABLES = ("resource", "extent", "property", "lock", "state", "note")
SIZES = (("/a", 5), ("/b", 70_000), ("/d/c", 300_000))
"""The paths and the sizes of the files in a folder."""

RESTORE = "so nothing was changed: restore all files of the folder from one backup\n"
NO_DATABASE = f"davd: meta.db and meta.db-wal have no store, and the folder has bytes of one, {RESTORE}"
NO_DATA = f"davd: data is missing, {RESTORE}"
SHORT_DATA = f"davd: data is shorter than meta.db says, {RESTORE}"
DAMAGED = "davd: meta.db or meta.db-wal is damaged, so nothing was changed: restore all files of the folder from one backup\n"
FOREIGN = ("davd: meta.db has other tables than this version of davd makes, so nothing was changed: "
           "remove a table or view that was added, serve it by the later version that made it, or choose another folder\n")
JOURNAL = ("davd: there is the journal of another program beside a file of the folder, such as meta.db-journal, "
           "so nothing was changed: restore all files of the folder from one backup, and no other\n")
NO_STORE = "davd: the folder has no store, so there is nothing to check\n"
UNFINISHED = "davd: a backup to this folder did not end, so nothing was changed: make a new one in another folder\n"
OLDER = ("davd: meta.db and meta.db-wal have lost the last batches, so nothing was changed: "
         "restore all files of the folder from one backup, or copy it and serve what is left with -accept-loss\n")
ONE_BACKUP = "so nothing was changed: restore all files of the folder from one backup, or copy it and serve it with -accept-loss\n"
HALF_NUMBER = f"davd: last or last-wal is missing, {ONE_BACKUP}"
NO_NUMBER = f"davd: last and last-wal are missing, damaged or of another folder, {ONE_BACKUP}"


def sums(folder: pathlib.Path) -> dict[str, str]:
    """The digest of each file in a folder."""
    return {file.name: hashlib.sha256(file.read_bytes()).hexdigest() for file in sorted(folder.iterdir())}


def tree_of(folder: pathlib.Path) -> dict[str, str]:
    """The digest of each file in a folder and below it."""
    return {str(file): hashlib.sha256(file.read_bytes()).hexdigest() for file in sorted(folder.rglob("*")) if file.is_file()}


def fill(server: Server):
    """Makes three files and a directory."""
    content = random.Random(1)
    server.ask("MKCOL", "/d", status=201)
    for path, size in SIZES:
        server.ask("PUT", path, content.randbytes(size), status=201)


def filled(starter: Starter) -> pathlib.Path:
    """A folder with three files and a directory, whose server was stopped."""
    server = start(starter)
    fill(server)
    server.stop()
    return starter.folder / "kept"


def copy_of(starter: Starter, folder: pathlib.Path, name: str = "copy") -> pathlib.Path:
    """A new copy of a folder."""
    copy = starter.folder / name
    shutil.rmtree(copy, ignore_errors=True)
    shutil.copytree(folder, copy, ignore=shutil.ignore_patterns("control"))
    return copy


def run(starter: Starter, *arguments) -> subprocess.CompletedProcess:
    """Runs davd, with no input."""
    return PROCESSES.run([starter.programs.davd, *arguments], seconds=30, stdin=subprocess.DEVNULL)


def refused(starter: Starter, what: str, folder: pathlib.Path, line: str):
    """A start and a check are refused with this line, and leave the folder as it is."""
    before = sums(folder)
    for arguments in (["--check", folder], [folder]):
        ended = run(starter, *arguments)
        expect(f"{what}: {arguments[0]}", (ended.returncode, ended.stdout), (4, line))
        expect(f"{what}: the folder after {arguments[0]}", sums(folder), before)


def without(*names: str):
    def change(folder: pathlib.Path):
        for name in names:
            (folder / name).unlink()
    return change


def emptied(name: str):
    return lambda folder: (folder / name).write_bytes(b"")


def cut(name: str, left: int):
    return lambda folder: (folder / name).write_bytes((folder / name).read_bytes()[:left])


def garbled(name: str):
    return lambda folder: (folder / name).write_bytes(random.Random(2).randbytes((folder / name).stat().st_size))


LOST = [
    ("meta.db is missing", without("meta.db"), NO_DATABASE),
    ("meta.db is empty", emptied("meta.db"), NO_DATABASE),
    ("meta.db has one byte", cut("meta.db", 1), None),
    ("meta.db is cut", cut("meta.db", 3_000), None),
    ("meta.db is other bytes", garbled("meta.db"), None),
    ("meta.db and meta.db-wal are missing", without("meta.db", "meta.db-wal"), NO_DATABASE),
    ("all but data is missing", without("meta.db", "meta.db-wal", "data-wal"), NO_DATABASE),
    ("all but the number of the last batch is missing", without("meta.db", "meta.db-wal", "data", "data-wal"), NO_DATABASE),
    ("data is missing", without("data"), NO_DATA),
    ("data is empty", emptied("data"), SHORT_DATA),
    ("data is cut", cut("data", 100_000), SHORT_DATA),
    ("data and meta.db are missing", without("data", "meta.db"), NO_DATABASE),
]
"""What happened to a folder, the change, and what a start says then; `None` if the log may still have all that was lost."""

REST = 2.5
"""Seconds after which the number of the last batch is on the disk: the server syncs it when it has rested for 1.5."""


def whole_line(starter: Starter) -> str:
    """What a check prints of the folder `kept`, and of its copies."""
    return f"{count_rows(starter.folder / 'kept')} rows, 3 files, 370005 bytes, 0 damaged\n"


def whole_or_refused(starter: Starter, folder: pathlib.Path) -> subprocess.CompletedProcess:
    """Checks a folder, which has all files or is refused, and stays as it is. Returns what the check said."""
    before = sums(folder)
    checked = run(starter, "--check", folder)
    if checked.returncode == 0:
        expect("what a check prints", checked.stdout, whole_line(starter))
    else:
        expect("the exit status", checked.returncode, 4)
        expect("whether it is one of the refusals", checked.stdout in (NO_DATABASE, DAMAGED, FOREIGN, OLDER), True)
    expect("the folder", sums(folder), before)
    return checked


def lost(starter: Starter, change, line: str | None):
    folder = copy_of(starter, filled(starter))
    change(folder)
    if line is None:
        checked = whole_or_refused(starter, folder)
        if checked.returncode == 0:
            return
        line = checked.stdout
    refused(starter, "the folder", folder, line)


for what, change, line in LOST:
    GROUP.add(f"{what}: the start and the check are refused, and change nothing", lost, change, line)


@GROUP.check("after a clean end meta.db is whole without its log")
def without_log(starter: Starter):
    folder = copy_of(starter, filled(starter))
    (folder / "meta.db-wal").unlink()
    whole(starter, folder)


def whole(starter: Starter, folder: pathlib.Path):
    """A check finds each file, and leaves the folder as it is."""
    before = sums(folder)
    checked = run(starter, "--check", folder)
    expect("what a check says", (checked.returncode, checked.stdout), (0, whole_line(starter)))
    expect("the folder", sums(folder), before)


def killed(starter: Starter) -> pathlib.Path:
    """A folder like that of `filled`, whose server was killed when it had rested: all rows are in the log."""
    server = start(starter)
    fill(server)
    time.sleep(REST)
    server.kill()
    return starter.folder / "kept"


@GROUP.check("after a second without changes a kill loses nothing that a lost or cut log can hide")
def lost_tail(starter: Starter):
    folder = killed(starter)
    log = (folder / "meta.db-wal").read_bytes()
    places = random.Random(3)
    for left in [0, 1, 31, 32, 33, len(log) // 2, *(places.randrange(len(log)) for _ in range(20))]:
        copy = copy_of(starter, folder)
        (copy / "meta.db-wal").write_bytes(log[:left])
        whole_or_refused(starter, copy)
    copy = copy_of(starter, folder)
    (copy / "meta.db-wal").unlink()
    whole_or_refused(starter, copy)


@GROUP.check("after a kill each flipped bit of the log is found, or the folder is whole")
def flipped_log(starter: Starter):
    folder = killed(starter)
    log = (folder / "meta.db-wal").read_bytes()
    places = random.Random(4)
    for place in [0, 8, 16, 24, 31, 32, 40, *(places.randrange(len(log)) for _ in range(40))]:
        copy = copy_of(starter, folder)
        flipped = bytearray(log)
        flipped[place] ^= 1 << places.randrange(8)
        (copy / "meta.db-wal").write_bytes(flipped)
        whole_or_refused(starter, copy)


FLIPS = 300
"""How many bits of a file are flipped, one in a copy, or all if it has fewer."""


def contents(folder: pathlib.Path) -> dict[str, bytes]:
    """What each file of a folder has."""
    return {file.name: file.read_bytes() for file in folder.iterdir()}


def changed(before: dict[str, bytes], after: dict[str, bytes]) -> list[str]:
    """The names of the files that are not the same."""
    return sorted(name for name in before.keys() | after.keys() if before.get(name) != after.get(name))


def all_rows(folder: pathlib.Path) -> list[list[tuple]]:
    """The rows of each table of a database that is whole without its log."""
    with contextlib.closing(sqlite3.connect(f"file:{folder}/meta.db?immutable=1", uri=True)) as database:
        return [database.execute(f"SELECT * FROM {table} ORDER BY number").fetchall() for table in TABLES]


def flipped_file(starter: Starter, name: str):
    folder = copy_of(starter, filled(starter))
    line = whole_line(starter)
    before = contents(folder)
    good, rows = before[name], all_rows(folder)
    bits = range(8 * len(good))
    for bit in random.Random(5).sample(bits, min(FLIPS, len(bits))):
        bad = bytearray(good)
        bad[bit // 8] ^= 1 << bit % 8
        before[name] = bytes(bad)
        (folder / name).write_bytes(bad)
        checked = run(starter, "--check", folder)
        found = checked.returncode == 4 or (checked.returncode == 1 and "damaged: " in checked.stdout)
        if not found:
            expect(f"a check with bit {bit} flipped", (checked.returncode, checked.stdout), (0, line))
            expect(f"the rows with bit {bit} flipped", all_rows(folder) == rows, True)
        expect("the files that a check changes", changed(before, contents(folder)), [])


for name in ("meta.db", "data", "last", "last-wal"):
    GROUP.add(f"after a clean end each flipped bit of {name} is found, or all rows and files are the same", flipped_file, name)


OLD = pathlib.Path(__file__).parent / "folders" / "version-1.tar.gz"
"""A folder that an earlier release made, whose rows have no seal: files of `SIZES`, a property of /a, and a lock that has expired."""


def counted(size: int) -> bytes:
    """The bytes of a file in that folder."""
    return (bytes(range(256)) * (size // 256 + 1))[:size]


def rows_of(folder: pathlib.Path, words: str) -> list[tuple]:
    with contextlib.closing(sqlite3.connect(folder / "meta.db")) as database:
        return database.execute(words).fetchall()


def tables(folder: pathlib.Path) -> list[str]:
    return [name for name, in rows_of(folder, "SELECT name FROM sqlite_master WHERE type = 'table' ORDER BY name")]


@GROUP.check("a folder of version 1 is read as it is, and is sealed at the first start")
def version_1(starter: Starter):
    folder = starter.folder / "kept"
    with tarfile.open(OLD) as archive:
        archive.extractall(folder)
    whole(starter, folder)
    expect("the tables before the start", "note" in tables(folder), False)
    server = start(starter)
    found = server.ask("PROPFIND", "/a", ASKED, fields=[("Depth", "0")], status=207).body
    expect("whether the property is there", b"red" in found, True)
    for path, size in SIZES:
        expect(path, server.ask("GET", path, status=200).body, counted(size))
    server.stop()
    whole(starter, folder)
    expect("the tables after the start", "note" in tables(folder), True)
    expect("the rows of the state", rows_of(folder, "SELECT number FROM state ORDER BY number"), [(0,), (1,)])


def accepted(starter: Starter, copy: pathlib.Path) -> Server:
    """A server of a copy, which takes the place of the folder, with -accept-loss."""
    folder = starter.folder / "kept"
    shutil.rmtree(folder)
    copy.rename(folder)
    return start(starter, "-accept-loss")


def older(starter: Starter) -> pathlib.Path:
    """A copy of a folder, whose database is of before a last file was made there."""
    folder = filled(starter)
    early = copy_of(starter, folder)
    server = start(starter)
    server.ask("PUT", "/late", b"late", status=201)
    server.stop()
    for name in ("last", "last-wal"):
        shutil.copyfile(folder / name, early / name)
    return early


@GROUP.check("an older database is refused, and is served with -accept-loss, after which it is not lost again")
def older_database(starter: Starter):
    folder = older(starter)
    refused(starter, "the folder", folder, OLDER)
    server = accepted(starter, folder)
    server.ask("GET", "/late", status=404)
    server.ask("GET", "/b", status=200)
    server.ask("MKCOL", "/new", status=201)
    server.stop()
    server = start(starter)
    server.ask("PROPFIND", "/new", fields=[("Depth", "0")], status=207)
    server.stop()


@GROUP.check("the number of another folder, or one that is damaged, is refused, and is replaced with -accept-loss")
def other_number(starter: Starter):
    folder = filled(starter)
    copy = copy_of(starter, folder)
    for name in ("last", "last-wal"):
        garbled(name)(copy)
    refused(starter, "with a damaged number", copy, NO_NUMBER)
    shutil.rmtree(folder)
    other = filled(starter)
    for name in ("last", "last-wal"):
        shutil.copyfile(other / name, copy / name)
    refused(starter, "with the number of another folder", copy, NO_NUMBER)
    accepted(starter, copy).stop()
    whole(starter, other)


@GROUP.check("a folder of which one of the two files of the number is damaged is whole")
def half_number(starter: Starter):
    folder = filled(starter)
    for name in ("last", "last-wal"):
        for change in (emptied(name), cut(name, 5), garbled(name)):
            copy = copy_of(starter, folder)
            change(copy)
            whole(starter, copy)


@GROUP.check("after a clean end either file of the number shows by itself that the database is an older one")
def either_number(starter: Starter):
    folder = older(starter)
    for name in ("last", "last-wal"):
        for change in (emptied(name), garbled(name)):
            copy = copy_of(starter, folder, "half")
            change(copy)
            refused(starter, f"with one good file beside {name}", copy, OLDER)


@GROUP.check("a folder without its number is refused, and is served with -accept-loss, after which it has one")
def no_number(starter: Starter):
    folder = filled(starter)
    for change in (without("last", "last-wal"), lambda copy: [emptied(name)(copy) for name in ("last", "last-wal")]):
        copy = copy_of(starter, folder)
        change(copy)
        refused(starter, "without a number", copy, NO_NUMBER)
    accepted(starter, copy).stop()
    whole(starter, folder)


@GROUP.check("a restore of meta.db and data alone, after a kill, is refused, also if no file had a byte")
def two_files(starter: Starter):
    start(starter).stop()
    for path in ("/x", "/y"):
        server = start(starter)
        server.ask("MKCOL", path, status=201)
        server.kill()
        copy = copy_of(starter, starter.folder / "kept")
        without("meta.db-wal", "data-wal", "last", "last-wal")(copy)
        refused(starter, "the two files", copy, NO_NUMBER)
    start(starter).stop()
    copy = copy_of(starter, killed(starter))
    without("meta.db-wal", "data-wal", "last", "last-wal")(copy)
    refused(starter, "the two files", copy, NO_NUMBER)


def killed_first(starter: Starter) -> pathlib.Path:
    """A copy of a folder whose first run made a directory and was killed: its tables are in the log alone."""
    server = start(starter)
    server.ask("MKCOL", "/d", status=201)
    server.process.send_signal(signal.SIGSTOP)  # so that davd does not end as it does when davserve ends
    os.kill(server.davd(), signal.SIGKILL)
    server.kill()
    return copy_of(starter, starter.folder / "kept")


NEW_LOST = [
    ("meta.db and data alone", [without("meta.db-wal", "data-wal", "last", "last-wal")]),
    ("an empty log, as a start leaves that breaks off", [without("last", "last-wal"), emptied("meta.db-wal")]),
    ("an empty log and one emptied number", [emptied("meta.db-wal"), emptied("last")]),
    ("an empty log and the other number emptied", [emptied("meta.db-wal"), emptied("last-wal")]),
    ("no log, with its number", [without("meta.db-wal")]),
    ("the log alone", [without("meta.db", "data", "data-wal", "last", "last-wal")]),
    ("the log, and the others emptied", [emptied("meta.db"), emptied("last"), emptied("last-wal")]),
]
"""What is left of a new folder without bytes in files, whose tables are in the log alone."""


@GROUP.check("a new folder without bytes in files, which has lost its log or all but its log, is refused")
def new_lost(starter: Starter):
    folder = killed_first(starter)
    for what, changes in NEW_LOST:
        copy = copy_of(starter, folder, "lost")
        for change in changes:
            change(copy)
        refused(starter, what, copy, NO_DATABASE)
        expect(f"{what}: with -accept-loss", run(starter, "-accept-loss", copy).stdout, NO_DATABASE)


@GROUP.check("the database of another program is refused, also beside an empty data file")
def foreign(starter: Starter):
    copy = starter.folder / "foreign"
    copy.mkdir()
    with contextlib.closing(sqlite3.connect(copy / "meta.db")) as database:
        database.executescript("CREATE TABLE note (title TEXT); INSERT INTO note VALUES ('hello')")
    refused(starter, "without a data file", copy, NO_DATA)
    (copy / "data").touch()
    refused(starter, "beside an empty data file", copy, FOREIGN)


@GROUP.check("the journal of another program beside meta.db is refused")
def journal(starter: Starter):
    copy = copy_of(starter, filled(starter))
    (copy / "meta.db-journal").write_bytes(b"journal")
    refused(starter, "with a journal", copy, JOURNAL)


@GROUP.check("a new folder of which the first start ended before the number was written is served")
def no_first_number(starter: Starter):
    start(starter).stop()
    folder = starter.folder / "kept"
    for change in (without("last", "last-wal"), lambda copy: [emptied(name)(copy) for name in ("last", "last-wal")]):
        change(folder)
        start(starter).stop()
        expect("the files of the number", [(folder / name).stat().st_size for name in ("last", "last-wal")], [16, 16])


@GROUP.check("a folder of which one of the two files of the number is missing is refused, and is served with -accept-loss")
def number_without_its_other(starter: Starter):
    folder = filled(starter)
    for name in ("last", "last-wal"):
        copy = copy_of(starter, folder)
        without(name)(copy)
        refused(starter, f"without {name}", copy, HALF_NUMBER)
    accepted(starter, copy).stop()
    whole(starter, folder)


@GROUP.check("a backup without its files of -wal is refused")
def without_logs(starter: Starter):
    server = start(starter)
    server.ask("PUT", "/early", b"early", status=201)
    server.stop()
    server = start(starter)
    for number in range(6):
        server.ask("PUT", f"/late-{number}", b"late", status=201)
    backup = starter.folder / "backup"
    backup_client.succeed(starter, backup)
    server.stop()
    without("meta.db-wal", "last-wal")(backup)
    refused(starter, "the backup", backup, HALF_NUMBER)


@GROUP.check("a backup that did not end is refused, whichever of its files have their names")
def unfinished(starter: Starter):
    folder = filled(starter)
    names = ["data", "meta.db-wal", "last", "last-wal", "meta.db"]
    for ended in range(len(names)):
        backup = starter.folder / "backup"
        (backup / "partial").mkdir(parents=True)
        for place, name in enumerate(names):
            shutil.copyfile(folder / name, backup / name if place < ended else backup / "partial" / name)
        before = tree_of(backup)
        for arguments in (["--check", backup], [backup]):
            stopped = run(starter, *arguments)
            expect(f"{arguments[0]} after {ended} files", (stopped.returncode, stopped.stdout), (4, UNFINISHED))
            expect("the folder", tree_of(backup), before)
        shutil.rmtree(backup)


@GROUP.check("a check of a good folder changes nothing")
def good(starter: Starter):
    folder = filled(starter)
    before = sums(folder)
    expect("what it prints", check(starter, "kept", 0), [whole_line(starter).strip()])
    expect("the folder", sums(folder), before)


@GROUP.check("a check of a folder without a store makes nothing")
def none(starter: Starter):
    folder = starter.folder / "none"
    folder.mkdir()
    ended = run(starter, "--check", folder)
    expect("the exit status and the line", (ended.returncode, ended.stdout), (4, NO_STORE))
    expect("the folder", sums(folder), {})


@GROUP.check("what a killed upload left in the data file is there at the next start, and is cut by the first batch")
def left_behind(starter: Starter):
    folder = filled(starter)
    end = (folder / "data").stat().st_size
    with (folder / "data").open("ab") as data:
        data.write(b"x" * 50_000)
    server = start(starter)
    expect("the size after the start", (folder / "data").stat().st_size, end + 50_000)
    server.ask("MKCOL", "/e", status=201)
    expect("the size after a batch", (folder / "data").stat().st_size, end)
    server.stop()
    expect("the check", check(starter, "kept", 0), [whole_line(starter).strip()])

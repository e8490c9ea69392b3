"""The rows in a folder's database: what each change leaves there, and which rows are no store's."""
import contextlib
import hashlib
import pathlib
import sqlite3
import subprocess

from connection import Wrong
from harness import Group, Starter
from kept import LOCK, PATCH, check, count_rows, start
from server import PROCESSES, Server, expect
from starts import FOREIGN

GROUP = Group("rows in a folder", is_shared=False)
GROUPS = [GROUP]

STRETCH = 4 << 20
"""How many bytes of a file have a row of their own."""


def database_of(starter: Starter) -> pathlib.Path:
    return starter.folder / "kept" / "meta.db"


def query(starter: Starter, words: str) -> list[tuple]:
    """The rows that a query finds in the database. Nobody may use the folder."""
    with contextlib.closing(sqlite3.connect(database_of(starter))) as database:
        return database.execute(words).fetchall()


def lock(server: Server, path: str) -> str:
    """Locks a resource, and returns the token."""
    answer = server.ask("LOCK", path, LOCK, fields=[("Timeout", "Second-3600")], status=(200, 201))
    return answer.field("Lock-Token")


def append_far(server: Server, path: str):
    """Writes one byte three stretches behind the beginning of a file."""
    fields = [("Content-Type", "application/x-sabredav-partialupdate"), ("X-Update-Range", f"bytes={3 * STRETCH}-")]
    server.ask("PATCH", path, b"!", fields=fields, status=204)


@GROUP.check("each part of a file, each property and each lock has a row while it is there")
def changes(starter: Starter):
    server = start(starter)
    server.ask("PUT", "/a", b"12345", status=201)
    append_far(server, "/a")
    server.ask("PROPPATCH", "/a", PATCH, status=207)
    of_file, of_other = lock(server, "/a"), lock(server, "/b")
    server.stop()
    parts = "SELECT resource, place FROM extent ORDER BY number"
    expect("the resources", query(starter, "SELECT number, name, size FROM resource ORDER BY number"), [(0, "", 0), (1, "a", 3 * STRETCH + 1), (2, "b", 0)])
    expect("the parts", query(starter, parts), [(1, 0), (1, 3 * STRETCH)])
    expect("the properties", query(starter, "SELECT resource, namespace, name FROM property"), [(1, "urn:c", "c")])
    tokens = [(token.strip("<>"), path) for token, path in ((of_file, "/a"), (of_other, "/b"))]
    expect("the locks", query(starter, "SELECT token, path FROM lock ORDER BY number"), tokens)
    before = query(starter, "SELECT number, lock FROM lock WHERE path = '/a'")

    server = start(starter)
    server.ask("LOCK", "/a", fields=[("Timeout", "Second-60"), ("If", f"({of_file})")], status=200)
    server.ask("UNLOCK", "/b", fields=[("Lock-Token", of_other)], status=204)
    server.stop()
    after = query(starter, "SELECT number, lock FROM lock")
    expect("the numbers of the locks", [number for number, _ in after], [number for number, _ in before])
    expect("whether the refreshed lock is another", after != before, True)
    expect("the parts", query(starter, parts), [(1, 0), (1, 3 * STRETCH)])

    server = start(starter)
    server.ask("DELETE", "/a", fields=[("If", f"({of_file})")], status=204)
    server.stop()
    for table, left in (("resource", [(0,), (2,)]), ("extent", []), ("property", []), ("lock", [])):
        expect(f"the numbers in {table}", query(starter, f"SELECT number FROM {table} ORDER BY number"), left)


@GROUP.check("a MOVE of a directory changes one row")
def moved(starter: Starter):
    resources = "SELECT number, parent, name, created FROM resource ORDER BY number"
    server = start(starter)
    for path in ("/d", "/d/e", "/f"):
        server.ask("MKCOL", path, status=201)
    for path in ("/d/a", "/d/e/b"):
        server.ask("PUT", path, b"12345", status=201)
    server.stop()
    before = query(starter, resources)
    server = start(starter)
    server.ask("MOVE", "/d", fields=[("Destination", "/f/g")], status=201)
    expect("/f/g/e/b", server.ask("GET", "/f/g/e/b", status=200).body, b"12345")
    server.stop()
    changed = [(old, new) for old, new in zip(before, query(starter, resources), strict=True) if old != new]
    expect("what changed", [(old[2], new[2]) for old, new in changed], [("d", "g")])
    expect("the directory above", dict((row[0], row[2]) for row in before)[changed[0][1][1]], "f")


DAMAGED = "davd: meta.db or meta.db-wal is damaged, so nothing was changed: restore all files of the folder from one backup\n"

STRUCTURE = [
    ("a part of no resource", "UPDATE extent SET resource = 9"),
    ("a part that cannot be read", "UPDATE extent SET pieces = x'00ff'"),
    ("no part of a file", "DELETE FROM extent"),
    ("a file of another size", "UPDATE resource SET size = size + 1 WHERE directory = 0"),
    ("a property of no resource", "UPDATE property SET resource = 9"),
    ("a property that cannot be read", "UPDATE property SET element = x'00ff'"),
    ("a lock that cannot be read", "UPDATE lock SET lock = x'00ff'"),
    ("a resource below none", "UPDATE resource SET parent = 9 WHERE number = 2"),
    ("a resource below itself", "UPDATE resource SET parent = number WHERE directory = 1"),
    ("a resource below a file", "UPDATE resource SET parent = 2 WHERE number = 1"),
    ("a name that no resource has", "UPDATE resource SET name = '' WHERE number = 2"),
    ("two members of one name", "INSERT INTO resource SELECT 9, parent, name, directory, size, version, created, modified FROM resource WHERE number = 2"),
    ("no root", "DELETE FROM resource WHERE number = 0"),
    ("no state", "DELETE FROM state"),
    ("no table of locks", "DROP TABLE lock"),
]
"""Rows that no store has: what they are, and the change that makes them of the rows of `stored`."""

OTHER = [
    ("a file of another name", "UPDATE resource SET name = 'b' WHERE number = 2"),
    ("a file below another directory", "UPDATE resource SET parent = 0 WHERE number = 2"),
    ("a file of another version", "UPDATE resource SET version = version - 1 WHERE number = 2"),
    ("a file that was made later", "UPDATE resource SET created = created + 1 WHERE number = 2"),
    ("a file that was changed earlier", "UPDATE resource SET modified = modified - 1 WHERE number = 2"),
    ("a directory more", "INSERT INTO resource VALUES (9, 0, 'more', 1, 0, 1, 1, 1)"),
    ("a part that ends with another bit", "UPDATE extent SET pieces = flipped(pieces)"),
    ("another value of a property", "UPDATE property SET element = CAST(replace(CAST(element AS TEXT), 'red', 'bed') AS BLOB)"),
    ("a property less", "DELETE FROM property"),
    ("a lock less", "DELETE FROM lock"),
    ("a lock on another path", "UPDATE lock SET path = '/d/b'"),
    ("another number of changes", "UPDATE state SET counter = counter + 1 WHERE number = 0"),
    ("another time", "UPDATE state SET time = time + 1 WHERE number = 0"),
    ("another batch", "UPDATE state SET batch = batch + 1 WHERE number = 0"),
    ("another key", "UPDATE state SET digest_key = digest_key + 1 WHERE number = 0"),
    ("another seal", "UPDATE state SET counter = counter + 1 WHERE number = 1"),
    ("another row for the seal", "UPDATE state SET number = 2 WHERE number = 1"),
    ("a seal with a time", "UPDATE state SET time = 1 WHERE number = 1"),
    ("no seal", "DELETE FROM state WHERE number = 1"),
    ("a third row of the state", "INSERT INTO state VALUES (2, 0, 0, 0, 0)"),
]
"""Rows that another store could have: what they are, and the change that makes them of the rows of `stored`."""


NO_SEAL = ("DROP TABLE note", "DELETE FROM state WHERE number = 1")
"""The changes that make the rows those of version 1, which have no seal."""


def stored(starter: Starter) -> bytes:
    """Makes a file with a property and a lock, stops the server, and returns the whole database."""
    server = start(starter)
    server.ask("MKCOL", "/d", status=201)
    server.ask("PUT", "/d/a", b"12345", status=201)
    server.ask("PROPPATCH", "/d/a", PATCH, status=207)
    lock(server, "/d/a")
    server.stop()
    query(starter, "PRAGMA wal_checkpoint(TRUNCATE)")
    return database_of(starter).read_bytes()


def refused(starter: Starter, good: bytes, what: str, *changes: str):
    """With these changes of its rows the folder is refused, and left as it was."""
    database = database_of(starter)
    database.write_bytes(good)
    with contextlib.closing(sqlite3.connect(database)) as connection, connection:
        connection.create_function("flipped", 1, lambda cell: cell[:-1] + bytes([cell[-1] ^ 1]))
        for change in changes:
            if connection.execute(change).rowcount == 0:
                raise Wrong(f"{what}: {change} changes nothing")
    bad = hashlib.sha256(database.read_bytes()).digest()
    line = FOREIGN if "DROP TABLE lock" in changes else DAMAGED
    checked = PROCESSES.run([starter.programs.davd, "--check", starter.folder / "kept"], seconds=30)
    expect(what, (checked.returncode, checked.stdout), (4, line))
    started = PROCESSES.run([starter.programs.davd, starter.folder / "kept"], seconds=30, stdin=subprocess.DEVNULL)
    expect(f"a start with {what}", (started.returncode, started.stdout), (4, line))
    expect(f"whether the database is as it was with {what}", hashlib.sha256(database.read_bytes()).digest(), bad)


@GROUP.check("a folder with rows that no store has is refused, also without a seal, and left as it was")
def structure(starter: Starter):
    good = stored(starter)
    for what, change in STRUCTURE:
        refused(starter, good, what, change)
        refused(starter, good, f"{what}, and no seal", *NO_SEAL, change)
    database_of(starter).write_bytes(good)
    expect("the good folder", check(starter, "kept", 0), [f"{count_rows(starter.folder / 'kept')} rows, 1 files, 5 bytes, 0 damaged"])


@GROUP.check("a folder without the table of notes has its seal still, and gets the table again")
def no_notes(starter: Starter):
    good = stored(starter)
    refused(starter, good, "no table of notes, and another time", "DROP TABLE note", "UPDATE state SET time = time + 1 WHERE number = 0")
    database_of(starter).write_bytes(good)
    query(starter, "DROP TABLE note")
    expect("the folder", check(starter, "kept", 0), [f"{count_rows(starter.folder / 'kept')} rows, 1 files, 5 bytes, 0 damaged"])
    start(starter).stop()
    expect("the notes", query(starter, "SELECT * FROM note"), [])
    expect("the folder", check(starter, "kept", 0), [f"{count_rows(starter.folder / 'kept')} rows, 1 files, 5 bytes, 0 damaged"])


@GROUP.check("a folder with the rows of another store is refused, and left as it was")
def other(starter: Starter):
    good = stored(starter)
    for what, change in OTHER:
        refused(starter, good, what, change)
    database_of(starter).write_bytes(good)
    expect("the good folder", check(starter, "kept", 0), [f"{count_rows(starter.folder / 'kept')} rows, 1 files, 5 bytes, 0 damaged"])

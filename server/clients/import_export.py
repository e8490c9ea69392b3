"""Folders of files that are imported into the folder of a server, and exported from one: bytes, times and what is refused."""
import os
import pathlib
import pty
import random
import re
import signal
import subprocess
import time
import urllib.parse
import xml.etree.ElementTree as ElementTree
from email.utils import parsedate_to_datetime

import full
import kept
from connection import Wrong
from harness import Group, Skipped, Starter
from server import PROCESSES, Server, expect

GROUP = Group("import and export", is_shared=False)
GROUPS = [GROUP]

SECONDS = 30
NAMES = ("plain.txt", "two words", "100%", "50%25 off", "a+b&c=d;e", "#?:@!$'(),[]", "Привет", "日本語.txt", "שלום", "e\u0301 and \u00e9", "~", "-x")
FILES = 4000  # of the import that is interrupted
LOCK = b"""<?xml version="1.0"?><lockinfo xmlns="DAV:"><lockscope><exclusive/></lockscope><locktype><write/></locktype></lockinfo>"""

Tree = dict[str, tuple[int, bytes | None]]  # by the path: the time, and the bytes of a file


def run(starter: Starter, command: str, folder: str, *words, status=0) -> str:
    """Runs `davserve import` or `davserve export`, and returns what is printed."""
    program, davd = starter.programs.race, starter.programs.davd
    ran = PROCESSES.run([program, command, "-davd", davd, "-folder", starter.folder / folder, *words], SECONDS)
    expect(f"the exit status of davserve {command}, which printed\n{ran.stdout}", ran.returncode, status)
    return ran.stdout


def said(text: str, *wanted: str):
    for it in wanted:
        if it not in text:
            raise Wrong(f"expected {it!r}, got {text!r}")


def put(file: pathlib.Path, content: bytes, modified: float):
    file.parent.mkdir(parents=True, exist_ok=True)
    file.write_bytes(content)
    os.utime(file, (modified, modified))


def plant(top: pathlib.Path):
    """Makes a tree with all kinds of names, lengths and times."""
    chance = random.Random(1)
    for number, name in enumerate(NAMES):
        put(top / name, name.encode(), 1_000_000_000 + number * 86_399 + 0.75)
        put(top / "folders" / name / name, b"x" * number, 2_000_000 + number)
    put(top / "empty", b"", 1)
    put(top / "long", chance.randbytes(5_000_000), 1_500_000_000)
    put(top / "old", b"before the epoch", -86_400)
    put(top / "future", b"after 2038", 4_000_000_000)
    (top / "void" / "void").mkdir(parents=True)
    directories = [top, *(it for it in top.rglob("*") if it.is_dir())]
    for number, it in enumerate(sorted(directories, reverse=True)):
        os.utime(it, (0, 1_200_000_000 + number))


def tree_of(top: pathlib.Path) -> Tree:
    found: Tree = {}
    for it in (top, *top.rglob("*")):
        modified = max(0, int(it.lstat().st_mtime // 1))
        found[str(it.relative_to(top))] = modified, None if it.is_dir() else it.read_bytes()
    return found


def served(server: Server, path: str) -> Tree:
    """The tree that a server has at a path, by PROPFIND and GET."""
    found: Tree = {}
    waiting = [path]
    while waiting:
        listed = server.ask("PROPFIND", waiting.pop(), fields=[("Depth", "1")], status=207).body
        for it in ElementTree.fromstring(listed).iter("{DAV:}response"):
            href = it.findtext("{DAV:}href")
            name = urllib.parse.unquote(href.removeprefix(path)).rstrip("/") or "."
            modified = int(parsedate_to_datetime(it.findtext(".//{DAV:}getlastmodified")).timestamp())
            if href.endswith("/"):
                if name not in found and name != ".":
                    waiting.append(href)
                found[name] = modified, None
            else:
                found[name] = modified, server.ask("GET", href, status=200).body
    return found


def compare(got: Tree, wanted: Tree):
    for path in sorted(got.keys() | wanted.keys()):
        expect(f"the time and the bytes of {path}", got.get(path), wanted.get(path))


@GROUP.check("a tree is imported, served and exported with its bytes and times, and a second run does nothing")
def whole(starter: Starter):
    top, out = starter.folder / "files", starter.folder / "out"
    plant(top)
    wanted = tree_of(top)
    files = sum(content is not None for _, content in wanted.values())
    first = run(starter, "import", "kept", top, "/a%20b/c")
    said(first, f"imported {files} files (5.0 MB) and {len(wanted) - files + 1} directories in ", "; 0 skipped as they were there\n")
    server = kept.start(starter)
    compare(served(server, "/a%20b/c/"), wanted)
    server.stop()
    again = run(starter, "import", "kept", top, "/a%20b/c")
    said(again, "imported 0 files (0 bytes) and 0 directories in ", f"; {files} skipped as they were there\n")
    said(run(starter, "export", "kept", out, "/a%20b/c/"), f"exported {files} files (5.0 MB) and {len(wanted) - files} directories in ")
    compare(tree_of(out), wanted)
    before = [it.lstat() for it in sorted(out.rglob("*"))]
    said(run(starter, "export", "kept", out, "/a%20b/c/"), "exported 0 files (0 bytes) and 0 directories in ", f"; {files} skipped")
    expect("whether the files are the same", [it.st_ino for it in before], [it.lstat().st_ino for it in sorted(out.rglob("*"))])
    expect("what -quiet prints", run(starter, "export", "kept", "-quiet", out, "/a%20b/c/"), "")
    server = kept.start(starter)
    compare(served(server, "/a%20b/c/"), wanted)
    server.stop()


@GROUP.check("what changed is copied again, and nothing is removed")
def changed(starter: Starter):
    top, out = starter.folder / "files", starter.folder / "out"
    for name in ("same", "longer", "later", "d/x"):
        put(top / name, b"first", 1_000)
    run(starter, "import", "kept", top)
    run(starter, "export", "kept", out)
    put(top / "longer", b"second", 1_000)
    put(top / "later", b"other", 1_001)
    put(top / "new", b"new", 1_000)
    (top / "same").unlink()
    said(run(starter, "import", "kept", top), "imported 3 files (14 bytes) and 0 directories in ", "; 1 skipped")
    put(out / "more", b"more", 1_000)
    said(run(starter, "export", "kept", out), "exported 3 files (14 bytes) and 0 directories in ", "; 2 skipped")
    got = {path: content for path, (_, content) in tree_of(out).items() if content is not None}
    wanted = {"same": b"first", "longer": b"second", "later": b"other", "d/x": b"first", "new": b"new", "more": b"more"}
    expect("the files", got, wanted)


class Terminal:
    """A command whose standard error is a terminal."""

    def __init__(self, command: list):
        self.ours, theirs = pty.openpty()
        self.process = PROCESSES.start(command, stdout=subprocess.DEVNULL, stderr=theirs)
        os.close(theirs)
        self.shown = b""

    def read(self) -> bool:
        """Reads more of what is shown, and returns whether there was more."""
        try:
            piece = os.read(self.ours, 4096)
        except OSError:  # the other end is closed
            piece = b""
        self.shown += piece
        return bool(piece)

    def shows(self, pattern: bytes) -> bool:
        """Waits until this is shown, and returns whether it was before the end."""
        while not re.search(pattern, self.shown):
            if not self.read():
                return False
        return True

    def end(self) -> int:
        while self.read():
            pass
        os.close(self.ours)
        return self.process.wait(SECONDS)


@GROUP.check("an import shows its progress, and goes on after an interrupt and after a kill")
def interrupted(starter: Starter):
    top, out = starter.folder / "files", starter.folder / "out"
    for number in range(FILES):
        put(top / f"d{number % 9}" / f"file {number}", b"%d" % number * 100, 1_000_000 + number)
    for it in (top, *(top / f"d{number}" for number in range(9))):
        os.utime(it, (0, 2_000_000))
    folder, davd = starter.folder / "kept", starter.programs.davd
    command = [starter.programs.race, "import", "-davd", davd, "-folder", folder, top]
    interrupts = 0
    for sent in (signal.SIGINT, signal.SIGKILL):
        terminal = Terminal(command)
        if terminal.shows(rb"\r\x1b\[K[1-9]\d* files, \d.*B, \d.*B/s"):
            interrupts += 1
            terminal.process.send_signal(sent)
        status = terminal.end()
        if sent == signal.SIGINT and interrupts:
            expect("the exit status", status, 1)
            said(terminal.shown.decode(), "davserve import: it was interrupted: run it again to go on")
    for _ in range(100):  # Until davd has ended, which nobody waits for after a kill.
        if PROCESSES.run([davd, "--check", folder], SECONDS).returncode != 5:
            break
        time.sleep(0.05)
    text = run(starter, "import", "kept", top)
    copied, skipped = map(int, re.search(r"imported (\d+) file.*; (\d+) skipped", text).groups())
    expect("the files", copied + skipped, FILES)
    run(starter, "export", "kept", out)
    compare(tree_of(out), tree_of(top))
    if not interrupts:
        raise Skipped(f"{FILES} files are imported before an import can be interrupted")
    return f"{skipped} of {FILES} files were there after {interrupts} interruptions"


@GROUP.check("what cannot be imported is named, the rest is there, and the exit status is 1")
def refused(starter: Starter):
    top = starter.folder / "files"
    for name in ("a", "locked", "was-directory", "d/z"):
        put(top / name, b"good", 1_000)
    put(top / "was-file" / "in", b"good", 1_000)
    (top / "link").symlink_to("/etc/passwd")
    (top / "above").symlink_to("..")
    os.mkfifo(top / "pipe")
    put(pathlib.Path(os.fsdecode(os.fsencode(top) + b"/latin-\xe9")), b"", 1_000)
    server = kept.start(starter)
    server.ask("PUT", "/was-file", b"stays", status=201)
    server.ask("MKCOL", "/was-directory", status=201)
    server.ask("LOCK", "/locked", LOCK, fields=[("Timeout", "Second-600")], status=(200, 201))
    server.stop()
    text = run(starter, "import", "kept", top, status=1)
    for name, reason in {
        "link": "it is a symbolic link", "above": "it is a symbolic link", "pipe": "it is a named pipe",
        "latin-\\xe9": "its name is not UTF-8", "locked": "it is locked",
        "was-file": "it is a directory, and the store has another there",
        "was-directory": "it is a file, and the store has another there",
    }.items():
        said(text, f'davserve import: "{top}/{name}": {reason}\n')
    said(text, "imported 2 files (8 bytes) and 1 directory in ", "davserve import: 7 of 11 were not imported\n")
    server = kept.start(starter)
    for path, body in {"/a": b"good", "/d/z": b"good", "/was-file": b"stays", "/locked": b""}.items():
        expect(path, server.ask("GET", path, status=200).body, body)
    server.ask("GET", "/link", status=404)
    server.stop()


@GROUP.check("the folder of a running server is refused, and so is one that is none")
def running(starter: Starter):
    top, out = starter.folder / "files", starter.folder / "out"
    put(top / "a", b"a", 1_000)
    server = kept.start(starter)
    for command, folder in (("import", top), ("export", out)):
        said(run(starter, command, "kept", folder, status=1), "the folder is in use by another process", "stop its server first")
    server.ask("GET", "/a", status=404)
    server.stop()
    said(run(starter, "export", "files", out, status=1), "is not the folder of a server: it has no meta.db")
    said(run(starter, "export", "kept", out, "/none", status=1), "the store has no directory /none")
    said(run(starter, "export", "kept", starter.folder / "kept/out", status=1), "is in the folder of the server")
    expect("whether there is a folder", out.exists() or (starter.folder / "kept/out").exists(), False)
    said(run(starter, "import", "kept", starter.folder / "none", status=1), "no such file or directory")
    run(starter, "import", "kept", status=2)


@GROUP.check("an export writes nothing through a link, and names what is in the way and what is damaged")
def links(starter: Starter):
    out, outside = starter.folder / "out", starter.folder / "outside"
    put(outside / "file", b"outside", 1_000)
    os.utime(outside, (0, 1_000))
    server = kept.start(starter)
    for path in ("/d", "/d/link", "/busy"):
        server.ask("MKCOL", path, status=201)
    for path in ("/file", "/d/file", "/d/link/file", "/busy/file", "/a%2Fb", "/" + "x" * 256):
        server.ask("PUT", path, b"stored", status=(201, 204, 400, 403))
    server.ask("PUT", "/damaged", b"damaged" * 1000, status=201)
    server.stop()
    place = (starter.folder / "kept/data").read_bytes().index(b"damageddamaged")
    kept.flip(starter, place + 500)
    for name, to in (("file", outside / "file"), ("d/link", outside), ("busy", "nowhere")):
        (out / name).parent.mkdir(parents=True, exist_ok=True)
        (out / name).symlink_to(to)
    before = tree_of(outside)
    text = run(starter, "export", "kept", out, status=1)
    for path, name in (("/file", "file"), ("/d/link", "d/link"), ("/busy", "busy")):
        said(text, f'davserve export: "{path}": {out / name} is a symbolic link\n')
    said(text, 'davserve export: "/damaged": the store cannot read or write it, it may be damaged (status ', "file name too long")
    compare(tree_of(outside), before)
    expect("/d/file", (out / "d/file").read_bytes(), b"stored")
    expect("what else is there", sorted(it.name for it in out.rglob("*") if not it.is_symlink()), ["d", "file"])


@GROUP.check("a full disk ends an import and an export, and both go on when there is room")
def full_disk(starter: Starter):
    top, chance = starter.folder / "files", random.Random(2)
    for number in range(24):
        put(top / f"{number:02}", chance.randbytes(1 << 20), 1_000 + number)
    with full.small_disk(starter):
        said(run(starter, "import", "disk/kept", top, status=1), "davserve import: the store is full")
        run(starter, "import", "kept", top)
        kept.check(starter, "disk/kept", 0)
        (starter.folder / "disk/ballast").write_bytes(bytes(10 << 20))
        text = run(starter, "export", "kept", starter.folder / "disk/out", status=1)
        said(text, "davserve export: ", "no space left on device")
        (starter.folder / "disk/ballast").unlink()
        for it in (starter.folder / "disk/kept").iterdir():
            it.unlink()
        said(run(starter, "export", "kept", starter.folder / "disk/out"), " skipped as they were there")
        compare(tree_of(starter.folder / "disk/out"), tree_of(top))

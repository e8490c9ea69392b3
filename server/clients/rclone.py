"""rclone copies, compares, changes and removes a tree with odd names."""
import json
import os
import pathlib

import accounts
from connection import Wrong
from harness import Group
from server import PROCESSES, expect

SECONDS = 50
NAMES = [
    "plain.txt", "two words.txt", "100%.txt", "100%25.txt", "a#b.txt", "what?.txt", "a+b.txt", "a&b.txt", "it's.txt",
    'so "quoted".txt', "semi;colon=1.txt", "<tag>.txt", "dollar$ and @.txt", "[1] {2} (3).txt", "back\\slash.txt",
    "comma,dot.d", "Gr\u00fc\u00dfe.txt", "\u041f\u0440\u0438\u0432\u0435\u0442.txt", "\u4f60\u597d.txt",
    "\u0645\u0631\u062d\u0628\u0627.txt", "\U0001f600.txt", "cafe\u0301.txt", "tilde~.txt", "star*.txt",
]
FOLDERS = ["", "deep/er & deeper/100% #1/", "\u4f60 \u597d?/"]

PLAIN = Group("rclone", needs="rclone")
WITH_USER = Group("rclone with a user, TLS and a prefix", "-prefix", "/dav", *accounts.FLAGS, "{tls}",
                  files=accounts.FILES, needs="rclone")
GROUPS = [PLAIN, WITH_USER]


def rclone(server, *words, status: int | None = 0, source: pathlib.Path | str = "/dev/null", vendor="other") -> str:
    """Runs rclone on the server, and returns what it printed. It reads `source` as its standard input."""
    name, password = accounts.ANNA
    environment = {
        **os.environ,
        "RCLONE_CONFIG": "/dev/null",
        "RCLONE_WEBDAV_URL": server.url(f"{server.prefix}/"),
        "RCLONE_WEBDAV_VENDOR": vendor,
        "RCLONE_WEBDAV_USER": name if "-users" in server.flags else "",
        "RCLONE_WEBDAV_PASS": server.notes.get("obscured", ""),
        "RCLONE_NO_CHECK_CERTIFICATE": "true",
        "RCLONE_RETRIES": "1",
        "RCLONE_LOW_LEVEL_RETRIES": "1",
    }
    if "-users" in server.flags and words[0] != "obscure" and not server.notes.get("obscured"):
        server.notes["obscured"] = rclone(server, "obscure", password).strip()
        return rclone(server, *words, status=status, source=source)
    command = ["sh", "-c", 'exec rclone "$@" < "$0"', source, *words]
    ran = PROCESSES.run(command, SECONDS, env=environment)
    if status is not None and ran.returncode != status:
        text = " ".join(map(str, words))
        raise Wrong(f"rclone {text}\n  expected status {status}, got {ran.returncode}:\n{ran.stdout}")
    return ran.stdout


def tree(server) -> pathlib.Path:
    """The folder that is copied."""
    top = server.files / "rclone"
    if not top.exists():
        for number, (folder, name) in enumerate((folder, name) for folder in FOLDERS for name in NAMES):
            (top / folder).mkdir(parents=True, exist_ok=True)
            (top / folder / name).write_bytes(f"{number} {name}\n".encode() * (number % 7 * 50))
        (top / "large").write_bytes(bytes(range(256)) * 20000)
    return top


def copy(server):
    rclone(server, "copy", tree(server), ":webdav:tree", "--transfers", "8")


def check(server):
    """`check --download` compares each byte on both sides."""
    printed = rclone(server, "check", "--download", tree(server), ":webdav:tree")
    count = len(NAMES) * len(FOLDERS) + 1
    if f"{count} matching files" not in printed:
        raise Wrong(f"expected {count} matching files, got:\n{printed}")


def sync(server):
    """Changes, adds and removes files here, and brings the server up to that."""
    top = tree(server)
    (top / "plain.txt").write_text("changed, and of another length")
    (top / "new & \u043d\u043e\u0432\u044b\u0439").write_text("new")
    (top / "large").unlink()
    rclone(server, "sync", top, ":webdav:tree")
    check(server)


def lsf(server):
    printed = rclone(server, "lsf", ":webdav:tree")
    wanted = sorted(f"{it.name}/" if it.is_dir() else it.name for it in tree(server).iterdir())
    expect("the listing", sorted(printed.splitlines()), wanted)


def lsjson(server):
    """rclone reads the sizes from getcontentlength."""
    listed = json.loads(rclone(server, "lsjson", "-R", "--files-only", ":webdav:tree"))
    found = {it["Path"]: it["Size"] for it in listed}
    top = tree(server)
    wanted = {str(it.relative_to(top)): it.stat().st_size for it in top.rglob("*") if it.is_file()}
    expect("the sizes", found, wanted)


def cat(server):
    printed = rclone(server, "cat", ":webdav:tree/100%25.txt")
    expect("the content", printed, (tree(server) / "100%25.txt").read_text())


def cat_range(server):
    printed = rclone(server, "cat", "--offset", "2", "--count", "5", ":webdav:tree/plain.txt")
    expect("the content", printed, (tree(server) / "plain.txt").read_text()[2:7])


def moveto(server):
    rclone(server, "moveto", ":webdav:tree/a#b.txt", ":webdav:tree/moved %23 #?.txt")
    expect("the listing", "moved %23 #?.txt" in rclone(server, "lsf", ":webdav:tree").splitlines(), True)
    expect("the old name", "a#b.txt" in rclone(server, "lsf", ":webdav:tree").splitlines(), False)


def move_folder(server):
    rclone(server, "moveto", f":webdav:tree/{FOLDERS[2]}", ":webdav:tree/moved folder?")
    expect("the listing", sorted(rclone(server, "lsf", ":webdav:tree/moved folder?").splitlines()), sorted(NAMES))


def copyto(server):
    """A copy on the server itself, by COPY."""
    rclone(server, "copyto", ":webdav:tree/it's.txt", ":webdav:tree/copy of it's.txt")
    printed = rclone(server, "cat", ":webdav:tree/copy of it's.txt")
    expect("the content", printed, (tree(server) / "it's.txt").read_text())


def delete(server):
    rclone(server, "deletefile", ":webdav:tree/semi;colon=1.txt")
    expect("the listing", "semi;colon=1.txt" in rclone(server, "lsf", ":webdav:tree").splitlines(), False)
    rclone(server, "deletefile", ":webdav:tree/semi;colon=1.txt", status=None)


def rcat(server):
    """rclone stores a stream, whose length it does not know, in chunks."""
    file = server.files / "stream"
    file.write_bytes(b"stream " * 40000)
    rclone(server, "rcat", ":webdav:stream", source=file)
    expect("the length", len(rclone(server, "cat", ":webdav:stream")), 280000)


def size(server):
    printed = rclone(server, "size", "--json", ":webdav:stream")
    expect("the size", json.loads(printed)["bytes"], 280000)


def purge(server):
    rclone(server, "purge", ":webdav:tree")
    expect("the listing", rclone(server, "lsf", ":webdav:").split(), ["stream"])


CHECKS = [
    (f"copy of a tree with {len(NAMES)} odd names in {len(FOLDERS)} folders", copy),
    ("check compares all bytes", check),
    ("sync after changes", sync),
    ("lsf", lsf),
    ("lsjson has the sizes", lsjson),
    ("cat", cat),
    ("cat of a range", cat_range),
    ("moveto of a file", moveto),
    ("moveto of a folder", move_folder),
    ("copyto on the server", copyto),
    ("deletefile", delete),
    ("rcat of a stream", rcat),
    ("size", size),
    ("purge", purge),
]
for group in GROUPS:
    for name, run in CHECKS:
        group.add(name, run)

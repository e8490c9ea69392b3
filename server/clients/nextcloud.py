"""rclone as a client of Nextcloud: it sets the times of files, and compares by them."""
import datetime
import json
import os

import rclone
from connection import Wrong
from harness import Group
from server import expect

LONG_AGO = 1_000_000_000
FILES = {"a.txt": b"a", "folder/b.bin": bytes(300_000), "folder/\u00e9 #1.txt": b"c" * 100}

MEMORY = Group("rclone with the times of files", needs="rclone")
FOLDER = Group("rclone with the times of files, over a folder", "-folder", "{folder}", needs="rclone")


def run(server, *words, **more) -> str:
    return rclone.rclone(server, *words, vendor="nextcloud", **more)


def tree(server):
    """The folder that is copied, with a time for each file."""
    top = server.files / "timed"
    if not top.exists():
        for number, (name, content) in enumerate(FILES.items()):
            (top / name).parent.mkdir(parents=True, exist_ok=True)
            (top / name).write_bytes(content)
            os.utime(top / name, (LONG_AGO + number, LONG_AGO + number))
    return top


def times(server, path: str) -> dict[str, int]:
    listed = json.loads(run(server, "lsjson", "-R", "--files-only", path))
    return {it["Path"]: round(datetime.datetime.fromisoformat(it["ModTime"]).timestamp()) for it in listed}


def copy(server):
    run(server, "copy", tree(server), ":webdav:timed")
    expect("the times", times(server, ":webdav:timed"), {name: LONG_AGO + n for n, name in enumerate(FILES)})


def copy_again(server):
    """Nothing has changed, so nothing is copied."""
    printed = run(server, "copy", "-v", tree(server), ":webdav:timed")
    if "There was nothing to transfer" not in printed:
        raise Wrong(f"expected that nothing is copied, got:\n{printed}")


def copy_there(server):
    """A copy by the server has the time of its source, not that of the COPY."""
    run(server, "copyto", ":webdav:timed/a.txt", ":webdav:copied/a.txt")
    run(server, "moveto", ":webdav:copied/a.txt", ":webdav:moved/a.txt")
    expect("the times", times(server, ":webdav:moved"), {"a.txt": LONG_AGO})


def bisync(server):
    """Changes on both sides are brought together. rclone refuses that without times."""
    state = server.files / "bisync"
    both = (tree(server), ":webdav:both", "--workdir", state)
    run(server, "mkdir", ":webdav:both")
    run(server, "bisync", *both, "--resync")
    (tree(server) / "new here").write_text("here")
    run(server, "rcat", ":webdav:both/new there", source=tree(server) / "a.txt")
    run(server, "bisync", *both)
    names = sorted([*FILES, "new here", "new there"])
    expect("the names there", sorted(times(server, ":webdav:both")), names)
    files = (it for it in tree(server).rglob("*") if it.is_file())
    expect("the names here", sorted(str(it.relative_to(tree(server))) for it in files), names)


CHECKS = [
    ("copy sets the times", copy),
    ("copy of what is there copies nothing", copy_again),
    ("copyto and moveto on the server keep the times", copy_there),
    ("bisync", bisync),
]
GROUPS = [MEMORY, FOLDER]
for group in GROUPS:
    for name, check in CHECKS:
        group.add(name, check)

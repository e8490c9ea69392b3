"""lftp mirrors a tree to the server and back: it lists by PROPFIND, and by the page for browsers."""
import pathlib
import shutil

import rclone
from connection import Wrong
from harness import Group
from server import PROCESSES, expect

SECONDS = 60
LARGE = 8_000_000  # bytes: a page that shows "8.0 MB" had it copy a part of the file
GROUP = Group("lftp", needs="lftp")
GROUPS = [GROUP]


def lftp(server, *commands: str) -> str:
    """Runs commands of lftp on the server, and returns what it printed."""
    settings = ["set net:max-retries 1", "set net:timeout 20", "set cmd:fail-exit true", "set http:use-mkcol true"]
    words = "; ".join([*settings, f"open {server.url('/')}", *commands])
    ran = PROCESSES.run(["lftp", "-c", words], SECONDS)
    if ran.returncode != 0:
        raise Wrong(f"lftp {'; '.join(commands)}\n  expected status 0, got {ran.returncode}:\n{ran.stdout}")
    return ran.stdout


def files(top: pathlib.Path) -> dict[str, bytes]:
    """The bytes of each file below a folder, by its path."""
    return {str(it.relative_to(top)): it.read_bytes() for it in top.rglob("*") if it.is_file()}


def source(server) -> pathlib.Path:
    """The tree that is mirrored."""
    top = rclone.tree(server)
    (top / "larger").write_bytes(bytes(range(250)) * (LARGE // 250))
    return top


@GROUP.check("a tree is uploaded")
def upload(server):
    lftp(server, f"mirror -R {source(server)} up")
    expect("the bytes of the largest file", len(server.ask("GET", "/up/larger").body), LARGE)


def download(server, uses_propfind: bool):
    """A tree comes back as it was."""
    top = server.files / "down"
    shutil.rmtree(top, ignore_errors=True)
    lftp(server, f"set http:use-propfind {uses_propfind}", f"mirror up {top}")
    got, wanted = files(top), files(source(server))
    expect("the files", sorted(got), sorted(wanted))
    expect("the files that differ", [it for it in wanted if got[it] != wanted[it]], [])


GROUP.add("the tree comes back by PROPFIND", download, True)
GROUP.add("the tree comes back by the page", download, False)


@GROUP.check("what is gone is removed, and the tree too")
def removed(server):
    top = source(server)
    (top / "larger").unlink()
    lftp(server, f"mirror -R --delete {top} up")
    server.ask("GET", "/up/larger", status=404)
    lftp(server, "rm -r up")
    server.ask("PROPFIND", "/up/", None, {"Depth": "0"}, 404)

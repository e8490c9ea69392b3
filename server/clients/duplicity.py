"""duplicity keeps backups on the server: a full one, one of what has changed, and what comes back of them."""
import os
import pathlib

import accounts
import lftp
from connection import Wrong
from harness import Group
from server import PROCESSES, expect

SECONDS = 50
LONG_AGO = 1_000_000_000
GROUP = Group("duplicity", "-prefix", "/dav", *accounts.FLAGS, files=accounts.FILES, needs="duplicity")
GROUPS = [GROUP]
# Volumes of 1 MB, so that there are several.
OPTIONS = ["--no-encryption", "--volsize", "1", "--num-retries", "1"]


def duplicity(server, *words) -> str:
    """Runs a command of duplicity, and returns what it printed. Like a new machine, it knows nothing of earlier ones."""
    server.notes["runs"] = server.notes.get("runs", 0) + 1
    home: pathlib.Path = server.files / f"home-{server.notes['runs']}"
    home.mkdir()
    environment = {**os.environ, "HOME": str(home), "FTP_PASSWORD": accounts.ANNA[1], "LC_ALL": "C.UTF-8"}
    command, *paths = words
    options = [*OPTIONS, "--archive-dir", home / "archive"]
    ran = PROCESSES.run(["duplicity", command, *options, *paths], SECONDS, env=environment)
    if ran.returncode != 0:
        raise Wrong(f"duplicity {command}\n  expected status 0, got {ran.returncode}:\n{ran.stdout}")
    return ran.stdout


def target(server) -> str:
    return f"webdav://{accounts.ANNA[0]}@127.0.0.1:{server.port}{server.prefix}/backup"


def source(server) -> pathlib.Path:
    """The tree of which there are backups."""
    top = server.files / "source"
    if not top.exists():
        (top / "folder").mkdir(parents=True)
        (top / "a.txt").write_text("one")
        os.utime(top / "a.txt", (LONG_AGO, LONG_AGO))  # It compares times in whole seconds.
        (top / "folder" / "gone").write_text("gone")
        (top / "folder" / "large").write_bytes(os.urandom(3_000_000))
    return top


@GROUP.check("a full backup")
def full(server):
    printed = duplicity(server, "full", source(server), target(server))
    expect("whether there is no error", "Errors 0" in printed, True)


@GROUP.check("a backup of what has changed")
def incremental(server):
    """It lists the backups that are there, and fetches what it needs of the last one."""
    (source(server) / "a.txt").write_text("two, and longer")
    (source(server) / "new").write_text("new")
    (source(server) / "folder" / "gone").unlink()
    printed = duplicity(server, "incremental", source(server), target(server))
    expect("what is counted", [it for it in ("DeletedFiles 1", "Errors 0") if it not in printed], [])


@GROUP.check("the backup is the same as the files")
def verify(server):
    printed = duplicity(server, "verify", "--compare-data", target(server), source(server))
    expect("whether there is no difference", " 0 differences found" in printed, True)


@GROUP.check("the files come back")
def restore(server):
    top = server.files / "restored"
    duplicity(server, "restore", target(server), top)
    expect("the files", lftp.files(top) == lftp.files(source(server)), True)

"""git pushes to a repository on the server, under its locks, and clones it."""
import os
import pathlib

from connection import Wrong
from harness import Group
from server import PROCESSES, expect

SECONDS = 60
GROUP = Group("git", needs="git")
GROUPS = [GROUP]
ENVIRONMENT = {
    **os.environ,
    "GIT_CONFIG_GLOBAL": "/dev/null",
    "GIT_CONFIG_SYSTEM": "/dev/null",
    "GIT_TERMINAL_PROMPT": "0",
    **{f"GIT_{who}_{what}": "a@b.example" for who in ("AUTHOR", "COMMITTER") for what in ("NAME", "EMAIL")},
}


def git(folder: pathlib.Path, *words: str) -> str:
    """Runs git in a folder, and returns what it printed."""
    ran = PROCESSES.run(["git", "-C", str(folder), *words], SECONDS, env=ENVIRONMENT)
    if ran.returncode != 0:
        raise Wrong(f"git {' '.join(words)}\n  expected status 0, got {ran.returncode}:\n{ran.stdout}")
    return ran.stdout


def commit(folder: pathlib.Path, text: str):
    (folder / "notes.txt").write_text(text)
    git(folder, "add", "notes.txt")
    git(folder, "commit", "-qm", text)


@GROUP.check("a push to a new repository, another one to it, and a clone")
def push(server):
    bare, work, clone = (server.files / it for it in ("bare", "work", "clone"))
    git(server.files, "init", "-q", "--bare", "-b", "main", str(bare))
    git(bare, "update-server-info")
    for folder in [bare, *(it for it in sorted(bare.rglob("*")) if it.is_dir())]:
        server.ask("MKCOL", f"/repository.git/{folder.relative_to(bare)}/".replace("/./", "/"), status=201)
    for file in (it for it in bare.rglob("*") if it.is_file()):
        server.ask("PUT", f"/repository.git/{file.relative_to(bare)}", file.read_bytes(), status=201)
    git(server.files, "clone", "-q", server.url("/repository.git"), str(work))
    git(work, "checkout", "-q", "-B", "main")
    for text in ("one", "two"):
        commit(work, text)
        git(work, "push", "-q", "origin", "main")
    git(server.files, "clone", "-q", "-b", "main", server.url("/repository.git"), str(clone))
    expect("the file", (clone / "notes.txt").read_text(), "two")
    expect("the commits", git(clone, "log", "--format=%s").split(), ["two", "one"])

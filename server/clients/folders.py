"""A davd that keeps a folder ends: what clients get for requests under way, and how the host goes on.

The davd here keeps only the number of its last batch (fake_folder.py). So these are checks of the host.
"""
import os
import pathlib
import signal
import sys

import fake_folder
from connection import Cut, Wrong
from harness import Group, Starter
from server import Server, expect

FAKE = pathlib.Path(fake_folder.__file__).resolve()
GROUP = Group("a folder", is_shared=False)
GROUPS = [GROUP]


def start(starter: Starter, how: str, *flags, **options) -> Server:
    """Starts a host over the folder `kept` of the check, with a davd that behaves so."""
    file = starter.write("davd", f"#!/bin/sh\nexec '{sys.executable}' '{FAKE}' '{how}' \"$@\"\n")
    file.chmod(0o755)
    (starter.folder / "kept").mkdir(exist_ok=True)
    return starter.start("-memory", "0", "-folder", "{folder}/kept", *flags, davd=file, **options)


def last(starter: Starter) -> int:
    """The number of the last batch that was kept."""
    return int((starter.folder / "kept/last").read_text())


@GROUP.check("numbers go on when the host or davd is started again")
def numbers(starter: Starter):
    before = 0
    for _ in range(2):
        server = start(starter, "sound")
        server.ask("MKCOL", "/a", status=201)
        os.kill(server.davd(), signal.SIGKILL)
        server.await_health()
        server.ask("MKCOL", "/a", status=201)
        expect("whether batches were kept", last(starter) > before, True)
        before = last(starter)
        server.stop()


def closed(starter: Starter, method: str, body: bytes | None, what: str):
    """A request was done and kept, and davd has not answered it."""
    server = start(starter, f"kept {what}")
    try:
        answer = server.ask(method, "/a", body)
    except Cut:
        pass
    else:
        raise Wrong(f"expected the end of the connection, got {answer}")
    server.await_health()
    server.ask("MKCOL", "/b", status=201)
    if "has kept 1 frames" not in server.log():
        raise Wrong(f"expected a line on what was kept, got\n{server.log()}")
    server.stop()


for method, body, what in [("DELETE", None, "DELETE"), ("PUT", b"x", "PUT"), ("PUT", b"x" * 600_000, "PUT")]:
    size = f" of {len(body)} bytes" if body else ""
    GROUP.add(f"a {method}{size} that was kept and not answered has no response", closed, method, body, what)


def not_done(starter: Starter, how: str, body: bytes, status: int):
    """A request was not done. The next one is served."""
    server = start(starter, how)
    answer = server.ask("PUT", "/a", body, status=status)
    expect("Retry-After", answer.field("Retry-After"), "1" if status == 503 else None)
    server.await_health()
    server.ask("PUT", "/a", body, status=201)
    server.stop()


for exit_status, status in ((3, 503), (7, 507), (8, 503)):
    GROUP.add(f"davd ends with {exit_status}: a PUT under way is {status}", not_done, f"{exit_status} PUT", b"x", status)
    GROUP.add(
        f"davd ends with {exit_status}: an upload under way is {status}",
        not_done, f"{exit_status} piece", b"x" * 600_000, status,
    )


@GROUP.check("a GET that was not answered is sent again")
def again(starter: Starter):
    server = start(starter, "7 read")
    server.ask("GET", "/a", status=404)  # by the next davd
    expect("how often davd ended", server.log().count("davd ended"), 1)
    server.stop()


@GROUP.check("what a folder has at the start counts for the quota")
def quota(starter: Starter):
    server = start(starter, "sound", "-quota", "1000")
    server.ask("PUT", "/a", b"x" * 101, status=507)
    server.ask("PUT", "/a", b"x" * 100, status=201)
    server.stop()


@GROUP.check("a second server over the folder ends, and says why")
def second(starter: Starter):
    first = start(starter, "sound")
    other = start(starter, "sound", is_awaited=False)
    expect("the exit status", other.ended(), 1)
    if "the folder is in use by another process" not in other.log():
        raise Wrong(f"expected that the folder is in use, got\n{other.log()}")
    first.ask("MKCOL", "/a", status=201)
    first.stop()

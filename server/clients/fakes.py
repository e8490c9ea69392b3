"""A davd that answers wrongly, or not at all: the host answers its clients in time, and goes on."""
import os
import pathlib
import signal
import sys
import time

import fake_davd
from connection import Wrong
from harness import Group, Starter
from server import Server

FAKE = pathlib.Path(fake_davd.__file__).resolve()
ANSWER_SECONDS = 12
GROUP = Group("a wrong davd", is_shared=False)
GROUPS = [GROUP]

REQUESTS = [
    ("GET", None, ()),
    ("PUT", b"x", ()),
    ("PROPFIND", None, {"Depth": "1"}),
    ("OPTIONS", None, ()),
    ("PUT", b"x" * 600_000, ()),
    ("DELETE", None, ()),
]


def program(starter: Starter, name: str) -> pathlib.Path:
    """A program that is davd, with one wrong behaviour."""
    file = starter.write("davd", f"#!/bin/sh\nexec '{sys.executable}' '{FAKE}' '{name}'\n")
    file.chmod(0o755)
    return file


def wrong(starter: Starter, name: str, statuses: tuple[int, ...]):
    """Each request is answered in time with one of the statuses, and the host runs on."""
    server = starter.start("-memory", "0", davd=program(starter, name), is_awaited=False)
    await_port(server)
    for method, body, fields in REQUESTS:
        began = time.monotonic()
        try:
            answer = server.ask(method, "/a", body, fields, seconds=ANSWER_SECONDS)
        except Wrong as error:
            if "connection ended" in str(error) or "bytes of" in str(error):
                continue  # It was broken off, after the host had begun to answer.
            raise Wrong(f"{method}: {error}") from None
        # What only reads is sent once more, to the next davd, which answers its first frame well.
        is_again = answer.status == 404 and method in ("GET", "PROPFIND", "OPTIONS")
        if answer.status not in statuses and not is_again:
            raise Wrong(f"{method}: expected one of {statuses}, got {answer}")
        for key, value in answer.fields:
            if key.lower() == "set-cookie" or "\n" in value:
                raise Wrong(f"expected no field that davd smuggled in, got {answer}")
        if time.monotonic() - began > ANSWER_SECONDS:
            raise Wrong(f"{method}: expected an answer within {ANSWER_SECONDS} s")
    if not server.is_running():
        raise Wrong(f"expected that the host runs on, got status {server.process.returncode}")
    server.stop()


def await_port(server: Server):
    """Waits until the host accepts connections."""
    end = time.monotonic() + 15
    while True:
        try:
            server.connect().close()
            return
        except OSError:
            if not server.is_running() or time.monotonic() > end:
                raise Wrong("expected that the host starts") from None
            time.sleep(0.05)


DOWN = (500, 502, 503)
STATUSES = {
    "status 507": (507, *DOWN),
    "done for each frame": (*DOWN,),
    "failed with status 7": (*DOWN,),
    # The host cannot know that these are wrong. It must not pass on what is no HTTP or XML.
    "fields that split the response": (200, 207, 301, *DOWN),
    "elements that are no XML": (200, 207, *DOWN),
    "a part of another length": (200, *DOWN),
}
for name in [*fake_davd.BEHAVIOURS, "ends"]:
    GROUP.add(name, wrong, name, STATUSES.get(name, DOWN))


@GROUP.check("is mute: the health is 503, and SIGTERM ends the host", seconds=90)
def mute(starter: Starter):
    flags = "-memory", "0", "-shutdown-timeout", "2s"
    server = starter.start(*flags, davd=program(starter, "is mute"), is_awaited=False)
    await_port(server)
    answer = server.ask("GET", "/-/health", seconds=15)
    if answer.status != 503:
        raise Wrong(f"expected 503 of /-/health, got {answer}")
    server.terminate()
    if server.ended(15) is None:
        raise Wrong("expected an end within 15 s of SIGTERM")


@GROUP.check("disappears from the disk: 503, and 200 when it is back")
def missing(starter: Starter):
    file = starter.write("davd", f"#!/bin/sh\nexec '{starter.programs.davd}' \"$@\"\n")
    file.chmod(0o755)
    server = starter.start("-memory", "0", davd=file)
    hidden = file.rename(file.with_name("hidden"))
    os.kill(server.davd(), signal.SIGKILL)
    server.await_health(503, 10)
    server.ask("GET", "/", status=503)
    server.ask("PUT", "/a", b"x", status=503)
    hidden.rename(file)
    server.await_health(200, 20)
    server.ask("PUT", "/a", b"x", status=201)
    server.stop()

"""A folder on a disk that is full: what is answered then, and that a PUT finds room again after a DELETE."""
import contextlib
import os
import pathlib
import random
import signal
import subprocess

import quota
from connection import Wrong
from harness import Group, Skipped, Starter
from server import Server, expect

GROUP = Group("a full disk", is_shared=False)
GROUPS = [GROUP]

SIZE = "36m"
RESERVE = 16 << 20  # davd keeps so many bytes of it back.
BODY = 1 << 20
MOST = 40


@contextlib.contextmanager
def small_disk(starter: Starter):
    """A small disk in memory, mounted as `disk` in the folder of the check."""
    folder = starter.folder / "disk"
    folder.mkdir()
    words = ["mount", "-t", "tmpfs", "-o", f"size={SIZE}", "tmpfs", str(folder)]
    if os.geteuid() != 0:
        raise Skipped("only root can mount a small disk")
    try:
        ran = subprocess.run(words, capture_output=True, text=True)
    except FileNotFoundError:
        raise Skipped("no command mount") from None
    if ran.returncode:
        raise Skipped(f"`{' '.join(words)}` fails: {ran.stderr.strip()}")
    try:
        yield
    finally:
        subprocess.run(["umount", "-l", str(folder)], capture_output=True)


def body(number: int) -> bytes:
    return random.Random(number).randbytes(BODY)


def fill(server: Server) -> int:
    """Stores files until a PUT is 507. Returns how many there are."""
    for number in range(MOST):
        status = server.ask("PUT", f"/{number}", body(number)).status
        if status == 507:
            return number
        expect("status of a PUT", status, 201)
    raise Wrong(f"{MOST} MiB are on a disk of {SIZE}")


def compare(server: Server, numbers):
    for number in numbers:
        if server.ask("GET", f"/{number}", status=200).body != body(number):
            raise Wrong(f"/{number} has other bytes")


def no_trap(starter: Starter, is_killed: bool):
    with small_disk(starter):
        server = starter.start("-folder", "{folder}/disk/kept")
        count = fill(server)
        server.ask("PUT", "/0", body(count), status=507)
        server.ask("GET", f"/{count}", status=404)
        if is_killed:
            os.kill(server.davd(), signal.SIGKILL)
            server.await_health()
        compare(server, range(count))
        server.ask("DELETE", "/1", status=204)
        server.ask("DELETE", "/2", status=204)
        server.ask("PUT", "/1", body(1), status=201)
        compare(server, [0, 1, *range(3, count)])
        server.stop()


GROUP.add("a PUT is 507, a DELETE is 204, and then a PUT finds room", no_trap, False)
GROUP.add("the same if davd was killed on the full disk", no_trap, True)


def reserve(starter: Starter) -> pathlib.Path:
    return starter.folder / "disk" / "kept" / "data-wal"


def fill_but(starter: Starter, left: int):
    """Has a file of somebody else take all room but so many bytes."""
    disk = os.statvfs(starter.folder / "disk")
    with (starter.folder / "disk" / "other").open("wb") as other:
        os.posix_fallocate(other.fileno(), 0, disk.f_bavail * disk.f_frsize - left)


@GROUP.check("where there is no room for the reserve, MKCOLs and DELETEs are done, and it is empty until a PUT finds room")
def no_room_for_it(starter: Starter):
    with small_disk(starter):
        server = starter.start("-folder", "{folder}/disk/kept")
        server.ask("PUT", "/0", body(0), status=201)
        server.stop()
        expect("the reserve", reserve(starter).stat().st_size, RESERVE)
        reserve(starter).write_bytes(b"")
        fill_but(starter, RESERVE // 2)
        server = starter.start("-folder", "{folder}/disk/kept")
        for number in range(20):
            server.ask("MKCOL", f"/d{number}", status=201)
        server.ask("DELETE", "/d0", status=204)
        expect("the reserve on the full disk", reserve(starter).stat().st_size, 0)
        server.ask("PUT", "/1", body(1), status=507)
        (starter.folder / "disk" / "other").unlink()
        server.ask("PUT", "/1", body(1), status=201)
        expect("the reserve when there is room", reserve(starter).stat().st_size, RESERVE)
        compare(server, [0, 1])
        server.stop()


@GROUP.check("where others take all that is free beside the reserve, each DELETE is done after a start")
def others_fill_it(starter: Starter):
    with small_disk(starter):
        server = starter.start("-folder", "{folder}/disk/kept")
        server.ask("PUT", "/0", body(0), status=201)
        for number in range(200):
            server.ask("MKCOL", f"/d{number}", status=201)
        server.stop()
        expect("the reserve", reserve(starter).stat().st_size, RESERVE)
        fill_but(starter, 0)
        server = starter.start("-folder", "{folder}/disk/kept")
        for number in range(200):
            server.ask("DELETE", f"/d{number}", status=204)
        compare(server, [0])
        server.stop()


def free(starter: Starter) -> int:
    """The bytes that are free on the small disk."""
    disk = os.statvfs(starter.folder / "disk")
    return disk.f_bavail * disk.f_frsize


@GROUP.check("without -quota the available bytes are those that are free at the time, and no limit")
def available(starter: Starter):
    with small_disk(starter):
        server = starter.start("-folder", "{folder}/disk/kept")
        server.ask("PUT", "/0", body(0), status=201)
        expect("used and available", quota.figures(server), (BODY, free(starter)))
        fill_but(starter, 2 * BODY)
        expect("used and available beside a file of others", quota.figures(server), (BODY, 2 * BODY))
        for number in range(1, MOST):  # A copy needs no room for its bytes.
            server.ask("COPY", "/0", None, {"Destination": f"/{number}"}, 201)
        expect("used and available after copies", quota.figures(server), (MOST * BODY, free(starter)))
        compare_copies(server)
        (starter.folder / "disk" / "other").unlink()
        expect("used and available when it is gone", quota.figures(server), (MOST * BODY, free(starter)))
        server.stop()


def compare_copies(server: Server):
    for number in (0, 1, MOST - 1):
        if server.ask("GET", f"/{number}", status=200).body != body(0):
            raise Wrong(f"/{number} has other bytes")

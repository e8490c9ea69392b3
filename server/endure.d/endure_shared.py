"""Actions in a folder of all workers: no update is lost, no two versions are mixed, what is moved is in one place."""
import dataclasses

import multistatus
from connection import Answer, Cut, Wrong
from endure_trees import destination

SHARED = "/shared"
COUNT = f"{SHARED}/count"
LOCKED = f"{SHARED}/locked count"
LARGE = f"{SHARED}/large"
BALL = f"{SHARED}/ball"
RECORD = 16
RECORDS = 80_000


@dataclasses.dataclass
class Shares:
    """How often a worker counted up."""

    by_tag: int = 0
    by_lock: int = 0


def prepare(client):
    """Makes the shared folder."""
    client.ask("MKCOL", SHARED, status=201)
    for path, data in ((COUNT, b"0"), (LOCKED, b"0"), (LARGE, large(0, 0)), (BALL, b"ball")):
        client.ask("PUT", path, data, status=201)


def large(worker: int, serial: int) -> bytes:
    """A file of equal records, so that a mix of two versions shows."""
    return b"%03d %011d\n" % (worker, serial) * RECORDS


def number_of(got: Answer) -> int:
    if not got.body.isdigit():
        raise Wrong(f"expected a number\n{got}")
    return int(got.body)


def count(worker):
    """Counts up, unless another was faster: then If-Match does not hold."""
    got = worker.client.ask("GET", COUNT, status=200)
    fields = {"If-Match": got.field("ETag")}
    put = worker.client.ask("PUT", COUNT, str(number_of(got) + 1).encode(), fields, (204, 412))
    worker.shares.by_tag += put.status == 204


def count_locked(worker):
    """Counts up under a lock, unless another has it."""
    body = multistatus.lockinfo(worker.client.user)
    locked = worker.client.ask("LOCK", LOCKED, body, {"Timeout": "Second-600", "Depth": "0"}, (200, 423))
    if locked.status == 423:
        return
    token = multistatus.token_of(locked)
    number = number_of(worker.client.ask("GET", LOCKED, status=200))
    worker.client.ask("PUT", LOCKED, str(number + 1).encode(), {"If": f"({token})"}, 204)
    worker.client.ask("UNLOCK", LOCKED, None, {"Lock-Token": token}, 204)
    worker.shares.by_lock += 1


def replace(worker):
    worker.serial += 1
    worker.client.ask("PUT", LARGE, large(worker.number, worker.serial), status=204)


def read(worker):
    """Reads the large file. If it changes meanwhile, the response may be cut, and what came is of one version."""
    try:
        body, is_whole = worker.client.ask("GET", LARGE, status=200).body, True
    except Cut as cut:
        body, is_whole = cut.body, False
    record = body[:RECORD]
    if body != (record * RECORDS)[: len(body)] or is_whole and len(body) != RECORD * RECORDS:
        raise Wrong(f"GET {LARGE}: the {len(body)} bytes are not those of one version, which begins with {record}")


def take_ball(worker):
    """Moves a file from the shared folder to the worker's own, and back. Only one can."""
    own = f"{worker.root}/ball"
    fields = {"Destination": destination(worker, own), "Overwrite": "F"}
    if worker.client.ask("MOVE", BALL, None, fields, (201, 404)).status == 404:
        return
    got = worker.client.ask("GET", own, status=200)
    if got.body != b"ball":
        raise Wrong(f"GET {own}: expected the ball\n{got}")
    back = {"Destination": destination(worker, BALL), "Overwrite": "F"}
    worker.client.ask("MOVE", own, None, back, 201)

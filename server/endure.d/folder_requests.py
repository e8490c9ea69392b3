"""The requests that a worker sends to a server over a folder, each with what it changes in the model."""
import typing
import xml.sax.saxutils

import endure_properties
import multistatus
from connection import chunked
from endure_client import escaped
from endure_files import MOST_DEPTH, NAMES, pieces
from endure_model import File, is_at_or_below
from folder_model import Kept, Lock

MOST_RESOURCES = 40
MOST_BYTES = 6 << 20
MOST_LOCKS = 4
LOCK_SECONDS = 7200
# Greatest sizes of bodies, and how often they are chosen.
SIZES = ((200, 35), (64 << 10, 35), (300 << 10, 20), (1 << 20, 10))
MOST_PATCHED = 20_000


class Request(typing.NamedTuple):
    """`change` makes the state after the request of that before it.

    `open` makes the state that is left if a file is opened and not written. docs/GUARANTEES.md allows it after a 507.
    """

    method: str
    path: str
    body: bytes | None
    fields: dict
    statuses: tuple[int, ...]
    change: typing.Callable[[Kept], None]
    open: typing.Callable[[Kept], None] | None = None

    def __str__(self):
        size = "" if self.body is None else f" with {len(self.body)} bytes"
        return f"{self.method} {self.path} {self.fields or ''}{size}"


def nothing(_: Kept):
    """Changes nothing."""


# ---- what is chosen


def some(worker, choices):
    return worker.chance.choice(choices) if choices else None


def some_place(worker) -> str | None:
    """A path in a folder at which nothing exists."""
    path = f"{worker.chance.choice(worker.tree.folders())}/{worker.chance.choice(NAMES)}"
    return None if path in worker.tree or path.count("/") > MOST_DEPTH else path


def some_member(worker) -> str | None:
    """A file or a folder, but not the root."""
    return some(worker, [it for it in worker.tree.resources if it != worker.tree.root])


def some_size(worker) -> int:
    most = worker.chance.choices([it for it, _ in SIZES], [it for _, it in SIZES])[0]
    return worker.chance.randint(1, most)


def fits(worker, resources: int, size: int) -> bool:
    tree = worker.tree
    return len(tree) + resources <= worker.most_resources and tree.size() + size <= worker.most_bytes


def with_token(worker, path: str) -> dict:
    """The field that submits the token of the lock that covers a path."""
    lock = worker.tree.lock_of(path)
    return {"If": f"({lock.token})"} if lock else {}


def destination(worker, path: str) -> dict:
    return {"Destination": f"http://127.0.0.1:{worker.client.port}{escaped(path)}"}


# ---- files


def put(worker) -> Request | None:
    path = some(worker, worker.tree.files()) if worker.chance.random() < 0.5 else some_place(worker)
    size = some_size(worker)
    if not path:
        return None
    if not fits(worker, 1, size):
        return delete(worker)
    return put_at(worker, path, size)


def put_at(worker, path: str, size: int) -> Request:
    """A PUT of so many bytes, with a length or in chunks."""
    data, fields = worker.bytes(size), with_token(worker, path)
    body = data
    if worker.chance.random() < 0.3:
        body, fields = chunked(*pieces(worker, data)), {**fields, "Transfer-Encoding": "chunked"}
    statuses = (204,) if path in worker.tree else (201,)

    def change(tree: Kept, new: bytes = data):
        tree.write(path, new, None)

    return Request("PUT", path, body, fields, statuses, change, lambda tree: change(tree, b""))


def patch(worker) -> Request | None:
    """A partial update as SabreDAV defines it."""
    path = some(worker, worker.tree.files())
    if not path or not fits(worker, 0, MOST_PATCHED):
        return None
    old, data = worker.tree[path].data, worker.bytes(worker.chance.randint(1, MOST_PATCHED))
    place = worker.chance.randint(0, len(old) + 50)
    form, start = worker.chance.choice([(f"bytes={place}-", place), ("append", len(old))])
    fields = {"X-Update-Range": form, "Content-Type": "application/x-sabredav-partialupdate"}
    filled = old.ljust(start, b"\0")
    new = filled[:start] + data + filled[start + len(data) :]
    return Request(
        "PATCH", path, data, {**fields, **with_token(worker, path)}, (204,), lambda tree: tree.write(path, new, None)
    )


# ---- folders


def make(worker) -> Request | None:
    path = some_place(worker)
    if not path or not fits(worker, 1, 0):
        return None
    return Request("MKCOL", path, None, with_token(worker, path), (201,), lambda tree: tree.make_folder(path))


def delete(worker) -> Request | None:
    path = some_member(worker)
    if not path or worker.tree.has_lock_below(path):
        return None
    return Request("DELETE", path, None, with_token(worker, path), (204,), lambda tree: tree.remove(path))


def transfer_paths(worker) -> tuple[str, str] | None:
    """A source and a target, neither of which is at or below the other. No lock covers the target."""
    source = some_member(worker)
    target = some_place(worker) if worker.chance.random() < 0.7 else some_member(worker)
    if not source or not target or is_at_or_below(source, target) or is_at_or_below(target, source):
        return None
    return (source, target) if worker.tree.is_free(target) else None


def copy(worker) -> Request | None:
    paths = transfer_paths(worker)
    if not paths:
        return None
    source, target = paths
    below = [it for _, it in worker.tree.below(source)]
    if not fits(worker, len(below), sum(len(it.data) for it in below if isinstance(it, File))):
        return None
    statuses = (204,) if target in worker.tree else (201,)
    return Request("COPY", source, None, destination(worker, target), statuses, lambda tree: tree.copy(source, target))


def move(worker) -> Request | None:
    paths = transfer_paths(worker)
    if not paths or not worker.tree.is_free(paths[0]):
        return None
    source, target = paths
    statuses = (204,) if target in worker.tree else (201,)
    return Request("MOVE", source, None, destination(worker, target), statuses, lambda tree: tree.move(source, target))


# ---- properties


def set_properties(worker) -> Request:
    path = worker.chance.choice(list(worker.tree.resources))
    properties, text = dict(worker.tree[path].properties), ""
    for name in worker.chance.choices(endure_properties.NAMES, k=worker.chance.randint(1, 3)):
        if worker.chance.random() < 0.7:
            properties[name] = worker.chance.choice(endure_properties.VALUES) or f"value {worker.chance.random()}"
            text += endure_properties.SET.format(name=name, value=xml.sax.saxutils.escape(properties[name]))
        else:
            properties.pop(name, None)
            text += endure_properties.REMOVE.format(name=name)

    def change(tree: Kept):
        tree[path].properties = properties

    body = endure_properties.UPDATE.format(changes=text).encode()
    return Request("PROPPATCH", path, body, with_token(worker, path), (207,), change)


# ---- locks


def lock(worker) -> Request | None:
    """Locks a file, a free name, or a folder with everything below it. The lock stays."""
    tree = worker.tree
    path = some_place(worker) if worker.chance.random() < 0.2 else some_member(worker)
    if not path or not tree.is_free(path) or len(tree.locks) >= MOST_LOCKS or not fits(worker, 1, 0):
        return None
    is_deep, scope = tree.is_folder(path), worker.chance.choice(("exclusive", "shared"))
    fields = {"Timeout": f"Second-{LOCK_SECONDS}", "Depth": "infinity" if is_deep else "0"}

    def change(changed: Kept):
        if path not in changed:
            changed.write(path, b"", None)
        changed.locks[path] = Lock(None, scope, is_deep)

    body = multistatus.lockinfo(f"worker {worker.number}", scope)
    statuses = (200,) if path in tree else (201,)
    return Request("LOCK", path, body, {**fields, "Content-Type": "application/xml"}, statuses, change)


def unlock(worker) -> Request | None:
    path = some(worker, list(worker.tree.locks))
    if not path:
        return None
    fields = {"Lock-Token": worker.tree.locks[path].token}
    return Request("UNLOCK", path, None, fields, (204,), lambda tree: tree.locks.pop(path))


def refused(worker) -> Request | None:
    """A locked resource is not changed without the token."""
    path = some(worker, [it for it in worker.tree.locks if not worker.tree.is_folder(it)])
    return Request("PUT", path, b"x", {}, (423,), nothing) if path else None


# How often each request is chosen, beside the others.
WEIGHTS = {
    put: 30, patch: 12, make: 8, delete: 6, copy: 8, move: 10, set_properties: 10, lock: 5, unlock: 3, refused: 3,
}


def some_request(worker) -> Request:
    """A request that the state of the worker allows."""
    while True:
        chosen = worker.chance.choices(list(WEIGHTS), WEIGHTS.values())[0]
        if request := chosen(worker):
            return request

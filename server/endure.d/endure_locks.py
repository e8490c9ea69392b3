"""Actions with locks. None is left at their end, so that the other actions need none."""
import time

import multistatus
from connection import Wrong
from endure_files import PROPPATCH, WRONG_TAG, fits, free_place, get_path, some_file
from endure_model import File
from endure_trees import destination

WRONG_TOKEN = "<urn:uuid:00000000-0000-4000-8000-000000000000>"


def lock(worker, path: str, scope: str, seconds: int, depth: str, status) -> str:
    """Locks a resource, and returns the token with its angle brackets."""
    fields = {"Timeout": f"Second-{seconds}", "Depth": depth, "Content-Type": "application/xml"}
    got = worker.client.ask("LOCK", path, multistatus.lockinfo(worker.client.user, scope), fields, status)
    if not 0 < multistatus.lock_seconds(got) <= seconds:
        raise Wrong(f"LOCK {path}: expected a timeout of at most {seconds} s\n{got}")
    return multistatus.token_of(got)


def unlock(worker, path: str, token: str, status: int = 204):
    worker.client.ask("UNLOCK", path, None, {"Lock-Token": token}, status)


def lock_file(worker):
    """Locks a file or a free name. Then a change needs the token and the user."""
    path = some_file(worker) if worker.chance.random() < 0.7 else free_place(worker)
    if not path or not fits(worker, 2, 4000):
        return
    is_new, scope = path not in worker.tree, worker.chance.choice(("exclusive", "shared"))
    token = lock(worker, path, scope, 300, "0", 201 if is_new else 200)
    if is_new:
        worker.tree.resources[path] = File(b"")
    steps = [refused, with_another_token, by_another_user, second_lock, refresh, with_token, discovered]
    for step in worker.chance.sample(steps, worker.chance.randint(2, len(steps))):
        step(worker, path, scope, token)
    end(worker, path, token)
    put(worker, path, {}, 201 if path not in worker.tree else 204)


def put(worker, path: str, fields: dict, status: int):
    data = worker.bytes(worker.chance.randint(0, 2000))
    got = worker.client.ask("PUT", path, data, fields, status)
    if status in (201, 204):
        worker.tree.write(path, data, got.field("ETag"))


def end(worker, path: str, token: str):
    """Ends a lock: by UNLOCK, or by a DELETE of the file."""
    if worker.chance.random() < 0.7:
        unlock(worker, path, token)
    else:
        worker.client.ask("DELETE", path, None, {"If": f"({token})"}, 204)
        worker.tree.remove(path)
    unlock(worker, path, token, 409)


# ---- what is tried of a locked file


def refused(worker, path: str, scope: str, token: str):
    """Without the token nothing changes."""
    elsewhere = {"Destination": destination(worker, f"{worker.root}/moved")}
    worker.client.ask("PUT", path, b"x", {}, 423)
    worker.client.ask("DELETE", path, None, {}, 423)
    worker.client.ask("PROPPATCH", path, PROPPATCH, {}, 423)
    worker.client.ask("MOVE", path, None, elsewhere, 423)
    get_path(worker, path)


def with_another_token(worker, path: str, scope: str, token: str):
    worker.client.ask("PUT", path, b"x", {"If": f"({WRONG_TOKEN})"}, 412)
    worker.client.ask("PUT", path, b"x", {"If": f"({token} [{WRONG_TAG}])"}, 412)
    get_path(worker, path)


def by_another_user(worker, path: str, scope: str, token: str):
    """The token alone is not enough: docs/FRAMES.md gives the 403, docs/GUARANTEES.md the 423."""
    worker.other.ask("PUT", path, b"x", {"If": f"({token})"}, 423)
    worker.other.ask("UNLOCK", path, None, {"Lock-Token": token}, 403)
    worker.other.ask("LOCK", path, None, {"If": f"({token})", "Timeout": "Second-300"}, 403)
    get_path(worker, path)


def second_lock(worker, path: str, scope: str, token: str):
    """Only two shared locks exist together (RFC 4918, section 6.2)."""
    body = multistatus.lockinfo("another", "exclusive")
    worker.client.ask("LOCK", path, body, {"Timeout": "Second-300", "Depth": "0"}, 423)
    if scope == "shared":
        unlock(worker, path, lock(worker, path, "shared", 300, "0", 200))


def refresh(worker, path: str, scope: str, token: str):
    got = worker.client.ask("LOCK", path, None, {"If": f"({token})", "Timeout": "Second-200"}, 200)
    if not 0 < multistatus.lock_seconds(got) <= 200:
        raise Wrong(f"LOCK {path}: expected a timeout of at most 200 s after a refresh\n{got}")


def with_token(worker, path: str, scope: str, token: str):
    """With the token a PUT is as without the lock."""
    url = destination(worker, path)
    conditions = [f"({token})", f"<{url}> ({token})", f"(Not {WRONG_TOKEN}) ({token})"]
    if tag := worker.tree[path].tag:
        conditions.append(f"({token} [{tag}])")
    put(worker, path, {"If": worker.chance.choice(conditions)}, 204)


def discovered(worker, path: str, scope: str, token: str):
    """The property lockdiscovery shows the lock."""
    body = multistatus.propfind(multistatus.D + "lockdiscovery")
    got = worker.client.ask("PROPFIND", path, body, {"Depth": "0"}, 207)
    if token.strip("<>").encode() not in got.body:
        raise Wrong(f"{path}: expected the lock {token} in lockdiscovery\n{got}")


# ---- folders and time


def lock_folder(worker):
    """A lock of Depth infinity covers everything below a folder."""
    folders = [it for it in worker.tree.folders() if it != worker.root]
    if not folders or not fits(worker, 2, 4000):
        return
    folder = worker.chance.choice(folders)
    token = lock(worker, folder, "exclusive", 300, "infinity", 200)
    path = f"{folder}/locked"
    worker.client.ask("PUT", path, b"x", {}, 423)
    worker.client.ask("MKCOL", path, None, {}, 423)
    worker.client.ask("DELETE", folder, None, {}, 423)
    put(worker, path, {"If": f"({token})"}, 204 if path in worker.tree else 201)
    worker.client.ask("DELETE", path, None, {}, 423)
    worker.client.ask("DELETE", path, None, {"If": f"({token})"}, 204)
    worker.tree.remove(path)
    unlock(worker, folder, token)


def expire(worker):
    """A lock ends after its time."""
    path = some_file(worker)
    if not path:
        return
    token = lock(worker, path, "exclusive", 2, "0", 200)
    time.sleep(3.1)  # davd counts in whole seconds.
    put(worker, path, {}, 204)
    unlock(worker, path, token, 409)

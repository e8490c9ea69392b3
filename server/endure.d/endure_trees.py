"""Actions on folders: MKCOL, DELETE, COPY, MOVE, PROPFIND, the page of a folder, and malformed requests."""
import html

import endure_properties
import multistatus
from connection import Wrong
from endure_client import escaped
from endure_files import fits, free_place, get_path
from endure_model import File, is_at_or_below
from multistatus import D

LISTED = multistatus.propfind(D + "resourcetype", D + "getcontentlength", D + "getetag")
REQUESTS = (LISTED, multistatus.ALLPROP, None)


def destination(worker, path: str) -> str:
    return f"http://127.0.0.1:{worker.client.port}{escaped(path)}"


def some_resource(worker) -> str | None:
    """A file or a folder, but not the root."""
    paths = [it for it in worker.tree.resources if it != worker.root]
    return worker.chance.choice(paths) if paths else None


# ---- changes


def make(worker):
    path = free_place(worker)
    if not path or not fits(worker, 1, 0):
        return
    if worker.chance.random() < 0.1:
        worker.client.ask("MKCOL", path, b"<x/>", {"Content-Type": "application/xml"}, 415)
        return
    if worker.chance.random() < 0.1:
        worker.client.ask("MKCOL", some_resource(worker) or worker.root, status=405)
        return
    worker.client.ask("MKCOL", path + worker.chance.choice(("", "/")), status=201)
    worker.tree.make_folder(path)


def delete(worker):
    path = some_resource(worker)
    if path:
        fields = {"Depth": "infinity"} if worker.chance.random() < 0.3 else {}
        worker.client.ask("DELETE", path, None, fields, 204)
        worker.tree.remove(path)
        worker.client.ask("PROPFIND", path, None, {"Depth": "0"}, 404)


def copy(worker):
    transfer(worker, "COPY")


def move(worker):
    transfer(worker, "MOVE")


def transfer(worker, method: str):
    """A COPY of any depth or a MOVE, to a free place or onto something."""
    source = some_resource(worker)
    target = free_place(worker) if worker.chance.random() < 0.6 else some_resource(worker)
    if not source or not target:
        return
    below = list(worker.tree.below(source))
    if method == "COPY" and not fits(worker, len(below), sum(len(getattr(it, "data", b"")) for _, it in below)):
        return
    is_deep = method == "MOVE" or target in worker.tree or worker.chance.random() < 0.8
    overwrite = worker.chance.choice(("T", "F", None))
    fields = {"Destination": destination(worker, target)}
    fields |= {"Overwrite": overwrite} if overwrite else {}
    fields |= {} if is_deep else {"Depth": "0"}
    status = transfer_status(worker, method, source, target, overwrite, is_deep)
    worker.client.ask(method, source, None, fields, status)
    if status not in (201, 204):
        return
    if method == "COPY":
        worker.tree.copy(source, target, is_deep)
    else:
        worker.tree.move(source, target)
        worker.client.ask("PROPFIND", source, None, {"Depth": "0"}, 404)
    get_path(worker, target)


def transfer_status(worker, method: str, source: str, target: str, overwrite: str | None, is_deep: bool) -> int:
    """The status that docs/GUARANTEES.md gives, whose rules are in this order."""
    exists = target in worker.tree
    if overwrite == "F" and exists:
        return 412
    if source == target or is_deep and is_at_or_below(source, target):
        return 403
    if method == "MOVE" and is_at_or_below(target, source):
        return 403
    return 204 if exists else 201


# ---- lists


def list_(worker):
    list_folder(worker, worker.chance.choice(worker.tree.folders()), worker.chance.choice(REQUESTS))


def list_folder(worker, folder: str, body: bytes | None):
    """Compares a PROPFIND of Depth 1 with the model."""
    path = folder + worker.chance.choice(("", "/"))
    got = worker.client.ask("PROPFIND", path, body, {"Depth": "1"}, 207)
    found = {path.rstrip("/"): (path, it) for path, it in multistatus.resources(got).items()}
    wanted = {folder, *worker.tree.members(folder)}
    if set(found) != wanted:
        more, missing = sorted(set(found) - wanted), sorted(wanted - set(found))
        raise Wrong(f"PROPFIND {folder}: {more} too much, {missing} not listed")
    for path in wanted:
        compare_listed(worker, path, *found[path])


def compare_listed(worker, path: str, href: str, listed: multistatus.Resource):
    resource = worker.tree[path]
    is_folder = not isinstance(resource, File)
    if listed.is_collection() != is_folder or href.endswith("/") != is_folder:
        raise Wrong(f"{href}: expected a {'collection' if is_folder else 'file'}, got {listed}")
    if is_folder:
        return
    if listed.text(D + "getcontentlength") != str(len(resource.data)):
        raise Wrong(f"{path}: expected the length {len(resource.data)}, got {listed.text(D + 'getcontentlength')}")
    tag = listed.text(D + "getetag")
    if not tag or resource.tag not in (None, tag):
        raise Wrong(f"{path}: expected the entity tag {resource.tag}, listed is {tag}")
    resource.tag = tag


def page(worker):
    """The page of a folder names its members."""
    folder = worker.chance.choice(worker.tree.folders())
    if worker.chance.random() < 0.2:
        got = worker.client.ask("GET", folder, status=301)
        if got.field("Location") != f"{escaped(folder)}/":
            raise Wrong(f"GET {folder}: expected a Location with a trailing slash\n{got}")
        return
    got = worker.client.ask("GET", f"{folder}/", status=200)
    text = html.unescape(got.body.decode())
    for member in worker.tree.members(folder):
        if member.rpartition("/")[2] not in text:
            raise Wrong(f"GET {folder}/: {member} is not on the page")


def compare_all(worker):
    """Compares each resource, its properties and each byte with the model."""
    for folder in worker.tree.folders():
        list_folder(worker, folder, LISTED)
    for path in worker.tree.resources:
        get_path(worker, path)
        endure_properties.compare(worker, path)


# ---- malformed


def malformed(worker):
    """Requests that are rejected, and change nothing."""
    chance, client = worker.chance, worker.client
    path = some_resource(worker) or worker.root
    chance.choice((
        lambda: client.ask("PROPFIND", worker.root, multistatus.ALLPROP, {"Depth": "infinity"}, 403),
        lambda: client.ask("PROPFIND", path, b"<propfind xmlns='DAV:'><prop>", {"Depth": "0"}, 400),
        lambda: client.ask("PROPFIND", path, b"<!DOCTYPE x [<!ENTITY y 'z'>]><x/>", {"Depth": "0"}, 400),
        lambda: client.ask("PROPPATCH", path, b"<x xmlns='urn:x'/>", {}, 400),
        lambda: client.ask("LOCK", path, b"no XML", {}, 400),
        lambda: client.ask("MOVE", path, None, {}, 400),
        lambda: client.ask("COPY", path, None, {"Destination": "http://elsewhere.example/x"}, 502),
        lambda: client.ask("UNLOCK", path, None, {"Lock-Token": "<urn:x:no-such-token>"}, 409),
        lambda: client.ask("PUT", f"{worker.root}/x/", b"x", {}, 405),
    ))()

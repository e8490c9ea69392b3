"""Actions on dead properties: PROPPATCH, and PROPFIND of what it stored."""
import xml.sax.saxutils

import multistatus
from connection import Answer, Wrong
from endure_model import File
from multistatus import D

NAMESPACE = "urn:endure"
NAMES = ("p0", "p1", "p2", "p3")
VALUES = ("", "x", " two  words ", "a<b>&amp;\"c'", "\u00fc\u65e5\U0001f600", "line\nline", "]]>", "1" * 3000)
SET = '<D:set><D:prop><x:{name} xmlns:x="urn:endure">{value}</x:{name}></D:prop></D:set>'
REMOVE = '<D:remove><D:prop><x:{name} xmlns:x="urn:endure"/></D:prop></D:remove>'
UPDATE = '<?xml version="1.0" encoding="utf-8"?><D:propertyupdate xmlns:D="DAV:">{changes}</D:propertyupdate>'
ETAG = '<D:set><D:prop><D:getetag>"x"</D:getetag></D:prop></D:set>'


def some_path(worker) -> str:
    return worker.chance.choice(list(worker.tree.resources))


def changed(worker, path: str) -> tuple[str, dict[str, str]]:
    """Some changes as XML, and the properties after them. They count in their order."""
    properties, text = dict(worker.tree[path].properties), ""
    for name in worker.chance.choices(NAMES, k=worker.chance.randint(1, 3)):
        if worker.chance.random() < 0.7:
            properties[name] = worker.chance.choice(VALUES)
            text += SET.format(name=name, value=xml.sax.saxutils.escape(properties[name]))
        else:
            properties.pop(name, None)
            text += REMOVE.format(name=name)
    return text, properties


def set_(worker):
    path = some_path(worker)
    text, properties = changed(worker, path)
    got = worker.client.ask("PROPPATCH", path, UPDATE.format(changes=text).encode(), {}, 207)
    for name, status in reported(got):
        if status != 200:
            raise Wrong(f"PROPPATCH {path}: expected 200 for {name}, got {status}\n{got}")
    resource = worker.tree[path]
    resource.properties = properties
    if isinstance(resource, File):
        resource.tag = None  # Whether properties count for it is up to the store.
    compare(worker, path)


def reported(got: Answer) -> list[tuple[str, int]]:
    """The properties and statuses of the response to a PROPPATCH: one pair for each change."""
    parts = multistatus.root(got, D + "multistatus").findall(f"{D}response/{D}propstat")
    statuses = [(multistatus.status(it.findtext(D + "status"), got), it.find(D + "prop")) for it in parts]
    found = [(it.tag, status) for status, properties in statuses for it in properties]
    if not found:
        raise Wrong(f"no property is reported\n{got}")
    return found


def read(worker):
    compare(worker, some_path(worker))


def protected(worker):
    """A change of a live property is refused, and with it all others (RFC 4918, section 9.2)."""
    path = some_path(worker)
    text, _ = changed(worker, path)
    body = UPDATE.format(changes=text + ETAG).encode()
    got = worker.client.ask("PROPPATCH", path, body, {}, 207)
    for name, status in reported(got):
        if status != (403 if name == D + "getetag" else 424):
            raise Wrong(f"PROPPATCH {path} of getetag: got {status} for {name}\n{got}")
    compare(worker, path)


def compare(worker, path: str):
    """Compares the dead properties of a resource with the model."""
    names = [f"{{{NAMESPACE}}}{it}" for it in NAMES]
    got = worker.client.ask("PROPFIND", path, multistatus.propfind(*names), {"Depth": "0"}, 207)
    found = multistatus.only(got)
    for name, full in zip(NAMES, names):
        wanted = worker.tree[path].properties.get(name)
        if found.status_of(full) != (404 if wanted is None else 200) or found.text(full) != wanted:
            raise Wrong(f"{path}: expected {name} to be {wanted!r}, got {found.properties.get(full)}\n{got}")

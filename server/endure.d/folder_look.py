"""Reads what a server over a folder has: one resource, the members of a folder, or everything."""
import xml.etree.ElementTree as ElementTree

import multistatus
from connection import Answer, Wrong
from endure_client import Client
from endure_properties import NAMES, NAMESPACE
from folder_model import Found
from multistatus import D

PROPERTIES = {f"{{{NAMESPACE}}}{it}": it for it in NAMES}
ASKED = multistatus.propfind(
    D + "resourcetype", D + "getcontentlength", D + "getetag", D + "lockdiscovery", *PROPERTIES
)


def tokens_of(lockdiscovery: ElementTree.Element | None) -> frozenset[str]:
    """The tokens of the locks, with angle brackets."""
    if lockdiscovery is None:
        return frozenset()
    return frozenset(f"<{it.text.strip()}>" for it in lockdiscovery.iterfind(f"{D}activelock/{D}locktoken/{D}href"))


def found_of(listed: multistatus.Resource) -> Found:
    """A resource as a PROPFIND lists it. Its bytes are not read."""
    properties = {name: listed.text(full) for full, name in PROPERTIES.items() if listed.status_of(full) == 200}
    _, locks = listed.properties.get(D + "lockdiscovery", (404, None))
    if listed.is_collection():
        return Found(True, None, properties, tokens_of(locks), None, None)
    length = listed.text(D + "getcontentlength")
    if not length or not length.isdigit():
        raise Wrong(f"expected a length, found {length!r}")
    return Found(False, None, properties, tokens_of(locks), listed.text(D + "getetag"), int(length))


def read(client: Client, path: str, found: Found) -> Found:
    """The same with the bytes of the file."""
    got = client.ask("GET", path, status=200)
    return found._replace(data=got.body, length=len(got.body), tag=got.field("ETag"))


def look(client: Client, path: str) -> Found | None:
    """A resource with its bytes, or `None` if nothing exists at the path."""
    got = client.ask("PROPFIND", path, ASKED, {"Depth": "0"}, (207, 404))
    if got.status == 404:
        client.ask("GET", path, status=404)
        return None
    found = found_of(multistatus.only(got))
    return found if found.is_folder else read(client, path, found)


def listed(got: Answer) -> dict[str, Found]:
    return {path.rstrip("/"): found_of(it) for path, it in multistatus.resources(got).items()}


def list_folder(client: Client, folder: str) -> dict[str, Found]:
    """A folder and its members by their paths. The bytes of files are not read."""
    return listed(client.ask("PROPFIND", folder, ASKED, {"Depth": "1"}, 207))


def list_all(client: Client, top: str) -> dict[str, Found]:
    """A folder and everything below it. The bytes of files are not read."""
    found, folders = {}, [top]
    while folders:
        folder = folders.pop()
        members = list_folder(client, folder)
        found |= members
        folders += [path for path, it in members.items() if it.is_folder and path != folder]
    return found

"""What each server does if one file of a tree cannot be read, or cannot be removed."""
import os
import pathlib
import re
import shutil
import typing
import xml.etree.ElementTree as ElementTree

from connection import Answer, Wrong
from peer_checks import Checks, table
from peer_servers import DAVSERVE, KEPT, SABRE_THROWING, USER, Peer, Programs, Running
from programs import TOP

FILES = ("a", "z", "c/u", "b_locked/x", "b_locked/y")
READABLE = ("a", "z", "c/u", "b_locked/y")
UNREADABLE = "b_locked/x"
# The other files of /t/ cannot be removed.
REMOVABLE = ("a", "c/u", "z")
HEAD = ["server", "response to COPY", "copied", "response to DELETE", "left"]
CASE = TOP / "cases/davrun/copy_and_delete_beside_a_locked_directory.out"
D = "{DAV:}"


class Row(typing.NamedTuple):
    copy: str
    copied: str
    delete: str
    left: str


def fill(data: pathlib.Path):
    """Makes /s/, of which the server may not read one file, and /t/, of which it may not change one directory."""
    for top in ("s", "t"):
        for name in FILES:
            file = data / top / name
            file.parent.mkdir(parents=True, exist_ok=True)
            file.write_text(f"{name}\n")
    for path in [data, *data.rglob("*")]:
        shutil.chown(path, USER, USER)
    for path in [data / "t/b_locked", *(data / "t/b_locked").iterdir(), data / "s" / UNREADABLE]:
        shutil.chown(path, "root", "root")
    (data / "t/b_locked").chmod(0o555)
    (data / "s" / UNREADABLE).chmod(0o600)


def try_server(server: Running) -> Row:
    """Sends both requests, and looks at what is left."""
    data = server.place.data
    copy = server.ask("COPY", "/s/", {"Destination": f"{server.url}/n/"})
    there = {name: (data / "n" / name).read_bytes() for name in FILES if (data / "n" / name).is_file()}
    delete = server.ask("DELETE", "/t/")
    left = [name for name in REMOVABLE if (data / "t" / name).is_file()]
    return Row(described(copy), copied(there), described(delete), listed(left))


def described(answer: Answer) -> str:
    """A response in a few words."""
    try:
        root = ElementTree.fromstring(answer.body)
    except ElementTree.ParseError:
        root = None
    responses = [] if root is None else [statuses(it) for it in root.iter(D + "response")]
    if responses and root.tag == D + "multistatus":
        return f"{answer.status}: {', '.join(responses)}"
    if found := re.search(rb"<(?:\w+:)?response>.*?<(?:\w+:)?href>(.*?)<", answer.body, re.S):
        return f"{answer.status} with a bare `D:response` of `{found[1].decode(errors='replace')}`, no multistatus"
    if answer.body.strip():
        return f"{answer.status}, a body that names {'a file' if b'b_locked/' in answer.body else 'no file'}"
    return f"{answer.status}, no body"


def statuses(response: ElementTree.Element) -> str:
    found = re.search(r"\d{3}", response.findtext(D + "status") or "")
    return f"`{(response.findtext(D + 'href') or '').strip()}` {found[0] if found else 'without a status'}"


def copied(there: dict[str, bytes]) -> str:
    """How many of the readable files were copied, and what was made of the unreadable one."""
    whole = [name for name in READABLE if there.get(name) == f"{name}\n".encode()]
    text = f"{len(whole)} of {len(READABLE)}"
    if UNREADABLE in there:
        text += f", and {'an empty' if not there[UNREADABLE] else 'a'} file in place of the unreadable one"
    return text


def listed(names: list[str]) -> str:
    return " and ".join(", ".join(f"`{it}`" for it in part) for part in (names[:-1], names[-1:]) if part) or "nothing"


# ---- davserve


def of_the_engine() -> Row:
    """What the case shows of the engine, over a store that refuses the same calls. Its output is in the repository."""
    text = CASE.read_text(encoding="utf-8")
    served, _, remains = text.partition("\nresources\n")
    blocks = served.split("> ")
    copy = [it for it in blocks if it.startswith("COPY /s/")][-1]
    delete = [it for it in blocks if it.startswith("DELETE /t/")][-1]
    files = dict(re.findall(r'^(/\S+) "(.*)"$', remains, re.M))
    there = {name: f"{name}\n".encode() for name in FILES if f"/n/{name}" in files and is_copy(files, name)}
    left = [name for name in REMOVABLE if f"/t/{name}" in files]
    return Row(described_block(copy), copied(there), described_block(delete), listed(left))


def is_copy(files: dict[str, str], name: str) -> bool:
    return files[f"/n/{name}"] == files[f"/s/{name}"]


def described_block(block: str) -> str:
    responses = re.findall(r'D:href\n\s*"(.*)"\n\s*D:status\n\s*"HTTP/1\.1 (\d+)', block)
    status = block.splitlines()[1].split()[0]
    return f"{status}: {', '.join(f'`{path}` {code}' for path, code in responses)}" if responses else status


# What RFC 4918 asks for (sections 9.6.1 and 9.8.3): what failed is reported, and everything else is done.
RIGHT = Row("207: `/s/b_locked/x` 403", "4 of 4", "207: `/t/b_locked/x` 403, `/t/b_locked/y` 403", "nothing")


# ---- all


def run(peers: list[Peer], programs: Programs, parent: pathlib.Path, checks: Checks) -> str:
    """Tries each server, and returns the table."""
    rows = []
    for peer in peers:
        if peer.name == KEPT:
            continue  # It has the engine of davserve.
        if peer.name == DAVSERVE:
            row = of_the_engine()
            wrong = "" if row == RIGHT else f"{row}, not {RIGHT}"
            checks.judge("the engine of davserve beside a locked directory", wrong)
            rows.append(["dav_engine, the engine of davserve", *row])
            continue
        for name, variant in variants(peer):
            if os.geteuid() != 0:
                checks.skip(f"{name} beside a locked directory", "only root can make the directory")
            else:
                rows += try_peer(variant, name, programs, parent, checks)
    return table(HEAD, rows)


def variants(peer: Peer) -> list[tuple[str, Peer]]:
    """A server, or SabreDAV in the two ways in which PHP can treat what the file system refuses."""
    if peer.name != SABRE_THROWING.name:
        return [(peer.name, peer)]
    return [("SabreDAV, PHP warnings ignored", peer), ("SabreDAV, PHP warnings as exceptions", SABRE_THROWING)]


def try_peer(peer: Peer, name: str, programs: Programs, parent: pathlib.Path, checks: Checks) -> list[list[str]]:
    try:
        with Running(peer, programs, parent, fill) as server:
            row = try_server(server)
    except (Wrong, OSError) as wrong:
        checks.fail(f"{name} beside a locked directory", str(wrong))
        return []
    checks.pass_(f"{name} beside a locked directory")
    return [[name, *row]]

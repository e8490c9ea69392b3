"""LibreOffice opens, saves and locks documents on the server, and lists and changes folders. It runs without a screen."""
import io
import json
import os
import pathlib
import re
import select
import subprocess
import time
import urllib.parse
import zipfile

import accounts
import multistatus
import programs
from connection import Wrong
from harness import Group, Skipped
from multistatus import D
from server import PROCESSES, Server, expect, free_port

CALLS = pathlib.Path(__file__).with_name("libreoffice_calls.py")
PYTHON = "/usr/bin/python3"
START_SECONDS = 55
CALL_SECONDS = 30
MOST = 5  # seconds until a lock expires that LibreOffice does not refresh
NAME = "gr\u00fcn <1>; #2.odt"
# LibreOffice compares the names of a listing with its own URLs.
LISTED = "report (1).odt", "a+b=c, $5!.odt", "anna's @ 10:30 *.odt"
FLAGS = ["--headless", "--norestore", "--nologo", "--nodefault", "--nofirststartwizard"]

PLAIN = Group("LibreOffice", needs="soffice")
WITH_USER = Group("LibreOffice with a user and a prefix, over a folder", "-folder", "{folder}/served", "-prefix", "/dav",
                  "-max-lock", f"{MOST}s", *accounts.FLAGS, files=accounts.FILES, needs="soffice")
GROUPS = [PLAIN, WITH_USER]


class Office:
    """A LibreOffice that runs, and the program that makes its calls. `folder` is for what it keeps, and its HOME."""

    def __init__(self, folder: pathlib.Path):
        folder.mkdir()
        port = free_port()
        environment = {**os.environ, "HOME": str(folder), "LC_ALL": "C.UTF-8"}
        words = ["soffice", f"-env:UserInstallation={folder.as_uri()}/profile", *FLAGS,
                 f"--accept=socket,host=127.0.0.1,port={port};urp;"]
        self.said = folder / "said"
        with self.said.open("wb") as said:
            self.process = PROCESSES.start(words, stdout=said, stderr=said, env=environment)
            self.calls = PROCESSES.start([PYTHON, CALLS, port, *accounts.ANNA], stdin=subprocess.PIPE,
                                         stdout=subprocess.PIPE, stderr=said, env=environment)
        self.answer("the start", START_SECONDS)

    def call(self, name: str, *arguments):
        """Makes a call, and returns what LibreOffice returns."""
        self.calls.stdin.write(json.dumps([name, *arguments]).encode() + b"\n")
        self.calls.stdin.flush()
        return self.answer(f"{name} {' '.join(arguments)}", CALL_SECONDS)

    def answer(self, call: str, seconds: float):
        """Awaits the answer to a call, which is a line."""
        end, received = time.monotonic() + seconds, b""
        while not received.endswith(b"\n"):
            if not select.select([self.calls.stdout], [], [], max(0, end - time.monotonic()))[0]:
                raise Wrong(f"LibreOffice has not answered {call} within {seconds} s")
            piece = os.read(self.calls.stdout.fileno(), 1 << 16)
            if not piece:
                raise Wrong(f"LibreOffice ended before it answered {call}:\n{self.said.read_text(errors='replace')}")
            received += piece
        answer = json.loads(received)
        if "error" in answer:
            raise Wrong(f"LibreOffice fails in {call}: {answer['error']}")
        return answer["value"]


def office(server: Server) -> Office:
    """The LibreOffice of the group. It is started once, also if it fails."""
    for package in ("libreoffice-writer-nogui", "python3-uno"):
        if not programs.is_there(package):
            raise Skipped(f"{package} is not installed")
    if "office" not in server.notes:
        server.notes["office"] = None
        server.notes["office"] = Office(server.files / "libreoffice")
    if not server.notes["office"]:
        raise Wrong("LibreOffice has not started")
    return server.notes["office"]


def path(server: Server, name: str) -> str:
    return f"{server.prefix}/office/{urllib.parse.quote(name)}"


def url(server: Server, name: str) -> str:
    return server.url(path(server, name))


def text(server: Server, name: str) -> str:
    """The text of a document on the server, of which each part must be whole."""
    body = server.ask("GET", path(server, name), None, accounts.AS_ANNA, 200).body
    try:
        with zipfile.ZipFile(io.BytesIO(body)) as document:
            expect("the damaged part of the document", document.testzip(), None)
            found = document.read("content.xml").decode()
    except zipfile.BadZipFile as error:
        raise Wrong(f"expected a document, got {len(body)} bytes: {error}") from None
    return "".join(re.findall(r"<text:p[^>]*>([^<]*)</text:p>", found))


def put(server: Server, name: str, status: int):
    """Another client writes what the document has already."""
    body = server.ask("GET", path(server, name), None, accounts.AS_ANNA, 200).body
    server.ask("PUT", path(server, name), body, accounts.AS_ANNA, status)


def locks(server: Server, name: str) -> list[str]:
    """The owners of the locks that the server lists."""
    asked = {"Depth": "0", **accounts.AS_ANNA}
    answer = server.ask("PROPFIND", path(server, name), multistatus.propfind(D + "lockdiscovery"), asked)
    _, found = multistatus.only(answer).properties[D + "lockdiscovery"]
    return ["".join(it.itertext()).strip() for it in found.iter(D + "owner")]


def is_locked(server: Server, name: str):
    """LibreOffice holds the only lock, and another client cannot write."""
    expect("the owners of the locks", [it.partition(" ")[0] for it in locks(server, name)], ["LibreOffice"])
    put(server, name, 423)


def is_free(server: Server, name: str):
    expect("the owners of the locks", locks(server, name), [])
    put(server, name, 204)


# ---- the checks


def start(server: Server):
    server.ask("MKCOL", path(server, ""), None, accounts.AS_ANNA, 201)


def save_new(server: Server):
    office(server).call("new")
    office(server).call("write", "first")
    office(server).call("save_as", url(server, NAME))
    expect("the text on the server", text(server, NAME), "first")
    is_locked(server, NAME)


def save_again(server: Server):
    office(server).call("write", "second")
    office(server).call("save")
    expect("the text on the server", text(server, NAME), "second")
    is_locked(server, NAME)


def close(server: Server):
    office(server).call("close")
    is_free(server, NAME)


def open_again(server: Server):
    opened = office(server).call("open", url(server, NAME))
    expect("what is opened", opened, {"text": "second", "is_read_only": False})
    is_locked(server, NAME)


def keep_lock(server: Server):
    """Without a refresh the lock would end while the document is open."""
    time.sleep(MOST + 1)
    is_locked(server, NAME)


def save_edited(server: Server):
    office(server).call("write", "third")
    put(server, NAME, 423)
    office(server).call("save")
    expect("the text on the server", text(server, NAME), "third")
    office(server).call("close")
    is_free(server, NAME)


def open_locked(server: Server):
    """It opens a document that another client has locked, and cannot save it."""
    answer = server.ask("LOCK", path(server, NAME), multistatus.lockinfo(), accounts.AS_ANNA, 200)
    opened = office(server).call("open", url(server, NAME))
    expect("what is opened", opened, {"text": "third", "is_read_only": True})
    try:
        office(server).call("save")
    except Wrong:
        pass
    else:
        raise Wrong("expected that LibreOffice cannot save a document that another client has locked")
    office(server).call("close")
    expect("the number of locks", len(locks(server, NAME)), 1)
    token = {"Lock-Token": multistatus.token_of(answer), **accounts.AS_ANNA}
    server.ask("UNLOCK", path(server, NAME), None, token, 204)


def open_changed(server: Server):
    """It opens what another client has written since it had the document open."""
    office(server).call("new")
    office(server).call("write", "of another")
    office(server).call("save_as", url(server, "other.odt"))
    office(server).call("close")
    move = {"Destination": url(server, NAME), **accounts.AS_ANNA}
    server.ask("MOVE", path(server, "other.odt"), None, move, 204)
    expect("what is opened", office(server).call("open", url(server, NAME)), {"text": "of another", "is_read_only": False})
    office(server).call("close")
    is_free(server, NAME)


def members(server: Server, name: str = "") -> dict[str, int | None]:
    """The members of a folder by their names, as LibreOffice lists them."""
    top = url(server, name).rstrip("/")
    listed = office(server).call("list", top)
    expect("the members that are not in the folder", [it for it in listed if not it.startswith(top + "/")], [])
    return {urllib.parse.unquote(it[len(top) + 1 :].rstrip("/")): size for it, size in listed.items()}


def size(server: Server, name: str) -> int:
    return len(server.ask("GET", path(server, name), None, accounts.AS_ANNA, 200).body)


def create_folder(server: Server):
    office(server).call("create_folder", url(server, "papers"))
    server.ask("PROPFIND", path(server, "papers/"), None, {"Depth": "0", **accounts.AS_ANNA}, 207)


def list_(server: Server):
    """A file has its size, and a folder is one."""
    expect("the members", members(server), {NAME: size(server, NAME), "papers": None})


def save_listed(server: Server):
    """A document that was opened from a folder can be saved, whatever characters its name has but `&`."""
    body = server.ask("GET", path(server, NAME), None, accounts.AS_ANNA, 200).body
    for name in LISTED:
        server.ask("PUT", path(server, f"papers/{name}"), body, accounts.AS_ANNA, 201)
    listed = office(server).call("list", url(server, "papers"))
    expect("the number of members", len(listed), len(LISTED))
    for it in listed:
        office(server).call("open", it)
        office(server).call("write", "saved")
        office(server).call("save")
        office(server).call("close")
    expect("the texts", {name: text(server, f"papers/{name}") for name in LISTED}, {name: "saved" for name in LISTED})
    for name in LISTED:
        server.ask("DELETE", path(server, f"papers/{name}"), None, accounts.AS_ANNA, 204)


def copy(server: Server):
    office(server).call("copy", url(server, NAME), url(server, "papers/b.odt"))
    expect("the members", members(server, "papers"), {"b.odt": size(server, NAME)})
    expect("the text of the copy", text(server, "papers/b.odt"), "of another")


def move(server: Server):
    office(server).call("move", url(server, "papers/b.odt"), url(server, "papers/c.odt"))
    expect("the members", members(server, "papers"), {"c.odt": size(server, NAME)})


def remove(server: Server):
    office(server).call("copy", url(server, NAME), url(server, "papers/d.odt"))
    office(server).call("remove", url(server, "papers/c.odt"))
    expect("the members", members(server, "papers"), {"d.odt": size(server, NAME)})
    expect("whether the file is there", office(server).call("exists", url(server, "papers/c.odt")), False)


def remove_folder(server: Server):
    office(server).call("remove", url(server, "papers"))
    expect("the members", members(server), {NAME: size(server, NAME)})


def end(server: Server):
    office(server).call("end")
    expect("the exit status", office(server).process.wait(CALL_SECONDS), 0)


def check(server: Server, run):
    office(server)
    run(server)


CHECKS = [
    ("it starts", start),
    ("a new document is saved, and is locked", save_new),
    ("it is changed and saved again", save_again),
    ("it is closed, and is not locked", close),
    ("it is opened, and is locked", open_again),
    ("the lock is kept while it is open", keep_lock),
    ("it is saved while another client tries to write it", save_edited),
    ("what another client has locked is opened read-only", open_locked),
    ("what another client has written is opened", open_changed),
    ("a folder is created", create_folder),
    ("a folder is listed", list_),
    ("documents that were opened from a folder are saved", save_listed),
    ("a file is copied", copy),
    ("a file is moved", move),
    ("a file is removed", remove),
    ("a folder is removed", remove_folder),
    ("it ends", end),
]
for group in GROUPS:
    for name, run in CHECKS:
        if run is not keep_lock or group is WITH_USER:
            group.add(name, check, run)

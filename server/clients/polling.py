"""A client that polls: the entity tag and the time of a folder say whether it has gained or lost a member."""
import time
import typing

import multistatus
import restart
from harness import Group
from multistatus import D
from server import Server, expect

MEMORY = Group("polling of folders")
FOLDER = Group("polling of folders, over a folder", "-folder", "{folder}")
GROUPS = [MEMORY, FOLDER]
SECOND = 1.1  # A time in a response has whole seconds.
TOP, LEFT, SUB, RIGHT = "", "left/", "left/sub/", "right/"
WATCHED = [TOP, LEFT, SUB, RIGHT]
COLOUR = (b'<D:propertyupdate xmlns:D="DAV:"><D:set><D:prop><colour xmlns="urn:x">blue</colour></D:prop></D:set>'
          b"</D:propertyupdate>")


class Change(typing.NamedTuple):
    """A request to one of the folders or what is in it, and the folders that it changes. In `to` is the destination."""

    name: str
    method: str
    path: str
    status: int
    changed: tuple[str, ...]
    to: str | None = None
    body: bytes | None = None
    fields: tuple[tuple[str, str], ...] = ()


CHANGES = [
    Change("a file is created", "PUT", "left/new", 201, (LEFT,), body=b"x"),
    Change("a file is created by a LOCK", "LOCK", "left/new", 201, (LEFT,), body=multistatus.lockinfo()),
    Change("a folder is created", "MKCOL", "left/new/", 201, (LEFT,)),
    Change("a file is removed", "DELETE", "left/a", 204, (LEFT,)),
    Change("a folder is removed", "DELETE", SUB, 204, (LEFT,)),
    Change("a file is copied into it", "COPY", "left/a", 201, (RIGHT,), to="right/new"),
    Change("a folder is copied into it", "COPY", SUB, 201, (RIGHT,), to="right/new/"),
    Change("a file is moved out and in", "MOVE", "left/a", 201, (LEFT, RIGHT), to="right/new"),
    Change("a folder is moved out and in", "MOVE", SUB, 201, (LEFT, RIGHT), to="right/new/"),
    Change("a file gets another name", "MOVE", "left/a", 201, (LEFT,), to="left/new"),
    # The file that was there is removed first.
    Change("a file is copied over another", "COPY", "left/a", 204, (RIGHT,), to="right/b"),
    Change("a file is moved over another", "MOVE", "left/a", 204, (LEFT, RIGHT), to="right/b"),
    Change("a file is created two levels below", "PUT", "left/sub/new", 201, (SUB,), body=b"x"),
    Change("a file is written that is there", "PUT", "left/a", 204, (), body=b"other"),
    Change("a file gets a property", "PROPPATCH", "left/a", 207, (), body=COLOUR),
    Change("a file is locked", "LOCK", "left/a", 200, (), body=multistatus.lockinfo()),
    Change("a file is read", "GET", "left/a", 200, ()),
    Change("a PUT is refused", "PUT", "left/a", 412, (), body=b"x", fields=(("If-None-Match", "*"),)),
    Change("a MKCOL is refused", "MKCOL", SUB, 405, ()),
    Change("a DELETE finds nothing", "DELETE", "left/new", 404, ()),
]


def marks(server: Server, path: str) -> tuple[str | None, str | None]:
    """The entity tag and the time of a folder."""
    names = D + "getetag", D + "getlastmodified"
    found = multistatus.only(server.ask("PROPFIND", path, multistatus.propfind(*names), {"Depth": "0"}, 207))
    tag, modified = map(found.text, names)
    expect("whether the folder has a tag and a time", bool(tag and modified), True)
    return tag, modified


def make(server: Server):
    """Makes the folders of each change, and notes their marks. Then a second passes."""
    server.notes["before"] = {}
    for change in CHANGES:
        top = server.folder()
        for name in (LEFT, SUB, RIGHT):
            server.ask("MKCOL", top + name, status=201)
        for name in ("left/a", "left/sub/c", "right/b"):
            server.ask("PUT", top + name, b"x", status=201)
        server.notes["before"][change.name] = {top + it: marks(server, top + it) for it in WATCHED}
    time.sleep(SECOND)


def changes(server: Server, change: Change):
    """Of the folders that gain or lose a member, and of no others, both marks change."""
    before: dict = server.notes["before"][change.name]
    top = next(iter(before))
    fields = [*change.fields, *([("Destination", server.url(top + change.to))] if change.to else [])]
    server.ask(change.method, top + change.path, change.body, fields, change.status)
    gone = {change.path} if change.method in ("DELETE", "MOVE") and change.status < 300 else set()
    after = {it: marks(server, top + it) for it in WATCHED if it not in gone}
    for place, what in enumerate(("the entity tags", "the times")):
        got = tuple(it for it in after if after[it][place] != before[top + it][place])
        expect(f"the folders of which {what} change", got, change.changed)


def no_tag_twice(server: Server):
    """A folder that is again as it was has a new tag, because its members may be others."""
    path = server.folder()
    tags = [marks(server, path)[0]]
    for _ in range(5):
        for method, body, status in (("PUT", b"x", 201), ("DELETE", None, 204)):
            server.ask(method, path + "a", body, status=status)
            tags.append(marks(server, path)[0])
    expect("the number of different tags", len(set(tags)), len(tags))


def kept(server: Server):
    """A davd that is started again has the marks of each folder."""
    before = {path: marks(server, path) for path in (server.folder(), server.folder())}
    restart.kill(server)
    server.await_health()
    expect("the marks", {path: marks(server, path) for path in before}, before)


for group in GROUPS:
    group.add("folders are made", make)
    for change in CHANGES:
        group.add(change.name, changes, change)
    group.add("no tag comes twice", no_tag_twice)
FOLDER.add("the marks are kept when davd is killed", kept)

"""Odd paths, and updates of a part of a file by PUT."""
import time
import urllib.parse

import multistatus
from connection import Wrong
from harness import Group
from server import Server, expect

GROUP = Group("paths", "-max-infinity", "1000")
GROUPS = [GROUP]


@GROUP.check("an escaped slash is no slash")
def escaped_slash(server):
    path = server.folder()
    server.ask("MKCOL", f"{path}a", status=201)
    answer = server.ask("PUT", f"{path}a%2Fb", b"x", status=(201, 400, 403))
    server.ask("GET", f"{path}a/b", status=404)
    if answer.status == 201:
        server.ask("GET", f"{path}a%2Fb", status=200)


SAME = [
    ("escaped letters", "%66%69le", "file"),
    ("escaped letters in other case", "%c3%bc", "%C3%BC"),
    ("a segment that is a dot", "./file", "file"),
    ("a segment that is two dots", "x/../file", "file"),
    ("escaped dots", "x/%2e%2E/file", "file"),
    ("a query", "file?a=b", "file"),
]


def same(server: Server, one: str, other: str):
    """Two spellings are one path, or the first is rejected."""
    path = server.folder()
    server.ask("PUT", path + other, b"x", status=201)
    server.ask("MKCOL", f"{path}x", status=201)
    answer = server.ask("GET", path + one, status=(200, 301, 308, 400, 403))
    if answer.status == 200:
        expect("the file", answer.body, b"x")


for name, one, other in SAME:
    GROUP.add(f"{name} do not make another path", same, one, other)

NAMES = [
    "a b", "a%b", "%", "%25", "a+b", "a&b=c;d", "a:b", "*", "~", "'", '"', "<>", "\\", "|", "^", "`", "{}", "[]", "#",
    "?", ",", "!", "$", "()", "@", "...", ".a", " ", "a ", "con", "aux.txt", "CON", "x" * 255, "\u00e9" * 120,
    "\u00fc", "u\u0308", "\u4f60", "\U0001f600", "\u202e", "\ufeff", "\x7f", "\xa0", "\u0085", "\u2028",
]


@GROUP.check(f"{len(NAMES)} names of files come back as they are")
def names(server):
    path = server.folder()
    for name in NAMES:
        server.ask("PUT", path + urllib.parse.quote(name, safe=""), name.encode(), status=201)
    found = multistatus.resources(server.ask("PROPFIND", path, None, {"Depth": "1"}, 207))
    expect("the paths", sorted(found), sorted([path, *(path + it for it in NAMES)]))
    for name in NAMES:
        answer = server.ask("GET", path + urllib.parse.quote(name, safe=""), status=200)
        expect(f"the content of {name!r}", answer.body, name.encode())


@GROUP.check("names in other case are other files")
def case(server):
    path = server.folder()
    server.ask("PUT", f"{path}a", b"1", status=201)
    server.ask("PUT", f"{path}A", b"2", status=201)
    expect("the files", [server.ask("GET", path + it).body for it in "aA"], [b"1", b"2"])


@GROUP.check("control characters in a name are rejected, or come back in XML and HTML that can be read")
def controls(server):
    path = server.folder()
    for number in (1, 8, 10, 13, 27, 31):
        server.ask("PUT", f"{path}a%{number:02X}b", b"x", status=(201, 400, 403))
    multistatus.resources(server.ask("PROPFIND", path, None, {"Depth": "1"}, 207))
    server.ask("GET", path, status=200)


@GROUP.check("a tree of 200 levels is listed, copied, moved and deleted")
def deep(server):
    path = server.folder()
    place = path
    for _ in range(200):
        place += "d/"
        server.ask("MKCOL", place, status=201)
    server.ask("PUT", f"{place}f", b"x", status=201)
    found = multistatus.resources(server.ask("PROPFIND", path, None, {"Depth": "infinity"}, 207))
    expect("the number of resources", len(found), 202)
    server.ask("COPY", f"{path}d/", None, {"Destination": f"{path}e/"}, 201)
    server.ask("MOVE", f"{path}e/", None, {"Destination": f"{path}g/"}, 201)
    server.ask("GET", f"{path}g/" + "d/" * 199 + "f", status=200)
    server.ask("DELETE", f"{path}d/", status=204)
    server.ask("GET", f"{place}f", status=404)


LEVELS = 512  # of -max-segments


def levels(path):
    return path.strip("/").count("/") + 1


@GROUP.check("a path of more than 512 segments is 414, and so is such a Destination")
def long_paths(server):
    path = server.folder()
    longest = path + "d/" * (LEVELS - levels(path))
    server.ask("GET", longest, status=404)
    server.ask("GET", longest + "d", status=414)
    server.ask("PUT", f"{path}f", b"x", status=201)
    for destination, status in (longest, 409), (longest + "d", 414), (server.url(longest + "d"), 414):
        server.ask("COPY", f"{path}f", None, {"Destination": destination}, status)


@GROUP.check("8,000 nested collections are removed in a few seconds")
def very_deep(server):
    """Each MOVE puts the chain so far below another one, so no path is long."""
    path = server.folder()
    depth = LEVELS - levels(path) - 1
    place = f"{path}d/"
    server.ask("MKCOL", place, status=201)
    for _ in range(depth - 1):
        place += "d/"
        server.ask("MKCOL", place, status=201)
    server.ask("COPY", f"{path}d/", None, {"Destination": f"{path}e/"}, 201)
    for _ in range(8000 // depth):
        server.ask("COPY", f"{path}d/", None, {"Destination": f"{path}f/"}, 201)
        server.ask("MOVE", f"{path}e/", None, {"Destination": f"{path}f/" + "d/" * depth}, 201)
        server.ask("MOVE", f"{path}f/", None, {"Destination": f"{path}e/"}, 201)
    began = time.monotonic()
    server.ask("DELETE", f"{path}e/", status=204, seconds=60)
    if time.monotonic() - began > 5:
        raise Wrong(f"expected an answer within 5 s, got it after {time.monotonic() - began:.1f} s")


@GROUP.check("PUT with Content-Range writes a part")
def part(server):
    path = server.folder() + "a"
    server.ask("PUT", path, b"0123456789", status=201)
    server.ask("PUT", path, b"xy", {"Content-Range": "bytes 2-3/10"}, 204)
    expect("the file", server.ask("GET", path).body, b"01xy456789")
    server.ask("PUT", path, b"xyz", {"Content-Range": "bytes 2-3/10"}, (400, 416))
    expect("the file", server.ask("GET", path).body, b"01xy456789")


@GROUP.check("a long If is answered in time")
def long_if(server):
    path = server.folder() + "a"
    server.ask("PUT", path, b"x", status=201)
    lists = "(<urn:a>)" * 6000, "(Not <urn:a>)" * 4500, "<http://a/> (<urn:a>) " * 2500
    for text in (*lists, "(" + "<urn:a>" * 8000 + ")"):
        began = time.monotonic()
        server.ask("PUT", path, b"y", {"If": text}, (204, 400, 412, 431), seconds=20)
        if time.monotonic() - began > 5:
            raise Wrong(f"expected an answer within 5 s, got it after {time.monotonic() - began:.1f} s")


@GROUP.check("a long If-None-Match, Range and Destination are answered in time")
def long_fields(server):
    path = server.folder() + "a"
    server.ask("PUT", path, b"x", status=201)
    for method, fields in [
        ("GET", {"If-None-Match": '"a", ' * 12_000 + '"b"'}),
        ("GET", {"Range": "bytes=" + "0-0," * 15_000 + "0-0"}),
        ("COPY", {"Destination": "/" + "%61" * 20_000}),
        ("COPY", {"Destination": "/" + "a/" * 30_000}),
        ("LOCK", {"Timeout": "Second-1, " * 6000 + "Infinite"}),
    ]:
        began = time.monotonic()
        server.ask(method, path, None, fields, seconds=20)
        if time.monotonic() - began > 5:
            raise Wrong(f"expected an answer to {method} within 5 s, got it after {time.monotonic() - began:.1f} s")

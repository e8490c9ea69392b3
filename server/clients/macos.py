"""The requests of macOS (webdavfs), which mounts a WebDAV folder for the Finder."""
import multistatus
from connection import Wrong, chunked
from harness import Group
from multistatus import D
from server import expect
from steps import Step, add_steps, all_of, has_body, has_members

AGENT = """\
Host: {host}
User-Agent: WebDAVFS/3.0.0 (03008000) Darwin/22.6.0 (x86_64)
Accept: */*"""
XML = '\nContent-Type: text/xml; charset="utf-8"\nContent-Length: {length}\nConnection: keep-alive'
CHUNKED = "\nTransfer-Encoding: Chunked\nConnection: keep-alive\nX-Expected-Entity-Length: "
IDENTITY = b"""<?xml version="1.0" encoding="utf-8"?>
<D:propfind xmlns:D="DAV:">
<D:prop>
<D:getlastmodified/>
<D:getcontentlength/>
<D:creationdate/>
<D:resourcetype/>
</D:prop>
</D:propfind>
"""
QUOTA = b"""<?xml version="1.0" encoding="utf-8"?>
<D:propfind xmlns:D="DAV:">
<D:prop>
<D:quota-available-bytes/>
<D:quota-used-bytes/>
<D:quota/>
<D:quotaused/>
</D:prop>
</D:propfind>
"""
LOCKINFO = b"""<?xml version="1.0" encoding="utf-8"?>
<D:lockinfo xmlns:D="DAV:">
<D:lockscope><D:exclusive/></D:lockscope>
<D:locktype><D:write/></D:locktype>
<D:owner>
<D:href>http://www.apple.com/webdav_fs/</D:href>
</D:owner>
</D:lockinfo>
"""
FORK = b"\0\5\x16\7\0\2\0\0Mac OS X" + b"\0" * 4080
PICTURE = bytes(range(256)) * 300
PATH = "/Fotos/Stra%C3%9Fe%20%26%20Caf%C3%A9.jpg"

GROUP = Group("macos", "-quota", "1G")
GROUPS = [GROUP]


def lists(*paths):
    def check(_, answer):
        expect("the listed paths", {it.rstrip("/") for it in multistatus.resources(answer)}, set(paths))

    return check


def is_root(_, answer):
    found = multistatus.only(answer)
    expect("whether / is a collection", found.is_collection(), True)
    expect("the status of getlastmodified", found.status_of(D + "getlastmodified"), 200)


def has_quota(_, answer):
    """RFC 4331: both numbers are known here. The two older names are not."""
    found = multistatus.only(answer)
    numbers = [found.text(D + it) for it in ("quota-available-bytes", "quota-used-bytes")]
    if not all(it and it.isdigit() for it in numbers):
        raise Wrong(f"expected two numbers of bytes, got {answer}")
    if sum(map(int, numbers)) != 1 << 30:
        raise Wrong(f"expected that {numbers} are {1 << 30} together")
    older = [found.status_of(D + it) for it in ("quota", "quotaused")]
    expect("the statuses of quota and quotaused", older, [404, 404])


def takes_lock(server, answer):
    server.notes["token"] = multistatus.token_of(answer).strip("<>")
    is_short(server, answer)
    owner = multistatus.root(answer, D + "prop").find(f"{D}lockdiscovery/{D}activelock/{D}owner")
    expect("the owner", owner.findtext(f"{D}href"), "http://www.apple.com/webdav_fs/")


def is_short(_, answer):
    seconds = multistatus.lock_seconds(answer)
    if not 0 < seconds <= 600:
        raise Wrong(f"expected a timeout of at most 600 s, got {seconds}")


def has_length(length):
    def check(_, answer):
        expect("getcontentlength", multistatus.only(answer).text(D + "getcontentlength"), str(length))

    return check


def take_tag(server, answer):
    server.notes["tag"] = answer.field("ETag")


def propfind(path, depth):
    return f"PROPFIND {path} HTTP/1.1\n{AGENT}\nDepth: {depth}{XML}"


def lock(path, condition=""):
    return f"LOCK {path} HTTP/1.1\n{AGENT}\nDepth: 0\nTimeout: Second-600{condition}{XML}"


def plain(line, *fields):
    return "\n".join([f"{line} HTTP/1.1", AGENT, *fields, "Connection: keep-alive"])


def ranged(_, answer):
    expect("Content-Range", answer.field("Content-Range"), f"bytes 256-511/{len(PICTURE)}")
    expect("the body", answer.body, bytes(range(256)))


STEPS = [
    Step("OPTIONS of the root: class 2, or the volume is read-only",
         plain("OPTIONS /"), 200, b"", all_of(has_members("DAV", "1", "2"), has_members("Allow", "PROPFIND", "LOCK"))),
    Step("PROPFIND of the root", propfind("/", 0), 207, IDENTITY, is_root),
    Step("PROPFIND of the quota", propfind("/", 0), 207, QUOTA, has_quota),
    Step("PROPFIND of ._.", propfind("/._.", 0), 404, IDENTITY),
    Step("PROPFIND of .hidden", propfind("/.hidden", 0), 404, IDENTITY),
    Step("PROPFIND of .Spotlight-V100", propfind("/.Spotlight-V100", 0), 404, IDENTITY),
    Step("MKCOL", plain("MKCOL /Fotos/", "Content-Length: 0"), 201),
    Step("PUT of 0 bytes", plain(f"PUT {PATH}", "Content-Length: 0"), 201),
    Step("LOCK", lock(PATH), 200, LOCKINFO, takes_lock),
    Step("PUT in chunks, with Transfer-Encoding: Chunked and X-Expected-Entity-Length",
         f"PUT {PATH} HTTP/1.1\n{AGENT}\nIf: (<{{token}}>){CHUNKED}{len(PICTURE)}", 204,
         chunked(PICTURE[:20000], PICTURE[20000:])),
    Step("a refresh with Timeout: Second-600 and If: (<token>)",
         plain(f"LOCK {PATH}", "Timeout: Second-600", "If: (<{token}>)", "Content-Length: 0"), 200, b"", is_short),
    Step("PROPFIND of what was written", propfind(PATH, 0), 207, IDENTITY, has_length(len(PICTURE))),
    Step("GET of a range", plain(f"GET {PATH}", "Range: bytes=256-511"), 206, b"", ranged),
    Step("PUT of the fork ._", f"PUT /Fotos/._a.jpg HTTP/1.1\n{AGENT}{CHUNKED}{len(FORK)}", 201, chunked(FORK)),
    Step("LOCK of the fork while the file is locked", lock("/Fotos/._a.jpg"), 200, LOCKINFO,
         lambda server, answer: server.notes.update(fork=multistatus.token_of(answer))),
    Step("UNLOCK of the fork", plain("UNLOCK /Fotos/._a.jpg", "Lock-Token: {fork}"), 204),
    Step("PUT of .DS_Store", f"PUT /Fotos/.DS_Store HTTP/1.1\n{AGENT}{CHUNKED}{len(FORK)}", 201, chunked(FORK)),
    Step("UNLOCK", plain(f"UNLOCK {PATH}", "Lock-Token: <{token}>"), 204),
    Step("GET of the whole file", plain(f"GET {PATH}"), 200, b"", all_of(has_body(PICTURE), take_tag)),
    Step("GET of an unchanged file", plain(f"GET {PATH}", "If-None-Match: {tag}"), 304),
    Step("PROPFIND of the folder", propfind("/Fotos/", 1), 207, IDENTITY,
         lists("/Fotos", "/Fotos/Stra\u00dfe & Caf\u00e9.jpg", "/Fotos/._a.jpg", "/Fotos/.DS_Store")),
    Step("MOVE of a file", plain(f"MOVE {PATH}", "Destination: {url}/Fotos/neu.jpg"), 201),
    Step("MOVE over a file", plain("MOVE /Fotos/._a.jpg", "Destination: {url}/Fotos/.DS_Store"), 204),
    Step("DELETE of a file", plain("DELETE /Fotos/neu.jpg"), 204),
    Step("PUT of a name in the decomposed form of Unicode", plain("PUT /Fotos/Cafe%CC%81", "Content-Length: {length}"),
         201, b"nfd"),
    Step("PROPFIND keeps that form", propfind("/Fotos/", 1), 207, IDENTITY,
         lists("/Fotos", "/Fotos/.DS_Store", "/Fotos/Cafe\u0301")),
    Step("DELETE of the folder", plain("DELETE /Fotos/"), 204),
]
add_steps(GROUP, STEPS)

"""The requests of the Mini-Redirector of Windows, which mounts a WebDAV folder as a drive."""
import multistatus
from connection import Wrong
from harness import Group
from multistatus import D
from server import expect
from steps import Step, add_steps, all_of, has_members

Z = "{urn:schemas-microsoft-com:}"
WIN32 = ("Win32CreationTime", "Win32LastAccessTime", "Win32LastModifiedTime", "Win32FileAttributes")
AGENT = """\
User-Agent: Microsoft-WebDAV-MiniRedir/10.0.19045
translate: f"""
LOCKINFO = (
    b'<?xml version="1.0" encoding="utf-8" ?><D:lockinfo xmlns:D="DAV:"><D:lockscope><D:exclusive/></D:lockscope>'
    b"<D:locktype><D:write/></D:locktype>"
    b"<D:owner><D:href>DESKTOP-1\\anna &amp; \xc3\xa9</D:href></D:owner></D:lockinfo>"
)
TIMES = b"Tue, 07 Nov 2023 10:00:00 GMT", b"Tue, 07 Nov 2023 11:00:00 GMT", b"Tue, 07 Nov 2023 12:00:00 GMT"
PROPERTIES = (
    b'<?xml version="1.0" encoding="utf-8" ?><D:propertyupdate xmlns:D="DAV:" xmlns:Z="urn:schemas-microsoft-com:">'
    b"<D:set><D:prop><Z:Win32CreationTime>%s</Z:Win32CreationTime><Z:Win32LastAccessTime>%s</Z:Win32LastAccessTime>"
    b"<Z:Win32LastModifiedTime>%s</Z:Win32LastModifiedTime><Z:Win32FileAttributes>00000020</Z:Win32FileAttributes>"
    b"</D:prop></D:set></D:propertyupdate>" % TIMES
)
CONTENT = b"PK\3\4 a document of Word"

GROUP = Group("windows", "-max-lock", "2h")
GROUPS = [GROUP]


def author_via(_, answer):
    """Windows takes a server without this field for one of FrontPage ([MS-WDV], section 2.2.2)."""
    expect("MS-Author-Via", answer.field("MS-Author-Via"), "DAV")


def lists_root(_, answer):
    """The properties that the redirector reads of a folder ([MS-WDVME], section 3.1.5)."""
    root = multistatus.resources(answer).get("/")
    if not root or not root.is_collection():
        raise Wrong(f"expected / as a collection, got {answer}")
    for name in (D + "creationdate", D + "getlastmodified"):
        expect(f"the status of {name}", root.status_of(name), 200)


def lists(*paths):
    def check(_, answer):
        expect("the listed paths", {it.rstrip("/") for it in multistatus.resources(answer)}, set(paths))

    return check


def is_empty_file(_, answer):
    found = multistatus.only(answer)
    expect("getcontentlength", found.text(D + "getcontentlength"), "0")
    expect("the status of the resource type", found.status_of(D + "resourcetype"), 200)
    expect("whether it is a collection", found.is_collection(), False)


def has_win32(_, answer):
    """A PROPFIND of all properties returns those of Windows to its redirector. No store needs a time of access."""
    found = multistatus.only(answer)
    missing = [it for it in WIN32 if found.status_of(Z + it) != 200 and it != "Win32LastAccessTime"]
    if missing:
        raise Wrong(f"expected {missing} with 200, got {answer}")


def takes_lock(server, answer):
    """The response to a LOCK has the token, the owner as it was sent, and the depth (RFC 4918, section 9.10.1)."""
    server.notes["token"] = multistatus.token_of(answer).strip("<>")
    lock = multistatus.root(answer, D + "prop").find(f"{D}lockdiscovery/{D}activelock")
    expect("the owner", lock.findtext(f"{D}owner/{D}href"), "DESKTOP-1\\anna & \u00e9")
    expect("the token", lock.findtext(f"{D}locktoken/{D}href").strip(), server.notes["token"])
    expect("the depth without a Depth", lock.findtext(f"{D}depth").strip().lower(), "infinity")
    expect("the lock root", lock.findtext(f"{D}lockroot/{D}href").strip(), "/New%20folder/Report.docx")
    expect("the scope", lock.find(f"{D}lockscope/{D}exclusive") is not None, True)


def stored_properties(_, answer):
    found = multistatus.only(answer)
    expect("the statuses", {it: found.status_of(Z + it) for it in WIN32}, {it: 200 for it in WIN32})


def has_times(_, answer):
    """The file has the times that were set, for each client and not only for Windows."""
    found = multistatus.only(answer)
    created, _, modified = (it.decode() for it in TIMES)
    expect("Win32CreationTime", found.text(Z + "Win32CreationTime"), created)
    expect("Win32LastModifiedTime", found.text(Z + "Win32LastModifiedTime"), modified)
    expect("getlastmodified", found.text(D + "getlastmodified"), modified)
    expect("creationdate", found.text(D + "creationdate"), "2023-11-07T10:00:00Z")


def has_length(_, answer):
    expect("Content-Length", answer.field("Content-Length"), str(len(CONTENT)))
    expect("an entity tag", bool(answer.field("ETag")), True)


def head(line, *fields):
    return "\n".join([line, "Connection: Keep-Alive", AGENT, *fields, "Host: {host}"])


PUT_FIELDS = "Content-Length: {length}", "Cache-Control: no-cache", "Pragma: no-cache", "If: (<{token}>)"
XML = 'Content-Type: text/xml; charset="utf-8"'
PATCH_FIELDS = XML, "Content-Length: {length}", "If: (<{token}>)"
REFRESH_FIELDS = "Timeout: Second-3600", "Content-Length: 0", "If: (<{token}>)"
MOVE_FIELDS = "Destination: {url}/New%20folder/Report%20%282%29.docx", "Overwrite: F", "Content-Length: 0"
STEPS = [
    Step("OPTIONS of the root", head("OPTIONS / HTTP/1.1"), 200, b"", all_of(author_via, has_members("DAV", "1", "2"))),
    Step("PROPFIND of the root, Depth 0, without a body",
         head("PROPFIND / HTTP/1.1", "Depth: 0", "Content-Length: 0"), 207, b"", lists_root),
    Step("PROPFIND of what does not exist",
         head("PROPFIND /desktop.ini HTTP/1.1", "Depth: 0", "Content-Length: 0"), 404),
    Step("MKCOL with Content-Length: 0", head("MKCOL /New%20folder HTTP/1.1", "Content-Length: 0"), 201),
    Step("PROPFIND of a collection without its trailing slash",
         head("PROPFIND /New%20folder HTTP/1.1", "Depth: 1", "Content-Length: 0"), 207, b"", lists("/New folder")),
    Step("PUT of 0 bytes", head("PUT /New%20folder/Report.docx HTTP/1.1", "Content-Length: 0"), 201),
    Step("PROPFIND of the empty file",
         head("PROPFIND /New%20folder/Report.docx HTTP/1.1", "Depth: 0", "Content-Length: 0"), 207, b"", is_empty_file),
    Step("LOCK with an owner",
         head("LOCK /New%20folder/Report.docx HTTP/1.1", XML, "Timeout: Second-3600", "Content-Length: {length}"), 200,
         LOCKINFO, takes_lock),
    Step("PROPPATCH of the Win32 properties",
         head("PROPPATCH /New%20folder/Report.docx HTTP/1.1", *PATCH_FIELDS), 207, PROPERTIES, stored_properties),
    Step("HEAD", head("HEAD /New%20folder/Report.docx HTTP/1.1"), 200),
    Step("PUT without the token is 423",
         head("PUT /New%20folder/Report.docx HTTP/1.1", "Content-Length: {length}"), 423, CONTENT),
    Step("PUT with the token", head("PUT /New%20folder/Report.docx HTTP/1.1", *PUT_FIELDS), 204, CONTENT),
    Step("PROPPATCH after the PUT",
         head("PROPPATCH /New%20folder/Report.docx HTTP/1.1", *PATCH_FIELDS), 207, PROPERTIES, stored_properties),
    Step("a refresh of the lock", head("LOCK /New%20folder/Report.docx HTTP/1.1", *REFRESH_FIELDS), 200),
    Step("HEAD has the new length", head("HEAD /New%20folder/Report.docx HTTP/1.1"), 200, b"", has_length),
    Step("UNLOCK", head("UNLOCK /New%20folder/Report.docx HTTP/1.1", "Lock-Token: <{token}>"), 204),
    Step("PROPFIND of all properties has those of Windows",
         head("PROPFIND /New%20folder/Report.docx HTTP/1.1", "Depth: 0", "Content-Length: 0"), 207, b"",
         all_of(has_win32, has_times)),
    Step("MOVE with Overwrite: F to a free name", head("MOVE /New%20folder/Report.docx HTTP/1.1", *MOVE_FIELDS), 201),
    Step("PUT of a second file", head("PUT /New%20folder/b.txt HTTP/1.1", "Content-Length: {length}"), 201, b"b"),
    Step("MOVE with Overwrite: F to a name in use is 412",
         head("MOVE /New%20folder/b.txt HTTP/1.1", *MOVE_FIELDS), 412),
    Step("MOVE of the folder",
         head("MOVE /New%20folder HTTP/1.1", "Destination: {url}/F%C3%A4cher", "Overwrite: F"), 201),
    Step("PROPFIND of the moved folder, Depth 1",
         head("PROPFIND /F%C3%A4cher HTTP/1.1", "Depth: 1", "Content-Length: 0"), 207, b"",
         lists("/F\u00e4cher", "/F\u00e4cher/Report (2).docx", "/F\u00e4cher/b.txt")),
    Step("DELETE of a file", head("DELETE /F%C3%A4cher/b.txt HTTP/1.1"), 204),
    Step("DELETE of the folder", head("DELETE /F%C3%A4cher HTTP/1.1"), 204),
    Step("PROPFIND after it", head("PROPFIND /F%C3%A4cher HTTP/1.1", "Depth: 0", "Content-Length: 0"), 404),
]
add_steps(GROUP, STEPS)

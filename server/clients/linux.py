"""The requests of GNOME (gvfs), of davfs2 (neon), and of apps on iOS (CFNetwork)."""
import multistatus
from connection import Wrong, chunked
from harness import Group
from multistatus import D
from server import expect
from steps import Step, add_steps, all_of, has_body, has_members

APACHE = "{http://apache.org/dav/props/}"
GVFS = """\
Host: {host}
Accept-Encoding: gzip, deflate
User-Agent: gvfs/1.50.3
Accept-Language: de-de, de;q=0.9
Connection: Keep-Alive"""
GVFS_PROPFIND = b"""<?xml version="1.0" encoding="utf-8" ?>
 <D:propfind xmlns:D="DAV:">
  <D:prop>
<D:creationdate/>
<D:displayname/>
<D:getcontentlength/>
<D:getcontenttype/>
<D:getetag/>
<D:getlastmodified/>
<D:resourcetype/>
  </D:prop>
 </D:propfind>"""
GVFS_FREE = b"""<?xml version="1.0" encoding="utf-8" ?>
 <D:propfind xmlns:D="DAV:">
  <D:prop>
    <D:quota-available-bytes/>
    <D:quota-used-bytes/>
  </D:prop>
 </D:propfind>"""
NEON = """\
Host: {host}
User-Agent: davfs2/1.6.1 neon/0.32.4
Connection: TE
TE: trailers"""
NEON_PROPFIND = (
    b'<?xml version="1.0" encoding="utf-8"?>\n<propfind xmlns="DAV:"><prop>\n<resourcetype xmlns="DAV:"/>\n'
    b'<getcontentlength xmlns="DAV:"/>\n<getetag xmlns="DAV:"/>\n<getlastmodified xmlns="DAV:"/>\n'
    b'<executable xmlns="http://apache.org/dav/props/"/>\n</prop></propfind>\n'
)
NEON_LOCK = (
    b'<?xml version="1.0" encoding="utf-8"?>\n<lockinfo xmlns=\'DAV:\'>\n <lockscope><exclusive/></lockscope>\n'
    b"<locktype><write/></locktype><owner>mount.davfs</owner>\n</lockinfo>\n"
)
NEON_EXECUTABLE = (
    b'<?xml version="1.0" encoding="utf-8" ?>\n<D:propertyupdate xmlns:D="DAV:"><D:set><D:prop>'
    b'<executable xmlns="http://apache.org/dav/props/">T</executable></D:prop></D:set>\n</D:propertyupdate>\n'
)
IOS = """\
Host: {host}
Accept: */*
Accept-Language: de-DE,de;q=0.9
Accept-Encoding: gzip, deflate
Connection: keep-alive
User-Agent: Documents/8.2 CFNetwork/1410.0.3 Darwin/22.6.0"""
CONTENT = b"one line\n" * 500

GVFS_GROUP = Group("gvfs")
DAVFS2_GROUP = Group("davfs2")
IOS_GROUP = Group("ios")
GROUPS = [GVFS_GROUP, DAVFS2_GROUP, IOS_GROUP]


def lists(*paths):
    def check(_, answer):
        expect("the listed paths", set(multistatus.resources(answer)), set(paths))

    return check


def describes(path, length):
    """A file has its length, a date, a quoted entity tag and a media type."""

    def check(server, answer):
        found = multistatus.resources(answer).get(path)
        if not found:
            raise Wrong(f"expected {path}, got {answer}")
        expect("getcontentlength", found.text(D + "getcontentlength"), str(length))
        expect("the status of getlastmodified", found.status_of(D + "getlastmodified"), 200)
        server.notes["tag"] = found.text(D + "getetag")
        if not (server.notes["tag"] or "").endswith('"'):
            raise Wrong(f"expected a quoted entity tag, got {answer}")

    return check


def same_tag(server, answer):
    """The field ETag is that of the property getetag (RFC 4918, section 15.6)."""
    expect("ETag", answer.field("ETag"), server.notes["tag"])


def take_tag(server, answer):
    server.notes["tag"] = answer.field("ETag")


def takes_lock(server, answer):
    server.notes["token"] = multistatus.token_of(answer).strip("<>")
    owner = multistatus.root(answer, D + "prop").findtext(f"{D}lockdiscovery/{D}activelock/{D}owner")
    expect("the owner", owner, "mount.davfs")


def is_executable(_, answer):
    """davfs2 sets it after a chmod. A server without it answers 403, inside the 207."""
    expect("the status", multistatus.only(answer).status_of(APACHE + "executable") in (200, 403), True)


def plain(client, line, *fields):
    return "\n".join([f"{line} HTTP/1.1", client, *fields])


def xml(client, line, *fields):
    return plain(client, line, *fields, "Content-Type: application/xml", "Content-Length: {length}")


FILE = "/Dokumente/%C3%9Cber%20uns.txt"
GVFS_STEPS = [
    Step("OPTIONS", plain(GVFS, "OPTIONS /"), 200, b"", has_members("DAV", "1")),
    Step("PROPFIND of the root", xml(GVFS, "PROPFIND /", "Depth: 0"), 207, GVFS_PROPFIND, lists("/")),
    Step("PROPFIND of the free space, without a quota", xml(GVFS, "PROPFIND /", "Depth: 0"), 207, GVFS_FREE,
         lists("/")),
    Step("MKCOL", plain(GVFS, "MKCOL /Dokumente", "Content-Length: 0"), 201),
    Step("PUT", plain(GVFS, f"PUT {FILE}", "If-None-Match: *", "Content-Length: {length}"), 201, CONTENT),
    Step("PUT with If-None-Match: * on a file is 412",
         plain(GVFS, f"PUT {FILE}", "If-None-Match: *", "Content-Length: {length}"), 412, CONTENT),
    Step("PROPFIND, Depth 1", xml(GVFS, "PROPFIND /Dokumente/", "Depth: 1"), 207, GVFS_PROPFIND,
         describes("/Dokumente/\u00dcber uns.txt", len(CONTENT))),
    Step("GET", plain(GVFS, f"GET {FILE}"), 200, b"", all_of(has_body(CONTENT), same_tag)),
    Step("PUT with the right If-Match",
         plain(GVFS, f"PUT {FILE}", "If-Match: {tag}", "Content-Length: {length}"), 204, b"new"),
    Step("PUT with the old If-Match is 412",
         plain(GVFS, f"PUT {FILE}", "If-Match: {tag}", "Content-Length: {length}"), 412, b"newer"),
    Step("PUT in chunks", plain(GVFS, f"PUT {FILE}", "Transfer-Encoding: chunked"), 204, chunked(CONTENT, CONTENT)),
    Step("COPY with Overwrite: F",
         plain(GVFS, f"COPY {FILE}", "Destination: {url}/Dokumente/b", "Overwrite: F"), 201),
    Step("MOVE with Overwrite: F to a name in use is 412",
         plain(GVFS, f"MOVE {FILE}", "Destination: {url}/Dokumente/b", "Overwrite: F"), 412),
    Step("MOVE with Overwrite: T", plain(GVFS, f"MOVE {FILE}", "Destination: {url}/Dokumente/b", "Overwrite: T"), 204),
    Step("GET of the moved file", plain(GVFS, "GET /Dokumente/b"), 200, b"", has_body(CONTENT * 2)),
    Step("DELETE", plain(GVFS, "DELETE /Dokumente/b"), 204),
]
NEON_STEPS = [
    Step("OPTIONS", plain(NEON, "OPTIONS /"), 200, b"", has_members("DAV", "1", "2")),
    Step("PROPFIND, Depth 1", xml(NEON, "PROPFIND /", "Depth: 1"), 207, NEON_PROPFIND, lists("/")),
    Step("PROPFIND of the quota", xml(NEON, "PROPFIND /", "Depth: 0"), 207, GVFS_FREE, lists("/")),
    Step("LOCK of a free name makes an empty file",
         xml(NEON, "LOCK /notes.txt", "Depth: 0", "Timeout: Second-3600"), 201, NEON_LOCK, takes_lock),
    Step("HEAD of it", plain(NEON, "HEAD /notes.txt"), 200),
    Step("PUT with a tagged If",
         plain(NEON, "PUT /notes.txt", "Content-Length: {length}", "If: <{url}/notes.txt> (<{token}>)"), 204, CONTENT),
    Step("PUT with If: (<token>)",
         plain(NEON, "PUT /notes.txt", "Content-Length: {length}", "If: (<{token}>)"), 204, CONTENT),
    Step("PROPPATCH of executable", xml(NEON, "PROPPATCH /notes.txt", "If: (<{token}>)"), 207, NEON_EXECUTABLE,
         is_executable),
    Step("a refresh", plain(NEON, "LOCK /notes.txt", "If: <{url}/notes.txt> (<{token}>)", "Timeout: Second-3600"), 200),
    Step("PROPFIND, Depth 0", xml(NEON, "PROPFIND /notes.txt", "Depth: 0"), 207, NEON_PROPFIND,
         describes("/notes.txt", len(CONTENT))),
    Step("GET of a changed file",
         plain(NEON, "GET /notes.txt", 'If-None-Match: "0-other"', "Accept-Encoding: gzip"), 200, b"",
         all_of(has_body(CONTENT), same_tag)),
    Step("GET of an unchanged file", plain(NEON, "GET /notes.txt", "If-None-Match: {tag}"), 304),
    Step("DELETE without the token is 423", plain(NEON, "DELETE /notes.txt"), 423),
    Step("DELETE with the token", plain(NEON, "DELETE /notes.txt", "If: <{url}/notes.txt> (<{token}>)"), 204),
    Step("UNLOCK of a lock that the DELETE removed", plain(NEON, "UNLOCK /notes.txt", "Lock-Token: <{token}>"),
         (404, 409)),
    Step("PUT with the right If-None-Match", plain(NEON, "PUT /b", "If-None-Match: *", "Content-Length: {length}"), 201,
         b"b", take_tag),
    Step("GET of a new file with its tag", plain(NEON, "GET /b", "If-None-Match: {tag}"), 304),
]
IOS_STEPS = [
    Step("OPTIONS", plain(IOS, "OPTIONS /"), 200, b"", has_members("DAV", "1")),
    Step("MKCOL without a trailing slash", plain(IOS, "MKCOL /B%C3%BCcher", "Content-Length: 0"), 201),
    Step("PROPFIND of all properties without a trailing slash",
         xml(IOS, "PROPFIND /B%C3%BCcher", "Depth: 1"), 207, multistatus.ALLPROP, lists("/B\u00fccher/")),
    Step("PUT", plain(IOS, "PUT /B%C3%BCcher/a%2Bb%20%5B1%5D.pdf", "Content-Type: application/pdf",
                      "Content-Length: {length}"), 201, CONTENT),
    Step("PUT with Expect: 100-continue", plain(IOS, "PUT /B%C3%BCcher/c.pdf", "Expect: 100-continue",
                                                "Content-Length: {length}"), 201, CONTENT),
    Step("PROPFIND of a file", xml(IOS, "PROPFIND /B%C3%BCcher/a%2Bb%20%5B1%5D.pdf", "Depth: 0"), 207,
         multistatus.ALLPROP, describes("/B\u00fccher/a+b [1].pdf", len(CONTENT))),
    Step("GET with brackets that are not escaped", plain(IOS, "GET /B%C3%BCcher/a+b%20[1].pdf"), 200, b"",
         has_body(CONTENT)),
    Step("GET of a range", plain(IOS, "GET /B%C3%BCcher/c.pdf", "Range: bytes=0-8", "If-Range: {tag}"), (200, 206)),
    Step("MOVE",
         plain(IOS, "MOVE /B%C3%BCcher/c.pdf", "Destination: {url}/B%C3%BCcher/d%20e.pdf", "Overwrite: F"), 201),
    Step("COPY of the folder", plain(IOS, "COPY /B%C3%BCcher", "Destination: {url}/Kopie", "Overwrite: F",
                                     "Depth: infinity"), 201),
    Step("PROPFIND of the copy", xml(IOS, "PROPFIND /Kopie/", "Depth: 1"), 207, GVFS_PROPFIND,
         lists("/Kopie/", "/Kopie/a+b [1].pdf", "/Kopie/d e.pdf")),
    Step("DELETE of both", plain(IOS, "DELETE /Kopie"), 204),
    Step("DELETE of the folder", plain(IOS, "DELETE /B%C3%BCcher/"), 204),
]
add_steps(GVFS_GROUP, GVFS_STEPS)
add_steps(DAVFS2_GROUP, NEON_STEPS)
add_steps(IOS_GROUP, IOS_STEPS)

"""The requests of apps that keep their files on a WebDAV server: Zotero, Joplin, Remotely Save (Obsidian) and KeePass 2."""
import accounts
import multistatus
from connection import Wrong
from harness import Group
from multistatus import D
from server import expect
from steps import Step, add_steps, has_body, has_members

BASIC = "Authorization: " + accounts.AS_ANNA["Authorization"]
ZOTERO = f"""\
Host: {{host}}
User-Agent: Mozilla/5.0 (X11; Linux x86_64; rv:115.0) Gecko/20100101 Zotero/7.0.11
Accept: */*
{BASIC}"""
ZOTERO_LENGTH = b"<propfind xmlns='DAV:'><prop><getcontentlength/></prop></propfind>"
ZOTERO_MODIFIED = b"<propfind xmlns='DAV:'><prop><getlastmodified/></prop></propfind>"
ZOTERO_PROPERTIES = b'<properties version="1"><mtime>1730000000000</mtime><hash>0cc175b9c0f1b6a831c399e269772661</hash></properties>'
JOPLIN = f"""\
Host: {{host}}
User-Agent: Joplin/1.0
If-None-Match: "JoplinIgnore-48151"
{BASIC}"""
JOPLIN_PROPFIND = b"""<?xml version="1.0" encoding="UTF-8"?>
<d:propfind xmlns:d="DAV:">
\t<d:prop xmlns:oc="http://owncloud.org/ns">
\t\t<d:getlastmodified/><d:resourcetype/>
\t</d:prop>
</d:propfind>"""
OBSIDIAN = f"""\
Host: {{host}}
User-Agent: Mozilla/5.0 (X11; Linux x86_64) AppleWebKit/537.36 obsidian/1.7.7 Chrome/128.0.6613.186 Electron/32.2.5
Accept: text/plain,application/xml
{BASIC}"""
KEEPASS = """\
Host: {host}
User-Agent: Mozilla/5.0 (compatible; MSIE 7.0; Windows NT 6.0)"""
ARCHIVE = b"PK\3\4 a document of Zotero"
NOTE = b"a note\n\nid: 0123456789abcdef0123456789abcdef\ntype_: 1"
DATABASE = b"\x03\xd9\xa2\x9a\x67\xfb\x4b\xb5 a database of KeePass"

ZOTERO_GROUP, JOPLIN_GROUP, OBSIDIAN_GROUP, KEEPASS_GROUP = GROUPS = [
    Group(name, *accounts.FLAGS, files=accounts.FILES) for name in ("zotero", "joplin", "remotely save", "keepass")
]


def plain(client, line, *fields):
    return "\n".join([f"{line} HTTP/1.1", client, *fields])


def sends(client, line, *fields):
    return plain(client, line, *fields, "Content-Length: {length}")


def xml(client, line, *fields):
    return sends(client, line, *fields, "Content-Type: text/xml; charset=utf-8")


def lists(*paths):
    def check(_, answer):
        expect("the listed paths", set(multistatus.resources(answer)), set(paths))

    return check


def is_dated(path):
    """A file has the date by which an app sees that another device changed it."""

    def check(_, answer):
        found = multistatus.resources(answer).get(path)
        if not found or found.status_of(D + "getlastmodified") != 200 or found.is_collection():
            raise Wrong(f"expected {path} with a date, got {answer}")

    return check


def asks_for_password(_, answer):
    """The .NET library of KeePass sends the password only after this."""
    if not (answer.field("WWW-Authenticate") or "").startswith("Basic "):
        raise Wrong(f"expected WWW-Authenticate: Basic, got {answer}")


KEY = "/zotero/AB12CD34"
ZOTERO_STEPS = [
    Step("OPTIONS of a folder that is not there has DAV", plain(ZOTERO, "OPTIONS /zotero/"), (200, 404), b"", has_members("DAV", "1")),
    Step("PROPFIND of it", xml(ZOTERO, "PROPFIND /zotero/", "Depth: 0"), 404, ZOTERO_LENGTH),
    Step("PROPFIND of the one above", xml(ZOTERO, "PROPFIND /", "Depth: 0"), 207, ZOTERO_LENGTH, lists("/")),
    Step("MKCOL", plain(ZOTERO, "MKCOL /zotero/"), 201),
    Step("PROPFIND", xml(ZOTERO, "PROPFIND /zotero/", "Depth: 0"), 207, ZOTERO_LENGTH, lists("/zotero/")),
    Step("GET of a file that is not there", plain(ZOTERO, "GET /zotero/nonexistent.prop"), 404),
    Step("PUT of a test file", sends(ZOTERO, "PUT /zotero/zotero-test-file.prop"), 201, b" "),
    Step("GET of it", plain(ZOTERO, "GET /zotero/zotero-test-file.prop"), 200, b"", has_body(b" ")),
    Step("DELETE of it", plain(ZOTERO, "DELETE /zotero/zotero-test-file.prop"), 204),
    Step("DELETE of properties that are not there", plain(ZOTERO, f"DELETE {KEY}.prop"), 404),
    Step("PUT of an archive", sends(ZOTERO, f"PUT {KEY}.zip", "Content-Type: application/zip"), 201, ARCHIVE),
    Step("PUT of its properties", xml(ZOTERO, f"PUT {KEY}.prop"), 201, ZOTERO_PROPERTIES),
    Step("GET of its properties", plain(ZOTERO, f"GET {KEY}.prop"), 200, b"", has_body(ZOTERO_PROPERTIES)),
    Step("GET of the archive", plain(ZOTERO, f"GET {KEY}.zip"), 200, b"", has_body(ARCHIVE)),
    Step("PROPFIND, Depth 1, for files that no item has", xml(ZOTERO, "PROPFIND /zotero/", "Depth: 1"), 207, ZOTERO_MODIFIED,
         lists("/zotero/", f"{KEY}.zip", f"{KEY}.prop")),
    Step("DELETE of the archive", plain(ZOTERO, f"DELETE {KEY}.zip"), 204),
    Step("DELETE of the properties", plain(ZOTERO, f"DELETE {KEY}.prop"), 204),
]
NOTE_PATH = "/Joplin/0123456789abcdef0123456789abcdef.md"
JOPLIN_STEPS = [
    Step("MKCOL of the folder", plain(JOPLIN, "MKCOL /Joplin/"), 201),
    Step("PROPFIND with an If-None-Match that means nothing", xml(JOPLIN, "PROPFIND /Joplin/", "Depth: 0"), 207, JOPLIN_PROPFIND,
         lists("/Joplin/")),
    Step("GET of info.json that is not there", plain(JOPLIN, "GET /Joplin/info.json"), 404),
    *[Step(f"MKCOL of {it}", plain(JOPLIN, f"MKCOL /Joplin/{it}/"), 201) for it in (".resource", ".sync", "locks", "temp")],
    Step("MKCOL of one that is there", plain(JOPLIN, "MKCOL /Joplin/locks/"), 405),
    Step("PUT of info.json", sends(JOPLIN, "PUT /Joplin/info.json"), 201, b'{"version":3}'),
    Step("PUT of a lock of its own", sends(JOPLIN, "PUT /Joplin/locks/1_1_9f8e7d.json"), 201, b'{"type":1}'),
    Step("PROPFIND of the locks", xml(JOPLIN, "PROPFIND /Joplin/locks/", "Depth: 1"), 207, JOPLIN_PROPFIND,
         is_dated("/Joplin/locks/1_1_9f8e7d.json")),
    Step("PUT of a note", sends(JOPLIN, f"PUT {NOTE_PATH}", "Content-Type: text/plain"), 201, NOTE),
    Step("PROPFIND of the note", xml(JOPLIN, f"PROPFIND {NOTE_PATH}", "Depth: 0"), 207, JOPLIN_PROPFIND, is_dated(NOTE_PATH)),
    Step("GET of the note", plain(JOPLIN, f"GET {NOTE_PATH}"), 200, b"", has_body(NOTE)),
    Step("PUT of a file as a resource", sends(JOPLIN, "PUT /Joplin/.resource/77", "Content-Type: application/octet-stream"), 201, ARCHIVE),
    Step("PROPFIND, Depth 1, of all", xml(JOPLIN, "PROPFIND /Joplin/", "Depth: 1"), 207, JOPLIN_PROPFIND, is_dated(NOTE_PATH)),
    Step("DELETE of the lock", plain(JOPLIN, "DELETE /Joplin/locks/1_1_9f8e7d.json"), 204),
    Step("DELETE of a note that is not there", plain(JOPLIN, "DELETE /Joplin/no.md"), 404),
]
OBSIDIAN_STEPS = [
    Step("PROPFIND of a vault that is not there", plain(OBSIDIAN, "PROPFIND /vault", "Depth: 0"), 404),
    Step("MKCOL of it", plain(OBSIDIAN, "MKCOL /vault/"), 201),
    Step("PROPFIND without a body", plain(OBSIDIAN, "PROPFIND /vault/", "Depth: 0"), 207, b"", lists("/vault/")),
    Step("MKCOL of a folder", plain(OBSIDIAN, "MKCOL /vault/Tagebuch%20%26%20mehr/"), 201),
    Step("PUT", sends(OBSIDIAN, "PUT /vault/Tagebuch%20%26%20mehr/a.md", "Content-Type: application/octet-stream"), 201, NOTE),
    Step("PUT that may not replace is 412", sends(OBSIDIAN, "PUT /vault/Tagebuch%20%26%20mehr/a.md", "If-None-Match: *"), 412, NOTE),
    Step("PROPFIND, Depth 1", plain(OBSIDIAN, "PROPFIND /vault/Tagebuch%20%26%20mehr/", "Depth: 1"), 207, b"",
         is_dated("/vault/Tagebuch & mehr/a.md")),
    Step("PROPFIND of Depth infinity is 403: the app needs the setting for Depth 1",
         plain(OBSIDIAN, "PROPFIND /vault/", "Depth: infinity"), 403),
    Step("GET", plain(OBSIDIAN, "GET /vault/Tagebuch%20%26%20mehr/a.md"), 200, b"", has_body(NOTE)),
    Step("MOVE", plain(OBSIDIAN, "MOVE /vault/Tagebuch%20%26%20mehr/a.md", "Destination: {url}/vault/b.md"), 201),
    Step("DELETE of the folder", plain(OBSIDIAN, "DELETE /vault/Tagebuch%20%26%20mehr/"), 204),
]
KEEPASS_STEPS = [
    Step("GET without a password is 401", plain(KEEPASS, "GET /pass.kdbx"), 401, b"", asks_for_password),
    Step("GET of a database that is not there", plain(KEEPASS, "GET /pass.kdbx", BASIC), 404),
    Step("PUT with Expect: 100-continue", sends(KEEPASS, "PUT /pass.kdbx", BASIC, "Expect: 100-continue"), 201, DATABASE),
    Step("GET", plain(KEEPASS, "GET /pass.kdbx", BASIC), 200, b"", has_body(DATABASE)),
    Step("PUT under another name", sends(KEEPASS, "PUT /pass.kdbx.tmp", BASIC, "Expect: 100-continue"), 201, DATABASE * 2),
    Step("DELETE of the old one", plain(KEEPASS, "DELETE /pass.kdbx", BASIC), 204),
    Step("MOVE of the new one", plain(KEEPASS, "MOVE /pass.kdbx.tmp", BASIC, "Destination: {url}/pass.kdbx", "Content-Length: 0"), 201),
    Step("GET of the new one", plain(KEEPASS, "GET /pass.kdbx", BASIC), 200, b"", has_body(DATABASE * 2)),
]
for group, steps in zip(GROUPS, (ZOTERO_STEPS, JOPLIN_STEPS, OBSIDIAN_STEPS, KEEPASS_STEPS)):
    add_steps(group, steps)

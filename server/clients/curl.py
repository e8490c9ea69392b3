"""curl: ranges, conditions, uploads, partial updates and HTTP/2."""
import re
import subprocess
import typing

from connection import Wrong
from harness import Group, Skipped
from server import PROCESSES, expect

SECONDS = 20
CONTENT = b"0123456789"
PATCH_TYPE = "Content-Type: application/x-sabredav-partialupdate"

GROUP = Group("curl", needs="curl")
TLS = Group("curl over TLS", "{tls}", needs="curl")
GROUPS = [GROUP, TLS]


class Printed(typing.NamedTuple):
    status: int
    version: str
    fields: dict[str, str]
    body: bytes


def curl(server, *words, source: bytes | None = None) -> Printed:
    """Runs curl. `source` is what it reads from its standard input, for `-T -`."""
    folder = server.files
    head, body, file = (folder / f"curl-{it}" for it in ("head", "body", "source"))
    body.write_bytes(b"")
    file.write_bytes(source or b"")
    options = ["-sS", "-k", "--max-time", SECONDS, "-D", head, "-o", body, "-w", "%{http_code} %{http_version}"]
    ran = PROCESSES.run(["sh", "-c", 'exec curl "$@" < "$0"', file, *options, *words], SECONDS + 5)
    found = re.search(r"(\d{3}) ([\d.]+)$", ran.stdout)
    if ran.returncode != 0 or not found:
        raise Wrong(f"curl {' '.join(map(str, words))} ends with status {ran.returncode}: {ran.stdout}")
    last = head.read_bytes().decode("latin-1").strip().split("\r\n\r\n")[-1]
    pairs = (line.partition(":")[::2] for line in last.split("\r\n")[1:])
    return Printed(int(found[1]), found[2], {key.lower(): value.strip() for key, value in pairs}, body.read_bytes())


def request(server, words: list[str], status, fields: dict | None = None, body: bytes | None = None):
    """Sends one request of the table. `{tag}` and `{date}` are those of the file."""
    if any("{" in it for it in words):
        got = curl(server, "-I", server.url("/file"))
        words = [it.format(tag=got.fields.get("etag"), date=got.fields.get("last-modified")) for it in words]
    got = curl(server, *words, server.url("/file"))
    wanted = (status,) if isinstance(status, int) else status
    if got.status not in wanted:
        raise Wrong(f"curl {' '.join(words)}\n  expected {' or '.join(map(str, wanted))}, got {got}")
    for name, value in (fields or {}).items():
        expect(f"the field {name}", got.fields.get(name), value)
    if body is not None:
        expect("the body", got.body, body)


def put(server):
    got = curl(server, "-T", "-", "-H", "Transfer-Encoding:", "-H", f"Content-Length: {len(CONTENT)}",
               server.url("/file"), source=CONTENT)
    expect("the status of a PUT with a length", got.status, 201)
    expect("the body", curl(server, server.url("/file")).body, CONTENT)


def head_matches_get(server):
    """HEAD has the fields of GET, and no body (RFC 9110, section 9.3.2)."""
    got, asked = curl(server, server.url("/file")), curl(server, "-I", server.url("/file"))
    expect("the body of HEAD", asked.body == b"" or asked.body.startswith(b"HTTP/"), True)
    for name in ("content-length", "content-type", "etag", "last-modified", "accept-ranges"):
        expect(f"the field {name} of HEAD", asked.fields.get(name), got.fields.get(name))
    expect("Content-Length", asked.fields.get("content-length"), "10")
    expect("Accept-Ranges", asked.fields.get("accept-ranges"), "bytes")


def several_ranges(server):
    """A part for each range, with its Content-Range (RFC 9110, section 14.6)."""
    got = curl(server, "-r", "0-1,4-5,-1", server.url("/file"))
    expect("the status", got.status, 206)
    found = re.fullmatch(r'multipart/byteranges; *boundary="?([^"]+)"?', got.fields.get("content-type", ""))
    if not found:
        raise Wrong(f"expected multipart/byteranges, got {got}")
    parts = got.body.split(b"--" + found[1].encode())
    expect("the end of the last part", parts[-1].strip(), b"--")
    expect("Content-Length", got.fields.get("content-length", str(len(got.body))), str(len(got.body)))
    ranges = []
    for part in parts[1:-1]:
        head, _, body = part.partition(b"\r\n\r\n")
        place = re.search(rb"^content-range: *bytes (\S+)\r?$", head, re.M | re.I)
        ranges.append((place and place[1], body.removesuffix(b"\r\n")))
    expect("the parts", ranges, [(b"0-1/10", b"01"), (b"4-5/10", b"45"), (b"9-9/10", b"9")])


def many_ranges(server):
    """Hundreds of overlapping ranges may be ignored or rejected (RFC 9110, section 14.2), and must not multiply."""
    words = "-r", ",".join(["0-"] * 400)
    got = curl(server, *words, server.url("/file"))
    if got.status not in (200, 206, 416) or len(got.body) > 100 * len(CONTENT) + 60000:
        raise Wrong(f"expected a bounded 200, 206 or 416, got {got.status} with {len(got.body)} bytes")


def put_chunked(server):
    body = bytes(range(256)) * 5000
    expect("the status", curl(server, "-T", "-", server.url("/chunked"), source=body).status, 201)
    expect("the body", curl(server, server.url("/chunked")).body, body)


def put_expecting(server):
    """curl itself sends Expect: 100-continue with a body of more than 1 MB, and waits for the response."""
    file = server.files / "two-megabytes"
    file.write_bytes(b"ab" * (1 << 20))
    began = curl(server, "-T", file, "-H", "Expect: 100-continue", "--expect100-timeout", "15", server.url("/large"))
    expect("the status", began.status, 201)
    expect("the length", curl(server, "-I", server.url("/large")).fields.get("content-length"), str(2 << 20))


def patched(server, update: str, body: bytes, status, wanted: bytes):
    """A partial update of a file that is new for it."""
    curl(server, "-T", "-", server.url("/patched"), source=CONTENT)
    words = "-X", "PATCH", "-H", PATCH_TYPE, "-H", f"X-Update-Range: {update}", "--data-binary", "@-"
    got = curl(server, *words, server.url("/patched"), source=body)
    if got.status not in ((status,) if isinstance(status, int) else status):
        raise Wrong(f"expected {status}, got {got}")
    expect("the file", curl(server, server.url("/patched")).body, wanted)


def patched_without(server, fields: list[str], status: int):
    """A PATCH that is rejected leaves the file."""
    curl(server, "-T", "-", server.url("/patched"), source=CONTENT)
    words = [it for field in fields for it in ("-H", field)]
    got = curl(server, "-X", "PATCH", *words, "--data-binary", "@-", server.url("/patched"), source=b"xy")
    expect("the status", got.status, status)
    expect("the file", curl(server, server.url("/patched")).body, CONTENT)


def http2(server, words: list, status: int, path="/h2"):
    if "HTTP2" not in subprocess.run(["curl", "--version"], capture_output=True, text=True, timeout=10).stdout:
        raise Skipped("curl has no HTTP/2")
    got = curl(server, "--http2", *words, server.url(path), source=CONTENT * 20000)
    expect("the version", got.version, "2")
    if got.status != status:
        raise Wrong(f"expected {status}, got {got}")
    if status == 200 and words == []:
        expect("the body", got.body, CONTENT * 20000)


OLD = "Sun, 06 Nov 1994 08:49:37 GMT"
LATE = "Fri, 06 Nov 2099 08:49:37 GMT"
TABLE = [
    ("a range", ["-r", "2-5"], 206, {"content-range": "bytes 2-5/10", "content-length": "4"}, b"2345"),
    ("a range to the end", ["-r", "7-"], 206, {"content-range": "bytes 7-9/10"}, b"789"),
    ("a suffix", ["-r", "-3"], 206, {"content-range": "bytes 7-9/10"}, b"789"),
    ("a suffix that is longer than the file", ["-r", "-30"], (200, 206), {}, CONTENT),
    ("a range that ends after the file", ["-r", "5-100"], 206, {"content-range": "bytes 5-9/10"}, b"56789"),
    ("a range after the file is 416", ["-r", "10-"], 416, {"content-range": "bytes */10"}, None),
    ("an empty suffix is 416", ["-r", "-0"], 416, {"content-range": "bytes */10"}, None),
    ("a range in another unit is ignored", ["-H", "Range: lines=1-2"], 200, {}, CONTENT),
    ("a range that ends before it begins", ["-H", "Range: bytes=5-2"], (200, 400, 416), {}, None),
    ("a range that is no range", ["-H", "Range: bytes=a-b"], (200, 400, 416), {}, None),
    ("a range of HEAD is ignored", ["-I", "-r", "2-5"], 200, {}, None),
    ("If-Range with the tag", ["-r", "2-5", "-H", "If-Range: {tag}"], 206, {}, b"2345"),
    ("If-Range with another tag", ["-r", "2-5", "-H", 'If-Range: "other"'], 200, {}, CONTENT),
    ("If-Range with a weak tag", ["-r", "2-5", "-H", "If-Range: W/{tag}"], 200, {}, CONTENT),
    ("If-Range with an old date", ["-r", "2-5", "-H", f"If-Range: {OLD}"], 200, {}, CONTENT),
    ("If-None-Match with the tag is 304", ["-H", "If-None-Match: {tag}"], 304, {}, b""),
    ("If-None-Match with the tag as weak is 304", ["-H", "If-None-Match: W/{tag}"], 304, {}, b""),
    ("If-None-Match with the tag in a list is 304", ["-H", 'If-None-Match: "a", {tag}'], 304, {}, b""),
    ("If-None-Match: * is 304", ["-H", "If-None-Match: *"], 304, {}, b""),
    ("If-None-Match with another tag", ["-H", 'If-None-Match: "a"'], 200, {}, CONTENT),
    ("If-Match with the tag", ["-H", "If-Match: {tag}"], 200, {}, CONTENT),
    ("If-Match with another tag is 412", ["-H", 'If-Match: "a"'], 412, {}, None),
    ("If-Match with the tag as weak is 412", ["-H", "If-Match: W/{tag}"], 412, {}, None),
    ("If-Match: *", ["-H", "If-Match: *"], 200, {}, CONTENT),
    ("If-Modified-Since of the date is 304", ["-H", "If-Modified-Since: {date}"], 304, {}, b""),
    ("If-Modified-Since of later is 304", ["-H", f"If-Modified-Since: {LATE}"], (200, 304), {}, None),
    ("If-Modified-Since of earlier", ["-H", f"If-Modified-Since: {OLD}"], 200, {}, CONTENT),
    ("If-Modified-Since beside If-None-Match is ignored",
     ["-H", "If-Modified-Since: {date}", "-H", 'If-None-Match: "a"'], 200, {}, CONTENT),
    ("If-Unmodified-Since of earlier is 412", ["-H", f"If-Unmodified-Since: {OLD}"], 412, {}, None),
    ("If-Unmodified-Since of the date", ["-H", "If-Unmodified-Since: {date}"], 200, {}, CONTENT),
    ("a condition before a range", ["-r", "2-5", "-H", "If-None-Match: {tag}"], 304, {}, b""),
]
GROUP.add("PUT with a length", put)
GROUP.add("HEAD has the fields of GET", head_matches_get)
for name, words, status, fields, body in TABLE:
    GROUP.add(f"GET with {name}" if not name.startswith("If") else f"GET: {name}", request, words, status, fields, body)
GROUP.add("GET with three ranges is multipart/byteranges", several_ranges)
GROUP.add("GET with 400 overlapping ranges", many_ranges)
GROUP.add("PUT in chunks", put_chunked)
GROUP.add("PUT with Expect: 100-continue", put_expecting)
PATCHES = [
    ("bytes=2-3", b"xy", 204, b"01xy456789"),
    ("bytes=2-", b"xy", 204, b"01xy456789"),
    ("bytes=-2", b"xy", 204, b"01234567xy"),
    ("append", b"xy", 204, b"0123456789xy"),
    ("bytes=12-13", b"xy", 204, b"0123456789\0\0xy"),
    ("bytes=2-5", b"xy", (400, 416), CONTENT),
    ("bytes=5-2", b"xy", (400, 416), CONTENT),
    ("lines=2-3", b"xy", (400, 416), CONTENT),
]
for update, body, status, wanted in PATCHES:
    GROUP.add(f"PATCH with X-Update-Range: {update}", patched, update, body, status, wanted)
GROUP.add("PATCH without X-Update-Range is 400", patched_without, [PATCH_TYPE], 400)
GROUP.add("PATCH of another type is 415", patched_without, ["Content-Type: text/plain", "X-Update-Range: append"], 415)
TLS.add("HTTP/2: PUT with a length of 200 KB", http2, ["-H", "Content-Length: 200000", "-T", "-"], 201)
TLS.add("HTTP/2: PUT of 200 KB", http2, ["-T", "-"], 204)
TLS.add("HTTP/2: GET", http2, [], 200)
TLS.add("HTTP/2: a range", http2, ["-r", "0-9"], 206)
TLS.add("HTTP/2: PROPFIND", http2, ["-X", "PROPFIND", "-H", "Depth: 1"], 207, "/")
TLS.add("HTTP/2: LOCK of what is not a lockinfo is 400", http2, ["-X", "LOCK", "--data", "<a/>"], 400)
TLS.add("HTTP/2: COPY", http2, ["-X", "COPY", "-H", "Destination: /h2copy"], 201)
TLS.add("HTTP/2: DELETE", http2, ["-X", "DELETE"], 204)

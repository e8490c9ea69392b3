"""What no script of `davrun` shows: which connections must be closed, the levels of a body, deep trees, and that a batch which
changes nothing writes nothing."""
import pathlib
import tempfile

import davd
import frames
from davd import Sent, Wrong
from tool import Progress

Fields = tuple[tuple[str, str], ...]

LOCK = frames.Element(
    "lockinfo",
    nodes=(
        frames.Element("lockscope", nodes=(frames.Element("exclusive"),)),
        frames.Element("locktype", nodes=(frames.Element("write"),)),
    ),
)


def request(method: str, path: str, fields: Fields = (), body: frames.Body = b"!", token: str = "urn:none") -> frames.Request:
    pairs = tuple((name.lower().encode(), value.encode()) for name, value in fields)
    return frames.Request(method.encode(), path, token=token, fields=pairs, body=body)


def served(program: pathlib.Path, requests: list[frames.Frame]) -> list[frames.Reply]:
    """The replies to these frames in one batch."""
    sent = Sent(1, 0, tuple(map(frames.encode_frame, requests)))
    answered = davd.answers(davd.run(program, [], sent.encode()), 1)
    return davd.replies_of(answered[0], 1, len(requests))


# ---- connections to be closed

UPDATE = ("Content-Type", "application/x-sabredav-partialupdate")
BLANKS = ("Content-Type", " application/x-sabredav-partialupdate\t")
LENGTH = ("Content-Length", "1")
APPEND = ("X-Update-Range", "\tappend ")
NINE = ("X-Update-Range", "bytes=-9")
FAR = ("X-Update-Range", "bytes=18446744073709551614-")
OTHER = ("If-Match", '"9"')

# A method, a path, header fields, the status of such a request with a body of one byte, and whether the connection must
# then be closed: it must if the request has a body of a file and is rejected before the store has it. `/l` is locked.
ANSWERS: list[tuple[str, str, Fields, int, bool]] = [
    ("PUT", "/a", (), 201, False),
    ("PUT", "/a", (("Content-Length", "\t2 "),), 400, True),
    ("PUT", "/a", (("X-Expected-Entity-Length", " 2\t"),), 400, True),
    ("PUT", "/a", (("Content-Range", "x"),), 400, True),
    ("PUT", "/a", (("Content-Range", "\tbytes 2-1/5 "),), 416, True),
    ("PUT", "/a", (OTHER,), 412, True),
    ("PUT", "/x/y", (("If-None-Match", "*"),), 412, True),
    ("PUT", "/x/y", (), 409, True),
    ("PUT", "/l", (), 423, True),
    ("PUT", "/", (), 403, False),
    ("PATCH", "/b", (BLANKS, LENGTH, APPEND), 201, False),
    ("PATCH", "/b", (), 415, True),
    ("PATCH", "/b", (UPDATE,), 411, True),
    ("PATCH", "/b", (UPDATE, LENGTH), 400, True),
    ("PATCH", "/b", (UPDATE, LENGTH, NINE), 416, True),
    ("PATCH", "/b", (UPDATE, LENGTH, APPEND, OTHER), 412, True),
    ("PATCH", "/x/y", (UPDATE, LENGTH, APPEND), 409, True),
    ("PATCH", "/l", (UPDATE, LENGTH, APPEND), 423, True),
    ("PATCH", "/", (UPDATE, LENGTH, APPEND), 403, False),
    ("PATCH", "/b", (UPDATE, LENGTH, FAR), 507, False),
    ("MKCOL", "/", (), 405, False),
    ("MKCOL", "/x/y", (), 409, False),
    ("MKCOL", "/n", (("If-Match", "*"),), 412, False),
    ("DELETE", "/", (("Depth", " 1\t"),), 400, False),
    ("DELETE", "/", (OTHER,), 412, False),
    ("DELETE", "/n", (), 404, False),
    ("DELETE", "/", (), 423, False),
    ("GET", "/", (), 501, False),
    ("UNLOCK", "/l", (("Lock-Token", "\t<urn:t> "),), 204, False),
    ("PUT", "/l", (), 204, False),
]


def try_closing(program: pathlib.Path):
    """One batch, so that each request finds what those before it left."""
    lock = request("LOCK", "/l", body=LOCK, token="urn:t")
    replies = served(program, [lock, *(request(method, path, fields) for method, path, fields, _, _ in ANSWERS)])
    for (method, path, fields, status, close), reply in zip(ANSWERS, replies[1:]):
        if (reply.status, reply.close) != (status, close):
            raise Wrong(f"{method} {path} {fields}: {reply.status}, {reply.close}, and not {status}, {close}")


# ---- levels


def nested(levels: int) -> frames.Element:
    element = frames.Element("x")
    for _ in range(levels - 1):
        element = frames.Element("x", nodes=(element,))
    return element


def dav(name: str, *nodes: frames.Element) -> frames.Element:
    return frames.Element(name, namespace="DAV:", nodes=nodes)


def try_levels(program: pathlib.Path):
    """Sets a property in a body with as many levels as a request may have, asks for it, and sets one with one more."""

    def setting(levels):
        return request("PROPPATCH", "/", body=dav("propertyupdate", dav("set", dav("prop", nested(levels - 3)))))

    asked = request("PROPFIND", "/", body=dav("propfind", dav("prop", frames.Element("x"))))
    replies = served(program, [setting(frames.REQUEST_LEVELS), asked, setting(frames.REQUEST_LEVELS + 1)])
    got = [it.status for it in replies]
    if got != [207, 207, 400]:
        raise Wrong(f"statuses {got}, and not 207, 207 and 400")


# ---- deep trees

DEPTH = 300


def try_depth(program: pathlib.Path):
    """Copies a tree of nested directories into the deepest of them, and deletes all of them."""
    path = "/a" * DEPTH
    made = [request("MKCOL", "/a" * depth, body=None) for depth in range(1, DEPTH + 1)]
    copied = request("COPY", "/a", (("Destination", f"{path}/b"),), None)
    deepest = frames.Read(None, f"{path}/b{path[2:]}", 0, 1)
    deleted = request("DELETE", "/a", body=None)
    replies = served(program, [*made, copied, deepest, deleted, deepest])
    got = [getattr(it, "status", 200) for it in replies]
    if got != [201] * DEPTH + [201, 200, 204, 404]:
        raise Wrong(f"statuses {sorted(set(got[:DEPTH]))} and {got[DEPTH:]}, and not 201 and 201, 200, 204, 404")


# ---- batches that change nothing

CHANGING = (request("PUT", "/a"), request("LOCK", "/l", body=LOCK, token="urn:t"))
IDLE = (
    request("PROPFIND", "/", (("Depth", "1"),), None),
    request("OPTIONS", "/a", body=None),
    request("DELETE", "/n", body=None),
    request("PUT", "/l"),
    frames.Read(None, "/a", 0, 1),
    frames.Held(),
)


def try_idle(program: pathlib.Path):
    """Serves a folder with and without batches that change nothing: its files have the same bytes at the end."""

    def files_after(batches):
        with tempfile.TemporaryDirectory() as folder:
            sent = [Sent(number, 5, tuple(map(frames.encode_frame, it))).encode() for number, it in enumerate(batches, 1)]
            davd.answers(davd.run(program, [folder], b"".join(sent)), len(batches))
            return {file.name: file.read_bytes() for file in pathlib.Path(folder).iterdir()}

    without, with_idle = files_after([CHANGING]), files_after([CHANGING, IDLE, IDLE])
    other = sorted(it for it in without.keys() | with_idle.keys() if without.get(it) != with_idle.get(it))
    if other:
        raise Wrong(f"{', '.join(other)} differ, and must not")


TRIED = {
    "which connections must be closed": try_closing,
    "the levels of a body": try_levels,
    "a deep tree": try_depth,
    "what batches write that change nothing": try_idle,
}


def try_fixed(program: pathlib.Path, progress: Progress) -> tuple[int, int]:
    """Returns how many passed, and how many failed."""
    failed = 0
    for name, run in TRIED.items():
        try:
            run(program)
        except Wrong as wrong:
            failed += 1
            progress.print(f"{name}: {wrong}")
    return len(TRIED) - failed, failed

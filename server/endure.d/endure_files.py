"""Actions on files: PUT, GET, HEAD, PATCH, ranges, conditions, and clients that vanish."""
import re

from connection import Answer, Wrong, chunked
from endure_model import File

NAMES = ("a", "b.txt", "c d", "\u00fcber", "x&y", "1+1", "100%", "q'q", "s;t", "[z]", "\u65e5\u672c.html", "~")
WRONG_TAG = '"no-such-tag"'
MOST_RESOURCES = 70
MOST_BYTES = 24 << 20
MOST_DEPTH = 6
# Greatest sizes of bodies, and how often they are chosen.
SIZES = ((0, 4), (200, 36), (64 << 10, 40), (2 << 20, 16), (8 << 20, 4))
# A rejected body is small: the server may close the connection before it has read a larger one.
SMALL = 2000
PROPPATCH = b'<propertyupdate xmlns="DAV:"><set><prop><x xmlns="urn:x">y</x></prop></set></propertyupdate>'


def fits(worker, resources: int, size: int) -> bool:
    """Whether so much more may exist. Otherwise the largest resource of the root is removed, for another time."""
    tree = worker.tree
    if len(tree) + resources <= MOST_RESOURCES and tree.size() + size <= MOST_BYTES:
        return True
    if members := tree.members(tree.root):
        victim = max(members, key=lambda it: sum(1 + len(getattr(below, "data", b"")) for _, below in tree.below(it)))
        worker.client.ask("DELETE", victim, status=204)
        tree.remove(victim)
    return False


def free_place(worker) -> str | None:
    """A path in a folder at which nothing exists."""
    folder = worker.chance.choice(worker.tree.folders())
    path = f"{folder}/{worker.chance.choice(NAMES)}"
    return None if path in worker.tree or path.count("/") > MOST_DEPTH else path


def some_file(worker) -> str | None:
    files = worker.tree.files()
    return worker.chance.choice(files) if files else None


def some_size(worker) -> int:
    most = worker.chance.choices([it for it, _ in SIZES], [it for _, it in SIZES])[0]
    return worker.chance.randint(0, most)


def some_condition(worker, path: str) -> tuple[dict, bool]:
    """Fields with a condition on the resource at a path, and whether it holds."""
    chance, tree = worker.chance, worker.tree
    tag = tree[path].tag if path in tree else None
    choices = [({}, True)] * 6 + [({"If-None-Match": "*"}, path not in tree), ({"If-Match": "*"}, path in tree),
                                  ({"If-Match": WRONG_TAG}, False), ({"If-None-Match": WRONG_TAG}, True)]
    if tag:
        choices += [({"If-Match": tag}, True), ({"If-None-Match": tag}, False)]
        choices += [({"If-Match": f"{WRONG_TAG}, {tag}"}, True)]
    return chance.choice(choices)


def learn_tag(worker, path: str, got: Answer):
    """Compares the entity tag of a response with the one that is known."""
    file, tag = worker.tree[path], got.field("ETag")
    if not tag or file.tag not in (None, tag):
        raise Wrong(f"{path}: expected the entity tag {file.tag or 'of the file'}, got {tag}\n{got}")
    file.tag = tag


# ---- writing


def put(worker):
    path = some_file(worker) if worker.chance.random() < 0.5 else free_place(worker)
    if not path:
        return
    fields, is_met = some_condition(worker, path)
    data = worker.bytes(some_size(worker) if is_met else worker.chance.randint(0, SMALL))
    if is_met and not fits(worker, 1, len(data)):
        return
    is_new, old = path not in worker.tree, worker.tree.resources.get(path)
    got = send(worker, path, data, fields)
    worker.client.expect(got, (201 if is_new else 204) if is_met else 412)
    if is_met:
        tag = got.field("ETag")
        if not tag or old and old.tag == tag:
            raise Wrong(f"PUT {path}: expected another entity tag than {old and old.tag}, got {tag}")
        worker.tree.write(path, data, tag)


def send(worker, path: str, data: bytes, fields: dict) -> Answer:
    """Sends a PUT with its length, in chunks, or only after 100 (Continue)."""
    way = worker.chance.random()
    if way < 0.6:
        return worker.client.ask("PUT", path, data, fields)
    if way < 0.75:
        return worker.client.put_after_100(path, data, fields)
    return worker.client.ask("PUT", path, chunked(*pieces(worker, data)), {**fields, "Transfer-Encoding": "chunked"})


def pieces(worker, data: bytes) -> list[bytes]:
    """Cuts bytes into a few pieces, none of which is empty."""
    cuts = sorted({0, len(data), *(worker.chance.randint(0, len(data)) for _ in range(worker.chance.randint(0, 5)))})
    return [data[start:end] for start, end in zip(cuts, cuts[1:])]


def patch(worker):
    """A partial update as SabreDAV defines it: docs/GUARANTEES.md says what it leaves."""
    path = some_file(worker)
    if not path or not fits(worker, 0, SMALL * 2):
        return
    old = worker.tree[path].data
    data = worker.bytes(worker.chance.randint(1, SMALL))
    place = worker.chance.randint(0, len(old) + 50)
    form, start = worker.chance.choice([
        (f"bytes={place}-{place + len(data) - 1}", place), (f"bytes={place}-", place), ("append", len(old)),
    ])
    fields = {"X-Update-Range": form, "Content-Type": "application/x-sabredav-partialupdate"}
    worker.client.ask("PATCH", path, data, fields, 204)
    filled = old.ljust(start, b"\0")
    worker.tree.write(path, filled[:start] + data + filled[start + len(data) :], None)
    get_path(worker, path)


def vanish(worker):
    """Sends a part of a body and vanishes. The file is as before, or there is still none."""
    path = some_file(worker) if worker.chance.random() < 0.5 else free_place(worker)
    if not path:
        return
    data = worker.bytes(worker.chance.choice((10, 5000, 300_000, 1_000_000)))
    part = data[: worker.chance.randint(0, len(data) - 1)]
    if worker.chance.random() < 0.5:
        fields = {"Content-Length": len(data)}
    else:
        fields, part = {"Transfer-Encoding": "chunked"}, chunked(*pieces(worker, part)).removesuffix(b"0\r\n\r\n")
    worker.client.vanish("PUT", path, fields, part, worker.chance.random() < 0.5)
    get_path(worker, path)


# ---- reading


def get_path(worker, path: str):
    """Compares what is at a path with the model."""
    resource = worker.tree.resources.get(path)
    if resource is None:
        worker.client.ask("GET", path, status=404)
    elif isinstance(resource, File):
        got = worker.client.ask("GET", path, status=200)
        compare(f"GET {path}", got.body, resource.data)
        learn_tag(worker, path, got)


def compare(what: str, got: bytes, wanted: bytes):
    if got != wanted:
        same = next((at for at, (a, b) in enumerate(zip(got, wanted)) if a != b), min(len(got), len(wanted)))
        raise Wrong(f"{what}: expected {len(wanted)} bytes, got {len(got)}. Byte {same} is the first that differs")


def get(worker):
    if path := some_file(worker):
        get_path(worker, path)


def head(worker):
    if path := some_file(worker):
        got = worker.client.ask("HEAD", path, status=200)
        if got.field("Content-Length") != str(len(worker.tree[path].data)):
            raise Wrong(f"HEAD {path}: expected the length {len(worker.tree[path].data)}\n{got}")
        learn_tag(worker, path, got)


def range_(worker):
    """One range (RFC 9110, section 14)."""
    path = some_file(worker)
    if not path or not worker.tree[path].data:
        return
    data, chance = worker.tree[path].data, worker.chance
    start = chance.randint(0, len(data) - 1)
    end = chance.randint(start, len(data) + 10)
    count = chance.randint(1, len(data) + 10)
    form, first, last = chance.choice([
        (f"{start}-{end}", start, min(end, len(data) - 1)), (f"{start}-", start, len(data) - 1),
        (f"-{count}", max(0, len(data) - count), len(data) - 1), (f"{len(data)}-{len(data) + 5}", None, None),
    ])
    fields, is_whole = {"Range": f"bytes={form}"}, False
    if (tag := worker.tree[path].tag) and chance.random() < 0.3:
        is_whole = chance.random() < 0.5
        fields["If-Range"] = WRONG_TAG if is_whole else tag
    got = worker.client.ask("GET", path, None, fields, 200 if is_whole else 416 if first is None else 206)
    if is_whole:
        compare(f"GET {path} with another If-Range", got.body, data)
    elif first is not None:
        compare(f"GET {path} bytes={form}", got.body, data[first : last + 1])
    if got.status != 200:
        expect_range(got, "*" if first is None else f"{first}-{last}", len(data))


def expect_range(got: Answer, part: str, length: int):
    wanted = f"bytes {part}/{length}"
    if got.field("Content-Range") != wanted:
        raise Wrong(f"expected Content-Range: {wanted}\n{got}")


def ranges(worker):
    """Two ranges: the response is both, as multipart/byteranges, or the whole file."""
    path = some_file(worker)
    if not path or len(worker.tree[path].data) < 100:
        return
    data = worker.tree[path].data
    got = worker.client.ask("GET", path, None, {"Range": "bytes=3-12,50-79"}, (200, 206))
    if got.status == 200:
        compare(f"GET {path} of two ranges", got.body, data)
        return
    boundary = re.fullmatch(r"multipart/byteranges; *boundary=\"?([^\"]+)\"?", got.field("Content-Type") or "")
    if not boundary:
        raise Wrong(f"expected multipart/byteranges with a boundary\n{got}")
    parts = got.body.split(b"--" + boundary[1].encode())[1:-1]
    for part, (start, end) in zip(parts, ((3, 13), (50, 80)), strict=True):
        fields, _, body = part.partition(b"\r\n\r\n")
        compare(f"a range of {path}", body.removesuffix(b"\r\n"), data[start:end])
        if f"content-range: bytes {start}-{end - 1}/{len(data)}".encode() not in fields.lower():
            raise Wrong(f"expected the Content-Range of {start}-{end - 1} in a part\n{got}")


def conditional_get(worker):
    path = some_file(worker)
    if not path or not (tag := worker.tree[path].tag):
        return
    fields, status = worker.chance.choice([
        ({"If-None-Match": tag}, 304), ({"If-None-Match": WRONG_TAG}, 200), ({"If-None-Match": "*"}, 304),
        ({"If-Match": tag}, 200), ({"If-Match": WRONG_TAG}, 412), ({"If-Match": f"{WRONG_TAG}, {tag}"}, 200),
    ])
    got = worker.client.ask("GET", path, None, fields, status)
    if status == 200:
        compare(f"GET {path} {fields}", got.body, worker.tree[path].data)


def missing(worker):
    """Nothing exists at a path: each method says so, and nothing can be made below it."""
    path = free_place(worker)
    if not path:
        return
    worker.client.ask(worker.chance.choice(("GET", "HEAD", "DELETE")), path, None, {}, 404)
    worker.client.ask("PROPFIND", path, None, {"Depth": "0"}, 404)
    worker.client.ask("PROPPATCH", path, PROPPATCH, {}, 404)
    target = f"http://127.0.0.1:{worker.client.port}{worker.root}/never"
    worker.client.ask(worker.chance.choice(("COPY", "MOVE")), path, None, {"Destination": target}, 404)
    worker.client.ask("PUT", f"{path}/below", b"x", {}, 409)
    worker.client.ask("MKCOL", f"{path}/below", None, {}, 409)


def vanish_reading(worker):
    """Reads a part of a file and vanishes."""
    large = [it for it in worker.tree.files() if len(worker.tree[it].data) > 100_000]
    if large:
        path = worker.chance.choice(large)
        worker.client.read_some(path, worker.chance.randint(0, 90_000))

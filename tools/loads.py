"""The loads of tools/instructions as frames: what each needs beforehand, and the requests that it makes.

server/load/xnetbench has the same loads for x/net/webdav. A function that makes requests yields a step for each.
"""
import itertools
import pathlib
import typing

import davd
import frames
from davd import Sent, Wrong
from frames import Element
from random_requests import dav
from tool import Progress

# The time of every batch. As a host does, the tool chooses the first part of entity tags, which makes them longer.
NOW = 1_500_000_000
ARGUMENTS = ["-tags", "1"]
# The count of each load when tools/replay serves it.
SMALL = 12
KIB, MIB = 1 << 10, 1 << 20
# A collection whose files have paths of six segments.
DEEP = "/a/b/c/d/e/"
LOCK = dav("lockinfo", dav("lockscope", dav("exclusive")), dav("locktype", dav("write")))
FIVE = ("resourcetype", "getcontentlength", "getlastmodified", "getetag", "displayname")


class Step(typing.NamedTuple):
    """A request, the status that its response must have, and how many requests it counts as."""

    request: frames.Request
    status: int
    counted: int = 1


Steps = typing.Iterator[Step]


class Load(typing.NamedTuple):
    """What a load of so many rounds needs beforehand, and its requests."""

    prepare: typing.Callable[[int], Steps]
    serve: typing.Callable[[int], Steps]


# ---- requests


def step(method: str, path: str, status: int, fields=(), body: frames.Body = None, counted=1, token="urn:none") -> Step:
    pairs = tuple((name.encode(), value.encode()) for name, value in fields)
    return Step(frames.Request(method.encode(), path, None, token, pairs, body), status, counted)


def make_collection(path: str) -> Step:
    return step("MKCOL", path, 201)


def put(path: str, status: int = 201, fields=()) -> Step:
    """A PUT of 1 KiB."""
    return step("PUT", path, status, (*fields, ("content-length", "1024")), b"x" * KIB)


def put_locked(path: str, token: str) -> Step:
    return put(path, 204, (("if", f"(<{token}>)"),))


def patch(path: str, first: int, content: bytes) -> Step:
    """A PATCH of the bytes from an offset on."""
    fields = (
        ("content-type", "application/x-sabredav-partialupdate"),
        ("content-length", str(len(content))),
        ("x-update-range", f"bytes={first}-{first + len(content) - 1}"),
    )
    return step("PATCH", path, 204, fields, content)


def lock(path: str, token: str, status: int = 200) -> Step:
    return step("LOCK", path, status, body=LOCK, token=token)


def unlock(path: str, token: str) -> Step:
    return step("UNLOCK", path, 204, (("lock-token", f"<{token}>"),))


def delete(path: str, count: int) -> Step:
    """A DELETE of a tree of so many resources."""
    return step("DELETE", path, 204, counted=count)


def transfer(method: str, path: str, destination: str, count: int) -> Step:
    """A COPY or MOVE of a tree of so many resources, to a path where nothing is."""
    return step(method, path, 201, (("destination", destination),), counted=count)


def find(path: str, body: Element | None, depth: str = "0", fields=(), counted=1) -> Step:
    return step("PROPFIND", path, 207, (("depth", depth), *fields), body, counted)


def live(*names: str) -> Element:
    """The body of a PROPFIND of these properties."""
    return dav("propfind", dav("prop", *map(dav, names)))


def color(*nodes) -> Element:
    """The dead property of the loads."""
    return dav("prop", Element("color", "Z", "urn:z", (), nodes))


def patch_property(number: int) -> Step:
    """A PROPPATCH that sets the dead property of /f0."""
    body = dav("propertyupdate", dav("set", color(f"value {number}")))
    return step("PROPPATCH", "/f0", 207, body=body)


# ---- what is prepared


def nothing(_: int) -> Steps:
    yield from ()


def put_files(directory: str, count: int) -> Steps:
    """Makes the files f0, f1 and so on, in a collection that it makes with those above it."""
    names = [name for name in directory.split("/") if name]
    for end in range(1, len(names) + 1):
        yield make_collection("/" + "/".join(names[:end]) + "/")
    for number in range(count):
        yield put(f"{directory}f{number}")


def put_one(_: int) -> Steps:
    yield put("/f0")


def put_among_locks(_: int) -> Steps:
    """Makes the file /f0, and 10,000 others that are locked."""
    yield put("/f0")
    for number in range(10_000):
        yield lock(f"/other{number}", f"urn:other:{number}", 201)


def put_zeros(length: int) -> Steps:
    """Makes the file /f of so many zeros. Only the last is sent: in how many pieces davd reads a batch that does not fit into a
    pipe depends on the clock."""
    yield step("PUT", "/f", 201, (("content-length", "0"),), b"")
    yield patch("/f", length - 1, b"\0")


def make_tree(count: int) -> Steps:
    """Makes a tree of so many resources with the root /src. The first ones, level by level, are collections of ten members
    each, of which the last may have fewer. The others are files."""
    members = count - 1
    paths = ["/src"]
    for member in range(members):
        paths.append(f"{paths[member // 10]}/r{member % 10}")
    collections = max(1, -(-members // 10))
    yield from map(make_collection, paths[:collections])
    yield from map(put, paths[collections:])


def put_with_property(_: int) -> Steps:
    yield put("/f0")
    yield patch_property(0)


def put_by_tens(count: int) -> Steps:
    """Makes the files with the numbers below the count at their paths, and the collections above them."""
    for number in range(count):
        path = path_by_tens(number)
        parts = path.split("/")
        for level, size in enumerate((1000, 100, 10), 2):
            if number % size == 0:
                yield make_collection("/".join(parts[:level]) + "/")
        yield put(path)


def path_by_tens(number: int) -> str:
    """The path of a file. A collection has ten files, and is one of ten in a collection, which is one of ten in one of the
    root."""
    return f"/d{number // 1000}/d{number // 100 % 10}/d{number // 10 % 10}/f{number % 10}"


# ---- what is served


def make_and_put(count: int) -> Steps:
    for number in range(count):
        yield make_collection(f"/d{number}/")
        yield put(f"/d{number}/f")


def lock_all(count: int) -> Steps:
    for number in range(count):
        yield lock(f"/f{number}", f"urn:lock:{number}")
    for number in range(count):
        yield put_locked(f"/f{number}", f"urn:lock:{number}")
        yield unlock(f"/f{number}", f"urn:lock:{number}")


def put_over(directory: str, count: int) -> Steps:
    for number in range(count):
        yield put(f"{directory}f{number % 10}", 204)


def lock_again(count: int) -> Steps:
    for number in range(count):
        yield lock("/f0", f"urn:lock:{number}")
        yield unlock("/f0", f"urn:lock:{number}")


def cycle(count: int) -> Steps:
    for number in range(count):
        yield lock("/f0", f"urn:lock:{number}")
        yield put_locked("/f0", f"urn:lock:{number}")
        yield unlock("/f0", f"urn:lock:{number}")


def patch_about(length: int, count: int) -> Steps:
    """PATCHes of 64 bytes at scattered offsets in a file of this length."""
    for number in range(count):
        yield patch("/f", number * 0x9E37_79B9_7F4A_7C15 % 2**64 % (length - 63), b"y" * 64)


def copy_and_delete(count: int) -> Steps:
    for _ in range(3):
        yield transfer("COPY", "/src/", "/dst", count)
        yield delete("/dst/", count)


def move_and_return(count: int) -> Steps:
    for _ in range(2):
        yield transfer("MOVE", "/src/", "/dst", count)
        yield transfer("MOVE", "/dst/", "/src", count)


def nest(count: int) -> Steps:
    """Makes so many collections, each inside the one before, copies the outermost one, and deletes both."""
    for depth in range(1, count + 1):
        yield make_collection("/inner" * depth)
    yield transfer("COPY", "/inner/", "/copy", count)
    yield delete("/inner/", count)
    yield delete("/copy/", count)


def find_lengths(count: int) -> Steps:
    """PROPFINDs of random files, the same in each run."""
    chosen = 1
    for _ in range(count):
        chosen = (chosen * 6_364_136_223_846_793_005 + 1_442_695_040_888_963_407) % 2**64
        yield find(path_by_tens((chosen >> 32) % count), live("getcontentlength"))


LOADS = {
    "mkput": Load(nothing, make_and_put),
    "locks": Load(lambda count: put_files("/", count), lock_all),
    "put10": Load(lambda _: put_files("/", 10), lambda count: put_over("/", count)),
    "deep10": Load(lambda _: put_files(DEEP, 10), lambda count: put_over(DEEP, count)),
    "lock1": Load(put_one, lock_again),
    "cycle1": Load(put_one, cycle),
    "cycle10000": Load(put_among_locks, cycle),
    "patch1": Load(lambda _: put_zeros(KIB), lambda count: patch_about(KIB, count)),
    "patch": Load(lambda _: put_zeros(MIB), lambda count: patch_about(MIB, count)),
    "delete": Load(make_tree, lambda count: iter([delete("/src/", count)])),
    "findprop": Load(
        lambda count: put_files("/d/", count),
        lambda count: itertools.repeat(find("/d/", live(*FIVE), "1", counted=count), 4),
    ),
    "findall": Load(
        lambda count: put_files("/d/", count),
        lambda count: itertools.repeat(find("/d/", None, "1", counted=count), 4),
    ),
    # Without the header field X-Litmus the response would be a 501.
    "finddeep": Load(
        make_tree,
        lambda count: itertools.repeat(find("/src/", live(*FIVE), "infinity", (("x-litmus", "props"),), count), 4),
    ),
    "copytree": Load(make_tree, copy_and_delete),
    "movetree": Load(make_tree, move_and_return),
    "proppatch": Load(put_one, lambda count: map(patch_property, range(count))),
    "propget": Load(put_with_property, lambda count: itertools.repeat(find("/f0", dav("propfind", color())), count)),
    "nested": Load(nothing, nest),
    "metadata": Load(put_by_tens, find_lengths),
}


# ---- batches


def batches_of(steps: Steps, size: int, first: int) -> typing.Iterator[tuple[list[Step], Sent]]:
    """Puts so many steps into each batch, and numbers the batches."""
    for number in itertools.count(first):
        chunk = list(itertools.islice(steps, size))
        if not chunk:
            return
        yield chunk, Sent(number, NOW, tuple(frames.encode_frame(it.request) for it in chunk))


def judge(steps: list[Step], sent: Sent, got: frames.ReplyBatch):
    """Raises `Wrong` at a response that does not have the status of its step."""
    for it, reply in zip(steps, davd.replies_of(got, sent.number, len(steps))):
        status = getattr(reply, "status", None)
        if not isinstance(reply, frames.Response) or status != it.status:
            answer = status or type(reply).__name__
            raise Wrong(f"{it.request.method.decode()} {it.request.path}: {answer}, not {it.status}")


def try_load(program: pathlib.Path, load: Load):
    """Serves a load of a small count, in batches of a few frames."""
    batches = list(batches_of(itertools.chain(load.prepare(SMALL), load.serve(SMALL)), 7, 1))
    ended = davd.run(program, ARGUMENTS, b"".join(sent.encode() for _, sent in batches))
    for (steps, sent), got in zip(batches, davd.answers(ended, len(batches))):
        judge(steps, sent, got)


def try_loads(program: pathlib.Path, progress: Progress) -> tuple[int, int]:
    """Serves each load. Returns how many passed, and how many failed."""
    failed = 0
    for name, load in LOADS.items():
        progress.show(f"load {name}")
        try:
            try_load(program, load)
        except Wrong as wrong:
            failed += 1
            progress.print(f"load {name}: {wrong}")
    return len(LOADS) - failed, failed

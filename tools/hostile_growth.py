"""Loads of any size, and how their time grows with it: tools/hostile --growth."""
import collections
import typing

from hostile_runs import *


class Load(typing.NamedTuple):
    """Work of any size: the size that is tried first, and the script of a size. It is measured in sizes up to eight
    times the greatest from which on it is measured."""

    name: str
    first: int
    script_of: typing.Callable[[int], bytes]
    greatest: int = 1 << 22


def members(count):
    return [make("/d/"), *[put(f"/d/{it}") for it in range(count)]]


def members_and(method, *lines):
    """A directory with members, and a request for it."""
    return lambda count: script(*members(count), block(f"{method} /d/", *lines))


def file_locks(count):
    """Locks of the members of a directory, with the tokens `urn:lock:2` and so on."""
    return [make("/d/"), *requests("LOCK", [f"/d/{it}" for it in range(count)], *lock_tree())]


def file_locks_and(request, *lines):
    """The same, and a request for each, with its number in the place of `{0}` and that of its lock for `{1}`."""
    others = lambda it: block(*[line.format(it, it + 2) for line in (request, *lines)])
    return lambda count: script(*file_locks(count), *[others(it) for it in range(count)])


def all_tokens(count):
    return "If: (" + "".join(f"<urn:lock:{it + 2}>" for it in range(count)) + ")"


def with_if(value_of):
    """A PUT onto a file with a header If."""
    return lambda count: script(put("/f"), put("/f", "y", "If: " + value_of(count)))


def properties(count, level, namespace="{n}"):
    return [f"{'  ' * level}p{it} {namespace}" for it in range(count)]


def patch_names(count, namespace="{n}"):
    return block("PROPPATCH /", *update_tree(*properties(count, 3, namespace)))


def find_names(count):
    return block("PROPFIND /", "Depth: 0", *find_tree(*properties(count, 2)))


def find_all_and_names(count):
    """A PROPFIND of all properties that also names so many."""
    asked = tree("D:propfind {DAV:}", "  D:allprop {DAV:}", "  D:include {DAV:}", *properties(count, 2))
    return block("PROPFIND /", "Depth: 0", *asked)


def patch_one(*lines):
    """A PROPPATCH of one property with these lines in it."""
    return block("PROPPATCH /", *update_tree("      p", *lines))


def chain(count):
    """Directories, each in the one before it."""
    return [make(path_of(it)) for it in range(1, count + 1)]


def chain_and(*blocks):
    return lambda count: script(*chain(count), *blocks)


def doubled(count):
    """Directories nested so deep, of which each request but some adds as many as there are."""
    depth, blocks = 10, chain(10)
    while depth < count:
        more = min(depth, count - depth)
        blocks.append(block(f"COPY {path_of(depth - more + 1)}", f"Destination: {path_of(depth + 1)}"))
        depth += more
    return script(*blocks, block("DELETE /a"))


def refusals(count):
    return [f"=refuse remove_file /d/{it} Forbidden" for it in range(count)]


def request_loads():
    yield Load("PUTs of one file", 2000, lambda n: script(*[put("/a")] * n))
    yield Load("PUTs of new files", 2000, lambda n: script(*members(n)))
    yield Load("PROPFIND of members", 2000, members_and("PROPFIND", "Depth: 1"))
    yield Load("COPY of members", 2000, members_and("COPY", "Destination: /e/"))
    yield Load("MOVE of members", 2000, members_and("MOVE", "Destination: /e/"))
    yield Load("DELETE of members", 2000, members_and("DELETE"))
    appended = partial("append", "x" * 20)
    yield Load("appended bodies", 500, lambda n: script(put("/f"), *[appended] * n, block("DELETE /f")))
    yield Load("a body", 20_000, lambda n: put("/a", "t" * n))
    yield Load("a path of segments", 5000, lambda n: make(path_of(n)))
    used = lambda n: script(*members(n), block("DELETE /d/", *refusals(n)))
    yield Load("refusals that are used", 1000, used)
    turned = lambda n: script(*members(n), block("DELETE /d/", *refusals(n)[::-1]))
    yield Load("refusals that are used, the last first", 1000, turned)
    unused = lambda n: script(block("MKCOL /d/", *refusals(n)), *[put("/a")] * n)
    yield Load("refusals that aren't used, and as many requests", 500, unused)
    listed = lambda n: script(block("MKCOL /d/", *refusals(n)), *requests("PROPFIND", ["/d/"] * n, "Depth: 1"))
    yield Load("refusals that aren't used, and as many listings", 500, listed)


def lock_loads():
    yield Load("LOCKs of new paths", 1000, lambda n: script(*file_locks(n)))
    unlocks = file_locks_and("UNLOCK /d/{0}", "Lock-Token: <urn:lock:{1}>")
    yield Load("UNLOCKs, the oldest first", 1000, unlocks)
    yield Load("PUTs of locked files", 1000, file_locks_and("PUT /d/{0}", "If: (<urn:lock:{1}>)", "=bytes x"))
    deleted = lambda n: script(*file_locks(n), block("DELETE /d/", all_tokens(n)))
    yield Load("DELETE of locked files by all their tokens", 500, deleted)
    shared = lambda n: script(put("/f"), *requests("LOCK", ["/f"] * n, *lock_tree("shared")))
    yield Load("shared LOCKs of one path", 500, shared)
    held = lambda n: [put("/f"), *requests("LOCK", ["/f"] * n, *lock_tree("shared"))]
    writes = lambda n: script(*held(n), *[put("/f", "x", f"If: (<urn:lock:{n + 1}>)")] * n)
    yield Load("PUTs of a file with as many shared locks", 500, writes)
    freed = lambda n: [block("UNLOCK /f", f"Lock-Token: <urn:lock:{it + 2}>") for it in range(n)]
    yield Load("UNLOCKs of one path, the oldest first", 500, lambda n: script(*held(n), *freed(n)))
    shallow = lambda n: [make("/d/"), *requests("LOCK", ["/d/"] * n, "Depth: 0", *lock_tree("shared"))]
    yield Load("PUTs below as many shared locks of Depth 0", 500, lambda n: script(*shallow(n), *[put("/d/f")] * n))
    asked = block("PROPFIND /d/", "Depth: 1", *find_tree("    D:lockdiscovery {DAV:}"))
    listed = lambda n: script(*members(n), *shallow(n)[1:], asked)
    yield Load("lockdiscovery below as many shared locks of Depth 0", 250, listed)
    above = lambda n: requests("LOCK", ["/d/"] * n, *lock_tree("shared"))
    inside = lambda n: requests("LOCK", [f"/d/{it}" for it in range(n)], *lock_tree("shared"))
    yield Load("shared LOCKs above as many", 500, lambda n: script(make("/d/"), *inside(n), *above(n)))
    last = block("LOCK /d/z", *lock_tree())
    refused = lambda n: script(make("/d/"), *inside(n), last, *above(n))
    yield Load("shared LOCKs above as many, refused for the last", 500, refused)
    name = lambda n: "/" + "a" * n
    beside = lambda n: [make(name(n)), block(f"LOCK {name(n)}/x", *lock_tree()), put(name(n) + "/b" * n)]
    yield Load("a path as long as a name that has a lock below it", 2000, lambda n: script(*beside(n)))
    below = lambda n: script(*chain(n), block(f"LOCK {path_of(n)}", *lock_tree()), block("OPTIONS *"))
    removed = lambda n: block("DELETE /a", f"If: (<urn:lock:{n + 1}>)")
    yield Load("a LOCK below as many directories", 50, lambda n: script(below(n), removed(n)))
    yield Load("a LOCK of a path that isn't there", 200, lambda n: block(f"LOCK {path_of(n)}", *lock_tree()))


def condition_loads():
    never = "(<DAV:no-lock>)"
    yield Load("lists of an If", 2000, with_if(lambda n: never * n))
    yield Load("lists of an If behind a tag as long", 100, with_if(lambda n: f"</{'a' * len(never) * n}>" + never * n))
    yield Load("tagged lists of an If", 2000, with_if(lambda n: f"</g>{never}" * n))
    yield Load("conditions of an If", 2000, with_if(lambda n: "(" + "Not <DAV:no-lock>" * n + ")"))
    yield Load("entity tags of an If", 2000, with_if(lambda n: '(["a"])' * n))
    far = lambda n: script(block("LOCK /f", *lock_tree()), put(path_of(n), "y", "If: (" + "<a>" * n + ")"))
    yield Load("conditions of an If at a path as long", 500, far)
    tags = lambda n: script(put("/f"), put("/f", "x", "If-Match: " + '"a",' * n))
    yield Load("entity tags of an If-Match", 2000, tags)
    fields = lambda n: script(put("/f"), put("/f", "x", *['If-Match: "a"'] * n))
    yield Load("fields of If-Match", 2000, fields)
    headers = lambda n: script(*[block("MKCOL /d", *[f"x{it}: 1" for it in range(n)])] * 20)
    yield Load("header lines of as many names", 500, headers, NAMES // 8)


def property_loads():
    yield Load("elements side by side", 2000, lambda n: patch_one(*["        x"] * n))
    keys = lambda n: patch_one("        x" + "".join(f' k{it}="1"' for it in range(n)))
    yield Load("attributes of an element", 2000, keys)
    yield Load("a text", 20_000, lambda n: patch_one('        "' + "t" * n + '"'))
    yield Load("properties of a PROPPATCH", 1000, patch_names)
    yield Load("refused properties of a PROPPATCH", 1000, lambda n: patch_names(n, "{DAV:}"))
    single = lambda n: script(*[block("PROPPATCH /", *update_tree(f"      p{it}")) for it in range(n)])
    yield Load("PROPPATCHes of one resource, each of a property", 200, single)
    asked = block("PROPFIND /", "Depth: 0", *tree("D:propfind {DAV:}", "  D:propname {DAV:}"))
    valued = lambda n: script(patch_one(*["        x"] * n), *[asked] * n)
    yield Load("PROPFINDs of names beside as long a value", 250, valued)
    yield Load("names of a PROPFIND", 500, find_names)
    yield Load("names of a PROPFIND that are there", 500, lambda n: script(patch_names(n), find_names(n)))
    long = lambda n: block("PROPFIND /d/", "Depth: 1", *find_tree("    x {n}", *["      y"] * n))
    yield Load("PROPFIND of members by a name with as many elements", 250, lambda n: script(*members(n), long(n)))
    every = lambda n: script(patch_names(n), block("PROPFIND /", "Depth: 0"))
    yield Load("PROPFIND of all properties", 1000, every)
    beside = lambda n: script(patch_names(n), find_all_and_names(n))
    yield Load("PROPFIND of all properties and as many names", 500, beside)


def nesting_loads():
    delete = lambda *keys: script(*requests("DELETE", keys))
    litmus = ("X-Litmus: 1", "Depth: infinity", *find_tree("    D:resourcetype {DAV:}"))
    listed, copied = block("PROPFIND /a", *litmus), block("COPY /a", "Destination: /b")
    yield Load("nested directories that are left", 25, chain_and())
    yield Load("nested directories that are deleted", 50, chain_and(delete("/a")))
    yield Load("nested directories that copies make", 50, doubled)
    yield Load("nested directories that are listed", 50, chain_and(listed, delete("/a")))
    yield Load("nested directories that are copied", 50, chain_and(copied, delete("/a", "/b")))
    yield Load("nested directories that are moved", 50, chain_and(block("MOVE /a", "Destination: /b"), delete("/b")))


LOADS = [request_loads, lock_loads, condition_loads, property_loads, nesting_loads]
# The least time that is measured, and how much longer than in the least size a byte may take in the greatest.
ENOUGH = 0.1
GROWTH = 2.5
GROWTH_SECONDS = 120

Measured = collections.namedtuple("Measured", "size seconds bytes memory wrong")


def measure(load, size):
    """What a run of this size takes, how many bytes it takes and prints, and what is wrong with how it ended."""
    text = load.script_of(size)
    ran = run(text, seconds=GROWTH_SECONDS)
    wrong = ill_ended(ran, GROWTH_SECONDS) or (f"status {ran.status} and {shown(ran.said)}" if ran.status else None)
    return Measured(size, ran.seconds, len(text) + len(ran.wrote), ran.memory, wrong)


def growth(rows, idle):
    """How much longer a byte takes in the greatest size than in the least, without what an empty script takes."""
    a_byte = lambda row: max(row.seconds - idle, 0.001) / row.bytes
    return a_byte(rows[-1]) / a_byte(rows[0])


def try_load(load):
    """Measures a load in four sizes, and returns what it took and what is wrong with that."""
    idle, size = run(b"").seconds, load.first
    while size < load.greatest and measure(load, size).seconds - idle < ENOUGH:
        size = min(2 * size, load.greatest)
    rows = [measure(load, size * by) for by in (1, 2, 4, 8)]
    took = "; ".join(f"{it.size}: {it.seconds:.2f} s, {it.memory >> 20} MiB" for it in rows)
    wrong = next((it.wrong for it in rows if it.wrong), None)
    if wrong:
        return took, wrong
    grown = growth(rows, idle)
    wrong = f"a byte takes {grown:.1f} times as long in the greatest size" if grown > GROWTH else None
    return f"{took}; {grown:.2f}", wrong


def try_loads(words):
    """Measures each load whose name has one of the words, and yields its name and what is wrong."""
    for load in (it for group in LOADS for it in group()):
        if not words or any(it in load.name for it in words):
            took, wrong = try_load(load)
            print(f"  {load.name}: {took}", flush=True)
            yield load.name, wrong

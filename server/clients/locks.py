"""The timeouts of locks, which the host limits, and what a lock protects."""
import time

import multistatus
from connection import Wrong
from harness import Group, Skipped
from multistatus import D
from server import Server, expect

MOST = 300
GROUP = Group("locks", "-max-lock", "5m")
SHORT = Group("short locks", "-max-lock", "2s")
GROUPS = [GROUP, SHORT]

TIMEOUTS = [
    ("no Timeout", None, MOST),
    ("Infinite", "Infinite", MOST),
    ("infinite in lower case", "infinite", MOST),
    ("Infinite and then a number", "Infinite, Second-4100000000", MOST),
    ("a number beyond the greatest", "Second-4100000000", MOST),
    ("a number beyond 64 bits", "Second-99999999999999999999999", MOST),
    ("a number within it", "Second-60", 60),
    ("several numbers", "Second-60, Second-120", 120),
    ("what is no timeout", "soon", MOST),
    ("an empty one", "", MOST),
    ("a negative one", "Second--5", MOST),
]


def capped(server: Server, timeout: str | None, most: int, scope: str, is_refresh: bool):
    """The response and a PROPFIND show a timeout of at most so many seconds."""
    path = server.folder() + "a"
    server.ask("PUT", path, b"x", status=201)
    asked = {} if timeout is None else {"Timeout": timeout}
    first = {"Timeout": "Second-30"} if is_refresh else asked
    answer = server.ask("LOCK", path, multistatus.lockinfo(scope=scope), first, 200)
    token = multistatus.token_of(answer)
    if is_refresh:
        answer = server.ask("LOCK", path, None, {"If": f"({token})", **asked}, 200)
    shown = multistatus.lock_seconds(answer)
    if not 0 < shown <= most:
        raise Wrong(f"expected a timeout from 1 to {most} s, got {shown}")
    found = multistatus.only(server.ask("PROPFIND", path, multistatus.propfind(D + "lockdiscovery"), {"Depth": "0"}))
    status, element = found.properties[D + "lockdiscovery"]
    text = element.findtext(f"{D}activelock/{D}timeout") or ""
    if not text.startswith("Second-") or not 0 < int(text.removeprefix("Second-")) <= most:
        raise Wrong(f"expected a timeout of at most {most} s in lockdiscovery, got {text!r}")


for name, timeout, most in TIMEOUTS:
    GROUP.add(f"a lock with {name}", capped, timeout, most, "exclusive", False)
    GROUP.add(f"a refresh with {name}", capped, timeout, most, "exclusive", True)
GROUP.add("a shared lock with Infinite", capped, "Infinite", MOST, "shared", False)
GROUP.add("a refresh of a shared lock with Infinite", capped, "Infinite", MOST, "shared", True)


@SHORT.check("a lock ends by itself")
def ends(server):
    path = server.folder() + "a"
    server.ask("PUT", path, b"x", status=201)
    token = multistatus.token_of(server.ask("LOCK", path, multistatus.lockinfo(), {"Timeout": "Infinite"}, 200))
    server.ask("PUT", path, b"y", status=423)
    time.sleep(3.2)
    server.ask("PUT", path, b"y", status=204)
    server.ask("UNLOCK", path, None, {"Lock-Token": token}, (400, 409))


@SHORT.check("a lock that is refreshed goes on")
def refreshed(server):
    path = server.folder() + "a"
    server.ask("PUT", path, b"x", status=201)
    token = multistatus.token_of(server.ask("LOCK", path, multistatus.lockinfo(), status=200))
    last = time.monotonic()
    for _ in range(4):
        time.sleep(0.7)
        if time.monotonic() - last > 1:
            raise Skipped("this machine was too busy for a refresh in time")
        server.ask("LOCK", path, None, {"If": f"({token})"}, 200)
        last = time.monotonic()
    server.ask("PUT", path, b"y", status=423)


@GROUP.check("lock tokens are random URIs, and never the same")
def tokens(server):
    path = server.folder()
    found = set()
    for number in range(200):
        found.add(multistatus.token_of(server.ask("LOCK", f"{path}{number}", multistatus.lockinfo(), status=201)))
    expect("the number of tokens", len(found), 200)
    if min(map(len, found)) < 30:
        raise Wrong(f"expected long tokens, got {min(found)}")
    # RFC 4918, section 6.5: in 32 hexadecimal digits at random, any two tokens differ at most places.
    one, other = sorted(found)[:2]
    if sum(a == b for a, b in zip(one, other)) > 30:
        raise Wrong(f"expected tokens that cannot be guessed, got {one} and {other}")


@GROUP.check("a lock of Depth infinity protects what is below, and a member can join")
def deep(server):
    path = server.folder()
    server.ask("PUT", f"{path}a", b"x", status=201)
    token = multistatus.token_of(server.ask("LOCK", path, multistatus.lockinfo(), {"Depth": "infinity"}, 200))
    submitted = {"If": f"<{server.url(path)}> ({token})"}
    server.ask("PUT", f"{path}a", b"y", status=423)
    server.ask("PUT", f"{path}new", b"y", status=423)
    server.ask("MKCOL", f"{path}new", status=423)
    server.ask("LOCK", f"{path}a", multistatus.lockinfo(), status=423)
    server.ask("DELETE", f"{path}a", status=423)
    server.ask("PUT", f"{path}new", b"y", submitted, 201)
    server.ask("PROPPATCH", f"{path}a", b'<propertyupdate xmlns="DAV:"/>', status=(400, 423))
    server.ask("UNLOCK", path, None, {"Lock-Token": token}, 204)
    server.ask("PUT", f"{path}a", b"y", status=204)


@GROUP.check("conditions of If with entity tags, Not and several lists")
def conditions(server):
    path = server.folder() + "a"
    tag = server.ask("PUT", path, b"x", status=201).field("ETag")
    token = multistatus.token_of(server.ask("LOCK", path, multistatus.lockinfo(), status=200))
    cases = [
        (f"({token} [{tag}])", 204),
        (f'({token} ["other"])', 412),
        (f'(["other"]) ({token})', 204),
        (f"(Not <DAV:no-lock> {token})", 204),
        ("(Not <DAV:no-lock>)", 423),
        ("(<DAV:no-lock>)", 412),
        ("(<urn:uuid:00000000-0000-4000-8000-000000000000>)", 412),
    ]
    for text, status in cases:
        current = server.ask("HEAD", path).field("ETag")
        server.ask("PUT", path, b"y", {"If": text.replace(tag, current)}, status)


@GROUP.check("LOCK bodies that are no lockinfo are 400")
def bodies(server):
    path = server.folder() + "a"
    server.ask("PUT", path, b"x", status=201)
    for body in (b"<a/>", b"x", b'<lockinfo xmlns="DAV:"/>', b'<lockinfo xmlns="urn:other"/>'):
        server.ask("LOCK", path, body, status=400)
    server.ask("PUT", path, b"y", status=204)


@GROUP.check("the owner comes back as it was sent")
def owner(server):
    path = server.folder() + "a"
    server.ask("PUT", path, b"x", status=201)
    text = 'Anna &amp; <x:who xmlns:x="urn:x" x:id="&lt;1&gt;">\u00e9<x:b/> tail</x:who> \U0001f600'
    answer = server.ask("LOCK", path, multistatus.lockinfo(text), status=200)
    element = multistatus.root(answer, D + "prop").find(f"{D}lockdiscovery/{D}activelock/{D}owner")
    expect("the text of the owner", "".join(element.itertext()), "Anna & \u00e9 tail \U0001f600")
    who = element.find("{urn:x}who")
    expect("the element of the owner", who is not None and who.attrib, {"{urn:x}id": "<1>"})

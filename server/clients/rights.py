"""Access rules: what two users, a group and requests without a user may do, by clients and by raw requests."""
import re
import signal
import threading
import time
import urllib.parse

import accounts
import browser
import curl
import multistatus
from accounts import AS_ANNA, AS_BERT, BERT
from connection import Answer, Wrong
from harness import Group, Starter
from multistatus import D
from programs import SERVER, TOP
from restart import kill
from server import PROCESSES, Server, expect, free_port

HOLD_SECONDS = 10
RULES = """
[groups]
team = ["anna", "bert"]

[[rule]]
user = "anna"
at_and_below = "/"
allow = ["list", "read", "write"]

[[rule]]
user = "bert"
at_and_below = "/shared"
allow = ["list", "read"]

[[rule]]
user = "bert"
at_and_below = "/drop"
allow = ["write"]

[[rule]]
everyone = true
at_and_below = "/home/{user}"
allow = ["list", "read", "write"]

[[rule]]
group = "team"
at_and_below = "/team"
allow = ["list", "read", "write"]

[[rule]]
user = "bert"
at_and_below = "/team/kept"
allow = ["list", "read"]

[[rule]]
user = "bert"
at_and_below = "/team/d/sealed"
allow = ["list"]

[[rule]]
user = "bert"
at_and_below = "/hiding"
allow = ["list", "read", "write"]

[[rule]]
user = "bert"
at_and_below = "/hiding/m"
allow = []

[[rule]]
user = "bert"
at_and_below = "/hiding/n"
allow = []
"""
FILES = {**accounts.FILES, "rules.toml": RULES}
FLAGS = *accounts.FLAGS, "-rights", "{rules}"
PROPERTY = b'<propertyupdate xmlns="DAV:"><set><prop><v xmlns="urn:v">1</v></prop></set></propertyupdate>'
NAMES = multistatus.propfind(D + "resourcetype")

GROUP = Group("rights", *FLAGS, "-max-infinity", "1000", files=FILES)
CURL = Group("rights with curl", *FLAGS, files=FILES, needs="curl")
CADAVER = Group("rights with cadaver", *FLAGS, files=FILES, needs="cadaver")
RCLONE = Group("rights with rclone", *FLAGS, files=FILES, needs="rclone")
CHANGED = Group("rights that change", files=FILES, is_shared=False)
CHECK = Group("rights check", files=FILES, is_shared=False)
GROUPS = [GROUP, CURL, CADAVER, RCLONE, CHANGED, CHECK]


def fill(server: Server, *tops: str):
    """Has anna make these trees new. Each file contains its own path."""
    for path in ("/home", "/home/anna", "/home/bert", *tops):
        if path in tops:
            server.ask("DELETE", path, None, AS_ANNA, (204, 404))
        server.ask("MKCOL", path, None, AS_ANNA, (201, 405))
        for member in TREES.get(path, ()) if path in tops else ():
            if member.endswith("/"):
                server.ask("MKCOL", path + member, None, AS_ANNA, 201)
            else:
                server.ask("PUT", path + member, (path + member).encode(), AS_ANNA, 201)


TREES = {
    "/shared": ["/a", "/d/", "/d/b"],
    "/drop": ["/old"],
    "/home/anna": ["/own"],
    "/team": ["/a", "/d/", "/d/b", "/d/sealed/", "/d/sealed/c", "/e/", "/e/f", "/kept/", "/kept/g"],
    "/hiding": ["/a", "/m/", "/m/b", "/z"],
}


def below(server: Server, path: str, fields: dict = AS_ANNA) -> list[str]:
    """All paths at and below a path, as a user sees them."""
    answer = server.ask("PROPFIND", path, NAMES, {**fields, "Depth": "infinity"}, (207, 404))
    return sorted(multistatus.resources(answer)) if answer.status == 207 else []


def refused(answer: Answer) -> dict[str, int | None]:
    """What a 207 could not do."""
    return {path.rstrip("/"): resource.status for path, resource in multistatus.resources(answer).items()}


# ---- a share, a home and a drop box

REFUSED = [
    ("PUT", "/shared/a", b"x", {}),
    ("PUT", "/shared/new", b"x", {}),
    ("PUT", "/shared/long", b"x" * 600_000, {}),
    ("MKCOL", "/shared/new", None, {}),
    ("DELETE", "/shared/a", None, {}),
    ("PROPPATCH", "/shared/a", PROPERTY, {}),
    ("LOCK", "/shared/a", multistatus.lockinfo(), {}),
    ("LOCK", "/shared/new", multistatus.lockinfo(), {}),
    ("MOVE", "/shared/a", None, {"Destination": "/home/bert/new"}),
    ("COPY", "/shared/a", None, {"Destination": "/shared/new"}),
    ("COPY", "/shared/a", None, {"Destination": "/home/anna/new"}),
    ("GET", "/home/anna/own", None, {}),
    ("HEAD", "/home/anna/own", None, {}),
    ("PROPFIND", "/home/anna", NAMES, {"Depth": "1"}),
    ("PUT", "/home/new", b"x", {}),
    ("MKCOL", "/home/carl", None, {}),
    ("PUT", "/new", b"x", {}),
    ("GET", "/none", None, {}),
    ("DELETE", "/home/bert/../anna/own", None, {}),
    ("PUT", "/%73hared/a", b"x", {}),
    ("GET", "/drop/old", None, {}),
    ("PROPFIND", "/drop", NAMES, {"Depth": "0"}),
    ("DELETE", "/drop/old", None, {}),
    ("MOVE", "/drop/old", None, {"Destination": "/home/bert/new"}),
    ("COPY", "/drop/old", None, {"Destination": "/home/bert/new"}),
]


def refuses(server: Server, method: str, path: str, body: bytes | None, fields: dict):
    """A request of bert is 403, and changes nothing."""
    tops = "/shared", "/home/anna", "/home/bert", "/drop"
    fill(server, *tops)
    before = [below(server, it) for it in tops]
    # A 409 says that the place above the destination is none that the user can see.
    statuses = (403, 409) if fields.get("Destination", "").startswith("/home/anna") else 403
    server.ask(method, path, body, {**AS_BERT, **fields}, statuses)
    expect("what is there", [below(server, it) for it in tops], before)
    for file in ("/shared/a", "/drop/old", "/home/anna/own"):
        expect(file, server.ask("GET", file, None, AS_ANNA, 200).body, file.encode())


for method, path, body, fields in REFUSED:
    size = " of 600 KB" if body and len(body) > 100_000 else ""
    to = f" to {fields['Destination']}" if "Destination" in fields else ""
    GROUP.add(f"{method}{size} {path}{to} is 403", refuses, method, path, body, fields)


@GROUP.check("a share is read, and copied home")
def share(server):
    fill(server, "/shared", "/home/bert")
    expect("the file", server.ask("GET", "/shared/a", None, AS_BERT, 200).body, b"/shared/a")
    server.ask("COPY", "/shared", None, {**AS_BERT, "Destination": "/home/bert/copy"}, 201)
    server.ask("PUT", "/home/bert/copy/a", b"changed", AS_BERT, 204)
    wanted = ["", "copy/", "copy/a", "copy/d/", "copy/d/b"]
    expect("what is home", below(server, "/home/bert"), [f"/home/bert/{it}" for it in wanted])


@GROUP.check("a drop box takes files, and shows none")
def drop_box(server):
    fill(server, "/drop", "/home/bert")
    for path in ("/drop/new", "/drop/new", "/drop/old"):
        answer = server.ask("PUT", path, b"of bert", AS_BERT, 201)
        expect("the entity tag", answer.field("ETag"), None)
    server.ask("PUT", "/drop/long", b"x" * 600_000, AS_BERT, 201)
    server.ask("MKCOL", "/drop/c", None, AS_BERT, 201)
    server.ask("MKCOL", "/drop/c", None, AS_BERT, 405)  # That something exists may show.
    server.ask("GET", "/drop/", None, AS_BERT, 403)
    server.ask("GET", "/drop/new", None, AS_BERT, 403)
    for path, body in (("/drop/new", b"of bert"), ("/drop/old", b"of bert"), ("/drop/long", b"x" * 600_000)):
        expect(path, server.ask("GET", path, None, AS_ANNA, 200).body, body)


@GROUP.check("what was dropped is not fetched by a MOVE or COPY, of it or of what is above it")
def not_fetched(server):
    fill(server, "/drop", "/home/bert")
    server.ask("PUT", "/drop/new", b"of bert", AS_BERT, 201)
    for method in ("MOVE", "COPY"):
        for source in ("/drop/new", "/drop/old", "/drop", "/"):
            server.ask(method, source, None, {**AS_BERT, "Destination": "/home/bert/new"}, 403)
            found = [it for it in below(server, "/home/bert") if "drop" in it or "old" in it]
            expect(f"what came home by {method} {source}", found, [])
            server.ask("DELETE", "/home/bert/new", None, AS_BERT, (204, 404))
    expect("what is dropped", below(server, "/drop"), ["/drop/", "/drop/new", "/drop/old"])


@GROUP.check("a moved tree is judged by its new path")
def moved(server):
    fill(server, "/team", "/home/bert")
    server.ask("PUT", "/team/kept/g", b"x", AS_BERT, 403)
    server.ask("MOVE", "/team/kept", None, {**AS_ANNA, "Destination": "/home/bert/kept"}, 201)
    server.ask("PUT", "/home/bert/kept/g", b"x", AS_BERT, 204)
    server.ask("MOVE", "/home/bert/kept", None, {**AS_ANNA, "Destination": "/team/kept"}, 201)
    server.ask("PUT", "/team/kept/g", b"x", AS_BERT, 403)


# ---- listings


def listed(server: Server, path: str, fields: dict) -> list[str]:
    """The members that a PROPFIND of Depth 1 shows, which are those of the page for browsers, too."""
    answer = server.ask("PROPFIND", path, NAMES, {**fields, "Depth": "1"}, 207)
    found = sorted(it for it in multistatus.resources(answer) if it != path)
    page = browser.Page(server.ask("GET", path, None, fields, 200).body.decode())
    links = sorted(urllib.parse.urljoin(path, it) for it in page.members())
    expect(f"the page of {path}", links, found)
    return found


@GROUP.check("listings hide what one may not list, and lead to what one may")
def listings(server):
    fill(server, "/shared", "/drop", "/team", "/hiding")
    server.ask("MKCOL", "/other", None, AS_ANNA, (201, 405))
    expect("/ for bert", listed(server, "/", AS_BERT), ["/hiding/", "/home/", "/shared/", "/team/"])
    expect("/home/ for bert", listed(server, "/home/", AS_BERT), ["/home/bert/"])
    expect("/hiding/ for bert", listed(server, "/hiding/", AS_BERT), ["/hiding/a", "/hiding/z"])
    expect("/hiding/ for anna", listed(server, "/hiding/", AS_ANNA), ["/hiding/a", "/hiding/m/", "/hiding/z"])
    expect("/drop/ for anna", listed(server, "/drop/", AS_ANNA), ["/drop/old"])
    expect("all below /hiding for bert", below(server, "/hiding", AS_BERT), ["/hiding/", "/hiding/a", "/hiding/z"])


@GROUP.check("what one may list and not read has its size, and neither bytes nor dead properties")
def sealed(server):
    fill(server, "/team")
    server.ask("PROPPATCH", "/team/d/sealed/c", PROPERTY, AS_ANNA, 207)
    asked = multistatus.propfind(D + "getcontentlength", "{urn:v}v")
    answer = server.ask("PROPFIND", "/team/d/sealed/c", asked, {**AS_BERT, "Depth": "0"})
    found = multistatus.only(answer)
    expect("the size", found.text(D + "getcontentlength"), str(len("/team/d/sealed/c")))
    expect("the status of the property", found.status_of("{urn:v}v"), 403)
    server.ask("GET", "/team/d/sealed/c", None, AS_BERT, 403)
    server.ask("GET", "/team/d/sealed/c", None, {**AS_BERT, "Range": "bytes=0-1"}, 403)
    server.ask("HEAD", "/team/d/sealed/c", None, AS_BERT, 403)


@GROUP.check("a PROPFIND of Depth infinity stays limited for who may only list")
def finite(server):
    fill(server, "/team")
    for number in range(3):
        server.ask("MKCOL", f"/team/d/sealed/{number}", None, AS_ANNA, 201)
    expect("all below", len(below(server, "/team/d/sealed", AS_BERT)), 5)


# ---- requests that are done in part


@GROUP.check("a DELETE through a tree removes what it may, and names the rest")
def deleted(server):
    fill(server, "/team")
    answer = server.ask("DELETE", "/team", None, AS_BERT, 207)
    expect("what is refused", refused(answer), {"/team/d/sealed/c": 403, "/team/kept/g": 403})
    left = ["", "d/", "d/sealed/", "d/sealed/c", "kept/", "kept/g"]
    expect("what is left", below(server, "/team"), [f"/team/{it}" for it in left])


@GROUP.check("a COPY through a tree copies what it may, and names the rest")
def copied(server):
    fill(server, "/team", "/home/bert")
    answer = server.ask("COPY", "/team", None, {**AS_BERT, "Destination": "/home/bert/copy"}, 207)
    expect("what is refused", refused(answer), {"/team/d/sealed/c": 403})
    wanted = ["", "a", "d/", "d/b", "d/sealed/", "e/", "e/f", "kept/", "kept/g"]
    expect("what is copied", below(server, "/home/bert/copy"), [f"/home/bert/copy/{it}" for it in wanted])


@GROUP.check("a COPY onto a tree leaves what may not be removed, and copies nothing")
def copied_onto(server):
    fill(server, "/team", "/home/bert")
    server.ask("PUT", "/home/bert/new", b"x", AS_BERT, 201)
    answer = server.ask("COPY", "/home/bert", None, {**AS_BERT, "Destination": "/team"}, 207)
    expect("what is refused", refused(answer), {"/team/d/sealed/c": 403, "/team/kept/g": 403})
    expect("whether it is copied", "/team/new" in below(server, "/team"), False)


@GROUP.check("a DELETE of a collection with a hidden member leaves both")
def deleted_hiding(server):
    fill(server, "/hiding")
    server.ask("DELETE", "/hiding", None, AS_BERT, 403)  # Only the collection itself is named.
    expect("what is left", below(server, "/hiding"), ["/hiding/", "/hiding/m/", "/hiding/m/b"])


@GROUP.check("a DELETE of a collection with two hidden members names it once")
def deleted_hiding_two(server):
    fill(server, "/hiding")
    server.ask("MKCOL", "/hiding/n", None, AS_ANNA, 201)
    answer = server.ask("DELETE", "/hiding", None, AS_BERT, (403, 207))
    if answer.status == 207:
        expect("what is refused", refused(answer), {"/hiding": 403})  # RFC 4918, section 14.24
    expect("what is left", below(server, "/hiding"), [f"/hiding/{it}" for it in ("", "m/", "m/b", "n/")])


@GROUP.check("a COPY of a collection with a hidden member has no such member")
def copied_hiding(server):
    fill(server, "/hiding", "/home/bert")
    server.ask("COPY", "/hiding", None, {**AS_BERT, "Destination": "/home/bert/copy"}, 403)
    found = set(below(server, "/home/bert/copy"))
    expect("what is copied", found <= {f"/home/bert/copy/{it}" for it in ("", "a", "z")}, True)


@GROUP.check("a MOVE of a tree with a forbidden part is 403, and moves nothing")
def not_moved(server):
    fill(server, "/team", "/hiding", "/home/bert")
    for top in ("/team", "/team/d", "/hiding"):
        before = below(server, top)
        server.ask("MOVE", top, None, {**AS_BERT, "Destination": "/home/bert/new"}, 403)
        expect("what is there", below(server, top), before)
    server.ask("MOVE", "/team/e", None, {**AS_BERT, "Destination": "/home/bert/e"}, 201)
    expect("what is home", below(server, "/home/bert"), ["/home/bert/", "/home/bert/e/", "/home/bert/e/f"])


@GROUP.check("a LOCK needs write at all that it covers")
def locks(server):
    fill(server, "/team", "/hiding")
    for path in ("/team", "/team/d", "/team/kept/g", "/hiding", "/hiding/m/b"):
        server.ask("LOCK", path, multistatus.lockinfo(), AS_BERT, 403)
    for path, depth in (("/team", "0"), ("/team/e", "infinity"), ("/hiding/a", "0")):
        answer = server.ask("LOCK", path, multistatus.lockinfo(), {**AS_BERT, "Depth": depth}, 200)
        server.ask("UNLOCK", path, None, {**AS_BERT, "Lock-Token": multistatus.token_of(answer)}, 204)


# ---- clients


def curls(server: Server, words: list[str], path: str, status: int, body: bytes | None = None):
    """One request of curl as bert."""
    fill(server, "/shared", "/drop", "/home/bert", "/home/anna")
    got = curl.curl(server, "-u", ":".join(BERT), *words, server.url(path), source=b"of bert")
    expect(f"the status of curl {' '.join(words)}", got.status, status)
    if body is not None:
        expect("the body", got.body, body)


for name, words, path, status, content in [
    ("GET of a share", [], "/shared/a", 200, b"/shared/a"),
    ("PUT to a share is 403", ["-T", "-"], "/shared/a", 403, None),
    ("DELETE of a share is 403", ["-X", "DELETE"], "/shared/a", 403, None),
    ("PUT home", ["-T", "-"], "/home/bert/new", 201, None),
    ("GET of another home is 403", [], "/home/anna/own", 403, None),
    ("PUT to a drop box", ["-T", "-"], "/drop/old", 201, b""),
    ("GET of a drop box is 403", [], "/drop/old", 403, None),
    ("MOVE out of a drop box is 403", ["-X", "MOVE", "-H", "Destination: /home/bert/old"], "/drop/old", 403, None),
]:
    CURL.add(name, curls, words, path, status, content)

SESSION = [
    ("ls", "shared"),
    ("cat shared/a", "/shared/a"),
    ("put {folder}/sent.txt shared/new", "failed"),
    ("delete shared/a", "failed"),
    ("mkcol shared/new", "failed"),
    ("lock shared/a", "failed"),
    ("put {folder}/sent.txt home/bert/new", "succeeded."),
    ("lock home/bert/new", "succeeded."),
    ("unlock home/bert/new", "succeeded."),
    ("put {folder}/sent.txt drop/new", "succeeded."),
    ("cat drop/new", "403"),
    ("move drop/new home/bert/fetched", "failed"),
    ("copy shared/a home/bert/copy", "succeeded."),
    ("ls home/anna", "403"),
    ("rmcol team", "failed"),
]


@CADAVER.check("a session of bert")
def session(server):
    fill(server, "/shared", "/drop", "/home/bert", "/home/anna", "/team")
    folder = server.files
    (folder / "sent.txt").write_text("what cadaver sends")
    name, password = BERT
    (folder / ".netrc").write_text(f'machine 127.0.0.1\nlogin {name}\npassword "{password}"\n')
    lines = [text.format(folder=folder) for text, _ in SESSION] + ["quit"]
    (folder / "script").write_text("\n".join(lines) + "\n")
    words = ["env", f"HOME={folder}", "LC_ALL=C.UTF-8", "sh", "-c", f"exec cadaver {server.url('/')} < script"]
    ran = PROCESSES.run(words, 30, cwd=folder)
    printed = ran.stdout.split("dav:/> ")[1:]  # cadaver repeats each command after its prompt.
    if ran.returncode != 0 or len(printed) < len(SESSION):
        raise Wrong(f"expected the output of {len(SESSION)} commands, got status {ran.returncode}:\n{ran.stdout}")
    for (text, wanted), got in zip(SESSION, printed):
        if wanted not in got:
            raise Wrong(f"expected {wanted!r} from {text!r}, got:\n{got}")
    expect("/team", "/team/kept/g" in below_one(server, "/team/kept"), True)


def below_one(server: Server, path: str) -> list[str]:
    answer = server.ask("PROPFIND", path, NAMES, {**AS_ANNA, "Depth": "1"}, 207)
    return sorted(multistatus.resources(answer))


def rclone(server: Server, *words, status: int = 0) -> str:
    """Runs rclone as bert."""
    name, password = BERT
    if words[0] != "obscure" and "password" not in server.notes:
        server.notes["password"] = rclone(server, "obscure", password).strip()
    settings = {"CONFIG": "/dev/null", "RETRIES": "1", "LOW_LEVEL_RETRIES": "1", "WEBDAV_VENDOR": "other",
                "WEBDAV_URL": server.url("/"), "WEBDAV_USER": name, "WEBDAV_PASS": server.notes.get("password", "")}
    ran = PROCESSES.run(["env", *(f"RCLONE_{key}={value}" for key, value in settings.items()), "rclone", *words], 40)
    if ran.returncode != status:
        text = " ".join(map(str, words))
        raise Wrong(f"rclone {text}\n  expected status {status}, got {ran.returncode}:\n{ran.stdout}")
    return ran.stdout


@RCLONE.check("a listing of all has what bert may list")
def listed_by_rclone(server):
    fill(server, "/shared", "/drop", "/home/bert", "/home/anna", "/hiding")
    printed = rclone(server, "lsf", "-R", ":webdav:").splitlines()
    wanted = "hiding/ hiding/a hiding/z home/ home/bert/ shared/ shared/a shared/d/ shared/d/b"
    expect("the listing", sorted(printed), wanted.split())


@RCLONE.check("a folder is copied home, and not to a share")
def copied_by_rclone(server):
    fill(server, "/shared", "/home/bert")
    source = server.files / "source"
    source.mkdir()
    for name in ("one", "two words"):
        (source / name).write_text(name)
    rclone(server, "copy", source, ":webdav:home/bert/copy")
    rclone(server, "check", "--download", source, ":webdav:home/bert/copy")
    printed = rclone(server, "copy", source, ":webdav:shared", status=1)
    if "403" not in printed:
        raise Wrong(f"expected 403, got:\n{printed}")
    expect("/shared", below_one(server, "/shared"), ["/shared/", "/shared/a", "/shared/d/"])
    rclone(server, "sync", ":webdav:shared", ":webdav:home/bert/share")
    rclone(server, "purge", ":webdav:home/bert/share")


# ---- rules that change, and a davd that is killed


def start(starter: Starter, *flags, **options) -> Server:
    server = starter.start("-users", "{users}", "-rights", "{rules}", *flags, **options)
    fill(server, "/shared", "/home/bert")
    return server


def hold(server: Server, starter: Starter, text: str | None, wanted: str) -> str:
    """Replaces the file of the rules or removes it, sends SIGHUP, and waits until the log says what is wanted."""
    begin = server.log_length()
    if text is None:
        (starter.folder / "rules.toml").unlink()
    else:
        starter.write("rules.toml", text)
    server.process.send_signal(signal.SIGHUP)
    end = time.monotonic() + HOLD_SECONDS
    while wanted not in server.log(begin):
        if time.monotonic() > end:
            raise Wrong(f"expected {wanted!r} in the log within {HOLD_SECONDS} s, got\n{server.log(begin)}")
        time.sleep(0.01)
    return server.log(begin)


WRITABLE = RULES.replace('"/shared"\nallow = ["list", "read"]', '"/shared"\nallow = ["list", "read", "write"]')


@CHANGED.check("SIGHUP has good rules hold, and leaves the old ones for others")
def reloaded(starter: Starter):
    server = start(starter)
    server.ask("PUT", "/shared/new", b"x", AS_BERT, 403)
    hold(server, starter, WRITABLE, "rules.toml hold from now on")
    server.ask("PUT", "/shared/new", b"x", AS_BERT, 201)
    for text, why in (
        (RULES.replace("allow = []", 'allow = ["eat"]', 1), "rules.toml: rule 9: allow is a list of"),
        (RULES + "[[rule]\n", "rules.toml: TOML parse error at line"),
        (RULES.replace('"team"', '"others"'), "rules.toml: rule 5: no list of names in groups"),
        (None, "rules.toml: no such file"),
    ):
        line = hold(server, starter, text, "the access rules stay as they were")
        if why not in line:
            raise Wrong(f"expected {why!r} in the log, got\n{line}")
        server.ask("PUT", "/shared/new", b"x", AS_BERT, 204)
    hold(server, starter, RULES, "rules.toml hold from now on")
    server.ask("PUT", "/shared/new", b"x", AS_BERT, 403)
    hold(server, starter, "", "rules.toml hold from now on")  # It allows nothing.
    for path in ("/", "/shared/a", "/home/bert/"):
        server.ask("GET", path, None, AS_BERT, 403)
        server.ask("GET", path, None, AS_ANNA, 403)
    server.stop()


def survive(starter: Starter, *flags):
    """The last good rules hold for the next davd."""
    server = start(starter, *flags)
    for text, status in ((RULES, 403), (WRITABLE, 201), (RULES, 403)):
        hold(server, starter, text, "hold from now on")
        kill(server)
        server.await_health()
        fill(server, "/shared")
        server.ask("PUT", "/shared/new", b"x", AS_BERT, status)
        server.ask("GET", "/home/anna/", None, AS_BERT, 403)
    hold(server, starter, "broken", "stay as they were")
    kill(server)
    server.await_health()
    fill(server, "/shared")
    server.ask("PUT", "/shared/new", b"x", AS_BERT, 403)
    server.stop()


CHANGED.add("rules survive a kill of davd, in memory", survive)
CHANGED.add("rules survive a kill of davd, over a folder", survive, "-folder", "{folder}/kept")


def guarded(starter: Starter, *flags):
    """While davd is killed again and again and rules are read again, nothing is served without rules."""
    server = start(starter, *flags)
    stopped, seen = threading.Event(), set()

    def look():
        while not stopped.is_set():
            seen.add(server.ask("GET", "/home/anna/none", None, AS_BERT).status)  # It would be 404 without rules.

    threads = [threading.Thread(target=look) for _ in range(3)]
    for it in threads:
        it.start()
    try:
        for _ in range(4):
            server.process.send_signal(signal.SIGHUP)
            kill(server)
            server.process.send_signal(signal.SIGHUP)
            server.await_health()
            time.sleep(0.1)
    finally:
        stopped.set()
        for it in threads:
            it.join()
    expect("the statuses", seen - {503}, {403})
    server.stop()


CHANGED.add("nothing is served without rules while davd is killed, in memory", guarded)
CHANGED.add("nothing is served without rules while davd is killed, over a folder", guarded, "-folder", "{folder}/kept")


@CHANGED.check("who has lost the right to write removes and refreshes its lock, and makes none")
def owner(starter: Starter):
    starter.write("rules.toml", WRITABLE)
    server = start(starter)
    token = multistatus.token_of(server.ask("LOCK", "/shared/a", multistatus.lockinfo(), AS_BERT, 200))
    hold(server, starter, RULES, "hold from now on")
    server.ask("PUT", "/shared/a", b"x", {**AS_BERT, "If": f"({token})"}, 403)
    server.ask("LOCK", "/shared/a", None, {**AS_BERT, "If": f"({token})"}, 200)
    server.ask("UNLOCK", "/shared/a", None, {**AS_BERT, "Lock-Token": token}, 204)
    server.ask("LOCK", "/shared/a", multistatus.lockinfo(), AS_BERT, 403)
    server.stop()


@CHANGED.check("requests without a user get what everyone may")
def nobody(starter: Starter):
    starter.write("rules.toml", '[[rule]]\neveryone = true\nat_and_below = "/"\nallow = ["list", "read"]\n')
    server = starter.start("-rights", "{rules}")
    server.ask("GET", "/", status=200)
    server.ask("PROPFIND", "/", NAMES, {"Depth": "1"}, 207)
    server.ask("PUT", "/a", b"x", status=403)
    server.ask("MKCOL", "/a", status=403)
    server.stop()


@CHANGED.check("the rules are for the path without the prefix")
def prefixed(starter: Starter):
    rule = '[[rule]]\neveryone = true\nat_and_below = "/a%20b"\nallow = ["list", "read", "write"]\n'
    starter.write("rules.toml", rule)
    server = starter.start("-rights", "{rules}", "-prefix", "/dav/files")
    server.ask("MKCOL", "/dav/files/a%20b", status=201)
    server.ask("PUT", "/dav/files/a%20b/c", b"x", status=201)
    server.ask("PUT", "/dav/files/c", b"x", status=403)
    server.stop()


@CHANGED.check("a server with wrong rules does not start, and says why")
def not_started(starter: Starter):
    for text, why in (
        (RULES.replace("allow = []", 'allow = ["eat"]', 1), "rules.toml: rule 9: allow is a list of"),
        ("x = 1", "rules.toml: there is a table of groups and a list of rules"),
        ("=", "rules.toml: TOML parse error at line 1"),
    ):
        starter.write("rules.toml", text)
        for flags in ([], ["-folder", str(starter.folder / "kept")]):
            ran = PROCESSES.run([starter.programs.davserve, "-listen", f"127.0.0.1:{free_port()}", "-davd",
                                 starter.programs.davd, "-rights", starter.folder / "rules.toml", *flags], 15)
            expect(f"the exit status\n{ran.stdout}", ran.returncode, 1)
            if not re.search(rf"davserve: \S*{why}", ran.stdout):
                raise Wrong(f"expected {why!r}, got:\n{ran.stdout}")


@CHANGED.check("SIGHUP ends a server without rules, as ever")
def hangup(starter: Starter):
    server = starter.start()
    server.process.send_signal(signal.SIGHUP)
    expect("the exit status", server.ended(), -signal.SIGHUP)


@CHANGED.check("the unit reloads a service with rules, and no other")
def unit(starter: Starter):
    server = start(starter)
    text = (SERVER / "install/davserve.service").read_text()
    command = re.search(r"^ExecReload=/bin/sh -c '(.*)'$", text, re.M)[1].replace("$$", "$")
    tries = (("-rights /r", 0), ("-users u -rights=/r", 0), ("-listen :1", 1), ("-folder /my-rights", 1))
    for options, status in tries:
        begin = server.log_length()
        words = ["env", f"DAVSERVE_OPTIONS={options}", f"MAINPID={server.process.pid}", "/bin/sh", "-c", command]
        expect(f"the status with {options}", PROCESSES.run(words, 10).returncode, status)
        end = time.monotonic() + HOLD_SECONDS
        while status == 0 and "hold from now on" not in server.log(begin):
            if time.monotonic() > end:
                raise Wrong(f"expected that the rules are read again with {options}, got {server.log(begin)}")
            time.sleep(0.01)
    server.ask("PUT", "/shared/new", b"x", AS_BERT, 403)
    server.stop()


# ---- what a command says of rules


def says(starter: Starter, words: list[str], status: int, wanted: str):
    """`davserve rights check` with these words, after the name of the file."""
    command = [starter.programs.davserve, "rights", "check", "-davd", starter.programs.davd]
    ran = PROCESSES.run([*command, starter.folder / "rules.toml", *words], 15)
    expect(f"the exit status\n{ran.stdout}", ran.returncode, status)
    if wanted not in ran.stdout:
        raise Wrong(f"expected {wanted!r} from rights check {' '.join(words)}, got:\n{ran.stdout}")


for words, wanted in [
    (["anna", "/new"], "rule 1 decides: anna may list, read and write /new\n"),
    (["bert", "/shared/a"], "rule 2 decides: bert may list and read /shared/a\n"),
    (["bert", "/drop"], "rule 3 decides: bert may write /drop\n"),
    (["bert", "/home/bert/a%20b"], "rule 4 decides: bert may list, read and write /home/bert/a%20b\n"),
    (["bert", "/home/anna"], "no rule decides: bert may do nothing at /home/anna\n"),
    (["bert", "/hiding/m/b"], "rule 9 decides: bert may do nothing at /hiding/m/b\n"),
    (["bert", "/"], "no rule decides: bert may list /, because a rule allows something below it\n"),
    (["-", "/shared"], "no rule decides: a request without a user may do nothing at /shared\n"),
    (["a/b", "/home/a"], "no rule decides: a/b may do nothing at /home/a\n"),
]:
    CHECK.add(" ".join(words), says, words, 0, wanted)
for words, wanted in [
    (["bert"], "needs a FILE, a USER and a PATH"),
    (["", "/"], "the USER is empty"),
    (["bert", "shared"], "does not begin with a slash"),
    (["bert", "/#shared"], "has a ? or #"),
    (["bert", "/%zz"], "none that a URL can have"),
]:
    CHECK.add(f"{' '.join(words)} is a wrong command line", says, words, 2, wanted)


@CHECK.check("the rules in the documents are rules")
def documented(starter: Starter):
    for name, count in (("SERVER", 4), ("FRAMES", 1)):
        found = re.findall(r"^```toml\n(.*?)^```", (TOP / f"docs/{name}.md").read_text(), re.M | re.S)
        expect(f"the number of texts in {name}.md", len(found), count)
        for text in found:
            starter.write("rules.toml", text)
            says(starter, ["ada", "/"], 0, "ada may")
    starter.write("rules.toml", found_team())
    says(starter, ["carl", "/projects/a"], 0, "rule 2 decides: carl may list /projects/a\n")


def found_team() -> str:
    """The rules in SERVER.md for a team."""
    section = (TOP / "docs/SERVER.md").read_text().partition("### A team with")[2]
    return section.partition("```toml\n")[2].partition("```")[0]


@CHECK.check("a file without rules is refused, with the reason")
def refused_file(starter: Starter):
    starter.write("rules.toml", RULES.replace("allow = []", "allow = [1]", 1))
    says(starter, ["bert", "/"], 1, "rules.toml: rule 9: allow is a list of")
    starter.write("rules.toml", RULES.replace('"/hiding/m"', '"/#hidden"'))
    says(starter, ["bert", "/"], 1, "rules.toml: rule 9: a rule has one of at and at_and_below, a path: ")
    (starter.folder / "rules.toml").unlink()
    says(starter, ["bert", "/"], 1, "no such file")

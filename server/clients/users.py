"""Users: passwords, a file that is edited, locks of two users, and what refuses to start."""
import base64
import re
import threading
import time

import accounts
import multistatus
from accounts import ANNA, AS_ANNA, AS_BERT, BERT
from connection import Wrong, head
from harness import Group, Starter
from server import PROCESSES, Server, expect, expected, free_port

EDIT_SECONDS = 15
REALM = 'My "files" & more'
GROUP = Group("users", *accounts.FLAGS, "-realm", REALM, files=accounts.FILES)
EDITED = Group("users in an edited file", files=accounts.FILES, is_shared=False)
STARTS = Group("start", files=accounts.FILES, is_shared=False)
GROUPS = [GROUP, EDITED, STARTS]

# ---- passwords


def refused(server: Server, fields: dict, method="GET", path="/", body=None):
    """401 has a challenge (RFC 7235, section 3.1; RFC 7617, section 2)."""
    answer = server.ask(method, path, body, fields, 401)
    found = re.match(r'Basic realm="((?:[^"\\]|\\.)*)"', answer.field("WWW-Authenticate") or "")
    if not found:
        raise Wrong(f"expected a Basic challenge with a realm, got {answer}")
    expect("the realm", re.sub(r"\\(.)", r"\1", found[1]), REALM)


def raw(text: str) -> dict:
    return {"Authorization": text}


def coded(text: bytes) -> dict:
    return raw("Basic " + base64.b64encode(text).decode())


REFUSED = [
    ("no user", {}),
    ("a wrong password", accounts.basic(ANNA[0], "open sesame!")),
    ("an empty password", accounts.basic(ANNA[0], "")),
    ("the password of another", accounts.basic(ANNA[0], BERT[1])),
    ("an unknown user", accounts.basic("carl", ANNA[1])),
    ("an empty name", accounts.basic("", ANNA[1])),
    ("a name in other case", accounts.basic("Anna", ANNA[1])),
    ("another scheme", raw("Bearer abcdef")),
    ("no base64", raw("Basic !!!")),
    ("no colon", coded(b"anna")),
    ("the hash as the password", coded(accounts.ANNA_LINE.strip().encode())),
    ("a password of 10 KB", accounts.basic(ANNA[0], "x" * 10_000)),
    ("a NUL after the password", coded(b"anna:open sesame\0")),
    ("Latin-1 for UTF-8", coded("bert:pass:w\u00f6rt".encode("latin-1"))),
]
GROUP.add("the right password", lambda server: server.ask("GET", "/", None, AS_ANNA, 200))
GROUP.add("a password with a colon, in UTF-8", lambda server: server.ask("GET", "/", None, AS_BERT, 200))
for name, fields in REFUSED:
    GROUP.add(f"{name} is 401", refused, fields)
for method in ("OPTIONS", "PROPFIND", "PUT", "DELETE", "LOCK", "MKCOL", "COPY", "PROPPATCH", "PATCH", "HEAD"):
    GROUP.add(f"{method} without a user is 401", refused, {}, method, "/new", None)
GROUP.add("the scheme in lower case",
          lambda server: server.ask("GET", "/", None, raw(AS_ANNA["Authorization"].replace("Basic", "basic")), 200))
GROUP.add("/-/health without a user", lambda server: server.ask("GET", "/-/health", status=200))


@GROUP.check("PUT with Expect and without a user is 401 without 100")
def no_continue(server):
    fields = [("Expect", "100-continue"), ("Content-Length", "1000000")]
    with server.connect() as connection:
        connection.send(head("PUT", "/new", server.port, None, fields))
        answer = expected(connection.answer("PUT"), 401, "PUT /new", fields)
    expect("the interim responses", answer.interim, [])


@GROUP.check("many wrong passwords do not delay the right one")
def no_delay(server):
    threads = [threading.Thread(target=guess, args=(server,)) for _ in range(16)]
    for it in threads:
        it.start()
    slowest = 0.0
    while any(it.is_alive() for it in threads):
        began = time.monotonic()
        server.ask("GET", "/", None, AS_ANNA, 200)
        slowest = max(slowest, time.monotonic() - began)
        time.sleep(0.02)
    if slowest > 3:
        raise Wrong(f"expected the right password within 3 s, got {slowest:.1f} s")


def guess(server):
    try:
        server.ask("GET", "/", None, accounts.basic("anna", f"{threading.get_ident()}"), seconds=30)
    except (OSError, Wrong):
        pass


@GROUP.check("the log has no password")
def no_password(server):
    log = server.log()
    for secret in (ANNA[1], BERT[1], AS_ANNA["Authorization"][6:], AS_BERT["Authorization"][6:]):
        if secret in log:
            raise Wrong(f"expected no password in the log, got {secret!r}")


@GROUP.check("the log has a line for each request, with its user")
def one_line(server):
    start = server.log_length()
    server.ask("GET", "/what-anna-asks?x=%0A1", None, AS_ANNA, 404)
    time.sleep(0.1)
    lines = [it for it in server.log(start).splitlines() if "what-anna-asks" in it]
    if len(lines) != 1 or "404" not in lines[0] or "GET" not in lines[0] or "anna" not in lines[0]:
        raise Wrong(f"expected a line with GET, the path, 404 and anna, got {server.log(start)!r}")


@GROUP.check("a name with a line end makes no line of the log")
def no_injection(server):
    start = server.log_length()
    for name in ("x\nFORGED", "x\r\nFORGED", "x\u2028FORGED", "\x1b[2JFORGED"):
        server.ask("GET", "/", None, accounts.basic(name, "x"), 401, seconds=20)
    time.sleep(0.1)
    log = server.log(start)
    if "\x1b" in log or any(it.startswith("FORGED") for it in log.splitlines()):
        raise Wrong(f"expected escaped names, got {log!r}")


# ---- locks of two users


@GROUP.check("a lock belongs to its user")
def locks(server):
    path = server.folder(AS_ANNA) + "a"
    server.ask("PUT", path, b"1", AS_ANNA, 201)
    token = multistatus.token_of(server.ask("LOCK", path, multistatus.lockinfo(), AS_ANNA, 200))
    submitted = {"If": f"({token})"}
    server.ask("PUT", path, b"2", AS_BERT, 423)
    server.ask("PUT", path, b"2", {**AS_BERT, **submitted}, 423)
    server.ask("UNLOCK", path, None, {**AS_BERT, "Lock-Token": token}, 403)
    server.ask("LOCK", path, None, {**AS_BERT, **submitted, "Timeout": "Second-60"}, 403)
    server.ask("DELETE", path, None, {**AS_BERT, **submitted}, 423)
    server.ask("MOVE", path, None, {**AS_BERT, **submitted, "Destination": server.url(path + "b")}, 423)
    server.ask("PUT", path, b"2", {**AS_ANNA, **submitted}, 204)
    server.ask("LOCK", path, None, {**AS_ANNA, **submitted, "Timeout": "Second-60"}, 200)
    server.ask("UNLOCK", path, None, {**AS_ANNA, "Lock-Token": token}, 204)
    server.ask("PUT", path, b"3", AS_BERT, 204)


@GROUP.check("two users share a lock, and each removes only its own")
def shared_locks(server):
    path = server.folder(AS_ANNA) + "a"
    server.ask("PUT", path, b"1", AS_ANNA, 201)
    body = multistatus.lockinfo(scope="shared")
    one = multistatus.token_of(server.ask("LOCK", path, body, AS_ANNA, 200))
    other = multistatus.token_of(server.ask("LOCK", path, body, AS_BERT, 200))
    server.ask("LOCK", path, multistatus.lockinfo(), AS_BERT, 423)
    server.ask("UNLOCK", path, None, {**AS_BERT, "Lock-Token": one}, 403)
    server.ask("UNLOCK", path, None, {**AS_BERT, "Lock-Token": other}, 204)
    server.ask("PUT", path, b"2", AS_BERT, 423)
    server.ask("PUT", path, b"2", {**AS_ANNA, "If": f"({one})"}, 204)


# ---- a file that is edited while the server runs


def await_status(server: Server, fields: dict, status: int):
    """Waits until a user is answered with a status."""
    end = time.monotonic() + EDIT_SECONDS
    while (got := server.ask("GET", "/", None, fields, seconds=20).status) != status:
        if time.monotonic() > end:
            raise Wrong(f"expected {status} within {EDIT_SECONDS} s of the edit, got {got}")
        time.sleep(0.2)


@EDITED.check("a new password, a removed user and a new user count without a restart")
def edited(starter: Starter):
    server = starter.start(*accounts.FLAGS)
    server.ask("GET", "/", None, AS_ANNA, 200)
    server.ask("GET", "/", None, AS_BERT, 200)
    starter.write("users.txt", accounts.ANNA_CHANGED_LINE)
    await_status(server, AS_ANNA, 401)
    server.ask("GET", "/", None, accounts.basic("anna", accounts.CHANGED), 200)
    server.ask("GET", "/", None, AS_BERT, 401)
    starter.write("users.txt", accounts.ANNA_LINE + accounts.BERT_LINE)
    await_status(server, AS_BERT, 200)
    server.ask("GET", "/", None, AS_ANNA, 200)


@EDITED.check("a file that cannot be read leaves nobody a way in who had none")
def broken(starter: Starter):
    server = starter.start(*accounts.FLAGS)
    starter.write("users.txt", "anna\n\0\0:::\ncarl:open sesame\n")
    time.sleep(3)
    server.ask("GET", "/", None, {}, 401)
    server.ask("GET", "/", None, accounts.basic("carl", "open sesame"), 401)
    starter.write("users.txt", accounts.BERT_LINE)
    await_status(server, AS_ANNA, 401)
    server.ask("GET", "/", None, AS_BERT, 200)


# ---- what refuses to start


def refuses(starter: Starter, flags: list[str], word: str):
    """Ends soon, with a status that is not 0 and a line that has a word."""
    programs = starter.programs
    command = [programs.davserve, "-listen", f"127.0.0.1:{free_port()}", "-davd", programs.davd]
    ran = PROCESSES.run([*command, *starter.filled(flags)], 15)
    if ran.returncode in (None, 0):
        raise Wrong(f"expected that {flags} refuses to start, got status {ran.returncode}:\n{ran.stdout}")
    if word not in ran.stdout:
        raise Wrong(f"expected a message with {word!r}, got:\n{ran.stdout}")


def starts(starter: Starter, flags: list[str]):
    """Starts on all addresses."""
    starter.start(*flags, host="0.0.0.0").stop()


ALL = ["-listen", "0.0.0.0:18199"]
ALL6 = ["-listen", "[::]:18199"]
NO_HOST = ["-listen", ":18199"]
USERS = list(accounts.FLAGS)
REFUSES = [
    ("no users on 0.0.0.0 without -anonymous", ALL, "-anonymous"),
    ("no users on all addresses without -anonymous", NO_HOST, "-anonymous"),
    ("no users on [::] without -anonymous", ALL6, "-anonymous"),
    ("-users on 0.0.0.0 without TLS and -plain-passwords", [*ALL, *USERS], "-plain-passwords"),
    ("-users on all addresses without TLS", [*NO_HOST, *USERS], "-plain-passwords"),
    ("a file of users that does not exist", ["-users", "{folder}/none"], "none"),
    ("-cert without -key", ["-cert", "{folder}/cert"], "-key"),
    ("a certificate that does not exist", ["-cert", "{folder}/cert", "-key", "{folder}/key"], "cert"),
    ("a prefix without a slash", ["-prefix", "dav"], "prefix"),
    ("a size that is no size", ["-max-body", "1X"], "max-body"),
    ("a negative size", ["-quota", "-1"], "quota"),
    ("a size beyond 63 bits", ["-quota", "99999999999T"], "quota"),
    ("a duration that is none", ["-max-lock", "soon"], "max-lock"),
    ("no connections", ["-max-connections", "0"], "max-connections"),
    ("-user-header without -trusted-proxy", ["-user-header", "X-User"], "-trusted-proxy"),
    ("a trusted proxy that is no network", ["-trusted-proxy", "here", "-user-header", "X-User"], "trusted-proxy"),
    ("an unknown flag", ["-no-such-flag"], "no-such-flag"),
    ("an argument", ["file"], "file"),
    ("a davd that does not exist", ["-davd", "{folder}/no-davd"], "no-davd"),
    ("a davd that is another program", ["-davd", "/bin/true"], ""),
    ("a port that is no port", ["-listen", "127.0.0.1:99999"], "99999"),
]
for name, flags, word in REFUSES:
    STARTS.add(f"refused: {name}", refuses, flags, word)
STARTS.add("-users on 0.0.0.0 with -plain-passwords", starts, [*USERS, "-plain-passwords"])
STARTS.add("-users on 0.0.0.0 with TLS", starts, [*USERS, "{tls}"])
STARTS.add("-anonymous on 0.0.0.0", starts, ["-anonymous"])


@STARTS.check("-version prints the version, with status 0")
def version(starter: Starter):
    ran = PROCESSES.run([starter.programs.davserve, "-version"], 10)
    expect("the status", ran.returncode, 0)
    if not re.search(r"\d", ran.stdout):
        raise Wrong(f"expected a version, got {ran.stdout!r}")


@STARTS.check("refused: a port in use")
def port_in_use(starter: Starter):
    server = starter.start()
    refuses(starter, ["-listen", f"127.0.0.1:{server.port}"], str(server.port))
    server.ask("GET", "/", status=200)

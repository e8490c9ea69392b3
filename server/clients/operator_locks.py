"""Locks that somebody left behind: an operator lists them and removes some by `davserve locks`, while the server goes on."""
import calendar
import http.client
import json
import pathlib
import re
import socket
import time

import accounts
import kept
import multistatus
from accounts import AS_ANNA, AS_BERT
from connection import Wrong
from harness import Group, Starter
from server import PROCESSES, Server, expect

GROUP = Group("operator locks", files=accounts.FILES, is_shared=False)
GROUPS = [GROUP]

SECONDS = 20
EXPIRY = re.compile(r"\d{4}-\d\d-\d\d \d\d:\d\d:\d\d UTC, in (\d+m)?\d+s")


def start(starter: Starter, *flags) -> Server:
    """A server over a folder, with users."""
    return kept.start(starter, *accounts.FLAGS, *flags)


def run(starter: Starter, *words, status=0, where=()) -> str:
    """Runs `davserve locks` for the server of the folder `kept`, or for the one that is named, and returns what it prints."""
    command, *rest = words
    named = where or ("-folder", starter.folder / "kept")
    ran = PROCESSES.run([starter.programs.race, "locks", command, *named, *rest], SECONDS)
    expect(f"the exit status of {words}, with {ran.stdout}", ran.returncode, status)
    return ran.stdout


def listed(starter: Starter, where=()) -> list[dict]:
    """The locks as JSON. The table has as many lines."""
    found = json.loads(run(starter, "list", "-json", where=where))
    lines = run(starter, "list", where=where).splitlines()
    if not found:
        expect("the table", lines, ["no locks"])
    else:
        expect("the columns", lines[0].split(), ["PATH", "USER", "KIND", "EXPIRES", "TOKEN"])
        expect("the tokens in the table", [it.split()[-1] for it in lines[1:]], [it["token"] for it in found])
    return found


def lock(server: Server, path: str, fields: dict, scope="exclusive", depth="0") -> str:
    """Locks a resource, and returns the token without its angle brackets."""
    answer = server.ask("LOCK", path, multistatus.lockinfo(scope=scope), {"Depth": depth, **fields}, (200, 201))
    return multistatus.token_of(answer)[1:-1]


def request(path: pathlib.Path, method: str, target: str) -> tuple[int, bytes]:
    """Sends a request to a socket, and returns the status and the body."""
    connection = http.client.HTTPConnection("davserve", timeout=SECONDS)
    connection.sock = socket.socket(socket.AF_UNIX)
    connection.sock.settimeout(SECONDS)
    connection.sock.connect(str(path))
    connection.request(method, target)
    response = connection.getresponse()
    body = response.read()
    connection.close()
    return response.status, body


@GROUP.check("a lock that a user left is listed with its path, user, kind and expiry")
def shown(starter: Starter):
    server = start(starter)
    expect("the locks", listed(starter), [])
    server.ask("PUT", "/a%20b", b"x", AS_ANNA, 201)
    server.ask("MKCOL", "/d", None, AS_ANNA, 201)
    one = lock(server, "/a%20b", AS_ANNA)
    two = lock(server, "/d", AS_BERT, "shared", "infinity")
    three = lock(server, "/d", AS_ANNA, "shared")
    found = listed(starter)
    times = [it.pop("expires") for it in found]
    for text in times:
        left = calendar.timegm(time.strptime(text, "%Y-%m-%dT%H:%M:%SZ")) - time.time()
        if not 500 < left <= 601:  # -max-lock is ten minutes.
            raise Wrong(f"expected a time ten minutes from now, got {text}")
    expect("the paths", [it.pop("path").rstrip("/") for it in found], ["/a%20b", "/d", "/d"])
    expect("the locks", found, [
        {"token": one, "principal": "anna", "deep": False, "shared": False},
        {"token": two, "principal": "bert", "deep": True, "shared": True},
        {"token": three, "principal": "anna", "deep": False, "shared": True},
    ])
    rows = [re.split(r"  +", it) for it in run(starter, "list").splitlines()[1:]]
    expect("the table", [(it[0].rstrip("/"), *it[1:3]) for it in rows], [
        ("/a b", "anna", "exclusive"), ("/d", "bert", "shared, and below"), ("/d", "anna", "shared"),
    ])
    for row in rows:
        if not EXPIRY.fullmatch(row[3]):
            raise Wrong(f"expected a time in the table, got {row}")
    server.stop()


@GROUP.check("when a lock is removed, another user can write, and the list is empty")
def removed(starter: Starter):
    server = start(starter)
    server.ask("PUT", "/a", b"x", AS_ANNA, 201)
    token = lock(server, "/a", AS_ANNA)
    server.ask("PUT", "/a", b"y", AS_BERT, 423)
    server.ask("UNLOCK", "/a", None, {"Lock-Token": f"<{token}>", **AS_BERT}, 403)
    tag = server.ask("HEAD", "/a", None, AS_BERT, 200).field("ETag")
    expect("what is printed", run(starter, "remove", token), f"{token}: removed\n")
    expect("the entity tag", server.ask("HEAD", "/a", None, AS_BERT, 200).field("ETag"), tag)
    expect("the locks", listed(starter), [])
    line = f'the lock "{token}" of "anna" at "/a" is removed\n'
    if line not in server.log():
        raise Wrong(f"expected {line!r} in the log")
    server.ask("PUT", "/a", b"y", AS_BERT, 204)
    server.ask("LOCK", "/a", None, {"If": f"(<{token}>)", **AS_ANNA}, 412)
    server.ask("UNLOCK", "/a", None, {"Lock-Token": f"<{token}>", **AS_ANNA}, 409)
    server.ask("PUT", "/a", b"z", {"If": f"(<{token}>)", **AS_ANNA}, 204)  # A token holds on a path without a lock.
    lock(server, "/a", AS_BERT)
    server.ask("PUT", "/a", b"y", {"If": f"(<{token}>)", **AS_ANNA}, 412)
    expect("the file", server.ask("GET", "/a", None, AS_ANNA, 200).body, b"z")
    server.stop()


@GROUP.check("a token of no lock is exit status 1, and the others are removed")
def unknown(starter: Starter):
    server = start(starter)
    one, two = lock(server, "/a", AS_ANNA), lock(server, "/b", AS_ANNA)
    said = run(starter, "remove", f"<{one}>", "urn:none", two, status=1)
    lines = [f"{one}: removed", "urn:none: no lock has this token", f"{two}: removed"]
    expect("what is printed", said.splitlines(), [*lines, "davserve locks: not every token is that of a lock"])
    expect("the locks", listed(starter), [])
    run(starter, "remove", one, status=1)
    server.stop()


@GROUP.check("a deep lock no longer protects what is below, and of two shared locks the other one stays")
def below(starter: Starter):
    server = start(starter, "-prefix", "/dav")
    server.ask("MKCOL", "/dav/d", None, AS_ANNA, 201)
    server.ask("PUT", "/dav/d/a", b"x", AS_ANNA, 201)
    deep = lock(server, "/dav/d", AS_ANNA, depth="infinity")
    server.ask("PUT", "/dav/d/a", b"y", AS_BERT, 423)
    server.ask("PUT", "/dav/d/new", b"y", AS_BERT, 423)
    expect("the path", [it["path"].rstrip("/") for it in listed(starter)], ["/dav/d"])
    run(starter, "remove", deep)
    server.ask("PUT", "/dav/d/a", b"y", AS_BERT, 204)
    server.ask("PUT", "/dav/d/new", b"y", AS_BERT, 201)
    one, two = (lock(server, "/dav/d/a", it, "shared") for it in (AS_ANNA, AS_BERT))
    run(starter, "remove", one)
    expect("the tokens", [it["token"] for it in listed(starter)], [two])
    server.ask("PUT", "/dav/d/a", b"z", AS_ANNA, 423)
    server.ask("PUT", "/dav/d/a", b"z", {"If": f"(<{two}>)", **AS_BERT}, 204)
    server.stop()


@GROUP.check("locks of the root, of a path that is not ASCII and of one with a control character are removed")
def paths(starter: Starter):
    server = start(starter)
    shown = {"/": "/", "/%C3%A9%25": "/\u00e9%", "/%1B%5B31m": '"/\\x1b[31m"'}
    for path, wanted in shown.items():
        token = lock(server, path, AS_ANNA)
        row = run(starter, "list").splitlines()[1]
        expect("the path in the table", re.split(r"  +", row)[0], wanted)
        run(starter, "remove", token)
    expect("the locks", listed(starter), [])
    server.stop()


@GROUP.check("a lock that was removed stays removed, and the others stay, when davd is killed")
def kills(starter: Starter):
    server = start(starter)
    one, two = lock(server, "/a", AS_ANNA), lock(server, "/b", AS_ANNA)
    run(starter, "remove", one)
    kept.kill(server)
    before = listed(starter)
    expect("the tokens", [it["token"] for it in before], [two])
    server.stop()
    server = start(starter)
    expect("the locks", listed(starter), before)
    server.ask("PUT", "/a", b"x", AS_BERT, 204)
    server.ask("PUT", "/b", b"x", AS_BERT, 423)
    server.stop()


@GROUP.check("locks that expire or that their user removes are not listed")
def ends(starter: Starter):
    server = start(starter, "-max-lock", "2s")
    token = lock(server, "/a", AS_ANNA)
    expect("the tokens", [it["token"] for it in listed(starter)], [token])
    time.sleep(3.2)
    expect("the locks", listed(starter), [])
    run(starter, "remove", token, status=1)
    server.ask("UNLOCK", "/b", None, {"Lock-Token": f"<{lock(server, '/b', AS_BERT)}>", **AS_BERT}, 204)
    expect("the locks", listed(starter), [])
    server.stop()


@GROUP.check("a lock is removed whatever the access rules say, and they hold afterwards")
def with_rules(starter: Starter):
    starter.write("rules.toml", '[[rule]]\nuser = "anna"\nat_and_below = "/"\nallow = ["list", "read", "write"]\n')
    server = start(starter, "-rights", "{folder}/rules.toml")
    token = lock(server, "/a", AS_ANNA)
    server.ask("UNLOCK", "/a", None, {"Lock-Token": f"<{token}>", **AS_BERT}, 403)
    run(starter, "remove", token)
    expect("the locks", listed(starter), [])
    server.ask("PUT", "/a", b"x", AS_BERT, 403)
    server.stop()


@GROUP.check("a server in memory has locks at its -socket, and makes no backup")
def in_memory(starter: Starter):
    server = starter.start("-socket", "{folder}/s")
    where = "-socket", starter.folder / "s"
    token = lock(server, "/a", {})
    found = listed(starter, where)
    expect("the locks", [(it["token"], it["principal"]) for it in found], [(token, None)])
    expect("the user in the table", re.split(r"  +", run(starter, "list", where=where).splitlines()[1])[1], "-")
    run(starter, "remove", token, where=where)
    server.ask("PUT", "/a", b"x", status=204)
    status, said = request(where[1], "POST", "/backup")
    expect("the answer to POST /backup", (status, said), (500, b"without a folder there is no backup\n"))
    expect("the mode of the socket", where[1].stat().st_mode & 0o777, 0o600)
    server.stop()
    expect("whether the socket is there", where[1].exists(), False)


@GROUP.check("the socket answers GET and DELETE of /locks")
def by_http(starter: Starter):
    server = start(starter)
    path = starter.folder / "kept/control"
    expect("no locks", request(path, "GET", "/locks"), (200, b"[]\n"))
    token = lock(server, "/a", AS_ANNA)
    status, body = request(path, "GET", "/locks")
    expect("a lock", (status, [it["token"] for it in json.loads(body)]), (200, [token]))
    expect("another token", request(path, "DELETE", "/locks?token=urn:none")[0], 404)
    expect("no token", request(path, "DELETE", "/locks")[0], 400)
    expect("another method", request(path, "PUT", "/locks")[0], 405)
    expect("the removal", request(path, "DELETE", f"/locks?token={token}"), (204, b""))
    expect("once more", request(path, "DELETE", f"/locks?token={token}")[0], 404)
    expect("no locks", request(path, "GET", "/locks"), (200, b"[]\n"))
    server.stop()


@GROUP.check("without a server it is exit status 1, and a wrong command line is 2")
def nobody(starter: Starter):
    for words in (("list",), ("list", "-json"), ("remove", "urn:none")):
        said = run(starter, *words, status=1)
        if "no server answers at " not in said:
            raise Wrong(f"expected that no server answers, got {said!r}")
    for words in (("show",), ("list", "extra"), ("remove",), ("remove", ""), ("remove", "-json", "urn:none")):
        run(starter, *words, status=2)
    run(starter, "list", status=2, where=("-folder", ""))

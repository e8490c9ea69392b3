"""davix, a client of sites that keep large data, stores, lists, fetches, moves and removes files and folders."""
import re
import urllib.parse

import accounts
from connection import Wrong
from harness import Group
from server import PROCESSES, expect

SECONDS = 30
NAMES = ["plain.txt", "two words & \u00fc.txt", "100% (1)#?.txt"]
CONTENT = b"what davix sends\n" * 1000
LINE = re.compile(r"([-d])\S* +\d+ +(\d+) +\S+ \S+ (.*)")

PLAIN = Group("davix", needs="davix-ls")
WITH_USER = Group("davix with a user and a prefix", "-prefix", "/dav", *accounts.FLAGS, files=accounts.FILES,
                  needs="davix-ls")
GROUPS = [PLAIN, WITH_USER]


def url(server, name: str = "") -> str:
    return server.url(f"{server.prefix}/davix/{urllib.parse.quote(name)}")


def davix(server, command: str, *words: str, status: int = 0) -> str:
    """Runs a command of davix, and returns what it printed. 0.8.4 does not use its `--userlogin`, whatever the server is."""
    fields = [it for pair in accounts.AS_ANNA.items() for it in ("-H", ": ".join(pair))] if "-users" in server.flags else []
    ran = PROCESSES.run([f"davix-{command}", "--retry", "0", *fields, *words], SECONDS)
    if ran.returncode != status:
        raise Wrong(f"davix-{command} {' '.join(words)}\n  expected status {status}, got {ran.returncode}:\n{ran.stdout}")
    return ran.stdout


def listed(server, name: str = "") -> dict[str, int | None]:
    """The members of a folder, each with its size, and with none if it is a folder. davix shows names percent-encoded."""
    found = {}
    for line in davix(server, "ls", "-l", url(server, name)).splitlines():
        if not (member := LINE.fullmatch(line.strip())):
            raise Wrong(f"expected a member with its kind and its size, got {line!r}")
        kind, size, shown = member.groups()
        found[urllib.parse.unquote(shown)] = None if kind == "d" else int(size)
    return found


def mkdir(server):
    davix(server, "mkdir", url(server))
    davix(server, "mkdir", url(server, "folder"))
    expect("the members", listed(server), {"folder": None})


def put(server):
    (server.files / "sent").write_bytes(CONTENT)
    for name in NAMES:
        davix(server, "put", str(server.files / "sent"), url(server, name))


def list_(server):
    expect("the members", listed(server), {"folder": None, **dict.fromkeys(NAMES, len(CONTENT))})
    names = davix(server, "ls", url(server)).split()
    expect("the names", sorted(map(urllib.parse.unquote, names)), sorted(["folder", *NAMES]))


def get(server):
    for name in NAMES:
        davix(server, "get", url(server, name), str(server.files / "got"))
        expect("the bytes", (server.files / "got").read_bytes(), CONTENT)


def move(server):
    """davix-mv 0.8.4 ends with status 255 whatever the response is, with other servers too."""
    davix(server, "mv", url(server, NAMES[0]), url(server, f"folder/{NAMES[0]}"), status=255)
    davix(server, "mv", url(server, "folder"), url(server, "moved"), status=255)
    expect("the members", listed(server), {"moved": None, **dict.fromkeys(NAMES[1:], len(CONTENT))})
    expect("the members", listed(server, "moved"), {NAMES[0]: len(CONTENT)})


def walk(server):
    """It lists a tree by following what the server says is a folder."""
    found = [urllib.parse.unquote(it) for it in davix(server, "ls", "-r", "2", url(server)).split()]
    expect("whether the file in the folder is found", any(it.endswith(f"moved/{NAMES[0]}") for it in found), True)
    expect("the number of members", len(found), len(NAMES) + 1)


def remove(server):
    for name in [f"moved/{NAMES[0]}", "moved", *NAMES[1:]]:
        davix(server, "rm", url(server, name))
    expect("the members", listed(server), {})
    davix(server, "get", url(server, NAMES[1]), status=255)


CHECKS = [
    ("folders are created", mkdir),
    ("files with odd names are stored", put),
    ("a file is listed as a file, and a folder as a folder", list_),
    ("the files are fetched", get),
    ("a file and a folder are moved", move),
    ("a tree is listed", walk),
    ("all is removed", remove),
]
for group in GROUPS:
    for name, check in CHECKS:
        group.add(name, check)

"""A session of cadaver, a client for the command line, that is driven by its standard input."""
import typing

import accounts
from connection import Wrong
from harness import Group
from server import PROCESSES

SECONDS = 30
CONTENT = "what cadaver sends\n" * 100
WITH_USER = Group("cadaver with a user and a prefix", "-prefix", "/dav", *accounts.FLAGS, files=accounts.FILES,
                  needs="cadaver")
PLAIN = Group("cadaver", needs="cadaver")
GROUPS = [PLAIN, WITH_USER]


class Command(typing.NamedTuple):
    """A command of cadaver, and what it must print."""

    text: str
    printed: str = "succeeded."


SESSION = [
    Command("mkcol papers"),
    Command("ls", "papers"),
    Command("put {folder}/sent.txt papers/a.txt"),
    Command("put {folder}/sent.txt papers/two%20words.txt"),
    Command("ls papers", "a.txt"),
    Command("lock papers/a.txt"),
    Command("discover papers/a.txt", "Lock token"),
    Command("propset papers/a.txt colour blue"),
    Command("propget papers/a.txt colour", "Value of colour is: blue"),
    Command("propnames papers/a.txt", "colour"),
    Command("propdel papers/a.txt colour"),
    Command("put {folder}/sent.txt papers/a.txt"),
    Command("unlock papers/a.txt"),
    Command("lock papers"),
    Command("put {folder}/sent.txt papers/below.txt"),
    Command("unlock papers"),
    Command("copy papers/a.txt b.txt"),
    Command("move b.txt c.txt"),
    Command("get c.txt {folder}/got.txt"),
    Command("cat c.txt", "what cadaver sends"),
    Command("copy papers more", "succeeded."),
    Command("delete c.txt"),
    Command("delete c.txt", "failed"),
    Command("rmcol papers"),
    Command("rmcol more"),
    Command("ls", "collection is empty."),
]


def session(server):
    """Runs all commands in one session, and returns what each printed."""
    folder = server.files / "cadaver"
    folder.mkdir(exist_ok=True)
    (folder / "sent.txt").write_text(CONTENT)
    name, password = accounts.ANNA
    (folder / ".netrc").write_text(f'machine 127.0.0.1\nlogin {name}\npassword "{password}"\n')
    script = folder / "script"
    script.write_text("".join(it.text.format(folder=folder) + "\n" for it in [*SESSION, Command("quit")]))
    shell = f"exec cadaver {server.url(f'{server.prefix}/')} < script"
    ran = PROCESSES.run(["env", f"HOME={folder}", "LC_ALL=C.UTF-8", "sh", "-c", shell], SECONDS, cwd=folder)
    # cadaver repeats each command after its prompt, dav:PATH>.
    printed = ran.stdout.split("\ndav:")
    server.notes.update(folder=folder, printed=printed, whole=ran.stdout)
    if ran.returncode != 0 or len(printed) < len(SESSION):
        raise Wrong(f"expected the output of {len(SESSION)} commands, got status {ran.returncode}:\n{ran.stdout}")


def command(server, place: int):
    """Checks what a command printed."""
    wanted = SESSION[place]
    printed = server.notes.get("printed", [])
    text = printed[place] if place < len(printed) else ""
    if wanted.printed not in text:
        raise Wrong(f"expected {wanted.printed!r} from {wanted.text!r}, got:\n{text or server.notes.get('whole')}")


def content(server):
    """The file that cadaver fetched is the one that it stored."""
    file = server.notes["folder"] / "got.txt"
    if not file.exists() or file.read_text() != CONTENT:
        raise Wrong("the file that cadaver got is not the one that it put")


for group in GROUPS:
    group.add("the session", session)
    for place, wanted in enumerate(SESSION):
        group.add(f"{place + 1}. {wanted.text.replace('{folder}/', '')}", command, place)
    group.add("the file is the same", content)

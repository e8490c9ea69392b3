"""The page of a collection in headless Chromium: what it shows, and what it uploads."""
import json
import pathlib
import urllib.parse

from devtools import Browser, Tab
from harness import Group
from server import Server, expect

NAMES = ["r\u00e9sum\u00e9.txt", "\u5831\u544a\u66f8.txt", "\u062a\u0642\u0631\u064a\u0631.txt",
         "\u05d3\u05d5\u05d7.txt", "\u202eodd.txt", "<b>.txt", "two  words"]
RIGHT_TO_LEFT = ["\u062a\u0642\u0631\u064a\u0631.txt", "\u05d3\u05d5\u05d7.txt"]
RULES = """
[[rule]]
everyone = true
at_and_below = "/"
allow = ["list", "read", "write"]

[[rule]]
everyone = true
at = "/barred/no.txt"
allow = ["list", "read"]

[[rule]]
everyone = true
at = "/reading"
allow = ["list", "write"]

[[rule]]
everyone = true
at_and_below = "/reading"
allow = ["list"]
"""
GROUP = Group("the page in Chromium", "-quota", "1000000", "-max-body", "2000000", "-rights", "{rules}",
              files={"rules.toml": RULES}, needs="chromium")
GROUPS = [GROUP]
SHOWN = "[...document.querySelectorAll('tbody a')].map((it) => it.textContent)"
SAID = "[...document.querySelectorAll('#uploads li')].map((it) => it.querySelector('span').textContent)"


def browser(server: Server) -> Browser:
    """The browser of the group, which ends with it."""
    if "browser" not in server.notes:
        server.notes["browser"] = Browser(server.files / "chromium")
    return server.notes["browser"]


def opened(server: Server, path: str, **options) -> Tab:
    tab = Tab(browser(server), **options)
    tab.open(server.url(path))
    return tab


def file(server: Server, name: str, content: bytes) -> pathlib.Path:
    folder = server.files / "to-upload"
    folder.mkdir(exist_ok=True)
    (folder / name).write_bytes(content)
    return folder / name


def content(server: Server, path: str) -> bytes:
    return server.ask("GET", urllib.parse.quote(path), status=200).body


def filled(server: Server) -> str:
    path = server.folder()
    for name in NAMES:
        server.ask("PUT", path + urllib.parse.quote(name), b"x", status=201)
    server.ask("MKCOL", path + urllib.parse.quote("\u6587\u66f8") + "/", status=201)
    return path


def awaits(tab: Tab, text: str):
    """Waits until the page says this of one upload at least."""
    tab.await_(f"{SAID}.some((it) => it.startsWith({text!r}))")


def click(tab: Tab, label: str):
    """Clicks the button with this label, when it is there."""
    button = f"document.querySelector('button[aria-label={json.dumps(label)}]')"
    tab.await_(f"{button} !== null")
    tab.value(f"{button}.click()")


@GROUP.check("names in four scripts are shown, each in its own direction")
def names(server):
    with opened(server, filled(server)) as tab:
        expect("the names", sorted(tab.value(SHOWN)), sorted([*NAMES, "\u6587\u66f8/"]))
        turned = "[...document.querySelectorAll('tbody bdi')].filter((it) => getComputedStyle(it).direction === 'rtl')"
        expect("names from right to left", sorted(tab.value(f"{turned}.map((it) => it.textContent)")),
               sorted(RIGHT_TO_LEFT))
        expect("the style", tab.value("getComputedStyle(document.querySelector('table')).borderCollapse"), "collapse")


@GROUP.check("the upload is shown only with scripts")
def scripts(server):
    path = filled(server)
    visible = "document.getElementById('upload').getClientRects().length"
    with opened(server, path) as tab:
        expect("the upload with scripts", tab.value(visible), 1)
    with opened(server, path, has_scripts=False) as tab:
        expect("the upload without scripts", tab.value(visible), 0)
        expect("the number of names", len(tab.value(SHOWN)), len(NAMES) + 1)


@GROUP.check("who may not write has no upload")
def reading(server):
    server.ask("MKCOL", "/reading/", status=201)
    with opened(server, "/reading/") as tab:
        expect("the upload", tab.value("document.getElementById('upload')"), None)
        expect("the text", "This folder is empty." in tab.value("document.body.innerText"), True)


@GROUP.check("chosen files are uploaded, and then listed")
def chosen(server):
    path = server.folder()
    large = bytes(range(256)) * 2000
    with opened(server, path) as tab:
        tab.choose("#files", file(server, NAMES[1], b"one"), file(server, "50% #a?.bin", large))
        tab.await_(f"{SHOWN}.length === 2")
        expect("the names", sorted(tab.value(SHOWN)), sorted([NAMES[1], "50% #a?.bin"]))
        expect("the first file", content(server, path + NAMES[1]), b"one")
        expect("the second file is right", content(server, path + "50% #a?.bin") == large, True)
    server.ask("DELETE", path, status=204)


@GROUP.check("dropped files are uploaded")
def dropped(server):
    path = server.folder()
    with opened(server, path) as tab:
        tab.drop(file(server, NAMES[2], b"two"))
        tab.await_(f"{SHOWN}.length === 1")
        expect("the file", content(server, path + NAMES[2]), b"two")


@GROUP.check("a dropped folder is refused, and the files beside it are uploaded")
def folder(server):
    path = server.folder()
    made = server.files / "to-upload" / "folder"
    made.mkdir(parents=True, exist_ok=True)
    with opened(server, path) as tab:
        tab.drop(made, file(server, "beside.txt", b"three"))
        awaits(tab, "Uploaded")
        awaits(tab, "Folders cannot be uploaded.")
        expect("the file", content(server, path + "beside.txt"), b"three")
        server.ask("GET", path + "folder", status=404)
        tab.value("document.getElementById('again').click()")
        tab.await_(f"{SHOWN}.length === 1")


@GROUP.check("a file whose name exists is kept or replaced, as the user says")
def existing(server):
    path = server.folder()
    server.ask("PUT", f"{path}a", b"old", status=201)
    for text, wanted in (("Keep", b"old"), ("Replace", b"new")):
        with opened(server, path) as tab:
            tab.value("window.isOld = true")
            tab.choose("#files", file(server, "a", b"new"))
            awaits(tab, "This name exists already.")
            expect("the file while the page asks", content(server, f"{path}a"), b"old")
            click(tab, f"{text} a")
            tab.await_(f"!window.isOld && {SHOWN}.length === 1")
            expect(f"the file after {text}", content(server, f"{path}a"), wanted)


@GROUP.check("what is refused is said in words")
def refused(server):
    server.ask("MKCOL", "/barred/", status=201)
    server.ask("MKCOL", "/barred/taken/", status=201)
    server.ask("PUT", "/barred/locked.txt", b"old", status=201)
    body = b'<lockinfo xmlns="DAV:"><lockscope><exclusive/></lockscope><locktype><write/></locktype></lockinfo>'
    server.ask("LOCK", "/barred/locked.txt", body, status=200)
    sent = [("no.txt", 1), ("full.bin", 1_500_000), ("long.bin", 2_000_001), ("locked.txt", 1), ("taken", 1),
            ("good.txt", 1)]
    with opened(server, "/barred/") as tab:
        tab.choose("#files", *(file(server, name, b"x" * length) for name, length in sent))
        click(tab, "Replace locked.txt")
        click(tab, "Replace taken")
        tab.await_("!document.getElementById('again').hidden")
        expect("what the page says", tab.value(SAID), [
            "You may not write here.", "There is not enough space on the server.",
            "The file is too large for this server.",
            "The file is locked, because another user or program is working on it.",
            "You may not replace it, or it is a folder.", "Uploaded",
        ])
    for name, status in (("no.txt", 404), ("full.bin", 404), ("long.bin", 404), ("locked.txt", 200), ("good.txt", 200)):
        server.ask("GET", f"/barred/{name}", status=status)
    expect("the locked file", content(server, "/barred/locked.txt"), b"old")

"""kioclient of KDE lists, copies, moves, reads and removes a folder, as its file manager does."""
import os

from connection import Wrong
from harness import Group
from server import PROCESSES, Server, expect

SECONDS = 50
NAME = "gr\u00fcn & <1>.txt"
CONTENT = b"one line\n" * 300
# The services of the session may go on after it, and must not hold the output.
SESSION = 'exec dbus-run-session -- sh -c "$SCRIPT" > "$SAID" 2>&1'
SCRIPT = """\
set -e
kioclient5 --noninteractive copy "file://$SOURCE" "$URL"
kioclient5 --noninteractive ls "${URL}kde/"
kioclient5 --noninteractive move "${URL}kde/$NAME" "${URL}kde/moved.txt"
kioclient5 --noninteractive copy "${URL}kde/moved.txt" "${URL}kde/copy.txt"
kioclient5 --noninteractive cat "${URL}kde/copy.txt" > "$SAID.read"
kioclient5 --noninteractive remove "${URL}kde/copy.txt"
"""

GROUP = Group("kioclient", needs="kioclient5")
GROUPS = [GROUP]


@GROUP.check("a folder is copied, listed, moved, read and removed", seconds=SECONDS + 10)
def folder(server: Server):
    home, said = server.files / "home", server.files / "said"
    source = home / "kde"
    home.mkdir(mode=0o700)
    source.mkdir()
    (source / NAME).write_bytes(CONTENT)
    url = server.url("/").replace("http", "webdav", 1)
    names = {"SCRIPT": SCRIPT, "SOURCE": source, "SAID": said, "NAME": NAME, "URL": url}
    homes = dict.fromkeys(("HOME", "XDG_RUNTIME_DIR", "XDG_CACHE_HOME", "XDG_CONFIG_HOME"), home)
    words = {key: str(value) for key, value in {**names, **homes}.items()}
    environment = {**os.environ, **words, "QT_QPA_PLATFORM": "offscreen", "LANG": "C.UTF-8"}
    ran = PROCESSES.run(["sh", "-c", SESSION], SECONDS, env=environment)
    if ran.returncode != 0 or NAME not in said.read_text():
        raise Wrong(f"kioclient ends with status {ran.returncode}, and prints {said.read_text()}")
    expect("what it reads", (server.files / "said.read").read_bytes(), CONTENT)
    expect("what is there", server.ask("GET", "/kde/moved.txt", None, {}, 200).body, CONTENT)
    for name in ("copy.txt", "gr%C3%BCn%20%26%20%3C1%3E.txt"):
        server.ask("GET", f"/kde/{name}", None, {}, 404)

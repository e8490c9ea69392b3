"""sitecopy keeps a site on the server as a folder on disk is, and fetches it back."""
import pathlib
import shutil

import accounts
import lftp
from connection import Wrong
from harness import Group
from server import PROCESSES, expect

SECONDS = 30
GROUP = Group("sitecopy", "-prefix", "/dav", *accounts.FLAGS, files=accounts.FILES, needs="sitecopy")
GROUPS = [GROUP]
SITE = """\
site test
  server 127.0.0.1
  port {port}
  protocol dav
  username {name}
  password "{password}"
  local {local}/
  remote {prefix}/site/
  state checksum
"""


def sitecopy(server, command: str) -> str:
    """Runs a command of sitecopy, and returns what it printed."""
    home = server.files / "sitecopy"
    words = ["sitecopy", f"--rcfile={home / 'rc'}", f"--storepath={home / 'state'}", command, "test"]
    ran = PROCESSES.run(words, SECONDS)
    if ran.returncode != 0:
        raise Wrong(f"sitecopy {command}\n  expected status 0, got {ran.returncode}:\n{ran.stdout}")
    return ran.stdout


def top(server) -> pathlib.Path:
    return server.files / "site"


def is_same(server):
    """The server has each file of the folder."""
    for name, content in lftp.files(top(server)).items():
        path = f"{server.prefix}/site/{name}".replace(" ", "%20")
        expect(name, server.ask("GET", path, None, accounts.AS_ANNA, 200).body, content)


@GROUP.check("a site is uploaded")
def upload(server):
    home = server.files / "sitecopy"
    for folder in (home, home / "state"):
        folder.mkdir(mode=0o700)
    name, password = accounts.ANNA
    names = {"port": server.port, "name": name, "password": password, "local": top(server), "prefix": server.prefix}
    (home / "rc").write_text(SITE.format(**names))
    (home / "rc").chmod(0o600)
    (top(server) / "sub").mkdir(parents=True)
    (top(server) / "a.txt").write_text("one")
    (top(server) / "sub" / "two words (1).txt").write_text("two")
    (top(server) / "sub" / "old.txt").write_text("old")
    server.ask("MKCOL", f"{server.prefix}/site/", None, accounts.AS_ANNA, 201)
    sitecopy(server, "--init")
    sitecopy(server, "--update")
    is_same(server)


@GROUP.check("what has changed is uploaded, and what is gone is removed")
def update(server):
    (top(server) / "a.txt").write_text("one more")
    (top(server) / "sub" / "old.txt").unlink()
    (top(server) / "new").mkdir()
    (top(server) / "new" / "b.txt").write_text("new")
    sitecopy(server, "--update")
    is_same(server)
    server.ask("GET", f"{server.prefix}/site/sub/old.txt", None, accounts.AS_ANNA, 404)


@GROUP.check("the site on the server is listed, and nothing differs")
def fetch(server):
    """It makes its list from the server, and finds that it is the same as the folder."""
    printed = sitecopy(server, "--fetch")
    wanted = ["File: a.txt - size 8", "File: new/b.txt - size 3", "Directory: new/", "Directory: sub/"]
    expect("what is not listed", [it for it in wanted if it not in printed], [])
    expect("whether nothing differs", "does not need updating" in sitecopy(server, "--list"), True)


@GROUP.check("the site comes back")
def synchronize(server):
    wanted = lftp.files(top(server))
    shutil.rmtree(top(server))
    top(server).mkdir()
    sitecopy(server, "--synchronize")
    expect("the files", lftp.files(top(server)), wanted)

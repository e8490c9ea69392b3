"""Clients as people have them: the browser Chromium, the file system davfs2, and gio of GNOME."""
import errno
import html
import os
import pathlib
import shutil
import subprocess
import tempfile
import typing
import urllib.parse

from connection import Wrong
from endure_client import Client, escaped
from harness import Skipped
from server import PROCESSES

SECONDS = 90
FOLDER = "/desk"
FILES = ("a.txt", "\u00fcber.txt", "x & <y>.txt")
CONTENT = b"one line\n" * 300
PNG = b"\x89PNG\r\n\x1a\n"


class Desk(typing.NamedTuple):
    """Where the clients work: a folder of the server, of a user, and a folder of this machine."""

    client: Client
    password: str
    work: pathlib.Path

    def address(self, scheme="http", path=FOLDER) -> str:
        return f"{scheme}://{self.account()}@127.0.0.1:{self.client.port}{escaped(path)}/"

    def account(self) -> str:
        return f"{self.client.user}:{urllib.parse.quote(self.password)}"


def run(command: list, desk: Desk, environment: dict | None = None) -> subprocess.CompletedProcess:
    """Runs a program of the desktop to its end. Its home is a new folder."""
    words = {key: str(desk.work) for key in ("HOME", "XDG_RUNTIME_DIR", "XDG_CACHE_HOME", "XDG_CONFIG_HOME")}
    return PROCESSES.run(command, SECONDS, env={**os.environ, **words, **(environment or {})})


def need(*programs: str):
    for name in programs:
        if not shutil.which(name, path=f"{os.environ['PATH']}:/usr/sbin:/sbin"):
            raise Skipped(f"{name} is not installed")


def expect_done(ran: subprocess.CompletedProcess):
    if ran.returncode != 0:
        raise Wrong(f"`{' '.join(map(str, ran.args))}` ends with status {ran.returncode}: {ran.stdout.strip()[-1500:]}")


# ---- Chromium


def chromium(desk: Desk, *words) -> subprocess.CompletedProcess:
    need("chromium")
    profile = tempfile.mkdtemp(dir=desk.work)
    flags = ["--headless", "--no-sandbox", "--disable-gpu", "--disable-dev-shm-usage", f"--user-data-dir={profile}"]
    ran = run(["chromium", *flags, *words, desk.address()], desk)
    expect_done(ran)
    return ran


def page_in_chromium(desk: Desk):
    """The page of a folder has its files, as Chromium reads it."""
    page = html.unescape(chromium(desk, "--dump-dom").stdout)
    for name in FILES:
        if name not in page:
            raise Wrong(f"{name} is not on the page:\n{page[-2000:]}")


def screenshot_in_chromium(desk: Desk):
    file = desk.work / "page.png"
    chromium(desk, f"--screenshot={file}", "--window-size=800,600")
    if not file.is_file() or not file.read_bytes().startswith(PNG) or file.stat().st_size < 2000:
        raise Wrong("there is no picture of the page")


# ---- davfs2


def davfs2(desk: Desk):
    """Writes, reads, renames and removes files below a mount, and looks at the server each time."""
    need("mount.davfs", "mount")
    if os.geteuid() != 0 or not os.path.exists("/dev/fuse"):
        raise Skipped("it needs root and /dev/fuse")
    place, cache = desk.work / "mount", desk.work / "cache"
    place.mkdir(exist_ok=True)
    cache.mkdir(exist_ok=True)
    cache.chmod(0o1777)  # mount.davfs becomes another user.
    url = f"http://127.0.0.1:{desk.client.port}{FOLDER}/"
    secrets = write(desk.work / "secrets", f'{url} "{desk.client.user}" "{desk.password}"\n')
    settings = write(desk.work / "settings", f"ask_auth 0\ndelay_upload 0\ncache_dir {cache}\nsecrets {secrets}\n")
    ran = run(["mount", "-t", "davfs", "-o", f"conf={settings}", url, place], desk)
    if ran.returncode != 0 and not os.path.ismount(place):
        if "fuse" in ran.stdout.lower() or "permitted" in ran.stdout.lower():
            raise Skipped(f"the system does not allow a mount: {ran.stdout.strip()[-200:]}")
        expect_done(ran)
    try:
        use_mount(desk, place)
    finally:
        expect_done(run(["umount", place], desk))
    expect_file(desk, f"{FOLDER}/folder/renamed.txt", CONTENT)
    desk.client.ask("DELETE", f"{FOLDER}/folder", status=204)


def write(file: pathlib.Path, text: str) -> pathlib.Path:
    file.write_text(text)
    file.chmod(0o600)
    return file


def use_mount(desk: Desk, place: pathlib.Path):
    for name in FILES:
        if (place / name).read_bytes() != CONTENT:
            raise Wrong(f"{name} has another content below the mount")
    try:
        names = os.listdir(place)
    except OSError as error:
        # With new kernels davfs2 1.6 lists no folder, whatever the server is.
        if error.errno != errno.EINVAL:
            raise
    else:
        if missing := set(FILES) - set(names):
            raise Wrong(f"{missing} not listed below the mount")
    (place / "folder").mkdir()
    (place / "folder/new.txt").write_bytes(CONTENT)
    (place / "folder/new.txt").rename(place / "folder/renamed.txt")
    (place / "gone.txt").write_bytes(CONTENT)
    (place / "gone.txt").unlink()
    desk.client.ask("PROPFIND", f"{FOLDER}/gone.txt", None, {"Depth": "0"}, 404)


def expect_file(desk: Desk, path: str, content: bytes):
    got = desk.client.ask("GET", path, status=200)
    if got.body != content:
        raise Wrong(f"{path}: expected {len(content)} bytes, got {len(got.body)}")


# ---- gio

# The password is asked for once, and then the session knows it.
GIO = """\
set -e
echo "$PASSWORD" | gio mount "$URL"
gio list "$URL"
gio mkdir "${URL}folder"
gio copy "$SOURCE" "${URL}folder/new.txt"
gio move "${URL}folder/new.txt" "${URL}folder/renamed.txt"
gio cat "${URL}folder/renamed.txt" > "$SOURCE.read"
gio mount -u "$URL"
"""


def gio(desk: Desk):
    """Mounts, lists, copies, moves and reads as the file manager of GNOME does."""
    need("gio", "dbus-run-session")
    if not list(pathlib.Path("/usr").glob("lib*/gvfs/gvfsd-dav")) + list(pathlib.Path("/usr").glob("lib*/gvfsd-dav")):
        raise Skipped("gvfs-backends is not installed")
    source = write(desk.work / "source", CONTENT.decode())
    url = f"dav://{desk.client.user}@127.0.0.1:{desk.client.port}{FOLDER}/"
    words = {"URL": url, "PASSWORD": desk.password, "SOURCE": str(source), "GVFS_DISABLE_FUSE": "1", "LANG": "C.UTF-8"}
    ran = run(["dbus-run-session", "--", "sh", "-c", GIO], desk, words)
    expect_done(ran)
    for name in FILES:
        if name not in ran.stdout:
            raise Wrong(f"gio does not list {name}: {ran.stdout[-1500:]}")
    if pathlib.Path(f"{source}.read").read_bytes() != CONTENT:
        raise Wrong("gio reads another content than it copied")
    expect_file(desk, f"{FOLDER}/folder/renamed.txt", CONTENT)
    desk.client.ask("DELETE", f"{FOLDER}/folder", status=204)


# ---- all

CHECKS = {
    "a page in Chromium": page_in_chromium, "a screenshot in Chromium": screenshot_in_chromium,
    "a mount of davfs2": davfs2, "a mount of gio": gio,
}


def prepare(desk: Desk):
    desk.client.ask("MKCOL", FOLDER, status=201)
    for name in FILES:
        desk.client.ask("PUT", f"{FOLDER}/{name}", CONTENT, status=201)


def clear(desk: Desk):
    desk.client.ask("DELETE", FOLDER, status=204)

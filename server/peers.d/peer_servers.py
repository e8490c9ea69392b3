"""The servers: how each is installed, configured and started."""
import os
import pathlib
import re
import shutil
import subprocess
import tempfile
import time
import typing

from connection import Connection, Wrong
from peer_packages import version_of
from server import PROCESSES, free_port

PORTS = range(18200, 18300)
START_SECONDS = 20
END_SECONDS = 5
USER = "www-data"
DAVSERVE = "davserve"
KEPT = "davserve -folder"
OURS = (DAVSERVE, KEPT)


class Place:
    """Where a server runs: its port, a folder for the files that it serves, and one for what else it needs."""

    def __init__(self, folder: pathlib.Path, port: int):
        self.port = port
        self.address = f"127.0.0.1:{port}"
        self.data = folder / "data"
        self.work = folder / "work"
        folder.chmod(0o755)
        for it in (self.data, self.work):
            it.mkdir()
            if os.geteuid() == 0:
                shutil.chown(it, USER, USER)

    def write(self, name: str, text: str) -> pathlib.Path:
        file = self.work / name
        file.write_text(text)
        file.chmod(0o644)
        return file


class Peer(typing.NamedTuple):
    """A server. `command` writes its configuration, and returns how it is started in the foreground."""

    name: str
    word: str  # chooses it in the command line
    by: str
    after_cut: str  # what a power cut may do to a change that was answered
    packages: tuple[str, ...]
    version: typing.Callable[["Programs"], str]
    command: typing.Callable[[Place, "Programs"], list]


class Programs(typing.NamedTuple):
    """The programs that are built for the comparison."""

    davserve: pathlib.Path
    davd: pathlib.Path
    xnet: pathlib.Path
    load: pathlib.Path


def as_user(command: list) -> list:
    """The command, as a user without rights of its own if this is root."""
    if os.geteuid() != 0:
        return command
    return ["setpriv", f"--reuid={USER}", f"--regid={USER}", "--clear-groups", *command]


def printed(command: list, pattern: str) -> str:
    """The part of what a command prints that a pattern finds."""
    found = re.search(pattern, PROCESSES.run(command, 20).stdout)
    return found[1] if found else "unknown"


# ---- the servers


def davserve(place: Place, programs: Programs) -> list:
    # The old and the new bytes of a file of 1 GB are more than the usual limit.
    return of_davserve(place, programs, "-memory", "4G")


def davserve_kept(place: Place, programs: Programs) -> list:
    return of_davserve(place, programs, "-folder", place.data)


def of_davserve(place: Place, programs: Programs, *flags) -> list:
    return as_user([programs.davserve, "-listen", place.address, "-davd", programs.davd, *flags])


APACHE = """\
ServerRoot /usr/lib/apache2
ServerName 127.0.0.1
Listen {place.address}
PidFile {place.work}/pid
ErrorLog {place.work}/log
User {user}
Group {user}
LoadModule mpm_event_module modules/mod_mpm_event.so
LoadModule authz_core_module modules/mod_authz_core.so
LoadModule dav_module modules/mod_dav.so
LoadModule dav_fs_module modules/mod_dav_fs.so
LoadModule dav_lock_module modules/mod_dav_lock.so
MaxKeepAliveRequests 0
DocumentRoot {place.data}
DavLockDB {place.work}/locks
<Directory {place.data}>
    Require all granted
    DAV On
    DavDepthInfinity On
</Directory>
"""


def apache(place: Place, _) -> list:
    return ["apache2", "-D", "FOREGROUND", "-f", place.write("conf", APACHE.format(place=place, user=USER))]


NGINX = """\
load_module /usr/lib/nginx/modules/ngx_http_dav_ext_module.so;
daemon off;
user {user};
pid {place.work}/pid;
worker_processes {processors};
events {{ worker_connections 512; }}
http {{
    access_log off;
    client_body_temp_path {place.work}/bodies;
    client_max_body_size 0;
    keepalive_requests 1000000000;
    dav_ext_lock_zone zone=locks:10m;
    server {{
        listen {place.address};
        root {place.data};
        dav_methods PUT DELETE MKCOL COPY MOVE;
        dav_ext_methods PROPFIND OPTIONS LOCK UNLOCK;
        location / {{ dav_ext_lock zone=locks; }}
    }}
}}
"""


def nginx(place: Place, _) -> list:
    processors = len(os.sched_getaffinity(0))
    file = place.write("conf", NGINX.format(place=place, user=USER, processors=processors))
    return ["nginx", "-e", place.work / "log", "-c", file]


LIGHTTPD = """\
server.modules = ( "mod_webdav" )
server.bind = "127.0.0.1"
server.port = {place.port}
server.username = "{user}"
server.groupname = "{user}"
server.errorlog = "{place.work}/log"
server.document-root = "{place.data}"
server.upload-dirs = ( "{place.work}" )
server.max-keep-alive-requests = 65535
webdav.activate = "enable"
webdav.sqlite-db-name = "{place.work}/database"
"""


def lighttpd(place: Place, _) -> list:
    return ["lighttpd", "-D", "-f", place.write("conf", LIGHTTPD.format(place=place, user=USER))]


def rclone(place: Place, _) -> list:
    home = [f"HOME={place.work}", f"XDG_CACHE_HOME={place.work}", "RCLONE_CONFIG="]
    return as_user(["env", *home, "rclone", "serve", "webdav", place.data, "--addr", place.address])


SABRE = """\
<?php
error_reporting(E_ALL & ~E_DEPRECATED & ~E_NOTICE);
ini_set('display_errors', '0');
{handler}
require '/usr/share/php/Sabre/autoload.php';
$server = new Sabre\\DAV\\Server(new Sabre\\DAV\\FS\\Directory('{place.data}'));
$server->setBaseUri('/');
$server->addPlugin(new Sabre\\DAV\\Locks\\Plugin(new Sabre\\DAV\\Locks\\Backend\\File('{place.work}/locks')));
$server->exec();
"""
# So do the examples of SabreDAV, with all errors of PHP. Here the old version causes others by itself.
WARNINGS_THROW = """\
set_error_handler(function ($number, $text, $file, $line) {
    throw new ErrorException($text, 0, $number, $file, $line);
}, E_WARNING);"""


def sabre(place: Place, handler: str) -> list:
    file = place.write("server.php", SABRE.format(place=place, handler=handler))
    return as_user(["php", "-S", place.address, file])


def xnet(place: Place, programs: Programs) -> list:
    return as_user([programs.xnet, place.address, place.data])


def sabre_version(_) -> str:
    code = "require '/usr/share/php/Sabre/autoload.php'; echo Sabre\\DAV\\Version::VERSION;"
    return printed(["php", "-r", code], "(.+)")


def davserve_version(programs: Programs) -> str:
    return printed([programs.davserve, "-version"], r"(?:davserve )?(.+)")


PHP = ("php-cli", "php-sabre-dav")
XNET = ("golang-go", "golang-golang-x-net-dev")
# They write without a sync, so the system may not yet have written to the disk what was answered.
UNSYNCED = "may be lost: no sync"
SERVERS = (
    Peer(DAVSERVE, "davserve", "dav_engine, in memory", "lost", (), davserve_version, davserve),
    Peer(KEPT, "davserve-folder", "dav_engine, in a folder", "kept", (), davserve_version, davserve_kept),
    Peer("Apache", "apache", "`mod_dav_fs`", UNSYNCED, ("apache2",),
         lambda _: printed(["apache2", "-v"], r"Apache/(\S+)"), apache),
    Peer("nginx", "nginx", "its DAV module and `dav-ext`", UNSYNCED, ("nginx-light", "libnginx-mod-http-dav-ext"),
         lambda _: printed(["nginx", "-v"], r"nginx/(\S+)"), nginx),
    Peer("lighttpd", "lighttpd", "`mod_webdav`", UNSYNCED, ("lighttpd", "lighttpd-mod-webdav"),
         lambda _: printed(["lighttpd", "-v"], r"lighttpd/(\S+)"), lighttpd),
    Peer("rclone", "rclone", "`rclone serve webdav`", UNSYNCED, ("rclone",),
         lambda _: printed(["rclone", "version"], r"v(\d[\d.]*)"), rclone),
    Peer("SabreDAV", "sabredav", "its file system classes, in PHP's own server", UNSYNCED, PHP, sabre_version,
         lambda place, _: sabre(place, "")),
    Peer("x/net/webdav", "xnet", "`webdav.Handler` over `webdav.Dir`", UNSYNCED, XNET,
         lambda _: version_of("golang-golang-x-net-dev") or "unknown", xnet),
)
SABRE_THROWING = Peer("SabreDAV", "sabredav", "", UNSYNCED, PHP, sabre_version,
                      lambda place, _: sabre(place, WARNINGS_THROW))


# ---- running


class Running:
    """A server that answers, over a new folder. `fill` puts files into the folder before the server starts."""

    def __init__(self, peer: Peer, programs: Programs, parent: pathlib.Path, fill=lambda data: None):
        self.peer = peer
        folder = pathlib.Path(tempfile.mkdtemp(dir=parent))
        self.place = Place(folder, free_port(PORTS))
        fill(self.place.data)
        with (folder / "said").open("wb") as said:
            command = peer.command(self.place, programs)
            self.process = PROCESSES.start(command, stdout=said, stderr=said)
        self.folder = folder
        try:
            self.wait()
        except Wrong:
            self.end()
            raise

    @property
    def url(self) -> str:
        return f"http://{self.place.address}"

    def __enter__(self):
        return self

    def __exit__(self, *_):
        self.end()

    def wait(self):
        """Waits until it answers."""
        end = time.monotonic() + START_SECONDS
        while True:
            try:
                return self.ask("OPTIONS", "/")
            except (OSError, Wrong):
                pass
            if time.monotonic() > end or self.process.poll() is not None:
                said = (self.folder / "said").read_text(errors="replace").strip()
                raise Wrong(f"{self.peer.name} does not answer: {said[-300:] or 'it printed nothing'}")
            time.sleep(0.05)

    def ask(self, method: str, path: str, fields=()):
        with Connection(self.place.port) as connection:
            connection.request(method, path, None, fields)
            return connection.answer(method)

    def end(self):
        self.process.terminate()
        try:
            self.process.wait(END_SECONDS)
        except subprocess.TimeoutExpired:
            pass  # Then it is killed.
        PROCESSES.end(self.process)
        shutil.rmtree(self.folder, ignore_errors=True)

"""The disks of the machine: a Debian, and what is given to it."""
import os
import pathlib
import shutil

from connection import Wrong
from programs import TOP, apt, is_there
from server import PROCESSES

RELEASE, MIRROR = "bookworm", "http://deb.debian.org/debian"
INCLUDED = "systemd-sysv,linux-image-cloud-amd64,initramfs-tools,qemu-guest-agent,apache2-utils,curl,sqlite3,sudo"
DISK_BYTES = "2G"
MAKE_SECONDS = 900
BUILD_SECONDS = 300
NETWORK = "[Match]\nName=en*\n\n[Network]\nDHCP=yes\n"
PROGRAMS = {
    "debootstrap": "debootstrap",
    "qemu-system-x86_64": "qemu-system-x86",
    "qemu-img": "qemu-utils",
    "mke2fs": "e2fsprogs",
    "dpkg-buildpackage": "dpkg-dev",
    "dh": "debhelper",
    "make": "make",
    "go": "golang-go",
}


def install():
    """Installs the programs that are missing. Raises `Wrong` if one cannot be had."""
    missing = [package for program, package in PROGRAMS.items() if not shutil.which(program)]
    missing += [it for it in ("golang-golang-x-crypto-dev", "golang-golang-x-sys-dev") if not is_there(it)]
    said = apt(missing) if missing else ""
    if still := [package for program, package in PROGRAMS.items() if not shutil.which(program)]:
        raise Wrong(f"install {' '.join(still)} first: {said}")


def run(command: list, seconds: float, **options) -> str:
    """Runs a program that must end with status 0, and returns what it prints."""
    ran = PROCESSES.run(command, seconds, **options)
    if ran.returncode != 0:
        raise Wrong(f"`{' '.join(map(str, command))}` ends with status {ran.returncode}:\n{ran.stdout[-2000:]}")
    return ran.stdout


class System:
    """A new Debian: the files `disk`, `vmlinuz` and `initrd` of a folder."""

    def __init__(self, folder: pathlib.Path):
        self.disk, self.kernel, self.initrd = (folder / it for it in ("disk", "vmlinuz", "initrd"))
        if not all(it.is_file() for it in (self.disk, self.kernel, self.initrd)):
            folder.mkdir(parents=True, exist_ok=True)
            self.make(folder / "root")

    def make(self, root: pathlib.Path):
        try:
            run(["debootstrap", "--variant=minbase", f"--include={INCLUDED}", RELEASE, root, MIRROR], MAKE_SECONDS)
            (root / "etc/systemd/network/80-dhcp.network").write_text(NETWORK)
            (root / "etc/hostname").write_text("box\n")
            (root / "etc/hosts").write_text("127.0.0.1 localhost\n127.0.1.1 box\n")
            run(["systemctl", f"--root={root}", "enable", "systemd-networkd"], 60)
            shutil.rmtree(root / "var/cache/apt/archives")
            for name, file in (("vmlinuz", self.kernel), ("initrd.img", self.initrd)):
                shutil.copyfile(next((root / "boot").glob(f"{name}-*")), file)
            run(["mke2fs", "-q", "-t", "ext4", "-d", root, self.disk, DISK_BYTES], 120)
        finally:
            shutil.rmtree(root, ignore_errors=True)

    def layer(self, file: pathlib.Path) -> pathlib.Path:
        """Makes a disk that begins as this system and keeps its changes for itself."""
        run(["qemu-img", "create", "-q", "-f", "qcow2", "-F", "raw", "-b", self.disk.resolve(), file], 60)
        return file


def given(folder: pathlib.Path, davd: pathlib.Path) -> pathlib.Path:
    """Makes a disk with the Debian package, what `make install` installs, as an archive, and the views of the database."""
    files = folder / "given"
    files.mkdir()
    shutil.copy(package(folder, davd), files)
    shutil.copy(TOP / "server/views.sql", files)
    made = folder / "made"
    run(["make", "install", f"DAVD={davd}", f"DESTDIR={made}"], BUILD_SECONDS, cwd=TOP)
    run(["tar", "-C", made, "--owner=root", "--group=root", "-cf", files / "made.tar", "."], 60)
    disk = folder / "given.ext4"
    run(["mke2fs", "-q", "-t", "ext4", "-d", files, disk, "100M"], 60)
    return disk


def package(folder: pathlib.Path, davd: pathlib.Path) -> pathlib.Path:
    """Builds the Debian package from a copy of the tree, without what only davd is made of."""
    tree = folder / "davserve"
    shutil.copytree(TOP, tree, ignore=shutil.ignore_patterns(".git", "out", "crates", "cases", "mutants"))
    run(["dpkg-buildpackage", "-b", "-us", "-uc"], BUILD_SECONDS, cwd=tree, env={**os.environ, "DAVD": str(davd)})
    return next(folder.glob("davserve_*.deb"))

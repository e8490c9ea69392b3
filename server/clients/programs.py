"""Installs what the checks need, and builds what they start."""
import os
import pathlib
import shutil

from harness import Run
from server import PROCESSES, Programs

SERVER = pathlib.Path(__file__).resolve().parent.parent
TOP = SERVER.parent
# What shows that a package is installed: a program, or a file. Without an entry it is a program of the package's name.
SHOWN_BY = {
    "golang-go": "go",
    "golang-golang-x-crypto-dev": pathlib.Path("/usr/share/gocode/src/golang.org/x/crypto/bcrypt"),
    "libreoffice-writer-nogui": pathlib.Path("/usr/lib/libreoffice/program/libswlo.so"),
    "python3-uno": pathlib.Path("/usr/lib/python3/dist-packages/uno.py"),
    "davix": "davix-ls",
    "libhttp-dav-perl": "dave",
}
APT_SECONDS = 240
BUILD_SECONDS = 240


class Missing(Exception):
    """Something that all checks need does not exist."""


class NotBuilt(Exception):
    """A program cannot be built. The message says why."""


def is_there(package: str) -> bool:
    """Whether a Debian package is installed."""
    shown_by = SHOWN_BY.get(package, package)
    return shown_by.exists() if isinstance(shown_by, pathlib.Path) else shutil.which(shown_by) is not None


NEEDED = ("golang-go", "gcc", "golang-golang-x-crypto-dev", "litmus")
WANTED = (
    "cadaver", "rclone", "lftp", "git", "ffmpeg", "curl", "make", "libreoffice-writer-nogui", "python3-uno", "davix",
    "libhttp-dav-perl", "duplicity", "sitecopy",
)


def install(counts: Run):
    """Installs what is missing. Raises `Missing` if a needed package cannot be installed."""
    missing = [it for it in (*NEEDED, *WANTED) if not is_there(it)]
    if not missing:
        return
    said = apt(missing)
    still = [it for it in missing if not is_there(it)]
    needed = [it for it in still if it in NEEDED]
    if needed:
        raise Missing(f"install {' '.join(needed)} first: {said}")
    for name in still:
        counts.note(f"{name} cannot be installed: {said}")


def apt(packages: list[str]) -> str:
    """Installs packages one after the other, and returns why it cannot."""
    if os.geteuid() != 0 or not shutil.which("apt-get"):
        return "apt-get can only be used as root, on Debian"
    environment = {**os.environ, "DEBIAN_FRONTEND": "noninteractive"}
    command = ["apt-get", "-q", "-y", "--no-install-recommends", "install"]
    said = "apt-get has no such program"
    for words in [["apt-get", "-q", "update"], *([*command, it] for it in packages)]:
        ran = PROCESSES.run(words, APT_SECONDS, env=environment)
        if ran.returncode != 0:
            said = f"`{' '.join(words)}` fails: {ran.stdout.strip().splitlines()[-1:]}"
    return said


def find_davd(name: str | None) -> pathlib.Path:
    file = pathlib.Path(name).resolve() if name else TOP / "crates/davd/out/davd"
    if not file.is_file():
        advice = "" if name else ": build it first (`rt run` in crates/davd, or `rt ci`), or name one with --davd"
        raise Missing(f"no program {file}{advice}")
    return file


def build(folder: pathlib.Path, davd: pathlib.Path, davserve: str | None) -> Programs:
    """Builds davserve twice, and makes a certificate."""
    certificate = make_certificate(folder)
    if davserve:
        program = pathlib.Path(davserve).resolve()
        return Programs(program, program, davd, certificate, folder)
    plain, race = folder / "davserve", folder / "davserve-race"
    for words in (["-o", plain], ["-race", "-o", race]):
        go("build", *words, "./cmd/davserve")
    return Programs(plain, race, davd, certificate, folder)


def go(*words):
    ran = PROCESSES.run(["go", *words], BUILD_SECONDS, cwd=SERVER)
    if ran.returncode != 0:
        raise NotBuilt(f"`go {' '.join(map(str, words))}` ends with status {ran.returncode}:\n{ran.stdout}")


def make_certificate(folder: pathlib.Path) -> list[str]:
    """Makes a certificate for the loopback by a program of Go's own sources. Returns the flags that name it."""
    root = PROCESSES.run(["go", "env", "GOROOT"], 20).stdout.strip()
    script = f"{root}/src/crypto/tls/generate_cert.go"
    words = ["go", "run", script, "--host", "127.0.0.1,localhost", "--ecdsa-curve", "P256"]
    ran = PROCESSES.run(words, BUILD_SECONDS, cwd=folder)
    if ran.returncode != 0:
        raise NotBuilt(f"`{' '.join(words)}` ends with status {ran.returncode}:\n{ran.stdout}")
    return ["-cert", str(folder / "cert.pem"), "-key", str(folder / "key.pem")]

"""Installs Debian packages, and does not start the services that they bring."""
import contextlib
import os
import pathlib
import re
import shutil

from server import PROCESSES

APT_SECONDS = 600
# A program that Debian's packages ask before they start a service. Status 101 forbids it.
POLICY = pathlib.Path("/usr/sbin/policy-rc.d")


def version_of(package: str) -> str | None:
    """The version of a package that is installed, without Debian's own parts: 0.7.0 of 1:0.7.0+dfsg-1."""
    ran = PROCESSES.run(["dpkg-query", "-W", "-f", "${db:Status-Status} ${Version}", package], 20)
    status, _, version = ran.stdout.partition(" ")
    if ran.returncode != 0 or status != "installed":
        return None
    return re.sub(r"^\d+:|[+-].*", "", version)


def install(packages: tuple[str, ...]) -> str | None:
    """Installs what is missing of some packages. Returns why it cannot."""
    if not shutil.which("dpkg-query"):
        return "this is not Debian"
    missing = [it for it in packages if version_of(it) is None]
    if not missing:
        return None
    if os.geteuid() != 0:
        return f"{' '.join(missing)} is not installed, and only root can install it"
    environment = {**os.environ, "DEBIAN_FRONTEND": "noninteractive"}
    command = ["apt-get", "-q", "-y", "-o", "DPkg::Lock::Timeout=120", "--no-install-recommends", "install", *missing]
    with no_services():
        ran = PROCESSES.run(command, APT_SECONDS, env=environment)
    if ran.returncode != 0:
        lines = ran.stdout.strip().splitlines()
        return f"{' '.join(missing)} cannot be installed: {lines[-1] if lines else 'apt-get does not end'}"
    return None


@contextlib.contextmanager
def no_services():
    """Forbids that a package starts a service, unless the machine already has a rule of its own."""
    if POLICY.exists():
        yield
        return
    POLICY.write_text("#!/bin/sh\nexit 101\n")
    POLICY.chmod(0o755)
    try:
        yield
    finally:
        POLICY.unlink()

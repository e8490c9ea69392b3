"""Counts what the suites of litmus pass."""
import pathlib
import re
import shutil
import typing

from connection import Wrong
from peer_checks import Checks, table
from peer_servers import OURS, Peer, Programs, Running
from server import PROCESSES

SUITES = ("basic", "copymove", "props", "locks", "http")
SUITE_SECONDS = 120


class Count(typing.NamedTuple):
    passed: int
    run: int
    failed: list[str]  # the names of tests, with what litmus says

    def __str__(self):
        return f"{self.passed}/{self.run}"


def run_suite(suite: str, server: Running) -> Count:
    """Runs one suite. Raises `Wrong` if it does not end with a summary."""
    program = pathlib.Path("/usr/libexec/litmus") / suite
    folder = server.folder / f"litmus-{suite}"  # It writes a log to the present folder.
    folder.mkdir()
    ran = PROCESSES.run([program, "--htdocs", "/usr/share/litmus/htdocs", f"{server.url}/"], SUITE_SECONDS, cwd=folder)
    found = re.search(r"of (\d+) tests run: (\d+) passed", ran.stdout)
    if not found:
        raise Wrong(f"litmus {suite} gives no summary: {ran.stdout.strip()[-300:]}")
    # A test that takes long is shown by dots, which are taken back.
    failed = re.findall(r"^\s*\d+\. ([a-z_0-9]+)\.*\s*FAIL(?: \((.*)\))?", ran.stdout.replace("\r", "\n"), re.M)
    return Count(int(found[2]), int(found[1]), [f"{name} ({why})" if why else name for name, why in failed])


def run(peers: list[Peer], programs: Programs, parent: pathlib.Path, checks: Checks) -> str:
    """Runs the suites against each server, and returns the table."""
    if not shutil.which("litmus"):
        checks.skip("litmus", "it is not installed")
        return ""
    rows = []
    for peer in peers:
        try:
            with Running(peer, programs, parent) as server:
                rows.append([peer.name, *(run_one(suite, server, checks) for suite in SUITES)])
        except Wrong as wrong:
            checks.fail(f"litmus against {peer.name}", str(wrong))
    return table(["server", *SUITES], rows)


def run_one(suite: str, server: Running, checks: Checks) -> str:
    """Runs a suite and counts the check. davserve must pass each test, of the others only the count is wanted."""
    name = f"litmus {suite} against {server.peer.name}"
    try:
        count = run_suite(suite, server)
    except Wrong as wrong:
        checks.fail(name, str(wrong))
        return "no summary"
    if server.peer.name in OURS and count.passed < count.run:
        checks.fail(name, f"{count}: {', '.join(count.failed)}")
        return str(count)
    checks.pass_(name, str(count))
    for failed in count.failed:
        checks.note(f"         {failed}")
    return str(count)

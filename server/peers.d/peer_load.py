"""Loads the servers by the program of server/load: with small requests, or with one large file."""
import contextlib
import json
import pathlib
import subprocess
import typing

from connection import Wrong
from peer_checks import Checks, table
from peer_servers import OURS, Peer, Programs, Running
from server import PROCESSES

# How long a round may take beyond its seconds: the first requests, and the last answers.
MORE_SECONDS = 60
# How long the PUT and the GET of a large file may take, with the time until the disk has what was written.
FILE_SECONDS = 1800
NAMES = {"get": "GET", "put": "PUT", "propfind0": "PROPFIND, Depth 0", "propfind1": "PROPFIND, Depth 1"}


class Load(typing.NamedTuple):
    """What is measured: its name in the checks, and the flags of the program."""

    name: str
    is_file: bool  # whether it is one large file, and not many requests
    flags: list[str]
    most_seconds: int  # for each server


def of_requests(seconds: int, rounds: int, connections: str, kinds: str) -> Load:
    flags = [f"-seconds={seconds}", f"-rounds={rounds}", f"-connections={connections}", f"-kinds={kinds}"]
    measured = rounds * len(connections.split(",")) * len(kinds.split(","))
    return Load("load", False, flags, measured * (seconds + MORE_SECONDS))


def of_file(size: int, rounds: int) -> Load:
    return Load("large", True, [f"-size={size}", f"-rounds={rounds}"], rounds * FILE_SECONDS)


TRIAL = of_requests(1, 1, "1", "get")


def measure(program: pathlib.Path, load: Load, servers: list[Running], json_file: pathlib.Path) -> str:
    """Loads the servers in turn, and returns the tables. Raises `Wrong` if the program fails."""
    words = [f"{it.peer.name}={it.url}" for it in servers]
    process = PROCESSES.start([program, *load.flags, "-json", json_file, *words], stdout=subprocess.PIPE)
    try:
        printed, _ = process.communicate(timeout=load.most_seconds * len(servers))
    except subprocess.TimeoutExpired:
        raise Wrong("load does not end") from None
    finally:
        PROCESSES.end(process)
    if process.returncode != 0:
        raise Wrong(f"load ends with status {process.returncode}")
    return printed.decode()


def run(peers: list[Peer], programs: Programs, parent: pathlib.Path, checks: Checks, load: Load) -> str:
    """Starts all servers, loads them, and returns the tables of the program. Requests have a table of rates before."""
    with contextlib.ExitStack() as stack:
        servers = [it for it in (started(peer, programs, parent, checks, load, stack) for peer in peers) if it]
        if not servers:
            return ""
        file = parent / "load.json"
        try:
            tables = measure(programs.load, load, servers, file)
        except Wrong as wrong:
            checks.fail(f"the {load.name}", str(wrong))
            return ""
    rows = json.loads(file.read_text())["rows"]
    judge(rows, [it.peer for it in servers], checks, load)
    head = "" if load.is_file else rates(rows)
    return f"{head}\n{tables}".strip() + "\n"


def started(peer: Peer, programs: Programs, parent: pathlib.Path, checks: Checks, load: Load, stack) -> Running | None:
    """Starts a server and loads it for a second, so that one that cannot be loaded does not stop the others."""
    try:
        server = stack.enter_context(Running(peer, programs, parent))
        measure(programs.load, TRIAL, [server], parent / "trial.json")
        return server
    except Wrong as wrong:
        checks.fail(f"{load.name} of {peer.name}", str(wrong))
        return None


def judge(rows: list[dict], peers: list[Peer], checks: Checks, load: Load):
    """Counts a check for each server: it was measured, and davserve answered each request."""
    for peer in peers:
        own = [it for it in rows if it["server"] == peer.name]
        failures = [f"{it['kind']} at {it['connections']}: {it['errors']}" for it in own if it["errors"]]
        silent = [f"{it['kind']} at {it['connections']}: nothing succeeded" for it in own if not it["rate"]]
        wrong = silent + (failures if peer.name in OURS else [])
        checks.judge(f"{load.name} of {peer.name}", "; ".join(wrong), f"{len(own)} rows")


def rates(rows: list[dict]) -> str:
    """A table of requests a second: a line for each server, a column for each kind."""
    kinds = [it for it in NAMES if any(row["kind"] == it for row in rows)]
    if not kinds:
        return ""
    servers = list(dict.fromkeys(row["server"] for row in rows))
    cells = [[name, *(rates_of(rows, name, kind) for kind in kinds)] for name in servers]
    return table(["requests/s", *(NAMES[it] for it in kinds)], cells)


def rates_of(rows: list[dict], server: str, kind: str) -> str:
    own = [it for it in rows if it["server"] == server and it["kind"] == kind]
    return " / ".join(f"{rounded(it['rate']):,}" for it in own)


def rounded(number: float) -> int:
    """A number with at most three digits that are not 0: the others say nothing about a server."""
    return int(float(f"{number:.3g}"))

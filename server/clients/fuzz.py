"""Fuzz tests: those of the Go packages, and of frames for `davd`. The gate runs one of them each time, by turns."""
import os
import pathlib
import re
import subprocess
import sys
import time
import typing

from harness import Run
from programs import SERVER, TOP
from server import PROCESSES

SECONDS = 20
MORE_SECONDS = 160
"""To build the test, and to make a failing input smaller."""
SHOWN = 8000
"""How many characters of a failing input are printed."""

TARGET = re.compile(r"^func (Fuzz\w+)\(", re.M)
FOUND = re.compile(r"^\s*Failing input written to (\S+)", re.M)
COUNT = re.compile(r"execs: (\d+)")
LATE = re.compile(r"^\s+context deadline exceeded$", re.M)
"""What Go before 1.22 fails with now and then when the time is over: https://go.dev/issue/56238."""


class Target(typing.NamedTuple):
    """A fuzz test. `package` is that of a test in Go, as in `./internal/size`, or empty for that of frames."""

    package: str
    name: str


FRAMES = Target("", "tools/fuzz-frames")


def targets() -> list[Target]:
    files = [it for it in sorted(SERVER.rglob("*_test.go"))]
    found = [Target(f"./{it.parent.relative_to(SERVER)}", name) for it in files for name in TARGET.findall(it.read_text())]
    return [*found, FRAMES]


def turn() -> int:
    """The number of commits, so that each commit has the next turn. Without git it is the number of the day."""
    words = ["git", "-C", TOP, "rev-list", "--count", "HEAD"]
    try:
        return int(subprocess.run(words, capture_output=True, text=True, timeout=20).stdout)
    except (OSError, ValueError, subprocess.TimeoutExpired):
        return int(time.time() // 86400)


def run(counts: Run, davd: pathlib.Path):
    """Runs the fuzz test whose turn it is or, if names of checks were chosen, each of these names."""
    all_, number = targets(), turn()
    chosen = [all_[number % len(all_)]]
    if counts.word:
        chosen = [it for it in all_ if counts.is_wanted(named(it))]
    for target in chosen:
        began = time.monotonic()
        wrong, note = frames(davd, number) if target == FRAMES else go(target)
        if wrong:
            counts.fail(named(target), wrong)
        else:
            counts.pass_(named(target), time.monotonic() - began)
            counts.note(f"{note}; turn {number}, {all_.index(target) + 1} of {len(all_)}")


def named(target: Target) -> str:
    return f"fuzz: {target.name} {target.package}".strip()


def go(target: Target) -> tuple[str, str]:
    """Runs a fuzz test in Go. Returns what is wrong, with the input, and how many inputs there were."""
    words = ["go", "test", "-run", "^$", "-fuzz", f"^{target.name}$", "-fuzztime", f"{SECONDS}s", "-fuzzminimizetime", "10s"]
    words += ["-parallel", str(min(2, os.cpu_count() or 1)), target.package]
    ran = PROCESSES.run(words, SECONDS + MORE_SECONDS, cwd=SERVER)
    found = FOUND.search(ran.stdout)
    if found:
        file = SERVER / target.package / found[1]
        return f"commit this input as {file.relative_to(TOP)}:\n{file.read_text()[:SHOWN]}\n{ran.stdout[-SHOWN:]}", ""
    executed = COUNT.findall(ran.stdout)
    if not executed or ran.returncode != 0 and not LATE.search(ran.stdout):
        return f"`{' '.join(words)}` ends with status {ran.returncode}:\n{ran.stdout[-SHOWN:]}", ""
    return "", f"{executed[-1]} inputs in {SECONDS} s"


def frames(davd: pathlib.Path, number: int) -> tuple[str, str]:
    """Sends davd mutated frames. The seed of a run makes its input again."""
    words = [sys.executable, "-B", TOP / "tools/fuzz-frames", "--davd", davd, "--seed", str(number)]
    words += ["--minutes", str(SECONDS / 60), "--findings", TOP / "crates/davd/out/findings"]
    ran = PROCESSES.run(words, SECONDS + MORE_SECONDS)
    if ran.returncode != 0:
        return f"`{' '.join(map(str, words))}` ends with status {ran.returncode}:\n{ran.stdout[-SHOWN:]}", ""
    return "", f"{ran.stdout.strip().splitlines()[-1]} of {SECONDS} s"

"""The checks of the Go code: its format, `go vet`, and the tests of its packages with the race detector."""
import re
import sys
import time

from harness import Run
from programs import SERVER
from server import PROCESSES

VET_SECONDS = 180
TEST_SECONDS = 600
ONE_SECONDS = 300
RESULT = re.compile(r"^(ok  |FAIL|---|\?   )\t(\S+)", re.M)


def run(counts: Run):
    format_(counts)
    vet(counts)
    packages(counts)
    scripts(counts)


def command(counts: Run, name: str, words: list, seconds: float, is_good):
    """Runs a program and counts it as passed if its status is 0 and what it printed is good."""
    if not counts.is_wanted(name):
        return
    began = time.monotonic()
    ran = PROCESSES.run(words, seconds, cwd=SERVER)
    if ran.returncode == 0 and is_good(ran.stdout):
        counts.pass_(name, time.monotonic() - began)
    else:
        counts.fail(name, f"`{' '.join(map(str, words))}` ends with status {ran.returncode}:\n{ran.stdout[-4000:]}")


def format_(counts: Run):
    command(counts, "go: gofmt -l lists no file", ["gofmt", "-l", "."], VET_SECONDS, lambda text: not text.strip())


def vet(counts: Run):
    command(counts, "go: go vet", ["go", "vet", "./..."], VET_SECONDS, lambda _: True)


def packages(counts: Run):
    """Tests the packages. Each with tests counts as one check."""
    listed = PROCESSES.run(["go", "list", "./..."], VET_SECONDS, cwd=SERVER)
    wanted = [it for it in listed.stdout.split() if counts.is_wanted(f"go: test {it}")]
    if listed.returncode != 0:
        counts.fail("go: go list", listed.stdout)
    elif wanted:
        words = ["go", "test", "-race", "-timeout", f"{ONE_SECONDS}s", *wanted]
        ran = PROCESSES.run(words, TEST_SECONDS, cwd=SERVER)
        found = {name: kind.strip() for kind, name in RESULT.findall(ran.stdout)}
        for name in wanted:
            kind = found.get(name)
            if kind == "ok":
                counts.pass_(f"go: test {name}")
            elif kind != "?":
                counts.fail(f"go: test {name}", "it failed, see below" if kind else "it has no result, see below")
        if ran.returncode != 0:
            print(ran.stdout[-20000:], flush=True)


def scripts(counts: Run):
    """Runs the check scripts that packages have beside their test data."""
    for file in sorted(SERVER.rglob("testdata/*.py")):
        name = f"go: {file.relative_to(SERVER)}"
        command(counts, name, [sys.executable, "-B", file], ONE_SECONDS, lambda _: True)

"""All suites of litmus, the test suite for WebDAV servers: plain, and below a prefix with a user."""
import re

import accounts
from connection import Wrong
from harness import Group
from server import PROCESSES, expect

TESTS = {"basic": 16, "copymove": 13, "props": 30, "locks": 41, "http": 4}
SUMMARY = re.compile(r"<- summary for `(\w+)': of (\d+) tests run: (\d+) passed, (\d+) failed")
SECONDS = 50

PLAIN = Group("litmus")
WITH_USER = Group("litmus with a user and a prefix", "-prefix", "/dav", *accounts.FLAGS, files=accounts.FILES)
GROUPS = [PLAIN, WITH_USER]


def suite(server, name: str, count: int, words: tuple[str, ...]):
    """Runs a suite. A suite that stops early has run fewer tests."""
    command = ["env", f"TESTS={name}", "litmus", "-k", server.url(f"{server.prefix}/"), *words]
    ran = PROCESSES.run(command, SECONDS, cwd=server.files)
    found = SUMMARY.search(ran.stdout)
    if not found:
        raise Wrong(f"expected a summary of litmus, got status {ran.returncode}:\n{ran.stdout}")
    got = {"run": int(found[2]), "passed": int(found[3]), "failed": int(found[4])}
    if got != {"run": count, "passed": count, "failed": 0}:
        raise Wrong(f"expected {count} tests, all passed, got {got}:\n{ran.stdout}")
    expect("exit status", ran.returncode, 0)
    return "\n         ".join(re.findall(r"WARNING: .*", ran.stdout)) or None


for group, words in ((PLAIN, ()), (WITH_USER, accounts.ANNA)):
    for name, count in TESTS.items():
        group.add(f"{name}, {count} tests", suite, name, count, words)

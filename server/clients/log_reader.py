"""A log whose reader is slow, or ends: no request waits for it."""
import contextlib
import re
import signal
import subprocess
import time

from connection import Connection, Wrong
from harness import Group, Starter
from server import PROCESSES, expect, expected, free_port

REQUESTS = 5000  # their lines are more than a pipe holds
STARTS_WITHIN, ENDS_WITHIN = 10, 10
GROUP = Group("a log", is_shared=False)
GROUPS = [GROUP]


@contextlib.contextmanager
def logging_to_a_pipe(starter: Starter):
    """A server whose log is a pipe that nobody reads, and its port."""
    port = free_port()
    command = [starter.programs.davserve, "-listen", f"127.0.0.1:{port}", "-davd", starter.programs.davd]
    process = PROCESSES.start(command, stdout=subprocess.DEVNULL, stderr=subprocess.PIPE)
    try:
        await_server(port)
        yield process, port
    finally:
        PROCESSES.end(process)


def await_server(port: int):
    until = time.monotonic() + STARTS_WITHIN
    while True:
        try:
            Connection(port).close()
            return
        except OSError:
            if time.monotonic() > until:
                raise Wrong(f"expected a server within {STARTS_WITHIN} s") from None
            time.sleep(0.05)


def answers(port: int, count: int):
    with Connection(port) as connection:
        for _ in range(count):
            connection.request("GET", "/")
            expected(connection.answer(), 200, "GET /")


def ends(process: subprocess.Popen):
    process.send_signal(signal.SIGTERM)
    try:
        expect("the exit status", process.wait(ENDS_WITHIN), 0)
    except subprocess.TimeoutExpired:
        raise Wrong(f"expected that the server ends within {ENDS_WITHIN} s of SIGTERM") from None


@GROUP.check("no request waits for a log that nobody reads, and the log says how many lines it lacks")
def unread(starter: Starter):
    with logging_to_a_pipe(starter) as (process, port):
        answers(port, REQUESTS)
        process.send_signal(signal.SIGTERM)
        log = process.stderr.read().decode()
        expect("the exit status", process.wait(ENDS_WITHIN), 0)
    lacks = sum(int(count) for count in re.findall(r"(\d+) lines of the log were dropped", log))
    expect("the requests that the log has or lacks", log.count("GET \"/\" 200") + lacks >= REQUESTS, True)


@GROUP.check("the server goes on and ends well when the reader of its log has ended")
def ended(starter: Starter):
    with logging_to_a_pipe(starter) as (process, port):
        answers(port, 10)
        process.stderr.close()
        answers(port, REQUESTS)
        ends(process)

"""How davd ends by itself: its exit status, and the line on standard error that says why."""
import subprocess

from harness import Group, Starter
from server import expect

GROUP = Group("davd alone", is_shared=False)
GROUPS = [GROUP]

USAGE = b"""\
usage: davd [-prefix PREFIX] [-anyone-unlocks] [-max-batch BYTES] [-quota BYTES] [-accept-loss] [-key KEY] [-seed SEED] [-tags PART] [FOLDER]
       davd --check FOLDER
"""
CUT = b"davd: the input ends inside a batch\n"

RIGHT = (
    [],
    ["-prefix", ""],
    ["-prefix", "/a", "-anyone-unlocks", "-prefix", "/b"],
    ["-max-batch", "0", "-anyone-unlocks", "-accept-loss"],
    ["-quota", "007"],
    ["-quota", str(2**64 - 1)],
    ["-key", str(2**63 - 1), "-seed", str(2**64 - 1)],
)

WRONG = (
    ["--check"],
    ["--check", ""],
    ["--check", "-prefix"],
    ["--check", "folder", "folder"],
    ["-anyone-unlocks", "--check", "folder"],
    ["-accept-loss", "--check", "folder"],
    ["-help"],
    [""],
    ["folder", "-anyone-unlocks"],
    ["folder", "folder"],
    ["-prefix"],
    ["-prefix", "dav"],
    ["-prefix", "/.."],
    ["-max-batch", "+5"],
    ["-quota", ""],
    ["-quota", "-1"],
    ["-quota", "5K"],
    ["-quota", str(2**64)],
    ["-key", str(2**63)],
    ["-seed", str(2**64)],
    ["-key"],
    [b"-prefix", b"/\xff"],
)


def ends(starter: Starter, words, given: bytes, status: int, said: bytes):
    """davd ends with this status and this line, and writes nothing else."""
    command = [starter.programs.davd, *words]
    ended = subprocess.run(command, input=given, capture_output=True, cwd=starter.folder, timeout=20)
    expect(f"status, output and errors of {words}", (ended.returncode, ended.stdout, ended.stderr), (status, b"", said))
    expect("what it made", [it.name for it in starter.folder.iterdir()], [])


@GROUP.check("right arguments are read")
def right(starter: Starter):
    for words in RIGHT:
        ends(starter, words, b"", 0, b"")


@GROUP.check("wrong arguments end with the usage, and nothing is read or made")
def wrong(starter: Starter):
    for words in WRONG:
        ends(starter, words, b"\0", 2, USAGE)


@GROUP.check("an input that ends inside a batch is a failure")
def cut(starter: Starter):
    for given in (b"\0", b"\0" * 23, (1).to_bytes(8) + bytes(8) + (9).to_bytes(8) + b"\0"):
        ends(starter, [], given, 3, CUT)

"""Scripts for the built davrun, how they run, and how they must end: what tools/hostile uses."""
import collections
import os
import pathlib
import resource
import signal
import subprocess
import tempfile
import typing

from tool import TOP

PROGRAM = os.environ.get("DAVRUN", TOP / "crates/davrun/out/davrun")

MEGABYTE = 1_000_000
# What a run may take: seconds of processor time, and bytes of memory.
SECONDS = 20
MEMORY = 4 << 30
# How many levels an outline has, and how many names a block's header lines have.
LEVELS = 256
NAMES = 24_576

OK = "200 OK"
CREATED = "201 Created"
NO_CONTENT = "204 No Content"
MULTI_STATUS = "207 Multi-Status"
BAD_REQUEST = "400 Bad Request"
FORBIDDEN = "403 Forbidden"
NOT_FOUND = "404 Not Found"
CONFLICT = "409 Conflict"
PRECONDITION_FAILED = "412 Precondition Failed"
RANGE_NOT_SATISFIABLE = "416 Range Not Satisfiable"
LOCKED = "423 Locked"
NOT_IMPLEMENTED = "501 Not Implemented"
INSUFFICIENT_STORAGE = "507 Insufficient Storage"

NO_MEMORY = b"davrun: no memory\n"
FAILED = b"davrun: input or output failed\n"
USAGE = b"usage: davrun [PREFIX]\n"

Run = collections.namedtuple("Run", "status wrote said seconds memory")


class Attack(typing.NamedTuple):
    """A run, and what says what is wrong with how it ended."""

    name: str
    script: bytes
    judge: typing.Callable[[Run], str]
    arguments: tuple = ()
    limits: dict = {}
    seconds: int = SECONDS
    memory: int = MEMORY


# ---- runs


def limit(limits, seconds, memory):
    """What sets the limits of a run, in its process."""
    wanted = {resource.RLIMIT_CPU: seconds + 1, resource.RLIMIT_AS: memory, resource.RLIMIT_CORE: 0, **limits}

    def set_limits():
        for kind, most in wanted.items():
            resource.setrlimit(kind, (most, most))

    return set_limits


def run(script, arguments=(), limits={}, seconds=SECONDS, memory=MEMORY, **streams):
    """How the program ends on a script, and what it took. Streams may replace its own."""
    with tempfile.TemporaryFile() as wrote, tempfile.TemporaryFile() as said, tempfile.TemporaryFile() as read:
        read.write(script)
        read.seek(0)
        streams = {"stdin": read, "stdout": wrote, "stderr": said, **streams}
        words = [PROGRAM, *arguments]
        child = subprocess.Popen(words, preexec_fn=limit(limits, seconds, memory), env={}, **streams)
        _, status, used = os.wait4(child.pid, 0)
        child.returncode = os.waitstatus_to_exitcode(status)
        wrote.seek(0)
        said.seek(0)
        took = used.ru_utime + used.ru_stime
        return Run(child.returncode, wrote.read(), said.read(), took, used.ru_maxrss * 1024)


def ill_ended(ran, seconds):
    """What is wrong with a run whatever its script is, if anything is."""
    if ran.status in (-signal.SIGXCPU, -signal.SIGKILL) or ran.seconds > seconds:
        return f"it took {ran.seconds:.1f} s, and may take {seconds}"
    if ran.status < 0:
        return f"ended by {signal.Signals(-ran.status).name}"
    if ran.status == 2 and ran.wrote:
        return f"printed {shown(ran.wrote)} with status 2"


def shown(text):
    """A text, cut where it is long."""
    return repr(text if len(text) <= 200 else text[:120] + b" .. " + text[-70:])


# ---- what must come


def ended(status, said, wrote=None):
    """It ends with this status and message and, if that is given, this output."""

    def judge(ran):
        if (ran.status, ran.said) != (status, said):
            return f"status {ran.status} and {shown(ran.said)}, and not {status} and {shown(said)}"
        if wrote is not None and ran.wrote != wrote:
            return f"printed {shown(ran.wrote)}, and not {shown(wrote)}"

    return judge


def fault(line, text):
    """The script is not served, for this fault."""
    return ended(2, f"line {line}: {text}\n".encode(), b"")


def served(replies, resources=None, locks=None, lines=()):
    """The script is served: each block has a response of this status. The resources (except the root) and the locks
    that remain are these, if they are given, and these lines are among those that are printed."""

    def judge(ran):
        if ran.status or ran.said:
            return f"status {ran.status} and {shown(ran.said)}, and not 0"
        printed = Printed(ran.wrote)
        wanted = {
            "replies": (printed.statuses, [to_bytes(it) for it in replies]),
            "resources": (printed.resources, None if resources is None else [b"/", *map(to_bytes, resources)]),
            "locks": (printed.locks, None if locks is None else [to_bytes(it) for it in locks]),
        }
        for what, (got, right) in wanted.items():
            if right is not None and got != right:
                return f"{what}: {difference(got, right)}"
        got = set(ran.wrote.split(b"\n"))
        for line in map(to_bytes, lines):
            if line not in got:
                return f"no line {shown(line)}"

    return judge


def difference(got, right):
    """The first place where two lists differ."""
    for at, (one, other) in enumerate(zip(got, right)):
        if one != other:
            return f"the one at {at} is {shown(one)}, and not {shown(other)}"
    return f"{len(got)}, and not {len(right)}"


class Printed:
    """What was printed of a script."""

    def __init__(self, text):
        head, _, end = text.rpartition(b"resources\n")
        replies = [it.split(b"\n") for it in head.split(b"\n\n") if it]
        self.statuses = [it[1] if len(it) > 1 else b"" for it in replies]
        lines = end.split(b"\n")
        at = len(lines) - 1 - lines[::-1].index(b"locks") if b"locks" in lines else 0
        self.resources = lines[:at]
        self.locks = [it for it in lines[at + 1 :] if it]


# ---- scripts


def to_bytes(text):
    return text if isinstance(text, bytes) else text.encode()


def block(*lines):
    return b"\n".join(map(to_bytes, lines)) + b"\n"


def script(*blocks):
    return b"\n".join(blocks)


def make(path):
    return block(f"MKCOL {path}")


def put(path, text="x", *lines):
    return block(f"PUT {path}", *lines, f"=bytes {text}")


def requests(method, paths, *lines):
    return [block(f"{method} {it}", *lines) for it in paths]


def tree(*lines):
    """The directive of an outline, and its lines."""
    return ("=xml", *lines)


def lock_tree(scope="exclusive", *owner):
    return tree("D:lockinfo {DAV:}", "  D:lockscope", f"    D:{scope}", "  D:locktype", "    D:write", *owner)


def update_tree(*lines):
    """The body that sets properties; their lines are four levels in."""
    return tree("D:propertyupdate {DAV:}", "  D:set {DAV:}", "    D:prop {DAV:}", *lines)


def find_tree(*lines):
    """The body that requests properties; their lines are two levels in."""
    return tree("D:propfind {DAV:}", "  D:prop {DAV:}", *lines)


def nested(first, last):
    """Elements within each other, from one level to another, which begin at 0."""
    return ["  " * it + "x" for it in range(first, last + 1)]


def path_of(count):
    return "/a" * count


def partial(place, text="x"):
    range_of = f"X-Update-Range: {place}"
    kind = "Content-Type: application/x-sabredav-partialupdate"
    return block("PATCH /f", kind, range_of, f"Content-Length: {len(text)}", f"=bytes {text}")

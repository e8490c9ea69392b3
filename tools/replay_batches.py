"""Random batches for davd, and a model of what it must answer: the third kind of test of tools/replay."""
import dataclasses
import random
import re
import typing
import urllib.parse

import davd
import frames
import scripts
from davd import Sent, Wrong
from frames import Element
from random_requests import NAMES, Asked, Framed, Key, Place, Requests, dav, framed
from tool import Progress

MOST_BATCHES = 40
MOST_BYTES = 100_000
TIMEOUTS = ("Second-0", "Second-1", "Second-5", "Second-20", "Second-600", "Second-4100000000", "Infinite", "x")
UNKNOWN = "unknown"
# Rules by which everyone may do everything, and texts without rules.
ALL_ALLOWED = """\
[groups]
nobody = []

[[rule]]
group = "nobody"
at_and_below = "/"
allow = []

[[rule]]
everyone = true
at_and_below = "/"
allow = ["list", "read", "write"]
"""
NO_RULES = ("[", "x = 1\n", "[[rule]]\neveryone = true\nat = \"a\"\nallow = []\n", "[[rule]]\nuser = \"\\u00e9\"\n")


# ---- what is sent


class Item(typing.NamedTuple):
    """An encoded frame, and what it is, or `None` if it is malformed."""

    bytes: bytes
    framed: Framed | None


@dataclasses.dataclass
class Planned:
    """A batch, its frames, and the status that it must have."""

    sent: Sent
    items: list[Item]
    status: int


@dataclasses.dataclass
class Dump(Asked):
    """The PROPFIND that lists all resources and locks."""


class Batches:
    """A source of random batches. It knows which of them are served."""

    def __init__(self, chance: random.Random, prefix: str):
        self.chance = chance
        self.prefix = prefix
        self.requests = Requests(chance, prefix, TIMEOUTS)
        self.number = 1
        self.now = chance.choice((0, 0, 1_000_000_000, frames.GREATEST - 30))
        self.bodies = 0

    def batch(self) -> Planned:
        self.now = self.next_time()
        kind = self.chance.choices(("whole", "number", "content", "large"), (40, 2, 2, 1))[0]
        bodies = self.bodies
        items = [item for _ in range(self.chance.choice((0, 1, 2, 5, 12))) for item in self.items()]
        sent = Sent(self.number, self.now, tuple(it.bytes for it in items))
        if kind == "number":
            others = (0, self.number - 1, self.number + 1, frames.GREATEST, self.chance.getrandbits(64))
            sent = sent._replace(number=self.chance.choice(others))
        if kind == "content":
            sent = sent._replace(content=self.faulty_content(list(sent.frames)))
        if kind == "large":
            sent = sent._replace(content=bytes(MOST_BYTES + 1))
        status = {"whole": 200, "number": 409, "content": 400, "large": 507}[kind]
        if status == 200 and len(frames.encode_content(sent.frames)) > MOST_BYTES:
            status = 507
        self.number += status != 409
        self.bodies = self.bodies if status == 200 else bodies
        return Planned(sent, items if status == 200 else [], status)

    def next_time(self) -> int:
        """Time mostly goes on a little, and sometimes far or back."""
        step = self.chance.choices((0, self.chance.randrange(4), 25, 700, -50), (10, 10, 2, 1, 2))[0]
        return min(max(self.now + step, 0), frames.GREATEST)

    def faulty_content(self, encoded: list[bytes]) -> bytes:
        content = frames.encode_content([*encoded, b"\6"])
        kind = self.chance.randrange(4)
        if kind == 0:
            return content + b"\0"
        if kind == 1:
            return content[: self.chance.randrange(len(content))]
        if kind == 2:
            return frames.number(self.chance.choice((len(encoded) + 2, frames.GREATEST))) + content[8:]
        return content[:8] + frames.number(frames.GREATEST - self.chance.randrange(20)) + content[16:]

    def items(self) -> list[Item]:
        kinds = {
            "request": 70, "read": 12, "next": 4, "held": 4, "backup": 2, "rights": 4, "locks": 5, "modified": 4, "body": 6,
            "malformed": 6,
        }  # fmt: skip
        kind = self.chance.choices(list(kinds), list(kinds.values()))[0]
        if kind == "malformed":
            return [Item(self.malformed(), None)]
        return [Item(frames.encode_frame(it.frame), it) for it in getattr(self, f"framed_{kind}")()]

    def framed_next(self) -> list[Framed]:
        return [Framed(frames.NextExpiry())]

    def framed_held(self) -> list[Framed]:
        return [Framed(frames.Held())]

    def framed_backup(self) -> list[Framed]:
        return [Framed(self.chance.choice((frames.BeginBackup(), frames.EndBackup())))]

    def framed_rights(self) -> list[Framed]:
        if self.chance.random() < 0.5:
            return [Framed(frames.SetRights(self.chance.choice((ALL_ALLOWED, *NO_RULES))))]
        place = self.requests.place()
        frame = frames.Explain(self.chance.choice((None, "ann")), place.path)
        return [Framed(frame, Asked(scripts.Block("", ""), place))]

    def framed_locks(self) -> list[Framed]:
        if self.chance.random() < 0.5:
            return [Framed(frames.ListLocks())]
        place, token = self.requests.place(), "urn:none"
        if self.requests.locks:
            token, _, locked = self.chance.choice(self.requests.locks[-6:])
            place = locked if self.chance.random() < 0.7 else place
        return [Framed(frames.RemoveLock(place.path, token), Asked(scripts.Block("", ""), place))]

    def framed_modified(self) -> list[Framed]:
        place = self.requests.place()
        time = self.chance.choice((0, self.now, frames.GREATEST, self.chance.getrandbits(64)))
        return [Framed(frames.SetModified(place.path, time), Asked(scripts.Block("", ""), place))]

    def framed_request(self) -> list[Framed]:
        asked = self.requests.request()
        request = scripts.request_of(asked.block, 0)
        if request.method == b"PUT" and self.bodies and self.chance.random() < 0.1:
            request = dataclasses.replace(request, body=frames.Stored(self.some_body()))
        found = framed(asked, request, self.bodies, self.chance)
        self.bodies += len(found) > 1
        return found

    def framed_body(self) -> list[Framed]:
        kind = self.chance.randrange(4)
        if kind == 0:
            self.bodies += 1
            return [Framed(frames.StartBody())]
        if kind == 1:
            return [Framed(frames.DropBody(self.some_body()))]
        return [Framed(frames.AddToBody(self.some_body(), self.chance.randbytes(self.chance.randrange(50))))]

    def some_body(self) -> int:
        return self.chance.choice((self.chance.randrange(self.bodies + 2), frames.GREATEST))

    def framed_read(self) -> list[Framed]:
        place = self.requests.place()
        offset = self.chance.choice((0, 0, self.chance.randrange(60), self.chance.getrandbits(64)))
        length = self.chance.choice((frames.GREATEST, self.chance.randrange(60), self.chance.getrandbits(64)))
        version = str(self.chance.randrange(30)) if self.chance.random() < 0.2 else None
        principal = self.chance.choice((None, "ann"))
        frame = frames.Read(principal, place.path, offset, length, version)
        return [Framed(frame, Asked(scripts.Block("", ""), place))]

    def malformed(self) -> bytes:
        """Bytes that are no frame."""
        while True:
            encoded = bytearray(self.chance.choice(self.items()).bytes)
            kind = self.chance.randrange(5)
            if kind == 0:
                encoded += self.chance.randbytes(self.chance.randint(1, 9))
            elif kind == 1 and encoded:
                del encoded[self.chance.randrange(len(encoded)) :]
            elif kind == 2:
                deep = Element("x")
                for _ in range(frames.REQUEST_LEVELS):
                    deep = Element("x", nodes=(deep,))
                encoded = bytearray(frames.encode_frame(frames.Request(b"LOCK", self.prefix + "/a", body=deep)))
            elif encoded:
                encoded[self.chance.randrange(len(encoded))] = self.chance.choice((0, 1, 5, 7, 9, 128, 255))
            if not frames.is_read(frames.decode_frame, bytes(encoded)):
                return bytes(encoded)

    def dump(self) -> Planned:
        """The batch that asks for all resources, all locks, and the bytes of all files."""
        tree = dav("propfind", dav("allprop"), dav("include", dav("lockdiscovery")))
        block = scripts.Block("PROPFIND", self.prefix + "/", [("Depth", "infinity"), ("X-Litmus", "1")], tree)
        place = Place(block.path, ())
        found = [Framed(scripts.request_of(block, 0), Dump(block, place)), *self.framed_held(), *self.framed_next()]
        found.append(Framed(frames.ListLocks()))
        for key in keys_of(3):
            path = self.prefix + "".join("/" + urllib.parse.quote(it) for it in key)
            place = Place(path or "/", key)
            found.append(Framed(frames.Read(None, place.path, 0, frames.GREATEST), Asked(block, place)))
        items = [Item(frames.encode_frame(it.frame), it) for it in found]
        planned = Planned(Sent(self.number, self.now, tuple(it.bytes for it in items)), items, 200)
        self.number += 1
        return planned


def keys_of(levels: int) -> list[Key]:
    """All keys of at most so many of the names."""
    keys = last = [()]
    for _ in range(levels):
        last = [(*key, name) for key in last for name in NAMES]
        keys = keys + last
    return keys


# ---- what must be answered


@dataclasses.dataclass
class File:
    """What is known of a file. Its bytes may be `UNKNOWN`, and the rest `None`."""

    bytes: bytes | str
    version: str | None = None
    modified: int | None = None


class Lock(typing.NamedTuple):
    key: Key
    principal: str | None
    end: int | None


class Model:
    """What davd must hold after the frames so far. A collection is `None`. Nothing is known at and below `unsure`."""

    def __init__(self, prefix: str, is_anyone_unlocking: bool, quota: int | None):
        self.prefix = prefix
        self.is_anyone_unlocking = is_anyone_unlocking
        self.quota = quota
        self.files: dict[Key, File | None] = {(): None}
        self.unsure: set[Key] = set()
        self.locks: dict[str, Lock] = {}
        self.are_locks_sure = True
        # Whether there may be locks where there is no resource. No PROPFIND lists them.
        self.may_locks_be_astray = False
        self.bodies: dict[int, bytes] = {}
        self.has_rules = False
        self.started = 0
        self.last = 0
        self.now = 0

    # ---- frames

    def check(self, item: Item, reply: frames.Reply):
        """Raises `Wrong` if this is not the reply to this frame, and changes what is held as the frame says."""
        self.locks = {it: lock for it, lock in self.locks.items() if lock.end is None or lock.end > self.now}
        if item.framed is None:
            return want(reply, frames.Failed(400))
        frame, asked = item.framed
        match frame:
            case frames.StartBody():
                want(reply, frames.BodyStarted(self.started))
                self.bodies[self.started] = b""
                self.started += 1
            case frames.AddToBody():
                if frame.number not in self.bodies:
                    return want_kind(reply, frames.Failed)
                want(reply, frames.Done())
                self.bodies[frame.number] += frame.bytes
            case frames.DropBody():
                want(reply, frames.Done())
                self.bodies.pop(frame.number, None)
            case frames.Read():
                self.check_read(frame, asked.place.key, reply)
            case frames.NextExpiry():
                ends = [it.end for it in self.locks.values() if it.end is not None]
                want_kind(reply, frames.Expiry)
                if self.are_locks_sure:
                    want(reply, frames.Expiry(min(ends, default=None)))
            case frames.Held():
                self.check_held(reply)
            case frames.BeginBackup() | frames.EndBackup():
                want(reply, frames.Done())
            case frames.SetRights():
                self.check_rights(frame, reply)
            case frames.Explain():
                self.check_explained(asked.place.key, reply)
            case frames.ListLocks():
                self.check_locks(reply)
            case frames.RemoveLock():
                self.check_removal(frame, asked.place.key, reply)
            case frames.SetModified():
                self.check_modified(frame, asked.place.key, reply)
            case frames.Request():
                want_kind(reply, frames.Response)
                self.check_request(frame, asked, reply)

    def check_rights(self, frame: frames.SetRights, reply: frames.Reply):
        if frame.rules == ALL_ALLOWED:
            self.has_rules = True
            return want(reply, frames.Done())
        want_kind(reply, frames.Refused)
        if not reply.reason:
            raise Wrong("no reason is given")

    def check_explained(self, key: Key | None, reply: frames.Reply):
        if key is None:
            return want_kind(reply, frames.Failed)
        want(reply, frames.Explained(2 if self.has_rules else None, True, True, True))

    def check_locks(self, reply: frames.Reply):
        want_kind(reply, frames.Locks)
        found = {it.token: Lock(self.key_of(it.path), it.principal, it.end) for it in reply.locks}
        if self.are_locks_sure and list(found.items()) != list(self.locks.items()):
            raise Wrong(f"davd lists the locks {found}, and the model has {self.locks}")

    def check_removal(self, frame: frames.RemoveLock, key: Key | None, reply: frames.Reply):
        if key is None:
            return want_refusal(reply)
        lock = self.locks.get(frame.token)
        if self.are_locks_sure:
            is_found = lock is not None and is_below(key, lock.key)
            want(reply, frames.Done() if is_found else frames.Failed(404))
        want_kind(reply, frames.Done | frames.Failed)
        if reply == frames.Done():
            self.locks.pop(frame.token, None)

    def check_modified(self, frame: frames.SetModified, key: Key | None, reply: frames.Reply):
        if key is None:
            want_refusal(reply)
        elif not self.is_sure(key):
            want_kind(reply, frames.Done | frames.Failed)
        elif key not in self.files:
            want(reply, frames.Failed(404))
        else:
            want(reply, frames.Done())
            if self.files[key] is not None:
                self.files[key].modified = frame.time

    def check_held(self, reply: frames.Reply):
        want_kind(reply, frames.Holdings)
        if self.are_locks_sure and reply.locks != len(self.locks):
            raise Wrong(f"{reply.locks} locks are held, and not {len(self.locks)}: {self.locks}")
        used = self.bytes_used()
        if used == UNKNOWN and reply.quota is not None:
            used = reply.quota[0]
        wanted = None if self.quota is None else (used, self.quota)
        if reply.quota != wanted:
            raise Wrong(f"the quota is {reply.quota}, and not {wanted}")

    def bytes_used(self) -> int | str:
        """The bytes of all files."""
        contents = [it.bytes for it in self.files.values() if it is not None]
        return UNKNOWN if self.unsure or UNKNOWN in contents else sum(map(len, contents))

    def is_sure(self, key: Key) -> bool:
        return not any(key[:length] in self.unsure for length in range(len(key) + 1))

    def check_read(self, frame: frames.Read, key: Key | None, reply: frames.Reply):
        if key is None:
            want_refusal(reply)
        elif not self.is_sure(key):
            want_kind(reply, frames.Part | frames.Collection | frames.Failed)
        elif key not in self.files:
            want(reply, frames.Failed(404))
        elif self.files[key] is None:
            want(reply, frames.Collection())
        else:
            self.check_part(frame, self.files[key], reply)

    def check_part(self, frame: frames.Read, file: File, reply: frames.Reply):
        if frame.version is not None:
            if file.version is None:
                return want_kind(reply, frames.Part | frames.Failed)
            if frame.version != file.version:
                return want(reply, frames.Failed(412))
        want_kind(reply, frames.Part)
        file.version = file.version or reply.version
        if file.bytes == UNKNOWN:
            length = max(0, min(frame.length, reply.length - frame.offset))
            if len(reply.bytes) != length:
                raise Wrong(f"{len(reply.bytes)} bytes of {reply.length}, and not {length}")
            return
        modified = reply.modified if file.modified is None else file.modified
        part = file.bytes[frame.offset : frame.offset + frame.length]
        want(reply, frames.Part(len(file.bytes), modified, file.version, reply.media_type, part))

    # ---- requests

    def check_request(self, request: frames.Request, asked: Asked, reply: frames.Response):
        key = asked.place.key
        if isinstance(asked, Dump):
            return self.check_dump(reply)
        if key is None:
            if reply.status < 300 and asked.block.path != "*":
                raise Wrong("a request for a path that names no resource succeeds")
            return
        self.check_owner(request, key, reply)
        if request.method == b"DELETE" and key == () and reply.status == 403 and depth_of(request) != b"0":
            return self.clear()
        change = getattr(self, f"change_{request.method.decode().lower()}", None)
        if change and request.method.isupper() and reply.status < 300:
            change(request, asked, key, reply)

    def check_owner(self, request: frames.Request, key: Key, reply: frames.Response):
        """A lock of another principal is neither removed nor refreshed, and one's own is removed."""
        named = self.locks.get(unlocked_token(request)) if request.method == b"UNLOCK" else None
        if request.method == b"LOCK" and self.body_of(request) in (None, b""):
            named = self.locks.get(submitted_token(request))
        if named is None or not self.are_locks_sure:
            return
        is_allowed = self.is_anyone_unlocking or named.principal == request.principal
        if not is_allowed and reply.status != 403:
            raise Wrong(f"status {reply.status}, and not 403, for the lock of another principal")
        if is_allowed and request.method == b"UNLOCK" and named.key == key and reply.status != 204:
            raise Wrong(f"status {reply.status}, and not 204, for the UNLOCK of a lock of {named.principal}")

    def body_of(self, request: frames.Request) -> frames.Body:
        body = request.body
        return self.bodies.get(body.number, frames.Unreadable()) if isinstance(body, frames.Stored) else body

    def add(self, key: Key, file: File | None):
        if self.is_sure(key) and self.files.get(key[:-1], 0) is not None:
            raise Wrong("a resource is created where there is no collection")
        if self.is_sure(key):
            self.files[key] = file

    def remove(self, key: Key):
        """Removes what is at and below a key, with the locks."""
        self.files = {it: file for it, file in self.files.items() if not is_below(it, key)}
        self.unsure = {it for it in self.unsure if not is_below(it, key)}
        self.locks = {it: lock for it, lock in self.locks.items() if not is_below(lock.key, key)}

    def clear(self):
        """Removes all but the root, which no request can remove. So the request fails, and no lock changes."""
        self.files, self.unsure, self.may_locks_be_astray = {(): None}, set(), True

    def doubt(self, key: Key):
        self.unsure.add(key)
        self.are_locks_sure = False

    def file_of(self, reply: frames.Response, content: bytes | str) -> File:
        tag = dict(reply.fields).get(b"etag")
        return File(content, tag.decode().strip('"') if tag else None, self.now)

    def change_put(self, request, asked, key, reply):
        body = self.body_of(request) or b""
        self.add(key, self.file_of(reply, body if isinstance(body, bytes) else UNKNOWN))

    def change_patch(self, request, asked, key, reply):
        self.add(key, self.file_of(reply, UNKNOWN))

    def change_mkcol(self, request, asked, key, reply):
        self.add(key, None)

    def change_delete(self, request, asked, key, reply):
        if reply.status == 207:
            return self.doubt(key)
        self.remove(key)

    def change_copy(self, request, asked, key, reply):
        to = asked.destination.key if asked.destination else None
        is_flat = depth_of(request) == b"0"
        is_known = self.is_sure(key) and not any(is_below(it, key) for it in self.unsure)
        if to is None or reply.status == 207 or not is_known or not self.is_sure(to):
            return self.doubt(to or ())
        if is_flat and self.files.get(to, 0) is None:
            return
        copied = [it for it in self.files if it == key or not is_flat and is_below(it, key) and not is_below(it, to)]
        found = {(*to, *it[len(key) :]): self.files[it] for it in copied}
        self.remove(to)
        for it in sorted(found, key=len):
            self.add(it, None if found[it] is None else File(found[it].bytes))

    def change_move(self, request, asked, key, reply):
        to = asked.destination.key if asked.destination else None
        self.change_copy(dataclasses.replace(request, fields=()), asked, key, reply)
        if reply.status == 207 or to is None or is_below(to, key) or is_below(key, to):
            return self.doubt(key)
        self.remove(key)

    def change_lock(self, request, asked, key, reply):
        if reply.status == 201:
            self.add(key, self.file_of(reply, b""))
        for token, timeout in active_locks(reply.tree):
            end = None if timeout is None else min(self.now + timeout, frames.GREATEST)
            lock = self.locks.get(token) or Lock(key, request.principal, end)
            self.locks[token] = lock._replace(end=end)

    def change_unlock(self, request, asked, key, reply):
        token = unlocked_token(request)
        if self.locks.pop(token, None) is None and self.are_locks_sure:
            raise Wrong(f"an UNLOCK of {token} succeeds, and there is no such lock")

    # ---- all that is there

    def check_dump(self, reply: frames.Response):
        """Compares the resources and the locks that a PROPFIND lists. From then on nothing is unsure."""
        if reply.status != 207:
            raise Wrong(f"the PROPFIND of all has status {reply.status}")
        listed = {self.key_of(text_in(it, "href")): text_in(it, "href") for it in elements(reply.tree, "response")}
        known = {it for it in self.files if self.is_sure(it)}
        other = known - set(listed) or {it for it in listed if self.is_sure(it)} - known
        if other:
            raise Wrong(f"these resources are there only in davd or only in the model: {other}")
        for key, href in listed.items():
            if not self.is_sure(key):
                self.files[key] = None if href.endswith("/") else File(UNKNOWN)
        self.files = {it: file for it, file in self.files.items() if it in listed}
        self.unsure = set()
        tokens = {token for token, _ in active_locks(reply.tree)}
        astray = {it for it, lock in self.locks.items() if lock.key not in self.files}
        if self.are_locks_sure and tokens | astray != set(self.locks):
            raise Wrong(f"davd lists the locks {sorted(tokens)}, and the model has {self.locks}")
        if not self.are_locks_sure and not self.may_locks_be_astray:
            self.locks = {it: lock for it, lock in self.locks.items() if it in tokens}
            self.are_locks_sure = True

    def key_of(self, href: str) -> Key:
        path = urllib.parse.unquote(href.removeprefix(self.prefix), errors="strict")
        return tuple(it for it in path.split("/") if it)


def want(reply: frames.Reply, wanted: frames.Reply):
    if reply != wanted:
        raise Wrong(f"the reply is {reply}, and not {wanted}")


def want_kind(reply: frames.Reply, kind):
    if not isinstance(reply, kind):
        raise Wrong(f"the reply is {reply}, and not of the kind {getattr(kind, '__name__', kind)}")


def want_refusal(reply: frames.Reply):
    """The reply to a frame whose path names no resource."""
    want_kind(reply, frames.Failed)
    if reply.status not in (400, 403, 502):
        raise Wrong(f"the status of a path that names no resource is {reply.status}")


def is_below(key: Key, top: Key) -> bool:
    """Whether a key is at or below another."""
    return key[: len(top)] == top


def depth_of(request: frames.Request) -> bytes | None:
    return dict(request.fields).get(b"Depth")


def unlocked_token(request: frames.Request) -> str | None:
    """The token of the header Lock-Token. Angle brackets around it may be left out."""
    values = [value.decode() for name, value in request.fields if name.lower() == b"lock-token"]
    return values[0].strip("<>") if values else None


def submitted_token(request: frames.Request) -> str | None:
    """The token that is all that the header If submits."""
    values = [value.decode() for name, value in request.fields if name.lower() == b"if"]
    found = re.fullmatch(r"\(<([^<> ]*)>\)", values[0]) if len(values) == 1 else None
    return found[1] if found else None


def elements(root: Element | None, name: str) -> typing.Iterator[Element]:
    """The elements of a name in a tree."""
    if root is None:
        return
    if root.name == name:
        yield root
    for node in root.nodes:
        if isinstance(node, Element):
            yield from elements(node, name)


def text_in(element: Element, name: str) -> str:
    """The text of the first element of a name."""
    return "".join(next(elements(element, name)).nodes)


def active_locks(root: Element | None) -> list[tuple[str, int | None]]:
    """The token and the timeout of each lock in a tree."""
    found = []
    for lock in elements(root, "activelock"):
        timeout = text_in(lock, "timeout")
        seconds = None if timeout == "Infinite" else int(timeout.removeprefix("Second-"))
        found.append((text_in(next(elements(lock, "locktoken")), "href"), seconds))
    return found


# ---- runs


def try_run(seed: str, count: int, program):
    """Serves so many random batches and the dump twice, and compares the answers with each other and with the model."""
    chance = random.Random(seed)
    prefix = chance.choice(("", "/dav"))
    is_anyone_unlocking = chance.random() < 0.5
    source = Batches(chance, prefix)
    plan = [source.batch() for _ in range(count)] + [source.dump()]
    quota = chance.choice((None, 0, 1000, frames.GREATEST))
    arguments = [*davd.arguments_of(prefix, is_anyone_unlocking), "-max-batch", str(MOST_BYTES)]
    arguments += [] if quota is None else ["-quota", str(quota)]
    batches = [it.sent.encode() for it in plan]
    once = davd.run(program, arguments, b"".join(batches))
    answered = davd.answers(once, len(plan))
    again = davd.converse(program, arguments, batches, chance)
    if again != once:
        at = next((it for it, (one, two) in enumerate(zip(once.wrote, again.wrote)) if one != two), "its end")
        raise Wrong(f"the second run ends with {again.status}, {again.said}, and another output from byte {at}")
    model = Model(prefix, is_anyone_unlocking, quota)
    for planned, got in zip(plan, answered):
        check_batch(model, planned, got)


def check_batch(model: Model, planned: Planned, got: frames.ReplyBatch):
    sent = planned.sent
    if planned.status != 409:
        model.last, model.now = sent.number, max(model.now, sent.now)
    if planned.status != 200:
        wanted = frames.ReplyBatch(model.last, planned.status, ())
        if got != wanted:
            raise Wrong(f"batch {sent.number} is answered with {got}, and not with {wanted}")
        return
    replies = davd.replies_of(got, sent.number, len(planned.items))
    for place, (item, reply) in enumerate(zip(planned.items, replies)):
        try:
            model.check(item, reply)
        except Wrong as wrong:
            frame = item.framed.frame if item.framed else item.bytes
            raise Wrong(f"batch {sent.number}, frame {place}, at {model.now}: {frame}\n{wrong}") from None


def try_batches(count: int, seed: str, program, progress: Progress) -> tuple[int, int]:
    passed, failed, tried, number = 0, 0, 0, 0
    chance = random.Random(seed)
    while tried < count:
        size = min(chance.randint(1, MOST_BATCHES), count - tried)
        number += 1
        progress.show(f"batch {tried}/{count}")
        try:
            try_run(f"{seed}.{number}", size, program)
            passed += 1
        except Wrong as wrong:
            failed += 1
            progress.print(f"run {number} of --batches {count} --seed {seed}: {wrong}")
        tried += size
    progress.print(f"{count} random batches in {number} runs, {failed} of which differ")
    return passed, failed

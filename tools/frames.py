"""Frames, replies, batches and trees, as bytes and back. Run as a program, it tests itself.

The grammar is that of crates/dav_wire (src/lib.rt): a number is 8 bytes, the highest first; a byte string is its
length and its bytes; a list is its count and its items; an optional value is the byte 0, or the byte 1 and the value.
Each value has exactly one encoding. `decode_..` raises `Malformed` for any other bytes.
"""
import dataclasses
import random
import sys
import typing

REQUEST_LEVELS = 256
REPLY_LEVELS = 272
HEADER_BYTES = 24
GREATEST = 2**64 - 1


class Malformed(Exception):
    """The bytes are not the encoding of such a value."""


# ---- values


@dataclasses.dataclass(frozen=True)
class Element:
    """An element of an XML tree. A node is an element or a string."""

    name: str
    prefix: str | None = None
    namespace: str | None = None
    attributes: tuple[tuple[str, str], ...] = ()
    nodes: tuple = ()


@dataclasses.dataclass(frozen=True)
class Stored:
    """The body of a request that the store holds under this number."""

    number: int


@dataclasses.dataclass(frozen=True)
class Unreadable:
    """The body of a request that should be XML and cannot be parsed."""


Body = None | bytes | Stored | Element | Unreadable
Fields = tuple[tuple[bytes, bytes], ...]


@dataclasses.dataclass(frozen=True)
class Request:
    method: bytes
    path: str
    principal: str | None = None
    token: str = "urn:none"
    fields: Fields = ()
    body: Body = None


@dataclasses.dataclass(frozen=True)
class StartBody:
    pass


@dataclasses.dataclass(frozen=True)
class AddToBody:
    number: int
    bytes: bytes


@dataclasses.dataclass(frozen=True)
class DropBody:
    number: int


@dataclasses.dataclass(frozen=True)
class Read:
    """A read of `length` bytes of a file from `offset` on. `version` is the entity tag that the file must have."""

    principal: str | None
    path: str
    offset: int
    length: int
    version: str | None = None


@dataclasses.dataclass(frozen=True)
class NextExpiry:
    pass


@dataclasses.dataclass(frozen=True)
class Held:
    pass


@dataclasses.dataclass(frozen=True)
class BeginBackup:
    pass


@dataclasses.dataclass(frozen=True)
class EndBackup:
    pass


@dataclasses.dataclass(frozen=True)
class SetRights:
    """Access rules, in TOML."""

    rules: str


@dataclasses.dataclass(frozen=True)
class Explain:
    """What do the access rules allow?"""

    principal: str | None
    path: str


@dataclasses.dataclass(frozen=True)
class ListLocks:
    pass


@dataclasses.dataclass(frozen=True)
class RemoveLock:
    """The lock with this token is removed, if its resource is at the path or above it."""

    path: str
    token: str


@dataclasses.dataclass(frozen=True)
class SetModified:
    """The resource at the path was last modified at the time."""

    path: str
    time: int


Frame = (
    Request | StartBody | AddToBody | DropBody | Read | NextExpiry | Held | BeginBackup | EndBackup | SetRights | Explain
    | ListLocks | RemoveLock | SetModified
)  # fmt: skip


@dataclasses.dataclass(frozen=True)
class Response:
    status: int
    close: bool
    fields: Fields
    tree: Element | None


@dataclasses.dataclass(frozen=True)
class BodyStarted:
    number: int


@dataclasses.dataclass(frozen=True)
class Done:
    pass


@dataclasses.dataclass(frozen=True)
class Part:
    """A part of a file. `length` is that of the whole file, and `version` its entity tag."""

    length: int
    modified: int | None
    version: str | None
    media_type: str
    bytes: bytes


@dataclasses.dataclass(frozen=True)
class Collection:
    pass


@dataclasses.dataclass(frozen=True)
class Expiry:
    time: int | None


@dataclasses.dataclass(frozen=True)
class Holdings:
    """How many locks are held and, if it is known, the bytes in use and their limit, if there is one."""

    locks: int
    quota: tuple[int, int | None] | None


@dataclasses.dataclass(frozen=True)
class Failed:
    status: int


@dataclasses.dataclass(frozen=True)
class Refused:
    """Why the text of a frame was refused."""

    reason: str


@dataclasses.dataclass(frozen=True)
class Explained:
    """What the access rules allow, and the number of the rule that decides."""

    rule: int | None
    is_listed: bool
    is_read: bool
    is_written: bool


@dataclasses.dataclass(frozen=True)
class Lock:
    """A lock of the resource at the path and, if it is deep, of everything below it. `end` is when it expires."""

    token: str
    path: str
    principal: str | None
    is_deep: bool
    is_shared: bool
    end: int | None


@dataclasses.dataclass(frozen=True)
class Locks:
    """All locks, the oldest first."""

    locks: tuple[Lock, ...]


Reply = Response | BodyStarted | Done | Part | Collection | Expiry | Holdings | Failed | Refused | Explained | Locks


@dataclasses.dataclass(frozen=True)
class ReplyBatch:
    number: int
    status: int
    replies: tuple[bytes, ...]


# ---- writing


def number(value: int) -> bytes:
    return value.to_bytes(8, "big")


def text(value: bytes) -> bytes:
    return number(len(value)) + value


def string(value: str) -> bytes:
    return text(value.encode())


def optional(write: typing.Callable, value) -> bytes:
    return b"\0" if value is None else b"\1" + write(value)


def many(write: typing.Callable, values) -> bytes:
    return number(len(values)) + b"".join(map(write, values))


def field(value: tuple[bytes, bytes]) -> bytes:
    return text(value[0]) + text(value[1])


def attribute(value: tuple[str, str]) -> bytes:
    return string(value[0]) + string(value[1])


def tag(element: Element) -> bytes:
    named = string(element.name) + optional(string, element.prefix) + optional(string, element.namespace)
    return named + many(attribute, element.attributes)


def tree(root: Element) -> bytes:
    """Writes a tree of any depth."""
    wrote, unclosed = [tag(root)], [iter(root.nodes)]
    while unclosed:
        node = next(unclosed[-1], None)
        if node is None:
            wrote.append(b"\0")
            unclosed.pop()
        elif isinstance(node, str):
            wrote.append(b"\2" + string(node))
        else:
            wrote.append(b"\1" + tag(node))
            unclosed.append(iter(node.nodes))
    return b"".join(wrote)


def body(value: Body) -> bytes:
    match value:
        case None:
            return b"\0"
        case bytes():
            return b"\1" + text(value)
        case Stored():
            return b"\2" + number(value.number)
        case Element():
            return b"\3" + tree(value)
        case Unreadable():
            return b"\4"


def encode_frame(frame: Frame) -> bytes:
    match frame:
        case Request():
            head = text(frame.method) + string(frame.path) + optional(string, frame.principal) + string(frame.token)
            return b"\0" + head + many(field, frame.fields) + body(frame.body)
        case StartBody():
            return b"\1"
        case AddToBody():
            return b"\2" + number(frame.number) + text(frame.bytes)
        case DropBody():
            return b"\3" + number(frame.number)
        case Read():
            head = optional(string, frame.principal) + string(frame.path)
            return b"\4" + head + number(frame.offset) + number(frame.length) + optional(string, frame.version)
        case NextExpiry():
            return b"\5"
        case Held():
            return b"\6"
        case BeginBackup():
            return b"\7"
        case EndBackup():
            return b"\x08"
        case SetRights():
            return b"\x09" + string(frame.rules)
        case Explain():
            return b"\x0a" + optional(string, frame.principal) + string(frame.path)
        case ListLocks():
            return b"\x0b"
        case RemoveLock():
            return b"\x0c" + string(frame.path) + string(frame.token)
        case SetModified():
            return b"\x0d" + string(frame.path) + number(frame.time)


def quota(value: tuple[int, int | None]) -> bytes:
    return number(value[0]) + optional(number, value[1])


def lock(value: Lock) -> bytes:
    head = string(value.token) + string(value.path) + optional(string, value.principal)
    return head + bytes([value.is_deep, value.is_shared]) + optional(number, value.end)


def encode_reply(reply: Reply) -> bytes:
    match reply:
        case Response():
            head = number(reply.status) + bytes([reply.close])
            return b"\0" + head + many(field, reply.fields) + optional(tree, reply.tree)
        case BodyStarted():
            return b"\1" + number(reply.number)
        case Done():
            return b"\2"
        case Part():
            head = number(reply.length) + optional(number, reply.modified) + optional(string, reply.version)
            return b"\3" + head + string(reply.media_type) + text(reply.bytes)
        case Collection():
            return b"\4"
        case Expiry():
            return b"\5" + optional(number, reply.time)
        case Holdings():
            return b"\6" + number(reply.locks) + optional(quota, reply.quota)
        case Failed():
            return b"\7" + number(reply.status)
        case Refused():
            return b"\x08" + string(reply.reason)
        case Explained():
            flags = bytes([reply.is_listed, reply.is_read, reply.is_written])
            return b"\x09" + optional(number, reply.rule) + flags
        case Locks():
            return b"\x0a" + many(lock, reply.locks)


def encode_content(frames: typing.Sequence[bytes]) -> bytes:
    """The content of a batch of encoded frames."""
    return many(text, frames)


def with_header(batch: int, now: int, content: bytes) -> bytes:
    """A batch of this number, at this time, with this content."""
    return number(batch) + number(now) + text(content)


def encode_batch(batch: int, now: int, frames: typing.Sequence[bytes]) -> bytes:
    return with_header(batch, now, encode_content(frames))


def encode_reply_batch(batch: ReplyBatch) -> bytes:
    return number(batch.number) + number(batch.status) + many(text, batch.replies)


# ---- reading


class Reader:
    """Bytes that are read from the front."""

    def __init__(self, source: bytes):
        self.source = source
        self.place = 0

    def take(self, count: int) -> bytes:
        end = self.place + count
        if end > len(self.source):
            raise Malformed(f"{count} bytes are wanted at {self.place}, and {len(self.source) - self.place} are left")
        taken = self.source[self.place : end]
        self.place = end
        return taken

    def byte(self) -> int:
        return self.take(1)[0]

    def number(self) -> int:
        return int.from_bytes(self.take(8), "big")

    def text(self) -> bytes:
        return self.take(self.number())

    def string(self) -> str:
        try:
            return self.text().decode()
        except UnicodeDecodeError:
            raise Malformed(f"the string before {self.place} is not UTF-8") from None

    def flag(self) -> bool:
        return self.kind(2, "a flag") == 1

    def kind(self, count: int, what: str) -> int:
        """Reads a byte below `count`."""
        byte = self.byte()
        if byte >= count:
            raise Malformed(f"{byte} is not the first byte of {what}, at {self.place - 1}")
        return byte

    def optional(self, read: typing.Callable):
        return read() if self.kind(2, "an optional value") else None

    def many(self, read: typing.Callable) -> tuple:
        return tuple(read() for _ in range(self.number()))

    def field(self) -> tuple[bytes, bytes]:
        return self.text(), self.text()

    def attribute(self) -> tuple[str, str]:
        return self.string(), self.string()

    def tag(self) -> Element:
        """Reads an element without its nodes."""
        name, prefix, namespace = self.string(), self.optional(self.string), self.optional(self.string)
        attributes = self.many(self.attribute)
        keys = [key.encode() for key, _ in attributes]
        if any(one >= other for one, other in zip(keys, keys[1:])):
            raise Malformed(f"the keys before {self.place} are not in ascending order")
        return Element(name, prefix, namespace, attributes)

    def tree(self, levels: int) -> Element:
        unclosed = [(self.tag(), [])]
        while True:
            kind = self.kind(3, "a node")
            if kind == 1:
                if len(unclosed) == levels:
                    raise Malformed(f"more than {levels} levels, at {self.place - 1}")
                unclosed.append((self.tag(), []))
            elif kind == 2:
                unclosed[-1][1].append(self.string())
            else:
                element, nodes = unclosed.pop()
                closed = dataclasses.replace(element, nodes=tuple(nodes))
                if not unclosed:
                    return closed
                unclosed[-1][1].append(closed)

    def body(self) -> Body:
        match self.kind(5, "a body"):
            case 0:
                return None
            case 1:
                return self.text()
            case 2:
                return Stored(self.number())
            case 3:
                return self.tree(REQUEST_LEVELS)
            case _:
                return Unreadable()

    def frame(self) -> Frame:
        match self.kind(14, "a frame"):
            case 0:
                method, path, principal = self.text(), self.string(), self.optional(self.string)
                return Request(method, path, principal, self.string(), self.many(self.field), self.body())
            case 1:
                return StartBody()
            case 2:
                return AddToBody(self.number(), self.text())
            case 3:
                return DropBody(self.number())
            case 4:
                principal, path = self.optional(self.string), self.string()
                return Read(principal, path, self.number(), self.number(), self.optional(self.string))
            case 5:
                return NextExpiry()
            case 6:
                return Held()
            case 7:
                return BeginBackup()
            case 8:
                return EndBackup()
            case 9:
                return SetRights(self.string())
            case 10:
                return Explain(self.optional(self.string), self.string())
            case 11:
                return ListLocks()
            case 12:
                return RemoveLock(self.string(), self.string())
            case _:
                return SetModified(self.string(), self.number())

    def quota(self) -> tuple[int, int | None]:
        return self.number(), self.optional(self.number)

    def lock(self) -> Lock:
        token, path, principal = self.string(), self.string(), self.optional(self.string)
        return Lock(token, path, principal, self.flag(), self.flag(), self.optional(self.number))

    def reply(self) -> Reply:
        match self.kind(11, "a reply"):
            case 0:
                status, close, fields = self.number(), self.flag(), self.many(self.field)
                return Response(status, close, fields, self.optional(lambda: self.tree(REPLY_LEVELS)))
            case 1:
                return BodyStarted(self.number())
            case 2:
                return Done()
            case 3:
                length, modified, version = self.number(), self.optional(self.number), self.optional(self.string)
                return Part(length, modified, version, self.string(), self.text())
            case 4:
                return Collection()
            case 5:
                return Expiry(self.optional(self.number))
            case 6:
                return Holdings(self.number(), self.optional(self.quota))
            case 7:
                return Failed(self.number())
            case 8:
                return Refused(self.string())
            case 9:
                return Explained(self.optional(self.number), self.flag(), self.flag(), self.flag())
            case _:
                return Locks(self.many(self.lock))

    def reply_batch(self) -> ReplyBatch:
        return ReplyBatch(self.number(), self.number(), self.many(self.text))

    def is_at_end(self) -> bool:
        return self.place == len(self.source)

    def end(self, value):
        """Returns the value if all bytes are read."""
        if not self.is_at_end():
            raise Malformed(f"{len(self.source) - self.place} bytes too many")
        return value


def decode_frame(source: bytes) -> Frame:
    reader = Reader(source)
    return reader.end(reader.frame())


def decode_reply(source: bytes) -> Reply:
    reader = Reader(source)
    return reader.end(reader.reply())


def decode_content(source: bytes) -> tuple[bytes, ...]:
    """The encoded frames of the content of a batch."""
    reader = Reader(source)
    return reader.end(reader.many(reader.text))


def decode_reply_batches(source: bytes) -> list[ReplyBatch]:
    """The batches of replies that are the whole output of `davd`."""
    reader, batches = Reader(source), []
    while not reader.is_at_end():
        batches.append(reader.reply_batch())
    return batches


def status_of(content: bytes, most: int = GREATEST) -> int:
    """The status of a batch with the right number and this content, if it may have so many bytes."""
    if len(content) > most:
        return 507
    try:
        decode_content(content)
    except Malformed:
        return 400
    return 200


# ---- the test of this module

LEAF = Element("owner", "D", "DAV:", (("a", "1"), ("b", "\u00e9")), ("text", Element("x"), ""))
FRAMES = [
    Request(b"PUT", "/a", "p", "urn:1", ((b"depth", b"0"), (b"x", b"\xff")), b"\0\1"),
    Request(b"MKCOL", "/\u00e9"),
    Request(b"PUT", "/a", body=Stored(GREATEST)),
    Request(b"LOCK", "/a", body=LEAF),
    Request(b"LOCK", "/a", body=Unreadable()),
    StartBody(),
    AddToBody(1, b"more"),
    DropBody(2),
    Read(None, "/a", 0, 10),
    Read("p", "/a", 1, GREATEST, '"1"'),
    NextExpiry(),
    Held(),
    BeginBackup(),
    EndBackup(),
    SetRights("# no rules\n"),
    Explain("p", "/a"),
    Explain(None, "/"),
    ListLocks(),
    RemoveLock("/a", "urn:1"),
    SetModified("/a", 7),
]
REPLIES = [
    Response(207, False, ((b"etag", b'"1"'),), LEAF),
    Response(400, True, (), None),
    BodyStarted(3),
    Done(),
    Part(5, 7, "1", "text/plain", b"hello"),
    Part(0, None, None, "", b""),
    Collection(),
    Expiry(None),
    Expiry(60),
    Holdings(2, None),
    Holdings(0, (1, None)),
    Holdings(0, (1, 2)),
    Failed(404),
    Refused("rule 1: a rule is a table"),
    Explained(None, True, False, False),
    Explained(3, False, True, True),
    Locks(()),
    Locks((Lock("urn:1", "/a%20b", "p", True, False, 60), Lock("urn:2", "/", None, False, True, None))),
]
# By hand from the grammar.
WRITTEN = [
    (encode_frame, DropBody(258), b"\3\0\0\0\0\0\0\1\2"),
    (encode_frame, Read(None, "/", 1, 2), b"\4\0" + b"\0" * 7 + b"\1/" + b"\0" * 7 + b"\1" + b"\0" * 7 + b"\2\0"),
    (encode_frame, BeginBackup(), b"\7"),
    (encode_frame, EndBackup(), b"\x08"),
    (encode_frame, SetRights("x"), b"\x09" + b"\0" * 7 + b"\1x"),
    (encode_frame, Explain(None, "/"), b"\x0a\0" + b"\0" * 7 + b"\1/"),
    (encode_frame, ListLocks(), b"\x0b"),
    (encode_frame, RemoveLock("/", "t"), b"\x0c" + b"\0" * 7 + b"\1/" + b"\0" * 7 + b"\1t"),
    (encode_frame, SetModified("/", 2), b"\x0d" + b"\0" * 7 + b"\1/" + b"\0" * 7 + b"\2"),
    (encode_reply, Refused("x"), b"\x08" + b"\0" * 7 + b"\1x"),
    (encode_reply, Explained(2, True, False, True), b"\x09\1" + b"\0" * 7 + b"\2\1\0\1"),
    (
        encode_reply,
        Locks((Lock("t", "/", "p", True, False, 2), Lock("u", "/", None, False, True, None))),
        b"\x0a" + b"\0" * 7 + b"\2"
        + b"\0" * 7 + b"\1t" + b"\0" * 7 + b"\1/\1" + b"\0" * 7 + b"\1p\1\0\1" + b"\0" * 7 + b"\2"
        + b"\0" * 7 + b"\1u" + b"\0" * 7 + b"\1/\0\0\1\0",
    ),  # fmt: skip
    (encode_reply, Failed(507), b"\7\0\0\0\0\0\0\1\xfb"),
    (encode_reply, Expiry(1), b"\5\1\0\0\0\0\0\0\0\1"),
    (tree, Element("n", nodes=("t",)), b"\0" * 7 + b"\1n\0\0" + b"\0" * 8 + b"\2" + b"\0" * 7 + b"\1t\0"),
    (encode_content, [b"\6"], b"\0" * 7 + b"\1" + b"\0" * 7 + b"\1\6"),
]


def nested(levels: int) -> Element:
    """A tree of so many levels."""
    element = Element("x")
    for _ in range(levels - 1):
        element = Element("x", nodes=(element,))
    return element


def is_read(decode: typing.Callable, source: bytes) -> bool:
    try:
        decode(source)
    except Malformed:
        return False
    return True


def check_inverse(values: list, encode: typing.Callable, decode: typing.Callable):
    """Each value is read back. Whatever other bytes can be read have their value as their only encoding."""
    chance = random.Random(1)
    for value in values:
        wrote = encode(value)
        assert decode(wrote) == value, value
        assert not is_read(decode, wrote + b"\0"), value
        assert not any(is_read(decode, wrote[:end]) for end in range(len(wrote))), value
        for _ in range(300):
            other = bytearray(wrote)
            other[chance.randrange(len(other))] = chance.choice((0, 1, 2, 3, 255, chance.randrange(256)))
            if is_read(decode, bytes(other)):
                assert encode(decode(bytes(other))) == other, other


def check_levels():
    for levels in (256, 257, 272, 273):
        frame = encode_frame(Request(b"LOCK", "/", body=nested(levels)))
        reply = encode_reply(Response(200, False, (), nested(levels)))
        assert is_read(decode_frame, frame) == (levels <= 256), levels
        assert is_read(decode_reply, reply) == (levels <= 272), levels


def test():
    for encode, value, wrote in WRITTEN:
        assert encode(value) == wrote, value
    check_inverse(FRAMES, encode_frame, decode_frame)
    check_inverse(REPLIES, encode_reply, decode_reply)
    check_levels()
    for attributes in ((("b", ""), ("a", "")), (("a", ""), ("a", ""))):
        assert not is_read(decode_frame, encode_frame(Request(b"LOCK", "/", body=Element("x", attributes=attributes))))
    assert not is_read(decode_frame, encode_frame(Read(None, "/", 0, 0)).replace(b"/", b"\xff"))
    assert not any(is_read(decode_frame, bytes([kind])) for kind in range(14, 256))
    batches = [ReplyBatch(1, 200, tuple(map(encode_reply, REPLIES))), ReplyBatch(3, 409, ())]
    assert decode_reply_batches(b"".join(map(encode_reply_batch, batches))) == batches
    content = encode_content([encode_frame(it) for it in FRAMES])
    assert [decode_frame(it) for it in decode_content(content)] == FRAMES
    assert [status_of(content), status_of(content, 9)] == [200, 507]
    assert [status_of(content[:-1]), status_of(content + b"x")] == [400, 400]


if __name__ == "__main__":
    test()
    print(f"{len(FRAMES)} frames and {len(REPLIES)} replies are written and read")
    sys.exit(0)

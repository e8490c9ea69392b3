#!/usr/bin/env python3
"""Checks the vectors of the tests of package frame against tools/frames.py, a codec in Python.

    testdata/vectors.py           checks the vectors
    testdata/vectors.py -write    writes them

A line of a file of vectors is a name and bytes in hexadecimal. The tests in Go have the same names and values. They
check that Go encodes each value of frames.txt to its bytes, decodes the bytes of replies.txt to each value, and refuses
those of malformed.txt.
"""
import pathlib
import sys

HERE = pathlib.Path(__file__).resolve().parent
sys.dont_write_bytecode = True
sys.path.insert(0, str(HERE.parents[3] / "tools"))

import frames  # noqa: E402
from frames import Element  # noqa: E402

TREE = Element(
    "multistatus", "D", "DAV:", (("a", ""), ("xmlns:D", "DAV:"), ("xmlns:\uffff", "1"), ("xmlns:\U00010000", "2")),
    ("\n", Element("response", "D", "DAV:", (), (Element("href", "D", "DAV:", (), ("/\u00e9",)),)), "", Element("x")),
)  # fmt: skip
FIELDS = ((b"depth", b"0"), (b"x-bytes", b"\x00\xff"), (b"", b""))

FRAMES = {
    "request-without-body": frames.Request(b"MKCOL", "/%C3%A9", None, "urn:t"),
    "request-of-principal": frames.Request(b"MKCOL", "/\u00e9\U0001f600", "p", "urn:t", FIELDS),
    "request-of-empty-strings": frames.Request(b"", "", "", ""),
    "request-of-bytes": frames.Request(b"PUT", "/a", "p", "urn:t", FIELDS[:1], b"\x00\x01\xff"),
    "request-of-no-bytes": frames.Request(b"PUT", "/a", None, "urn:t", (), b""),
    "request-of-stored": frames.Request(b"PUT", "/a", None, "urn:t", (), frames.Stored(frames.GREATEST)),
    "request-of-element": frames.Request(b"LOCK", "/a", None, "urn:t", (), TREE),
    "request-of-malformed": frames.Request(b"LOCK", "/a", None, "urn:t", (), frames.Unreadable()),
    "start-body": frames.StartBody(),
    "add-to-body": frames.AddToBody(258, b"more"),
    "add-nothing-to-body": frames.AddToBody(frames.GREATEST, b""),
    "drop-body": frames.DropBody(3),
    "read": frames.Read(None, "/a", 0, 10),
    "read-of-version": frames.Read("p", "/\u00e9", 2**32, frames.GREATEST, "5-1"),
    "next-expiry": frames.NextExpiry(),
    "held": frames.Held(),
    "begin-backup": frames.BeginBackup(),
    "end-backup": frames.EndBackup(),
    "set-rights": frames.SetRights('[[rule]]\nuser = "\u00e9"\n'),
    "set-no-rights": frames.SetRights(""),
    "explain": frames.Explain(None, "/%C3%A9"),
    "explain-principal": frames.Explain("p", "/a"),
    "list-locks": frames.ListLocks(),
    "remove-lock": frames.RemoveLock("/%C3%A9", "urn:t"),
    "set-modified": frames.SetModified("/\u00e9", frames.GREATEST),
}

REPLIES = {
    "response": frames.Response(201, False, (), None),
    "response-close": frames.Response(400, True, FIELDS, None),
    "response-with-tree": frames.Response(207, False, FIELDS[:1], TREE),
    "response-with-empty-namespace": frames.Response(207, False, (), Element("x", "", "", (), ("t",))),
    "response-with-greatest-status": frames.Response(999, False, (), None),
    "response-with-least-status": frames.Response(100, False, (), None),
    "body-started": frames.BodyStarted(frames.GREATEST),
    "done": frames.Done(),
    "part": frames.Part(2**40, 7, "5-1", "text/plain;charset=\u00fc", b"hello\x00\xff"),
    "part-of-empty-file": frames.Part(0, None, None, "", b""),
    "part-with-empty-version": frames.Part(0, 0, "", "", b""),
    "collection": frames.Collection(),
    "expiry": frames.Expiry(60),
    "expiry-of-none": frames.Expiry(None),
    "holdings": frames.Holdings(2, None),
    "holdings-without-limit": frames.Holdings(0, (1, None)),
    "holdings-with-limit": frames.Holdings(0, (1, 2)),
    "failed": frames.Failed(507),
    "refused": frames.Refused("rule 3: \u00e9"),
    "refused-without-reason": frames.Refused(""),
    "explained": frames.Explained(3, True, True, False),
    "explained-write": frames.Explained(frames.GREATEST, False, False, True),
    "explained-by-no-rule": frames.Explained(None, True, False, False),
    "locks": frames.Locks((
        frames.Lock("urn:1", "/%C3%A9/", "\u00e9", True, False, 60),
        frames.Lock("urn:2", "/a", None, False, True, None),
        frames.Lock("", "", "", False, False, frames.GREATEST),
    )),
    "no-locks": frames.Locks(()),
}


def response(fields: bytes, tree: bytes) -> bytes:
    """A reply with these header fields and this optional tree."""
    return b"\0" + frames.number(207) + b"\0" + fields + tree


def rooted(root: bytes) -> bytes:
    """A response with a root of these bytes."""
    return response(frames.number(0), b"\1" + root)


def part(version: bytes, media_type: bytes, content: bytes) -> bytes:
    return b"\3" + frames.number(1) + b"\0" + version + media_type + content


def with_attributes(*keys: str) -> bytes:
    return rooted(frames.tree(Element("x", attributes=tuple((key, "") for key in keys))))


def one_lock(token: bytes, path: bytes, rest: bytes) -> bytes:
    """Locks of which there is one."""
    return b"\x0a" + frames.number(1) + token + path + rest


TAG = frames.tag(Element("x"))
BAD = frames.text(b"\xff")
TOKEN, PATH = frames.text(b"t"), frames.text(b"/")

MALFORMED = {
    "nothing": b"",
    "kind-11": b"\x0b",
    "kind-255": b"\xff",
    "done-and-a-byte": b"\2\0",
    "body-started-and-a-byte": b"\1" + frames.number(1) + b"\0",
    "body-started-cut": b"\1" + b"\0" * 7,
    "flag-2": b"\0" + frames.number(200) + b"\2" + frames.number(0) + b"\0",
    "optional-tree-2": response(frames.number(0), b"\2"),
    "optional-number-2": b"\5\2" + frames.number(1),
    "optional-quota-2": b"\6" + frames.number(1) + b"\2",
    "fields-without-bytes": response(frames.number(frames.GREATEST), b""),
    "fields-whose-length-overflows": response(frames.number(2**60), b"\0"),
    "fields-one-too-many": response(frames.number(2) + frames.field((b"a", b"b")), b"\0"),
    "field-cut": response(frames.number(1) + frames.text(b"a") + frames.number(9) + b"b", b""),
    "name-of-greatest-length": rooted(frames.number(frames.GREATEST)),
    "name-of-greatest-signed-length": rooted(frames.number(2**63 - 1)),
    "name-not-utf8": rooted(BAD + TAG[9:] + b"\0"),
    "prefix-not-utf8": rooted(frames.string("x") + b"\1" + BAD + b"\0" + frames.number(0) + b"\0"),
    "namespace-2": rooted(frames.string("x") + b"\0\2" + frames.number(0) + b"\0"),
    "attributes-without-bytes": rooted(TAG[:-8] + frames.number(frames.GREATEST) + b"\0"),
    "attribute-not-utf8": rooted(TAG[:-8] + frames.number(1) + frames.string("a") + BAD + b"\0"),
    "attributes-equal": with_attributes("a", "a"),
    "attributes-descending": with_attributes("a", "c", "b"),
    "attributes-prefix-after": with_attributes("ab", "a"),
    "attributes-ascending-in-utf16": with_attributes("\U00010000", "\uffff"),
    "node-3": rooted(TAG + b"\3"),
    "element-without-end": rooted(TAG),
    "element-within-without-end": rooted(TAG + b"\1" + TAG + b"\0"),
    "element-ended-twice": rooted(TAG + b"\0\0"),
    "string-not-utf8": rooted(TAG + b"\2" + BAD + b"\0"),
    "string-overlong": rooted(TAG + b"\2" + frames.text(b"\xc0\x80") + b"\0"),
    "string-surrogate": rooted(TAG + b"\2" + frames.text(b"\xed\xa0\x80") + b"\0"),
    "string-above-unicode": rooted(TAG + b"\2" + frames.text(b"\xf4\x90\x80\x80") + b"\0"),
    "string-cut-in-character": rooted(TAG + b"\2" + frames.text(b"\xe2\x82") + b"\0"),
    "version-not-utf8": part(b"\1" + BAD, frames.text(b""), frames.text(b"")),
    "media-type-not-utf8": part(b"\0", BAD, frames.text(b"")),
    "part-cut": part(b"\0", frames.text(b""), frames.number(2) + b"x"),
    "part-and-a-byte": part(b"\0", frames.text(b""), frames.number(1) + b"xy"),
    "reason-not-utf8": b"\x08" + BAD,
    "reason-cut": b"\x08" + frames.number(2) + b"x",
    "explained-rule-2": b"\x09\2" + b"\0" * 3,
    "explained-flag-2": b"\x09\0\0\2\0",
    "explained-without-write": b"\x09\0\1\1",
    "explained-and-a-byte": b"\x09\0\0\0\0\0",
    "locks-without-bytes": b"\x0a" + frames.number(frames.GREATEST),
    "locks-one-too-many": b"\x0a" + frames.number(2) + TOKEN + PATH + b"\1" + b"\0" * 7,
    "lock-token-not-utf8": one_lock(BAD, PATH, b"\0\0\0\0"),
    "lock-path-not-utf8": one_lock(TOKEN, BAD, b"\0\0\0\0"),
    "lock-principal-2": one_lock(TOKEN, PATH, b"\2\0\0\0"),
    "lock-deep-2": one_lock(TOKEN, PATH, b"\0\2\0\0"),
    "lock-shared-2": one_lock(TOKEN, PATH, b"\0\0\2\0"),
    "lock-time-cut": one_lock(TOKEN, PATH, b"\0\0\0\1" + b"\0" * 7),
    "locks-and-a-byte": one_lock(TOKEN, PATH, b"\0\0\0\0\0"),
}


def lines(vectors: dict[str, bytes]) -> str:
    return "".join(f"{name} {wrote.hex()}".rstrip() + "\n" for name, wrote in vectors.items())


def check():
    """Decodes what is encoded, with the codec in Python."""
    for value in FRAMES.values():
        assert frames.decode_frame(frames.encode_frame(value)) == value, value
    for value in REPLIES.values():
        assert frames.decode_reply(frames.encode_reply(value)) == value, value
    for name, wrote in MALFORMED.items():
        assert not frames.is_read(frames.decode_reply, wrote), name


def main(arguments: list[str]) -> int:
    if arguments not in ([], ["-write"]):
        print(__doc__, file=sys.stderr)
        return 2
    check()
    files = {
        "frames.txt": {name: frames.encode_frame(value) for name, value in FRAMES.items()},
        "replies.txt": {name: frames.encode_reply(value) for name, value in REPLIES.items()},
        "malformed.txt": MALFORMED,
    }
    if arguments:
        for name, vectors in files.items():
            (HERE / name).write_text(lines(vectors))
    stale = [name for name, vectors in files.items() if (HERE / name).read_text() != lines(vectors)]
    for name in stale:
        print(f"{name} is not what tools/frames.py encodes: run vectors.py -write")
    if not stale:
        print(f"{sum(map(len, files.values()))} vectors are what tools/frames.py encodes")
    return 1 if stale else 0


if __name__ == "__main__":
    sys.exit(main(sys.argv[1:]))

"""Frames that are not as a host sends them: cut, spliced, mixed, deep, long and many. tools/fuzz-frames sends them."""
import dataclasses
import random

import frames
from frames import Element
from random_requests import dav

NUMBERS = (0, 1, 2, 7, 8, 24, 255, 256, 257, 272, 273, 2**16, 2**31, 2**32 - 1, 2**32, 2**48, 2**63 - 1, 2**63)
BYTES = (0, 1, 2, 3, 4, 5, 6, 7, 8, 9, 0x20, 0x2F, 0x7F, 0x80, 0xC0, 0xED, 0xF4, 0xFF)

FIELDS = (
    b"if", b"destination", b"lock-token", b"timeout", b"depth", b"if-match", b"if-none-match", b"overwrite",
    b"x-update-range", b"content-type", b"content-length", b"content-range", b"expect",
)  # fmt: skip


def some_number(chance: random.Random) -> int:
    kind = chance.randrange(4)
    if kind == 0:
        return frames.GREATEST - chance.choice(NUMBERS)
    return chance.getrandbits(64) if kind == 1 else chance.choice(NUMBERS)


# ---- bytes


def flip(source: bytearray, others: list[bytes], chance: random.Random):
    for _ in range(chance.choice((1, 1, 2, 8))):
        source[chance.randrange(len(source))] ^= 1 << chance.randrange(8)


def put_byte(source: bytearray, others: list[bytes], chance: random.Random):
    source[chance.randrange(len(source))] = chance.choice(BYTES)


def put_number(source: bytearray, others: list[bytes], chance: random.Random):
    at = chance.randrange(len(source))
    source[at : at + 8] = frames.number(some_number(chance))


def change_length(source: bytearray, others: list[bytes], chance: random.Random):
    """Changes a number that may be a length a little."""
    ats = [at for at in range(len(source) - 7) if not any(source[at : at + 6])]
    if ats:
        at = chance.choice(ats[:2000])
        value = int.from_bytes(source[at : at + 8], "big") + chance.choice((-8, -1, 1, 8, 256))
        source[at : at + 8] = frames.number(value & frames.GREATEST)


def cut(source: bytearray, others: list[bytes], chance: random.Random):
    at = chance.randrange(len(source))
    del source[at : at + chance.choice((1, 8, 9, chance.randrange(1, 60), len(source)))]


def duplicate(source: bytearray, others: list[bytes], chance: random.Random):
    at = chance.randrange(len(source))
    piece = source[at : at + chance.choice((1, 8, 16, chance.randrange(1, 300)))]
    source[at:at] = piece * chance.choice((1, 1, 2, 30))


def splice(source: bytearray, others: list[bytes], chance: random.Random):
    other = chance.choice(others)
    start = chance.randrange(len(other) + 1)
    at = chance.randrange(len(source))
    source[at : at + chance.choice((0, 1, 8, 40))] = other[start : start + chance.randrange(1, 100)]


def insert(source: bytearray, others: list[bytes], chance: random.Random):
    at = chance.randrange(len(source) + 1)
    source[at:at] = chance.randbytes(chance.choice((1, 1, 8, 30)))


MUTATIONS = (flip, put_byte, put_number, change_length, cut, duplicate, splice, insert)


def mutated(source: bytes, others: list[bytes], chance: random.Random) -> bytes:
    """Changes bytes one to four times. Pieces come from others."""
    changed = bytearray(source)
    for _ in range(chance.choice((1, 1, 2, 4))):
        if changed:
            chance.choice(MUTATIONS)(changed, others, chance)
    return bytes(changed)


# ---- requests


def swapped(text: str, other: str, chance: random.Random) -> str:
    """The start of a text and the end of another."""
    return text[: chance.randrange(len(text) + 1)] + other[chance.randrange(len(other) + 1) :]


def swapped_nodes(root: Element, other: Element, chance: random.Random) -> Element:
    """A tree in which another takes the place of an element, or becomes one more node, or a name is changed."""
    nodes = list(root.nodes)
    kind = chance.randrange(4)
    if nodes and kind < 3:
        at = chance.randrange(len(nodes))
        node = nodes[at]
        is_deeper = isinstance(node, Element) and kind < 2
        nodes[at] = swapped_nodes(node, other, chance) if is_deeper else chance.choice((other, "text", ""))
        return dataclasses.replace(root, nodes=tuple(nodes))
    if kind == 3:
        names = {"name": other.name, "prefix": other.prefix, "namespace": chance.choice((None, "", "DAV:", "urn:x"))}
        return dataclasses.replace(root, **dict([chance.choice(list(names.items()))]))
    return dataclasses.replace(root, nodes=(*nodes, other))


def mixed(encoded: bytes, others: list[bytes], chance: random.Random) -> bytes:
    """A request of which parts come from other requests. Other frames stay as they are."""
    known = [it for it in (*chance.sample(others, min(8, len(others))), encoded) if it[:1] == b"\0"]
    if encoded[:1] != b"\0" or not all(frames.is_read(frames.decode_frame, it) for it in known):
        return encoded
    request = frames.decode_frame(encoded)
    for _ in range(chance.choice((1, 1, 2, 3))):
        other = frames.decode_frame(chance.choice(known))
        part = chance.choice(("method", "path", "principal", "token", "fields", "more", "field", "body", "body"))
        if part == "more":
            request = dataclasses.replace(request, fields=request.fields + other.fields)
        elif part == "field" and request.fields and other.fields:
            (name, value), (_, value_of_other) = chance.choice(request.fields), chance.choice(other.fields)
            value = swapped(value.decode("latin-1"), value_of_other.decode("latin-1"), chance).encode("latin-1")
            request = dataclasses.replace(request, fields=(*request.fields, (name, value)))
        elif part == "path" and chance.random() < 0.5:
            request = dataclasses.replace(request, path=swapped(request.path, other.path, chance))
        elif part == "body" and isinstance(request.body, Element) and isinstance(other.body, Element):
            request = dataclasses.replace(request, body=swapped_nodes(request.body, other.body, chance))
        elif part != "field":
            request = dataclasses.replace(request, **{part: getattr(other, part)})
    return frames.encode_frame(request)


# ---- frames that are large in one way


def nested(levels: int, name: str = "x") -> Element:
    """A tree of so many levels, with a text in the last."""
    element = Element(name, nodes=("text",))
    for _ in range(levels - 1):
        element = Element(name, nodes=(element,))
    return element


def request(chance: random.Random, **parts) -> frames.Request:
    method = chance.choice((b"PUT", b"LOCK", b"PROPFIND", b"PROPPATCH", b"MKCOL", b"DELETE", b"COPY", b"UNLOCK"))
    return frames.Request(**{"method": method, "path": "/a", "token": f"urn:f:{chance.getrandbits(30)}", **parts})


def update(*properties: Element) -> Element:
    return dav("propertyupdate", dav("set", dav("prop", *properties)))


def lock_info(owner: Element) -> Element:
    return dav("lockinfo", dav("lockscope", dav("exclusive")), dav("locktype", dav("write")), dav("owner", owner))


def deep_tree(chance: random.Random) -> frames.Request:
    levels = chance.choice((4, 100, 250, 255, 256, 257, 272, 273, 5000, 50_000))
    properties, lock = update(nested(levels - 3)), lock_info(nested(levels - 2))
    method, root = chance.choice(((b"PROPFIND", nested(levels)), (b"PROPPATCH", properties), (b"LOCK", lock)))
    return request(chance, method=method, body=root)


def wide_tree(chance: random.Random) -> frames.Request:
    nodes = tuple(Element(f"p{it}", None, "urn:x") for it in range(chance.choice((10, 1000, 5000))))
    find = dav("propfind", dav("prop", *nodes))
    method, root = chance.choice(((b"PROPFIND", find), (b"PROPPATCH", update(*nodes)), (b"PROPPATCH", find)))
    return request(chance, method=method, body=root)


def many_attributes(chance: random.Random) -> frames.Request:
    count = chance.choice((2, 300, 5000))
    attributes = tuple((f"k{it:06}", "v" * chance.randrange(3)) for it in range(count))
    return request(chance, body=Element("x", attributes=attributes))


def long_texts(chance: random.Random) -> frames.Request:
    long = chance.choice(("a", "/", "\u00e9", "/a", "%2e", "/..", "\0")) * chance.choice((300, 5000, 70_000))
    part = chance.choice(("method", "path", "principal", "token", "field", "value", "name", "text", "namespace"))
    match part:
        case "method":
            return request(chance, method=long.encode())
        case "path":
            return request(chance, path="/" + long)
        case "principal" | "token":
            return request(chance, **{part: long})
        case "field":
            return request(chance, fields=((long.encode(), b"x"),))
        case "value":
            return request(chance, fields=((chance.choice(FIELDS), long.encode()),))
        case "name":
            return request(chance, body=Element(long, long, "DAV:"))
        case "text":
            return request(chance, body=Element("x", nodes=(long, long)))
        case _:
            return request(chance, body=Element("x", None, long))


def many_fields(chance: random.Random) -> frames.Request:
    count = chance.choice((100, 3000, 24_576, 24_577, 30_000))
    is_one = chance.random() < 0.3
    return request(chance, fields=tuple((b"if" if is_one else b"x%d" % it, b"(<urn:x>)") for it in range(count)))


def odd_fields(chance: random.Random) -> frames.Request:
    letters = b'()<>[]"/*:; ,\t%TFW-0123456789abcNnot\\\xff\x00'
    fields = []
    for _ in range(chance.randint(1, 4)):
        value = bytes(chance.choice(letters) for _ in range(chance.choice((0, 1, 5, 20, 100))))
        fields.append((chance.choice(FIELDS), value))
    path = "/" + "".join(chance.choice(("a", "/", ".", "%", "2", "f", "?", "#", "*", "\u00e9")) for _ in range(8))
    return request(chance, path=path, fields=tuple(fields), body=chance.choice((None, b"x", frames.Unreadable())))


def odd_read(chance: random.Random) -> frames.Read:
    path = chance.choice(("/a", "/", "", "*", "/a/b", "/" * 3000))
    return frames.Read(None, path, some_number(chance), some_number(chance), chance.choice((None, "", "1" * 3000)))


def odd_body(chance: random.Random) -> frames.AddToBody:
    return frames.AddToBody(chance.choice((0, 1, some_number(chance))), bytes(chance.choice((0, 1, 100_000))))


def large_put(chance: random.Random) -> frames.Request:
    return request(chance, method=b"PUT", body=chance.randbytes(10) * chance.choice((1, 1000, 100_000)))


LARGE = (
    deep_tree, wide_tree, many_attributes, long_texts, long_texts, many_fields, odd_fields, odd_fields, odd_read,
    odd_body, large_put,
)  # fmt: skip


def large_frame(chance: random.Random) -> bytes:
    return frames.encode_frame(chance.choice(LARGE)(chance))

"""Random requests over a small tree of resources, which succeed often."""
import dataclasses
import random
import typing
import urllib.parse

import frames
from frames import Element
from scripts import Block

Key = tuple[str, ...]

NAMES = ("a", "b", "c", "d e", "\u00e9")
PRINCIPALS = (None, None, "ann", "bob")
METHODS = {
    "PUT": 22, "MKCOL": 14, "DELETE": 6, "COPY": 9, "MOVE": 8, "LOCK": 11, "UNLOCK": 8, "PROPFIND": 10, "PROPPATCH": 8,
    "PATCH": 5, "OPTIONS": 2, "GET": 1, "HEAD": 1, "POST": 1, "REPORT": 1, "copy": 1,
}  # fmt: skip
LIVE = (
    "creationdate displayname getcontentlanguage getcontentlength getcontenttype getetag getlastmodified lockdiscovery "
    "resourcetype supportedlock quota-used-bytes quota-available-bytes executable"
).split()
SPACES = ("DAV:", "urn:x", "urn:y", "", None)


class Place(typing.NamedTuple):
    """A path as a request has it, and the segments that it names, or `None` if it names no resource here."""

    path: str
    key: Key | None


@dataclasses.dataclass
class Asked:
    """A request, and the resources that its path and its header Destination name."""

    block: Block
    place: Place
    destination: Place | None = None


def dav(name: str, *nodes, attributes=()) -> Element:
    return Element(name, "D", "DAV:", tuple(attributes), nodes)


class Requests:
    """A source of random requests. `timeouts` are the values of the header Timeout."""

    def __init__(self, chance: random.Random, prefix: str, timeouts: tuple[str, ...]):
        self.chance = chance
        self.prefix = prefix
        self.timeouts = timeouts
        self.count = 0
        # The resources that there would be if each request so far had succeeded, and whether each is a collection.
        self.known: dict[Key, bool] = {(): True}
        # The tokens of the latest LOCK requests, with their principals and paths.
        self.locks: list[tuple[str, str | None, Place]] = []

    def is_rare(self, share: float) -> bool:
        return self.chance.random() < share

    # ---- paths

    def new_key(self) -> Key:
        """Often the key of a member of a collection."""
        names = tuple(self.chance.choices(NAMES, (6, 4, 2, 1, 1), k=self.chance.choice((1, 1, 2, 3))))
        if self.is_rare(0.1):
            return names
        return (*self.chance.choice([key for key, is_collection in self.known.items() if is_collection]), names[0])

    def place(self) -> Place:
        """Often the path of a resource that may exist."""
        if len(self.known) > 1 and self.is_rare(0.85):
            return self.place_of(self.chance.choice(list(self.known)[1:]))
        return self.new_place()

    def new_place(self) -> Place:
        """A path, which in one of forty cases names no resource here."""
        if self.is_rare(0.025):
            odd = ("/%zz", "a", "/../x", "/%00", "/a%2fb", "/%ff", "/elsewhere", "")
            path = self.chance.choice(odd)
            is_here = path == "/elsewhere" and not self.prefix
            return Place(path, ("elsewhere",) if is_here else None)
        return self.place_of(self.new_key() if self.is_rare(0.97) else ())

    def place_of(self, key: Key) -> Place:
        path = self.prefix + "".join("/" + self.segment(it) for it in key)
        if not key or self.is_rare(0.15):
            path += "/"
        if self.is_rare(0.03):
            path += self.chance.choice(("?x=/b", "#a", "/.", "/x/..", "//"))
        return Place(path, key)

    def segment(self, name: str) -> str:
        if self.is_rare(0.05):
            return "".join(f"%{byte:02X}" for byte in name.encode())
        return urllib.parse.quote(name)

    def locked_place(self) -> Place:
        """Often the path of a lock."""
        return self.chance.choice(self.locks)[2] if self.locks and self.is_rare(0.5) else self.place()

    # ---- header fields

    def tokens(self) -> list[str]:
        """Some of the latest tokens."""
        latest = [token for token, _, _ in self.locks[-6:]]
        return self.chance.sample(latest, self.chance.randint(0, len(latest))) or ["urn:none"]

    def condition(self) -> str:
        """A value of the header If."""
        kind = self.chance.randrange(9)
        each = [f"(<{it}>)" for it in self.tokens()]
        if kind < 5:
            return " ".join([*each, "(Not <urn:none>)"])
        if kind == 5:
            return f"<{self.place().path}> {each[0]}"
        if kind == 6:
            return f"(Not <DAV:no-lock> <{self.tokens()[0]}>)"
        if kind == 7:
            return f'(["{self.chance.randrange(60)}"]) (Not <urn:none>)'
        return self.chance.choice(("", "(<", "(<urn:none>)", "<http://host/a> (Not [\"1\"])"))

    def conditions(self) -> list[tuple[str, str]]:
        fields = []
        if self.locks and self.is_rare(0.3):
            fields.append(("If", self.condition()))
        if self.is_rare(0.06):
            tag = self.chance.choice(("*", f'"{self.chance.randrange(60)}"', 'W/"3"', '"1", "2"'))
            fields.append((self.chance.choice(("If-Match", "If-None-Match")), tag))
        return fields

    def depth(self, *values: str) -> list[tuple[str, str]]:
        if self.is_rare(0.3):
            return []
        return [("Depth", self.chance.choice((*values * 5, "0", "1", "infinity", "2", "")))]

    # ---- trees

    def prop_name(self) -> Element:
        """An element that names a property."""
        if self.is_rare(0.4):
            return dav(self.chance.choice(LIVE))
        name = self.chance.choice(("p", "q", "r"))
        space = self.chance.choice(SPACES)
        return Element(name, self.chance.choice(("x", None)) if space else None, space)

    def prop(self) -> Element:
        """An element with the value of a property."""
        inner = Element("v", nodes=("1", Element("w")))
        value = self.chance.choice(((), ("text",), ('quo"te\\\n', ""), (inner, "\u00e9")))
        attributes = (("k", 'v"'), ("xml:lang", "en")) if self.is_rare(0.2) else ()
        return dataclasses.replace(self.prop_name(), attributes=attributes, nodes=value)

    def lock_info(self) -> Element:
        owner = [dav("owner", self.chance.choice(("me", dav("href", "http://me"))))] if self.is_rare(0.4) else []
        scope = self.chance.choice(("exclusive", "exclusive", "shared"))
        return dav("lockinfo", dav("lockscope", dav(scope)), dav("locktype", dav("write")), *owner)

    def propfind(self) -> Element:
        kind = self.chance.randrange(4)
        if kind == 0:
            return dav("propfind", dav("allprop"), *[dav("include", self.prop_name())] * self.chance.randrange(2))
        if kind == 1:
            return dav("propfind", dav("propname"))
        return dav("propfind", dav("prop", *(self.prop_name() for _ in range(self.chance.randint(0, 5)))))

    def property_update(self) -> Element:
        changes = []
        for _ in range(self.chance.randint(0, 3)):
            kind, name = self.chance.choice((("set", self.prop), ("set", self.prop), ("remove", self.prop_name)))
            changes.append(dav(kind, dav("prop", *(name() for _ in range(self.chance.randint(0, 3))))))
        return dav("propertyupdate", *changes)

    def odd_body(self) -> frames.Body:
        deep = Element("x", nodes=(Element("y", "z", "", (("a", ""),), ("t", "u")),))
        return self.chance.choice((None, b"", b"<x/>", frames.Unreadable(), deep, self.lock_info(), self.propfind()))

    def bytes(self) -> bytes:
        length = self.chance.choice((0, 1, 3, 10, 40, self.chance.randrange(2000)))
        return self.chance.randbytes(length) if self.is_rare(0.5) else b"hello world " * (length // 6)

    # ---- requests

    def request(self) -> Asked:
        self.count += 1
        method = self.chance.choices(list(METHODS), list(METHODS.values()))[0]
        make = getattr(self, f"make_{method.lower()}", self.make_other)
        asked = make(method)
        block = asked.block
        if block.principal is None:
            block.principal = self.chance.choice(PRINCIPALS)
        if method in ("PUT", "DELETE", "COPY", "MOVE", "MKCOL", "PROPPATCH", "PATCH"):
            block.fields += self.conditions()
        if self.is_rare(0.02):
            block.body = self.odd_body()
        return asked

    def asked(self, method: str, place: Place, fields=(), body=None, destination=None) -> Asked:
        return Asked(Block(method, place.path, list(fields), body), place, destination)

    def make_other(self, method: str) -> Asked:
        place = Place("*", None) if method == "OPTIONS" and self.is_rare(0.2) else self.place()
        return self.asked(method, place)

    def remember(self, place: Place, is_collection: bool):
        if place.key is not None and self.known.get(place.key[:-1]) and place.key not in self.known:
            self.known[place.key] = is_collection

    def forget(self, place: Place):
        for key in [it for it in self.known if place.key and it[: len(place.key)] == place.key]:
            del self.known[key]

    def make_mkcol(self, method: str) -> Asked:
        place = self.new_place()
        self.remember(place, True)
        return self.asked(method, place)

    def make_put(self, method: str) -> Asked:
        choose = self.chance.choices((self.new_place, self.place, self.locked_place), (6, 3, 1))[0]
        place = choose()
        self.remember(place, False)
        return self.asked(method, place, body=self.bytes())

    def make_delete(self, method: str) -> Asked:
        place = self.place()
        self.forget(place)
        return self.asked(method, place, [("Depth", "0")] if self.is_rare(0.05) else [])

    def make_copy(self, method: str) -> Asked:
        destination = self.new_place() if self.is_rare(0.8) else self.place()
        path = destination.path
        if self.is_rare(0.2):
            path = "http://host" + path
        fields = [("Destination", path)] if not self.is_rare(0.03) else []
        if self.is_rare(0.3):
            fields.append(("Overwrite", self.chance.choice("TFFx")))
        place = self.place()
        fields += self.depth("infinity", "0") if method == "COPY" else self.depth("infinity")
        self.remember(destination, self.known.get(place.key, False))
        if method == "MOVE":
            self.forget(place)
        return self.asked(method, place, fields, None, destination)

    make_move = make_copy

    def make_lock(self, method: str) -> Asked:
        fields = [("Timeout", self.chance.choice(self.timeouts))] if self.is_rare(0.8) else []
        if self.locks and self.is_rare(0.3):
            token, principal, place = self.chance.choice(self.locks[-6:])
            if self.is_rare(0.1):
                place = self.place()
            asked = self.asked(method, place, [*fields, ("If", f"(<{token}>)")])
            asked.block.principal = principal
        else:
            place = self.place() if self.is_rare(0.8) else self.new_place()
            depth = [] if self.is_rare(0.15) else [("Depth", self.chance.choice(("0", "0", "0", "infinity", "1")))]
            asked = self.asked(method, place, [*fields, *depth], self.lock_info())
            asked.block.token = f"urn:t:{self.count}"
            asked.block.principal = self.chance.choice(PRINCIPALS)
            self.locks = [*self.locks[-20:], (asked.block.token, asked.block.principal, asked.place)]
        return asked

    def make_unlock(self, method: str) -> Asked:
        if not self.locks:
            return self.asked(method, self.place(), [("Lock-Token", "<urn:none>")])
        lock = self.chance.choice(self.locks[-6:])
        token, principal, place = lock
        if self.is_rare(0.8):
            self.locks.remove(lock)
        fields = [("Lock-Token", self.chance.choice((f"<{token}>",) * 12 + (token, "<>", "")))]
        asked = self.asked(method, place if self.is_rare(0.9) else self.place(), fields)
        if self.is_rare(0.7):
            asked.block.principal = principal
        return asked

    def make_propfind(self, method: str) -> Asked:
        fields = self.depth("0", "1", "infinity")
        if self.is_rare(0.5):
            fields.append(("X-Litmus", "1"))
        return self.asked(method, self.place(), fields, self.propfind() if self.is_rare(0.85) else None)

    def make_proppatch(self, method: str) -> Asked:
        return self.asked(method, self.place(), body=self.property_update())

    def make_patch(self, method: str) -> Asked:
        body = self.bytes()[:50]
        start = self.chance.randrange(20)
        end = start + len(body) - 1
        ranges = (f"bytes={start}-{end}", f"bytes={start}-", "append", "bytes=-3", f"bytes={end}-{start}", "x")
        fields = [
            ("Content-Type", "application/x-sabredav-partialupdate"),
            ("X-Update-Range", self.chance.choices(ranges, (4, 4, 4, 1, 1, 1))[0]),
            ("Content-Length", str(len(body))),
        ]
        return self.asked(method, self.place(), fields, body)


# ---- frames


class Framed(typing.NamedTuple):
    """A frame and, for a request, what it asks."""

    frame: frames.Frame
    asked: Asked | None = None


def framed(asked: Asked | None, request: frames.Request, body: int, chance: random.Random | None) -> list[Framed]:
    """The frames of a request. If its body is bytes, then by chance the store holds them under the number `body`."""
    if not isinstance(request.body, bytes) or chance is None or chance.random() < 0.6:
        return [Framed(request, asked)]
    rest, adds = request.body, []
    while rest or (not adds and chance.random() < 0.5):
        size = chance.randint(0, len(rest))
        adds.append(Framed(frames.AddToBody(body, rest[:size])))
        rest = rest[size:]
    stored = dataclasses.replace(request, body=frames.Stored(body))
    return [Framed(frames.StartBody()), *adds, Framed(stored, asked), Framed(frames.DropBody(body))]

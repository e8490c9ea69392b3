"""Scripts of davrun and what davrun prints (docs/SCRIPT.md): read, written, and turned into frames."""
import dataclasses
import re
import typing

import frames

# The reason phrases that davrun prints.
REASONS = {
    200: "OK", 201: "Created", 204: "No Content", 207: "Multi-Status", 304: "Not Modified", 400: "Bad Request",
    401: "Unauthorized", 403: "Forbidden", 404: "Not Found", 405: "Method Not Allowed", 409: "Conflict",
    411: "Length Required", 412: "Precondition Failed", 413: "Payload Too Large", 414: "URI Too Long",
    415: "Unsupported Media Type", 416: "Range Not Satisfiable", 417: "Expectation Failed", 422: "Unprocessable Entity",
    423: "Locked", 424: "Failed Dependency", 431: "Request Header Fields Too Large", 500: "Internal Server Error",
    501: "Not Implemented", 502: "Bad Gateway", 503: "Service Unavailable", 507: "Insufficient Storage",
    508: "Loop Detected",
}  # fmt: skip
ESCAPED = {"\n": "\\n", '"': '\\"', "\\": "\\\\"}
UNESCAPED = {b"n": b"\n", b'"': b'"', b"\\": b"\\"}


class NoFrames(Exception):
    """A script has what frames cannot carry, which the message names."""


@dataclasses.dataclass
class Block:
    """A block of a script. `now` is the time that it sets, and `token` that of a lock, if the block sets one."""

    method: str
    path: str
    fields: list[tuple[str, str]] = dataclasses.field(default_factory=list)
    body: frames.Body = None
    now: int | None = None
    principal: str | None = None
    token: str | None = None


# ---- reading


def read_script(script: bytes) -> list[Block]:
    """The blocks of a script without a fault. Raises `NoFrames` if one plans a refusal."""
    blocks = re.split(r"\n\n+", script.decode().strip("\n"))
    return [read_block(it.split("\n")) for it in blocks if it]


def read_block(lines: list[str]) -> Block:
    method, path = lines[0].split(" ", 1)
    block = Block(method, path)
    for at, line in enumerate(lines[1:], 1):
        if line in ("=xml", "=xml "):
            block.body = read_outline(lines[at + 1 :])
            break
        if line.startswith("="):
            read_directive(block, *line[1:].partition(" ")[::2])
        else:
            name, _, value = line.partition(":")
            block.fields.append((name, value.strip(" \t")))
    return block


def read_directive(block: Block, name: str, value: str):
    match name:
        case "bytes":
            block.body = unescaped_bytes(value)
        case "malformed":
            block.body = frames.Unreadable()
        case "now":
            block.now = int(value)
        case "principal":
            block.principal = value
        case "token":
            block.token = value
        case _:
            raise NoFrames(f"={name}")


def unescaped_bytes(value: str) -> bytes:
    escape = re.compile(rb"\\(x[0-9a-fA-F]{2}|.)", re.S)
    return escape.sub(lambda it: UNESCAPED.get(it[1]) or bytes.fromhex(it[1][1:].decode()), value.encode())


def unescaped(value: str) -> str:
    return re.sub(r"\\(.)", lambda it: "\n" if it[1] == "n" else it[1], value)


def read_outline(lines: list[str]) -> frames.Element:
    """The tree of an outline without a fault."""
    unclosed: list[tuple[frames.Element, list]] = []

    def close(level):
        while len(unclosed) > max(level, 1):
            element, nodes = unclosed.pop()
            unclosed[-1][1].append(dataclasses.replace(element, nodes=tuple(nodes)))

    for line in lines:
        text = line.lstrip(" ")
        close((len(line) - len(text)) // 2)
        if text.startswith('"'):
            unclosed[-1][1].append(unescaped(text[1:-1]))
        else:
            unclosed.append((read_tag(text), []))
    close(1)
    element, nodes = unclosed[0]
    return dataclasses.replace(element, nodes=tuple(nodes))


def read_tag(text: str) -> frames.Element:
    name, rest = re.fullmatch(r"([^ ]+)(.*)", text, re.S).groups()
    prefix, colon, local = name.partition(":")
    namespace = re.match(r" \{([^}]*)\}", rest)
    rest = rest[namespace.end() :] if namespace else rest
    attributes = [(key, unescaped(value)) for key, value in re.findall(r' ([^ ]+?)="((?:[^"\\]|\\.)*)"', rest, re.S)]
    attributes.sort(key=lambda it: it[0].encode())
    named = (local, prefix) if colon else (name, None)
    return frames.Element(*named, namespace[1] if namespace else None, tuple(attributes))


# ---- writing


def write_script(blocks: list[Block]) -> bytes:
    return "\n".join(map(write_block, blocks)).encode()


def write_block(block: Block) -> str:
    lines = [f"{block.method} {block.path}", *(f"{name}: {value}" for name, value in block.fields)]
    for name in ("now", "principal", "token"):
        value = getattr(block, name)
        lines += [] if value is None else [f"={name} {value}"]
    match block.body:
        case bytes():
            lines.append("=bytes " + "".join(map(escaped_byte, block.body)))
        case frames.Unreadable():
            lines.append("=malformed")
        case frames.Element():
            lines += ["=xml", *outline(block.body)]
    return "\n".join(lines) + "\n"


def escaped_byte(byte: int) -> str:
    letter = chr(byte)
    return ESCAPED.get(letter) or (letter if " " <= letter <= "~" else f"\\x{byte:02x}")


def quoted(text: str) -> str:
    return '"' + re.sub(r'["\n\\]', lambda it: ESCAPED[it[0]], text) + '"'


def outline(root: frames.Element) -> list[str]:
    """The lines of the outline of a tree."""
    lines, unclosed = [tag(root)], [iter(root.nodes)]
    while unclosed:
        node = next(unclosed[-1], None)
        indent = "  " * len(unclosed)
        if node is None:
            unclosed.pop()
        elif isinstance(node, str):
            lines.append(indent + quoted(node))
        else:
            lines.append(indent + tag(node))
            unclosed.append(iter(node.nodes))
    return lines


def tag(element: frames.Element) -> str:
    prefix = "" if element.prefix is None else f"{element.prefix}:"
    namespace = "" if element.namespace is None else f" {{{element.namespace}}}"
    return prefix + element.name + namespace + "".join(f" {key}={quoted(value)}" for key, value in element.attributes)


# ---- frames


def request_of(block: Block, place: int) -> frames.Request:
    """The request of the block at this place, from 1."""
    fields = tuple((name.encode(), value.encode()) for name, value in block.fields)
    token = block.token or f"urn:lock:{place}"
    return frames.Request(block.method.encode(), block.path, block.principal, token, fields, block.body)


def printed_reply(block: Block, reply: frames.Reply) -> bytes:
    """What davrun prints for a block to which this is the reply."""
    lines = [f"> {block.method} {block.path}".encode()]
    match reply:
        case frames.Response():
            lines.append(status_line(reply.status))
            lines += [name + b": " + value for name, value in sorted(reply.fields, key=lambda it: it[0])]
            lines += [] if reply.tree is None else [it.encode() for it in outline(reply.tree)]
        case _:
            lines.append(f"not a response: {reply}".encode())
    return b"\n".join(lines) + b"\n\n"


def status_line(status: int) -> bytes:
    return f"{status} {REASONS.get(status, '')}".encode()


# ---- what is left at the end


class Remains(typing.NamedTuple):
    """What davrun prints after the last response: the bytes of each file, `None` for a collection, and the locks."""

    resources: dict[str, bytes | None]
    locks: list[str]


def read_remains(text: bytes) -> Remains | None:
    """Reads what davrun prints at the end, or returns `None` if this is something else."""
    lines = text.decode().split("\n")
    if lines[0] != "resources" or "locks" not in lines:
        return None
    at = len(lines) - 1 - lines[::-1].index("locks")
    resources = {}
    for line in lines[1:at]:
        if not line.startswith(" "):
            path, space, file = line.partition(" ")
            resources[path] = unescaped_bytes(file[1:-1]) if space else None
    return Remains(resources, lines[at + 1 : -1])

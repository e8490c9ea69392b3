"""Bytes in hexadecimal with comments, as docs/FRAMES.md shows them."""
import re

TOKEN = r"[0-9a-f]{2}|'[ -&(-~]*'"
LINE = re.compile(rf"((?:{TOKEN})(?: (?:{TOKEN}))*)?(?:  .*|#.*)?")
WIDTH = 24


class Unreadable(Exception):
    """A line is not written in this way."""


def bytes_of(text: str) -> bytes:
    """The bytes that a text shows. A line has bytes as two digits each, and strings of ASCII in quotes, with one space
    between them. What follows two spaces, and a line that begins with `#`, is a comment."""
    found = b""
    for number, line in enumerate(text.splitlines(), 1):
        match = LINE.fullmatch(line)
        if not match:
            raise Unreadable(f"line {number} shows no bytes: {line}")
        for token in re.findall(TOKEN, match[1] or ""):
            found += token[1:-1].encode() if token.startswith("'") else bytes.fromhex(token)
    return found


def text_of(content: bytes) -> str:
    """Shows bytes in lines of 24."""
    lines = (content[place : place + WIDTH] for place in range(0, len(content), WIDTH))
    return "".join(line.hex(" ") + "\n" for line in lines)

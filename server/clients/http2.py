"""HTTP/2 in frames that a check writes itself (RFC 9113), so that it can break the rules."""
import socket
import ssl
import struct

from connection import Wrong

PREFACE = b"PRI * HTTP/2.0\r\n\r\nSM\r\n\r\n"
DATA, HEADERS, RST_STREAM, SETTINGS, PING, GOAWAY, WINDOW_UPDATE, CONTINUATION = 0, 1, 3, 4, 6, 7, 8, 9
END_STREAM, ACK, END_HEADERS = 1, 1, 4
INITIAL_WINDOW_SIZE = 4
CANCEL = struct.pack(">I", 8)
PIECE = 1 << 16

# The names in the static table of HPACK (RFC 7541, appendix A).
INDEXES = {":authority": 1, ":path": 4, ":scheme": 7, ":status": 8, "authorization": 23, "host": 38}


def frame(kind: int, flags: int, stream: int, payload: bytes = b"") -> bytes:
    return struct.pack(">I", len(payload))[1:] + bytes([kind, flags]) + struct.pack(">I", stream) + payload


def integer(value: int, bits: int, first: int = 0) -> bytes:
    """An integer with a prefix of so many bits (RFC 7541, section 5.1)."""
    most = (1 << bits) - 1
    if value < most:
        return bytes([first | value])
    value -= most
    coded = bytearray([first | most])
    while value >= 128:
        coded.append(value % 128 | 128)
        value //= 128
    return bytes(coded + bytes([value]))


def text(value: str) -> bytes:
    data = value.encode()
    return integer(len(data), 7) + data


def block(method: str, path: str, fields=(), authority="127.0.0.1") -> bytes:
    """A header block without Huffman codes and without the dynamic table."""
    pairs = [(":scheme", "https"), (":path", path), (":authority", authority), *dict(fields).items()]
    coded = b"\x02" + text(method)
    for name, value in pairs:
        name = name.lower()
        coded += integer(INDEXES[name], 4) if name in INDEXES else b"\0" + text(name)
        coded += text(value)
    return coded


def headers(stream: int, method: str, path: str, fields=(), is_end=True, **options) -> bytes:
    flags = END_HEADERS | (END_STREAM if is_end else 0)
    return frame(HEADERS, flags, stream, block(method, path, fields, **options))


class Http2:
    """A connection. `window` is how many bytes of each response the server may send before it is asked for more."""

    def __init__(self, port: int, window: int | None = None, seconds: float = 10, source: str | None = None):
        context = ssl.SSLContext(ssl.PROTOCOL_TLS_CLIENT)
        context.check_hostname, context.verify_mode = False, ssl.CERT_NONE
        context.set_alpn_protocols(["h2"])
        plain = socket.socket()
        plain.settimeout(seconds)
        if source:
            plain.bind((source, 0))
        plain.connect(("127.0.0.1", port))
        plain.setsockopt(socket.IPPROTO_TCP, socket.TCP_NODELAY, 1)
        self.socket = context.wrap_socket(plain)
        if self.socket.selected_alpn_protocol() != "h2":
            raise Wrong(f"expected HTTP/2, got {self.socket.selected_alpn_protocol()}")
        self.received = bytearray()
        self.next = 1
        settings = b"" if window is None else struct.pack(">HI", INITIAL_WINDOW_SIZE, window)
        self.send(PREFACE + frame(SETTINGS, 0, 0, settings))

    def __enter__(self):
        return self

    def __exit__(self, *_):
        self.close()

    def close(self):
        self.socket.close()

    def send(self, data: bytes):
        self.socket.sendall(data)

    def streams(self, count: int) -> list[int]:
        """The next streams that this client may begin."""
        first, self.next = self.next, self.next + 2 * count
        return list(range(first, self.next, 2))

    def request(self, method: str, path: str, fields=(), **options) -> int:
        """Begins a stream with a request, and returns its number."""
        (stream,) = self.streams(1)
        self.send(headers(stream, method, path, fields, **options))
        return stream

    def frames(self):
        """The frames that come, each as (kind, flags, stream, payload), until the connection ends."""
        while True:
            while len(self.received) < 9 or len(self.received) < 9 + int.from_bytes(self.received[:3], "big"):
                try:
                    piece = self.socket.recv(PIECE)
                except TimeoutError:
                    raise Wrong(f"nothing came for {self.socket.gettimeout()} s") from None
                except (ConnectionError, ssl.SSLError):
                    return
                if not piece:
                    return
                self.received += piece
            length = int.from_bytes(self.received[:3], "big")
            kind, flags = self.received[3], self.received[4]
            stream = int.from_bytes(self.received[5:9], "big")
            payload = bytes(self.received[9 : 9 + length])
            del self.received[: 9 + length]
            yield kind, flags, stream, payload

    def ends_within(self, seconds: float) -> bool:
        """Whether the server ends the connection in time."""
        self.socket.settimeout(seconds)
        try:
            for _ in self.frames():
                pass
            return True
        except Wrong:
            return False

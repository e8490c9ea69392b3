"""HTTP/1.1 over a socket, with exactly the bytes that a check sends."""
import gzip
import socket
import ssl

SECONDS = 10
PIECE = 1 << 16
SHOWN = 1500


class Wrong(Exception):
    """What came is not what must come. The message says both."""


class Cut(Wrong):
    """The connection ended inside a response. `body` has what came of its body."""

    def __init__(self, message: str, body: bytes = b""):
        super().__init__(message)
        self.body = body


class Answer:
    """A response. `interim` has the statuses of the 1xx responses before it."""

    def __init__(self, version: str, status: int, fields: list[tuple[str, str]], interim: list[int]):
        self.version = version
        self.status = status
        self.fields = fields
        self.interim = interim
        self.body = b""

    def field(self, name: str) -> str | None:
        values = [value for key, value in self.fields if key.lower() == name.lower()]
        return ", ".join(values) if values else None

    def members(self, name: str) -> set[str]:
        """The members of a field that is a list."""
        return {it.strip() for it in (self.field(name) or "").split(",") if it.strip()}

    def content(self) -> bytes:
        """The body, without the encoding that the server chose."""
        return gzip.decompress(self.body) if self.field("Content-Encoding") == "gzip" else self.body

    def is_last(self) -> bool:
        """Whether the server closes the connection after it."""
        close = "close" in {it.lower() for it in self.members("Connection")}
        return close or self.version == "HTTP/1.0"

    def __str__(self):
        head = "".join(f"\n    {key}: {value}" for key, value in self.fields)
        body = self.body[:SHOWN].decode(errors="backslashreplace")
        return f"{self.version} {self.status}{head}" + (f"\n\n    {body}" if body else "")


class Connection:
    """A connection to a server on loopback. `window` is how many bytes the system may receive ahead."""

    def __init__(self, port: int, tls=False, seconds: float = SECONDS, source: str | None = None, window=None):
        self.port = port
        self.received = bytearray()
        self.socket = socket.socket()
        self.socket.settimeout(seconds)
        if window:
            self.socket.setsockopt(socket.SOL_SOCKET, socket.SO_RCVBUF, window)
        if source:
            self.socket.bind((source, 0))
        self.socket.connect(("127.0.0.1", port))
        self.socket.setsockopt(socket.IPPROTO_TCP, socket.TCP_NODELAY, 1)
        if tls:
            context = ssl.SSLContext(ssl.PROTOCOL_TLS_CLIENT)
            context.check_hostname, context.verify_mode = False, ssl.CERT_NONE
            self.socket = context.wrap_socket(self.socket)

    def __enter__(self):
        return self

    def __exit__(self, *_):
        self.close()

    def close(self):
        self.socket.close()

    def reset(self):
        """Ends the connection as a client does that vanishes: with a TCP reset."""
        self.socket.setsockopt(socket.SOL_SOCKET, socket.SO_LINGER, b"\1\0\0\0\0\0\0\0")
        self.socket.close()

    def send(self, data: bytes | str):
        self.socket.sendall(data.encode() if isinstance(data, str) else data)

    def request(self, method: str, path: str, body: bytes | None = None, fields=()):
        """Sends a request, with `Host` and the length of the body unless the fields have them."""
        self.send(head(method, path, self.port, body, fields))
        if body:
            self.send(body)

    # ---- reading

    def more(self) -> bool:
        """Receives more bytes. Returns whether there were any before the end."""
        try:
            piece = self.socket.recv(PIECE)
        except TimeoutError:
            raise Wrong(f"nothing came for {self.socket.gettimeout()} s") from None
        except (ConnectionError, ssl.SSLError):
            piece = b""
        self.received += piece
        return bool(piece)

    def line(self) -> str:
        """Reads a line."""
        while (end := self.received.find(b"\r\n")) < 0:
            if not self.more():
                raise Cut(f"the connection ended where a line of a response was expected: {bytes(self.received)!r}")
        line = bytes(self.received[:end])
        del self.received[: end + 2]
        return line.decode("latin-1")

    def exactly(self, count: int) -> bytes:
        while len(self.received) < count:
            if not self.more():
                raise Cut(f"{len(self.received)} bytes of {count} came", bytes(self.received))
        taken = bytes(self.received[:count])
        del self.received[:count]
        return taken

    def answer(self, method: str = "GET") -> Answer:
        """Reads the response to a request of this method."""
        interim = []
        while True:
            got = self.head(interim)
            if got.status >= 200:
                break
            interim.append(got.status)
        if method != "HEAD" and got.status not in (204, 304):
            got.body = self.body(got)
        return got

    def head(self, interim=()) -> Answer:
        """Reads a status line and the header fields."""
        first = self.line()
        version, _, rest = first.partition(" ")
        if not version.startswith("HTTP/1.") or not rest[:3].isdigit():
            raise Wrong(f"expected a status line, got {first!r}")
        fields = []
        while line := self.line():
            key, colon, value = line.partition(":")
            if not colon or key != key.strip():
                raise Wrong(f"expected a header field, got {line!r}")
            fields.append((key, value.strip()))
        return Answer(version, int(rest[:3]), fields, list(interim))

    def body(self, got: Answer) -> bytes:
        coding, length = got.field("Transfer-Encoding"), got.field("Content-Length")
        if coding and length:
            raise Wrong(f"the response has a Content-Length and a Transfer-Encoding:\n{got}")
        if coding:
            return self.chunks()
        if length is not None:
            return self.exactly(int(length))
        while self.more():
            pass
        return self.exactly(len(self.received))

    def chunks(self) -> bytes:
        whole = bytearray()
        while True:
            size = int(self.line().partition(";")[0], 16)
            try:
                whole += self.exactly(size)
                end = self.line()
            except Cut as cut:
                raise Cut(str(cut), bytes(whole) + cut.body) from None
            if end:
                raise Wrong(f"expected the end of a chunk, got {end!r}")
            if size == 0:
                return bytes(whole)

    def ends_within(self, seconds: float) -> bool:
        """Whether the server ends the connection in time. What it sends before is kept."""
        self.socket.settimeout(seconds)
        try:
            while self.more():
                pass
            return True
        except Wrong:
            return False


def head(method: str, path: str, port: int, body: bytes | None = None, fields=()) -> bytes:
    """The bytes of a request up to its body."""
    pairs = list(fields.items() if isinstance(fields, dict) else fields)
    names = {key.lower() for key, _ in pairs}
    if "host" not in names:
        pairs.insert(0, ("Host", f"127.0.0.1:{port}"))
    if body is not None and not names & {"content-length", "transfer-encoding"}:
        pairs.append(("Content-Length", str(len(body))))
    lines = [f"{method} {path} HTTP/1.1", *(f"{key}: {value}" for key, value in pairs), "", ""]
    return "\r\n".join(lines).encode()


def chunked(*pieces: bytes) -> bytes:
    """A body in chunks, with its last chunk."""
    return b"".join(b"%x\r\n%s\r\n" % (len(it), it) for it in (*pieces, b""))

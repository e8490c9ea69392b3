"""A client that keeps its connection, and remembers what it sent lately."""
import base64
import collections
import time
import urllib.parse

from connection import Answer, Connection, Wrong, head

SECONDS = 120
# davserve closes an idle connection after two minutes. Shortly before, a request could be lost.
IDLE_SECONDS = 60
REMEMBERED = 12
UNESCAPED = "/-._~!$&'()*+,;=:@"


def escaped(path: str) -> str:
    """A path as it is in a URL (RFC 3986, section 3.3)."""
    return urllib.parse.quote(path, UNESCAPED)


class Client:
    """Sends the requests of a user, one after the other."""

    def __init__(self, port: int, user: str, password: str):
        self.port = port
        self.user = user
        word = base64.b64encode(f"{user}:{password}".encode()).decode()
        self.authorization = {"Authorization": f"Basic {word}"}
        self.connection: Connection | None = None
        self.used = 0.0
        self.requests = 0
        self.lately: collections.deque[str] = collections.deque(maxlen=REMEMBERED)
        self.slowest = (0.0, "no request")

    def ask(self, method: str, path: str, body: bytes | None = None, fields: dict | None = None, status=None) -> Answer:
        """Sends a request for a path, and returns the response. `status` is what it must have: a status or several."""
        began, connection = time.monotonic(), self.open()
        try:
            connection.request(method, escaped(path), body, self.complete(fields))
        except OSError:
            pass  # The server may answer before it has the whole body. The response says why.
        got = self.finish(method, path, fields)
        self.slowest = max(self.slowest, (time.monotonic() - began, f"{method} {path} {fields or ''}: {got.status}"))
        return self.expect(got, status)

    def put_after_100(self, path: str, body: bytes, fields: dict | None = None) -> Answer:
        """Sends a PUT whose body follows only after the server asks for it (RFC 9110, section 10.1.1)."""
        connection = self.open()
        sent = self.complete({**(fields or {}), "Expect": "100-continue", "Content-Length": len(body)})
        connection.send(head("PUT", escaped(path), self.port, None, sent))
        got = connection.head()
        if got.status != 100:  # Such as 412. An empty body is not asked for.
            got.body = b"" if got.status == 204 else connection.body(got)
            self.close()  # The server may wait for the body.
            return self.note("PUT", path, fields, got)
        connection.send(body)
        return self.finish("PUT", path, fields)

    def vanish(self, method: str, path: str, fields: dict, part: bytes, is_reset: bool):
        """Sends a request with only a part of its body, and ends the connection."""
        with Connection(self.port, seconds=SECONDS) as connection:
            connection.send(head(method, escaped(path), self.port, None, self.complete(fields)))
            connection.send(part)
            if is_reset:
                connection.reset()
        self.requests += 1
        self.lately.append(f"{method} {path} {fields or ''}, of which {len(part)} bytes were sent")

    def read_some(self, path: str, count: int):
        """Requests a file, and ends the connection when so many bytes of it have come."""
        with Connection(self.port, seconds=SECONDS, window=4096) as connection:
            connection.request("GET", escaped(path), None, self.complete(None))
            got = connection.head()
            if got.status == 200:
                connection.exactly(count)
            connection.reset()
        self.requests += 1
        self.lately.append(f"GET {path}, of which {count} bytes were read")
        self.expect(got, 200)

    # ---- parts of a request

    def open(self) -> Connection:
        """The connection, a new one if there is none or the present one may be closed soon."""
        if self.connection and time.monotonic() - self.used > IDLE_SECONDS:
            self.close()
        if not self.connection:
            self.connection = Connection(self.port, seconds=SECONDS)
        return self.connection

    def close(self):
        if self.connection:
            self.connection.close()
        self.connection = None

    def complete(self, fields: dict | None) -> dict:
        return {**self.authorization, **(fields or {})}

    def finish(self, method: str, path: str, fields: dict | None) -> Answer:
        """Reads the response."""
        try:
            got = self.connection.answer(method)
        except (Wrong, OSError):
            self.close()
            self.lately.append(f"{method} {path} {fields or ''}: no whole response")
            raise
        if got.is_last():
            self.close()
        return self.note(method, path, fields, got)

    def note(self, method: str, path: str, fields: dict | None, got: Answer) -> Answer:
        self.requests += 1
        self.used = time.monotonic()
        self.lately.append(f"{method} {path} {fields or ''}: {got.status}")
        return got

    def expect(self, got: Answer, status) -> Answer:
        """Raises `Wrong` if the response to the last request has not one of the statuses."""
        wanted = (status,) if isinstance(status, int) else status
        if wanted and got.status not in wanted:
            raise Wrong(f"{self.lately[-1]}, expected {' or '.join(map(str, wanted))}\n{got}")
        return got

"""Clients that write until the power is cut, and know what must be there afterwards."""
import random
import typing
import xml.etree.ElementTree as xml

from connection import Answer, Connection, Cut, Wrong
from server import expected

SECONDS = 60
NAMES = [f"{letter}{number}" for letter in "abcd" for number in range(6)]
MOST_BYTES = 40_000
Files = dict[str, bytes]


class Change(typing.NamedTuple):
    """A request that changes the files of a folder."""

    method: str
    name: str
    body: bytes = b""
    target: str = ""

    def on(self, files: Files) -> Files:
        """The files after it."""
        after = dict(files)
        if self.method == "PUT":
            after[self.name] = self.body
        elif self.method == "DELETE":
            del after[self.name]
        else:
            after[self.target] = after.pop(self.name)
        return after

    def status(self, files: Files) -> int:
        is_new = self.method == "PUT" and self.name not in files or self.method == "MOVE" and self.target not in files
        return 201 if is_new else 204


class Writer:
    """A client with a folder of its own."""

    def __init__(self, port: int, fields: dict[str, str], number: int):
        self.port, self.fields, self.number = port, fields, number
        self.choose = random.Random(number)
        self.files: Files = {}
        self.under_way: Change | None = None
        self.answered = 0
        self.wrong = ""

    def path(self, name: str = "") -> str:
        return f"/writer{self.number}/{name}"

    def ask(self, connection: Connection, method: str, path: str, body: bytes | None, more=()) -> Answer:
        connection.request(method, path, body, {**self.fields, **dict(more)})
        return connection.answer(method)

    def make(self):
        with Connection(self.port, tls=True, seconds=SECONDS) as connection:
            expected(self.ask(connection, "MKCOL", self.path(), None), 201, f"MKCOL {self.path()}")

    # ---- until the power is cut

    def write(self):
        try:
            with Connection(self.port, tls=True, seconds=SECONDS) as connection:
                while True:
                    self.step(connection)
        except (OSError, Cut):
            pass
        except Wrong as wrong:
            self.wrong = str(wrong)

    def next(self) -> Change:
        name = self.choose.choice(NAMES)
        kind = self.choose.random() if name in self.files else 0
        if kind < 0.6:
            return Change("PUT", name, self.choose.randbytes(self.choose.randrange(MOST_BYTES)))
        if kind < 0.8:
            return Change("DELETE", name)
        return Change("MOVE", name, target=self.choose.choice([it for it in NAMES if it != name]))

    def step(self, connection: Connection):
        change = self.under_way = self.next()
        more = {"Destination": self.path(change.target)} if change.target else {}
        body = change.body if change.method == "PUT" else None
        answer = self.ask(connection, change.method, self.path(change.name), body, more)
        expected(answer, change.status(self.files), f"{change.method} {self.path(change.name)}")
        self.files, self.under_way = change.on(self.files), None
        self.answered += 1

    # ---- after it

    def check(self):
        """Raises `Wrong` unless the folder is as the last answer left it, or as the request without an answer does."""
        if self.wrong or not self.answered:
            raise Wrong(self.wrong or f"no change in {self.path()} was answered")
        with Connection(self.port, tls=True, seconds=SECONDS) as connection:
            listed = self.ask(connection, "PROPFIND", self.path(), None, {"Depth": "1"})
            paths = [it.text for it in xml.fromstring(expected(listed, 207, "PROPFIND").body).iter("{DAV:}href")]
            names = {it.removeprefix(self.path()) for it in paths} - {""}
            found = {it: expected(self.ask(connection, "GET", self.path(it), None), 200, f"GET {it}").body for it in names}
        allowed = [self.files] + ([self.under_way.on(self.files)] if self.under_way else [])
        if found not in allowed:
            wrong = sorted(it for it in {*found, *self.files} if found.get(it) != self.files.get(it))
            raise Wrong(f"after {self.answered} answers {self.path()} is not as they left it: {wrong}, under way {self.under_way}")
        self.files, self.under_way, self.answered = found, None, 0

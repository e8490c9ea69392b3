"""Requests as a client is known to send them, one after the other over one connection."""
import re
import typing

from connection import Answer, Wrong
from harness import Group
from server import Server, expected

GIVEN = "host", "url", "length"


class Step(typing.NamedTuple):
    """A request, and what must come.

    `head` is the request line and the header fields. In it `{host}` is the server, `{url}` its URL without a trailing
    slash, `{length}` the length of the body, and any other name a note of the server. `then` checks the response, and
    may take notes.
    """

    name: str
    head: str
    status: int | tuple[int, ...]
    body: bytes = b""
    then: typing.Callable[[Server, Answer], None] | None = None


def add_steps(group: Group, steps: list[Step]):
    for step in steps:
        group.add(step.name, take, step)


def take(server: Server, step: Step):
    missing = [it for it in re.findall(r"\{(\w+)\}", step.head) if it not in (*GIVEN, *server.notes)]
    if missing:
        raise Wrong(f"an earlier request did not return the {' and the '.join(missing)}")
    names = {"host": f"127.0.0.1:{server.port}", "url": server.url("").rstrip("/"), "length": len(step.body)}
    head = step.head.strip().format(**names, **server.notes)
    connection = server.notes.get("connection") or server.connect()
    server.notes["connection"] = None
    connection.send(head.replace("\n", "\r\n").encode() + b"\r\n\r\n" + step.body)
    answer = connection.answer(head.partition(" ")[0])
    if answer.is_last():
        connection.close()
    else:
        server.notes["connection"] = connection
    lines = head.split("\n")
    expected(answer, step.status, lines[0], [tuple(it.split(": ", 1)) for it in lines[1:]])
    if step.then:
        step.then(server, answer)


def has_members(name: str, *members: str) -> typing.Callable[[Server, Answer], None]:
    """The field, a list, has these members."""

    def check(_, answer):
        missing = set(members) - answer.members(name)
        if missing:
            raise Wrong(f"expected {', '.join(sorted(missing))} in {name}, got {answer}")

    return check


def has_body(body: bytes) -> typing.Callable[[Server, Answer], None]:
    """The response has exactly this body."""

    def check(_, answer):
        if answer.body != body:
            raise Wrong(f"expected the body {body!r}, got {answer}")

    return check


def all_of(*checks) -> typing.Callable[[Server, Answer], None]:
    def check(server, answer):
        for it in checks:
            it(server, answer)

    return check

"""A proxy in front that has authenticated the user, and a public URL that differs from the server's own."""
import multistatus
from connection import Wrong
from harness import Group
from server import Server, expected

PROXIES = "-trusted-proxy", "127.0.0.1/32", "-trusted-proxy", "::1/128"
TRUSTED = Group("trusted proxy", "-user-header", "X-User", *PROXIES)
PUBLIC = Group("public url", "-public-url", "https://files.example.org/dav", "-prefix", "/dav")
GROUPS = [TRUSTED, PUBLIC]

STRANGER = "127.0.0.2"  # another address of the loopback, which is no trusted proxy


def as_user(name: str) -> dict:
    return {"X-User": name}


@TRUSTED.check("the user is the one that the proxy names")
def named(server: Server):
    server.ask("PUT", "/a", b"1", as_user("anna"), 201)
    token = multistatus.token_of(server.ask("LOCK", "/a", multistatus.lockinfo(), as_user("anna"), 200))
    server.ask("PUT", "/a", b"2", {**as_user("bert"), "If": f"({token})"}, 423)
    server.ask("UNLOCK", "/a", None, {**as_user("bert"), "Lock-Token": token}, 403)
    server.ask("UNLOCK", "/a", None, {**as_user("anna"), "Lock-Token": token}, 204)


def refused(server: Server, fields, source: str | None = None):
    """A request without one user that can be trusted is rejected, and not served as nobody's."""
    with server.connect(source=source) as connection:
        connection.request("GET", "/", None, fields)
        expected(connection.answer(), (400, 401, 403), "GET /", fields)


TRUSTED.add("a request without the field is rejected", refused, {})
TRUSTED.add("an empty user is rejected", refused, as_user(""))
TRUSTED.add("the field twice is rejected", refused, [("X-User", "anna"), ("X-User", "bert")])
TRUSTED.add("the field of a stranger does not count", refused, as_user("anna"), STRANGER)
TRUSTED.add("a stranger cannot name the proxy", refused, {**as_user("anna"), "X-Forwarded-For": "127.0.0.1"}, STRANGER)
TRUSTED.add("/-/health needs no user", lambda server: server.ask("GET", "/-/health", status=200))


def moved(server: Server, destination: str, status: int, fields=()):
    """A COPY to a destination, which has its effect only with 201."""
    server.ask("PUT", "/dav/from", b"1", status=(201, 204))
    text = destination.format(port=server.port)
    server.ask("COPY", "/dav/from", None, [("Destination", text), *fields], status)
    server.ask("DELETE", "/dav/to", status=204 if status == 201 else 404)


PROXIED = ("Host", "files.example.org"),
DESTINATIONS = [
    ("on the public URL", "https://files.example.org/dav/to", 201, ()),
    ("on the public URL, with its port", "https://files.example.org:443/dav/to", 201, ()),
    ("on the public URL, in other case", "https://FILES.example.org/dav/to", 201, ()),
    ("on the public URL, with Host of the proxy", "https://files.example.org/dav/to", 201, PROXIED),
    ("on the server's own address", "http://127.0.0.1:{port}/dav/to", 201, ()),
    ("that is a path", "/dav/to", 201, ()),
    ("on another host", "https://other.example.org/dav/to", 502, ()),
    ("on another port of the public host", "https://files.example.org:8443/dav/to", 502, ()),
    ("on a host that begins like the public one", "https://files.example.org.evil.example/dav/to", 502, ()),
    ("with the public host as a user", "https://files.example.org@evil.example/dav/to", 502, ()),
]
for name, destination, status, fields in DESTINATIONS:
    PUBLIC.add(f"a Destination {name} is {status}", moved, destination, status, fields)


@PUBLIC.check("a Destination outside the prefix is rejected")
def outside(server):
    server.ask("PUT", "/dav/from", b"1", status=(201, 204))
    for destination in ("/to", "/davx/to", "https://files.example.org/to", "/dav/../to"):
        server.ask("COPY", "/dav/from", None, {"Destination": destination}, (400, 403, 502))


@PUBLIC.check("paths outside the prefix are not served")
def not_found(server):
    for path in ("/", "/from", "/davx/from", "/%64av/../from"):
        answer = server.ask("GET", path)
        if answer.status not in (400, 403, 404, 502):
            raise Wrong(f"expected that {path} is not served, got {answer}")

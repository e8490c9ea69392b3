"""TLS, and clients that do not speak it well."""
import hashlib
import re
import socket
import ssl
import time
import warnings

import accounts
from connection import Connection, Wrong, head
from harness import Group, Starter
from server import Server, expect, expected

HEADER, SLACK = 1, 6
GROUP = Group("tls", "{tls}", *accounts.FLAGS, "-header-timeout", f"{HEADER}s", files=accounts.FILES)
SELF_SIGNED = Group("self-signed tls", is_shared=False)
GROUPS = [GROUP, SELF_SIGNED]


def handshake(server: Server, greatest: ssl.TLSVersion | None = None, protocols=()) -> ssl.SSLSocket:
    context = ssl.SSLContext(ssl.PROTOCOL_TLS_CLIENT)
    context.check_hostname, context.verify_mode = False, ssl.CERT_NONE
    context.set_ciphers("ALL:@SECLEVEL=0")
    if protocols:
        context.set_alpn_protocols(list(protocols))
    if greatest:
        with warnings.catch_warnings():
            warnings.simplefilter("ignore", DeprecationWarning)
            context.minimum_version, context.maximum_version = ssl.TLSVersion.MINIMUM_SUPPORTED, greatest
    plain = socket.create_connection(("127.0.0.1", server.port), 10)
    return context.wrap_socket(plain)


@GROUP.check("TLS 1.3 and TLS 1.2")
def versions(server):
    with handshake(server) as secured:
        expect("the version", secured.version(), "TLSv1.3")
    with handshake(server, ssl.TLSVersion.TLSv1_2) as secured:
        expect("the version", secured.version(), "TLSv1.2")


@GROUP.check("TLS 1.1 is refused (RFC 8996)")
def old_version(server):
    try:
        with handshake(server, ssl.TLSVersion.TLSv1_1) as secured:
            raise Wrong(f"expected that {secured.version()} is refused")
    except (ssl.SSLError, ConnectionError):
        pass


@GROUP.check("HTTP/2 is offered, and HTTP/1.1 for who does not want it")
def protocols(server):
    for offered, wanted in ((("h2", "http/1.1"), "h2"), (("http/1.1",), "http/1.1")):
        with handshake(server, protocols=offered) as secured:
            expect("the protocol", secured.selected_alpn_protocol(), wanted)


@GROUP.check("HTTP without TLS is 400, or the connection ends")
def plain_text(server):
    with Connection(server.port) as connection:
        connection.send(head("GET", "/", server.port))
        expect("the end of the connection", connection.ends_within(5), True)
        if connection.received and not connection.received.startswith(b"HTTP/1.0 400"):
            raise Wrong(f"expected 400, got {bytes(connection.received)!r}")


@GROUP.check("a handshake that does not begin is closed after -header-timeout")
def no_handshake(server):
    with Connection(server.port) as connection:
        began = time.monotonic()
        expect("the end of the connection", connection.ends_within(HEADER + SLACK), True)
        if time.monotonic() - began < HEADER / 2:
            raise Wrong(f"expected the end after {HEADER} s, got it after {time.monotonic() - began:.1f} s")


@GROUP.check("a header that does not come is closed after -header-timeout")
def no_header(server):
    with server.connect() as connection:
        connection.send("GET / HTTP/1.1\r\n")
        expect("the end of the connection", connection.ends_within(HEADER + SLACK), True)


@GROUP.check("a user over TLS")
def user(server):
    server.ask("PUT", "/a", b"x" * 300_000, accounts.AS_ANNA, 201)
    answer = server.ask("GET", "/a", None, accounts.AS_ANNA, 200)
    expect("the length", len(answer.body), 300_000)
    server.ask("GET", "/a", status=401)


@GROUP.check("a Destination of https on this host")
def destination(server):
    server.ask("PUT", "/from", b"x", accounts.AS_ANNA, 201)
    server.ask("COPY", "/from", None, {**accounts.AS_ANNA, "Destination": server.url("/to")}, 201)


@GROUP.check("100 connections that are cut in the handshake")
def cut(server):
    for number in range(100):
        connection = Connection(server.port)
        connection.send(b"\x16\x03\x01\x02\x00\x01\x00\x01\xfc\x03\x03"[: number % 12])
        connection.reset()
    with server.connect() as connection:
        connection.request("GET", "/a", None, accounts.AS_ANNA)
        expected(connection.answer(), 200, "GET /a")


def shown_fingerprint(server: Server) -> str:
    """The fingerprint of the certificate that clients get, which must be the one in the log."""
    with handshake(server) as secured:
        digest = hashlib.sha256(secured.getpeercert(binary_form=True)).hexdigest().upper()
    shown = re.search(r"fingerprint: ([0-9A-F:]+)$", server.log(), re.M)
    expect("the fingerprint in the log", shown and shown[1].replace(":", ""), digest)
    return digest


@SELF_SIGNED.check("the log has the fingerprint, and the next start has another certificate")
def self_signed(starter: Starter):
    first, second = (starter.start("-tls-self-signed") for _ in range(2))
    first.ask("PUT", "/a", b"x", status=201)
    if shown_fingerprint(first) == shown_fingerprint(second):
        raise Wrong("expected two certificates, got the same twice")

"""How a body and a connection go on: Expect, the greatest body, HTTP/1.0, and requests at the edges of HTTP/1.1."""
from connection import Answer, Wrong, chunked, head
from harness import Group
from server import Server, expect, expected

MOST = 1 << 20
GROUP = Group("http", "-max-body", "1M")
GROUPS = [GROUP]
EXPECT = ("Expect", "100-continue")


def started(server: Server, method: str, path: str, fields: list, status: int, interim: list[int]):
    """Sends a head without its body. The response must come at once, and without `100 Continue`."""
    with server.connect() as connection:
        connection.send(head(method, path, server.port, None, fields))
        answer = expected(connection.answer(method), status, f"{method} {path}", fields)
    expect("the interim responses", answer.interim, interim)


@GROUP.check("Expect: 100-continue is answered by 100, and the body follows")
def continues(server):
    with server.connect() as connection:
        connection.send(head("PUT", "/expect", server.port, None, [EXPECT, ("Content-Length", "5")]))
        interim = connection.head()
        expect("the interim status", interim.status, 100)
        connection.send(b"hello")
        expected(connection.answer("PUT"), 201, "PUT /expect")
        connection.request("GET", "/expect")
        expect("the body", connection.answer().body, b"hello")


REFUSED = [
    ("a body over -max-body", "PUT", "/large", [EXPECT, ("Content-Length", str(MOST + 1))], 413),
    ("a body of 8 EB", "PUT", "/large", [EXPECT, ("Content-Length", "9223372036854775807")], 413),
    ("a PATCH beyond the greatest offset", "PATCH", "/expect",
     [EXPECT, ("Content-Length", "1"), ("Content-Type", "application/x-sabredav-partialupdate"),
      ("X-Update-Range", "bytes=99999999999-")], 413),
    ("a PUT of a path with a trailing slash", "PUT", "/folder/", [EXPECT, ("Content-Length", "1")], 405),
    ("a MKCOL with a body", "MKCOL", "/folder", [EXPECT, ("Content-Length", "5")], 415),
    ("an XML body over -max-xml", "PROPFIND", "/", [EXPECT, ("Depth", "0"), ("Content-Length", str(2 << 20))], 413),
]
for name, method, path, fields, status in REFUSED:
    GROUP.add(f"{name} is {status} without 100", started, method, path, fields, status, [])
    # A server may read a short body before it rejects it, since the client sends that in any case.
    if int(dict(fields)["Content-Length"]) > MOST:
        plain = [it for it in fields if it != EXPECT]
        GROUP.add(f"{name} is {status} before its body", started, method, path, plain, status, [])


@GROUP.check("a refused PUT leaves no file")
def leaves_nothing(server):
    server.ask("GET", "/large", status=404)


@GROUP.check("a body of exactly -max-body is stored, by length and in chunks")
def greatest(server):
    body = b"x" * MOST
    server.ask("PUT", "/greatest", body, status=201)
    server.ask("PUT", "/greatest", chunked(body), {"Transfer-Encoding": "chunked"}, 204)
    expect("the length", server.ask("HEAD", "/greatest").field("Content-Length"), str(MOST))


@GROUP.check("a body in chunks over -max-body is 413, and the file stays")
def beyond(server):
    server.ask("PUT", "/beyond", b"old", status=201)
    with server.connect() as connection:
        connection.send(head("PUT", "/beyond", server.port, None, {"Transfer-Encoding": "chunked"}))
        answer = send_until_answered(connection, 3 * MOST)
    expected(answer, 413, "PUT /beyond in chunks")
    expect("the file", server.ask("GET", "/beyond").body, b"old")


def send_until_answered(connection, most: int) -> Answer:
    """Sends chunks until the server answers or ends the connection."""
    chunk = chunked(b"x" * 65536).removesuffix(b"0\r\n\r\n")
    try:
        for _ in range(most // 65536):
            connection.send(chunk)
        connection.send(b"0\r\n\r\n")
    except OSError:
        pass
    return connection.answer("PUT")


@GROUP.check("HTTP/1.0 without keep-alive: the response ends with the connection")
def version_1_0(server):
    server.ask("PUT", "/old", b"hello", status=201)
    with server.connect() as connection:
        connection.send("GET /old HTTP/1.0\r\n\r\n")
        answer = expected(connection.answer(), 200, "GET /old HTTP/1.0")
        expect("the body", answer.body, b"hello")
        expect("the end of the connection", connection.ends_within(5), True)


@GROUP.check("HTTP/1.0: a response is not in chunks")
def version_1_0_unchunked(server):
    with server.connect() as connection:
        connection.send("PROPFIND / HTTP/1.0\r\nDepth: 1\r\n\r\n")
        answer = expected(connection.answer(), 207, "PROPFIND / HTTP/1.0")
    expect("Transfer-Encoding", answer.field("Transfer-Encoding"), None)
    if not answer.body.rstrip().endswith(b">"):
        raise Wrong(f"expected a whole body, got {answer}")


@GROUP.check("HTTP/1.0: PUT with a length")
def version_1_0_put(server):
    with server.connect() as connection:
        connection.send("PUT /older HTTP/1.0\r\nContent-Length: 3\r\n\r\nabc")
        expected(connection.answer("PUT"), 201, "PUT /older HTTP/1.0")
    expect("the file", server.ask("GET", "/older").body, b"abc")


@GROUP.check("a connection stays open over 50 requests")
def keeps(server):
    with server.connect() as connection:
        for number in range(50):
            connection.request("PUT", f"/keep-{number % 3}", b"%d" % number)
            expected(connection.answer("PUT"), (201, 204), "PUT")
            connection.request("GET", f"/keep-{number % 3}")
            expect("the body", connection.answer().body, b"%d" % number)


@GROUP.check("Connection: close is followed")
def closes(server):
    with server.connect() as connection:
        connection.request("GET", "/old", None, {"Connection": "close"})
        expected(connection.answer(), 200, "GET /old")
        expect("the end of the connection", connection.ends_within(5), True)


# The status, the request and, for the whole of it, RFC 9112 or RFC 9110.
RAW = [
    ("without Host is 400 (RFC 9112, 3.2)", 400, "GET /old HTTP/1.1\r\n\r\n"),
    ("with two Hosts is 400 (RFC 9112, 3.2)", 400, "GET /old HTTP/1.1\r\nHost: a\r\nHost: b\r\n\r\n"),
    ("with its whole URL in the request line (RFC 9112, 3.2.2)", 200, "GET {url}/old HTTP/1.1\r\nHost: {host}\r\n\r\n"),
    ("OPTIONS * (RFC 9110, 9.3.7)", 200, "OPTIONS * HTTP/1.1\r\nHost: {host}\r\n\r\n"),
    ("with a space before the colon is 400 (RFC 9112, 5.1)", 400, "GET /old HTTP/1.1\r\nHost: {host}\r\nA : b\r\n\r\n"),
    ("with a folded field", (200, 400), "GET /old HTTP/1.1\r\nHost: {host}\r\nA: b\r\n c\r\n\r\n"),
    ("with a length that is no number is 400", 400, "PUT /n HTTP/1.1\r\nHost: {host}\r\nContent-Length: +3\r\n\r\nabc"),
    ("with a negative length is 400", 400, "PUT /n HTTP/1.1\r\nHost: {host}\r\nContent-Length: -3\r\n\r\nabc"),
    ("with two lengths is 400", 400,
     "PUT /n HTTP/1.1\r\nHost: {host}\r\nContent-Length: 3\r\nContent-Length: 4\r\n\r\nabcd"),
    ("with an unknown transfer coding", (400, 501),
     "PUT /n HTTP/1.1\r\nHost: {host}\r\nTransfer-Encoding: gzip, chunked\r\n\r\n0\r\n\r\n"),
    ("with a NUL in its path", 400, "GET /a%00b HTTP/1.1\r\nHost: {host}\r\n\r\n"),
    ("with a percent sign that escapes nothing is 400", 400, "GET /a%zz HTTP/1.1\r\nHost: {host}\r\n\r\n"),
    ("above the root", (400, 403), "GET /../../etc/passwd HTTP/1.1\r\nHost: {host}\r\n\r\n"),
    ("above the root, escaped", (400, 403), "GET /%2e%2e/%2e%2e/etc/passwd HTTP/1.1\r\nHost: {host}\r\n\r\n"),
    ("with an unknown method", (405, 501), "BREW /old HTTP/1.1\r\nHost: {host}\r\n\r\n"),
    ("POST is 405", 405, "POST /old HTTP/1.1\r\nHost: {host}\r\nContent-Length: 0\r\n\r\n"),
    ("TRACE", (405, 501), "TRACE /old HTTP/1.1\r\nHost: {host}\r\n\r\n"),
    ("CONNECT", (400, 405, 501), "CONNECT example.org:443 HTTP/1.1\r\nHost: example.org:443\r\n\r\n"),
    ("with a header of 200 KB is 431", (400, 431),
     "GET /old HTTP/1.1\r\nHost: {host}\r\nX: " + "x" * 200_000 + "\r\n\r\n"),
    ("with a path of 20 KB", (404, 414, 431), "GET /" + "a" * 20_000 + " HTTP/1.1\r\nHost: {host}\r\n\r\n"),
    ("with 5000 segments in its path", (404, 414, 431), "GET " + "/a" * 5000 + " HTTP/1.1\r\nHost: {host}\r\n\r\n"),
    ("that is the preface of HTTP/2 without TLS", (400, 404, 405, 501, 505), "PRI * HTTP/2.0\r\n\r\nSM\r\n\r\n"),
]


def raw(server: Server, status, text: str):
    """Sends a request, and makes sure that the server still answers after it."""
    request = text.format(host=f"127.0.0.1:{server.port}", url=server.url("").rstrip("/"))
    with server.connect() as connection:
        try:
            connection.send(request)
        except OSError:
            pass  # The server has answered before it read all.
        expected(connection.answer(text.partition(" ")[0]), status, request[:200])
    server.ask("GET", "/old", status=200)


for name, status, text in RAW:
    GROUP.add(f"a request {name}", raw, status, text)


@GROUP.check("405 has Allow (RFC 9110, section 15.5.6)")
def allow_of_405(server):
    answer = server.ask("POST", "/old", b"", status=405)
    if "GET" not in answer.members("Allow"):
        raise Wrong(f"expected GET in Allow, got {answer}")

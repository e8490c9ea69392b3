"""XML that is malformed, too large or meant to harm. Each is rejected, and the server goes on."""
import time

import multistatus
from connection import Wrong
from harness import Group
from multistatus import D
from server import Server, expect

MOST = 100_000
GROUP = Group("hostile XML", "-max-xml", "100000")
GROUPS = [GROUP]
SECONDS = 5

LAUGHS = "".join(f'<!ENTITY l{it} "{f"&l{it - 1};" * 10 if it else "lol"}">' for it in range(10))
VALUE = '<propertyupdate xmlns="DAV:"><set><prop>{}</prop></set></propertyupdate>'
BODIES = [
    ("nothing but white space", "  \n"),
    ("no XML", "depth please"),
    ("JSON", '{"propfind": true}'),
    ("an unclosed element", '<propfind xmlns="DAV:"><prop>'),
    ("elements that overlap", '<propfind xmlns="DAV:"><allprop></propfind></allprop>'),
    ("two roots", '<propfind xmlns="DAV:"><allprop/></propfind><a/>'),
    ("text after the root", '<propfind xmlns="DAV:"><allprop/></propfind>x'),
    ("text before the root", 'x<propfind xmlns="DAV:"><allprop/></propfind>'),
    ("a declaration that is not first", ' <?xml version="1.0"?><propfind xmlns="DAV:"><allprop/></propfind>'),
    ("an attribute twice", '<propfind xmlns="DAV:" a="1" a="2"><allprop/></propfind>'),
    ("an attribute twice by its namespace",
     '<propfind xmlns="DAV:" xmlns:p="urn:x" xmlns:q="urn:x" p:a="1" q:a="2"><allprop/></propfind>'),
    ("an attribute without quotes", '<propfind xmlns="DAV:" a=1><allprop/></propfind>'),
    ("an attribute with <", '<propfind xmlns="DAV:" a="<"><allprop/></propfind>'),
    ("an unknown entity", '<propfind xmlns="DAV:"><prop><a>&nbsp;</a></prop></propfind>'),
    ("a lone ampersand", '<propfind xmlns="DAV:"><prop><a>a & b</a></prop></propfind>'),
    ("a character reference of no character", '<propfind xmlns="DAV:"><prop><a>&#0;</a></prop></propfind>'),
    ("a character reference of a surrogate", '<propfind xmlns="DAV:"><prop><a>&#xD800;</a></prop></propfind>'),
    ("a character reference beyond Unicode", '<propfind xmlns="DAV:"><prop><a>&#x110000;</a></prop></propfind>'),
    ("a control character", '<propfind xmlns="DAV:"><prop><a>\1</a></prop></propfind>'),
    ("]]> in text", '<propfind xmlns="DAV:"><prop><a>]]></a></prop></propfind>'),
    ("-- in a comment", '<propfind xmlns="DAV:"><!-- a -- b --><allprop/></propfind>'),
    ("an undeclared prefix", '<D:propfind><D:allprop/></D:propfind>'),
    ("an undeclared prefix of a property", '<propfind xmlns="DAV:"><prop><x:a/></prop></propfind>'),
    ("an undeclared prefix of an attribute", '<propfind xmlns="DAV:"><prop><a x:b="1"/></prop></propfind>'),
    ("a prefix that is bound to nothing", '<propfind xmlns="DAV:"><prop><x:a xmlns:x=""/></prop></propfind>'),
    ("the prefix xmlns", '<propfind xmlns="DAV:"><prop><xmlns:a/></prop></propfind>'),
    ("the prefix xml for another namespace", '<propfind xmlns="DAV:" xmlns:xml="urn:x"><allprop/></propfind>'),
    ("a name with two colons", '<propfind xmlns="DAV:" xmlns:a="urn:a"><prop><a:b:c/></prop></propfind>'),
    ("an empty prefix", '<propfind xmlns="DAV:"><prop><:a/></prop></propfind>'),
    ("a name that begins with a digit", '<propfind xmlns="DAV:"><prop><1a/></prop></propfind>'),
    ("a DTD", '<!DOCTYPE a><propfind xmlns="DAV:"><allprop/></propfind>'),
    ("a DTD with an entity", '<!DOCTYPE a [<!ENTITY b "c">]><propfind xmlns="DAV:"><prop><a>&b;</a></prop></propfind>'),
    ("a file as an entity",
     '<!DOCTYPE a [<!ENTITY b SYSTEM "file:///etc/passwd">]><propfind xmlns="DAV:"><prop><a>&b;</a></prop></propfind>'),
    ("a URL as a DTD",
     '<!DOCTYPE a SYSTEM "http://127.0.0.1:1/x.dtd"><propfind xmlns="DAV:"><allprop/></propfind>'),
    ("a billion laughs", f'<!DOCTYPE a [{LAUGHS}]><propfind xmlns="DAV:"><prop><a>&l9;</a></prop></propfind>'),
    ("XML 2.0", '<?xml version="2.0"?><propfind xmlns="DAV:"><allprop/></propfind>'),
    ("a name of 90 KB that is not closed", "<" + "a" * 90_000),
    ("an empty propfind", '<propfind xmlns="DAV:"/>'),
    ("a propfind of another namespace", '<propfind xmlns="urn:x"><allprop/></propfind>'),
    ("a propertyupdate", VALUE.format("<a/>")),
]
TOO_MUCH = [
    ("5000 levels", '<propfind xmlns="DAV:">' + "<a>" * 5000 + "</a>" * 5000 + "</propfind>", 413),
    ("20000 levels that are not closed", '<propfind xmlns="DAV:">' + "<a>" * 20000, 413),
    ("24000 elements", '<propfind xmlns="DAV:"><prop>' + "<a/>" * 24000 + "</prop></propfind>", 413),
]
BYTES = [
    ("not UTF-8", b'<propfind xmlns="DAV:"><prop><a>\xff</a></prop></propfind>'),
    ("an overlong form of <", b'\xc0\xbcpropfind xmlns="DAV:"><allprop/></propfind>'),
    ("an encoded surrogate", b'<propfind xmlns="DAV:"><prop><a>\xed\xa0\x80</a></prop></propfind>'),
    ("UTF-8 that is cut off", b'<propfind xmlns="DAV:"><prop><a>\xe2\x82</a></prop></propfind>'),
    ("Latin-1 that is declared",
     b'<?xml version="1.0" encoding="iso-8859-1"?><propfind xmlns="DAV:"><prop><a>\xe9</a></prop></propfind>'),
    ("an unknown encoding", b'<?xml version="1.0" encoding="x-none"?><propfind xmlns="DAV:"><allprop/></propfind>'),
    ("UTF-32", '<propfind xmlns="DAV:"><allprop/></propfind>'.encode("utf-32")),
    ("a NUL", b'<propfind xmlns="DAV:"><allprop/>\0</propfind>'),
]


def rejected(server: Server, body: bytes, status):
    """The body is rejected in time, by each method that reads XML, and the server still answers."""
    began = time.monotonic()
    server.ask("PROPFIND", "/", body, {"Depth": "0", "Content-Type": "application/xml"}, status)
    for method in ("PROPPATCH", "LOCK"):
        if b"<propertyupdate" not in body:
            server.ask(method, "/file", body, {"Content-Type": "application/xml"}, status)
    if time.monotonic() - began > SECONDS:
        raise Wrong(f"expected the responses within {SECONDS} s, got {time.monotonic() - began:.1f} s")
    server.ask("PROPFIND", "/", None, {"Depth": "0"}, 207)


@GROUP.check("a file for the other checks")
def file(server):
    server.ask("PUT", "/file", b"x", status=201)


for name, text in BODIES:
    GROUP.add(f"{name} is 400", rejected, text.encode(), 400)
for name, text, status in TOO_MUCH:
    GROUP.add(f"{name} are {status}", rejected, text.encode(), status)
for name, body in BYTES:
    GROUP.add(f"{name} is 400", rejected, body, (400, 415))


@GROUP.check("a body over -max-xml is 413, by length and in chunks")
def too_large(server):
    body = b'<propfind xmlns="DAV:"><allprop/>' + b" " * MOST + b"</propfind>"
    server.ask("PROPFIND", "/", body, {"Depth": "0"}, 413)
    chunk = b"%x\r\n%s\r\n0\r\n\r\n" % (len(body), body)
    server.ask("PROPFIND", "/", chunk, {"Depth": "0", "Transfer-Encoding": "chunked"}, 413)
    fits = body.replace(b" " * 200, b"", 1)
    server.ask("PROPFIND", "/", fits, {"Depth": "0"}, 207)


@GROUP.check("a rejected PROPPATCH changes nothing")
def changes_nothing(server):
    good = VALUE.format('<v xmlns="urn:v">1</v>').encode()
    server.ask("PROPPATCH", "/file", good, status=207)
    for body in (VALUE.format('<v xmlns="urn:v">2</v><x:a/>'), VALUE.format('<v xmlns="urn:v">2</v>') + "<a/>"):
        server.ask("PROPPATCH", "/file", body.encode(), status=400)
    found = multistatus.only(server.ask("PROPFIND", "/file", multistatus.propfind("{urn:v}v"), {"Depth": "0"}, 207))
    expect("the value", found.text("{urn:v}v"), "1")


@GROUP.check("many namespaces do not take long")
def many_namespaces(server):
    declared = " ".join(f'xmlns:p{it}="urn:p{it}"' for it in range(2000))
    body = f'<D:propfind xmlns:D="DAV:" {declared}><D:prop><p7:a/></D:prop></D:propfind>'.encode()
    began = time.monotonic()
    answer = server.ask("PROPFIND", "/file", body, {"Depth": "0"}, (207, 400))
    if answer.status == 207:
        expect("the status of a", multistatus.only(answer).status_of("{urn:p7}a"), 404)
    if time.monotonic() - began > SECONDS:
        raise Wrong(f"expected a response within {SECONDS} s")


@GROUP.check("a property that is stored cannot close the elements around it")
def contained(server):
    value = '<v xmlns="urn:v">&lt;/D:prop&gt;&lt;/D:propstat&gt;]]&gt;</v>'
    server.ask("PROPPATCH", "/file", VALUE.format(value).encode(), status=207)
    answer = server.ask("PROPFIND", "/file", None, {"Depth": "0"}, 207)
    found = multistatus.only(answer)
    expect("the value", found.text("{urn:v}v"), "</D:prop></D:propstat>]]>")
    expect("the length", found.text(D + "getcontentlength"), "1")

"""Values of properties that come back as they were stored, as ElementTree reads them with namespaces."""
import xml.etree.ElementTree as ElementTree

import multistatus
from connection import Wrong
from harness import Group
from multistatus import D
from server import Server, expect

GROUP = Group("property values")
GROUPS = [GROUP]
XML = "{http://www.w3.org/XML/1998/namespace}"

# Each is one property. Around it `o` is bound to urn:outer and D to DAV:.
VALUES = [
    ("text", '<v xmlns="urn:v">text</v>'),
    ("nothing", '<v xmlns="urn:v"/>'),
    ("white space only", '<v xmlns="urn:v">  \n\t </v>'),
    ("white space between elements", '<v xmlns="urn:v"> <a/>\n  <b/> </v>'),
    ("no namespace", "<v>no namespace</v>"),
    ("a child without a namespace", '<v xmlns="urn:v"><a xmlns="">t<b xmlns="urn:b" c="1"/></a> tail </v>'),
    ("prefixes", '<p:v xmlns:p="urn:v"><p:a p:x="1" y="2"/><q:b xmlns:q="urn:q" q:z="3"/></p:v>'),
    ("characters that are escaped",
     '<v xmlns="urn:v" a="&lt;&gt;&quot;&apos;&amp;">&lt;&gt;&quot;&apos;&amp;]]&gt;</v>'),
    ("white space in an attribute", '<v xmlns="urn:v" a="&#10;&#13;&#9; x ">&#13;</v>'),
    ("line ends", '<v xmlns="urn:v">one\r\ntwo\rthree</v>'),
    ("xml:lang", '<v xmlns="urn:v" xml:lang="de">  <a xml:space="preserve"/>  </v>'),
    ("CDATA", '<v xmlns="urn:v"><![CDATA[<&]]>&#233;<![CDATA[]]></v>'),
    ("characters outside the first plane", '<v xmlns="urn:v" a="\U0001f600">&#128512;\U00010348</v>'),
    ("the last characters", '<v xmlns="urn:v">\ufffd\ue000\ud7ff\U0010ffff</v>'),
    ("the prefix D for another namespace", '<D:v xmlns:D="urn:v"><D:a xmlns:D="DAV:"><D:b/></D:a><D:c/></D:v>'),
    ("a comment and an instruction", '<v xmlns="urn:v">x<!-- c --><?pi y?>z</v>'),
    ("prefixes of outer elements", '<v xmlns="urn:v"><o:k/><o:l o:m="1"/></v>'),
    ("a prefix that is bound again", '<o:v xmlns:o="urn:v"><o:a xmlns:o="urn:w" o:x="1"/></o:v>'),
    ("two prefixes of one namespace", '<a:v xmlns:a="urn:v" xmlns:b="urn:v"><b:a a:x="1" b:y="2"/></a:v>'),
    ("a property of DAV: inside", '<v xmlns="urn:v"><D:multistatus><D:response/></D:multistatus></v>'),
    ("mixed content", '<v xmlns="urn:v">a<b>c<d/>e</b>f<g/>h</v>'),
    ("names that are not ASCII", '<\u00fcber xmlns="urn:\u4f60\u597d" \u043a\u043b\u044e\u0447="1">v</\u00fcber>'),
    ("names with a dot, a dash and a digit", '<a.b-c_1 xmlns="urn:v" x.y-z_2="1"/>'),
    ("a namespace with characters that are escaped", '<v xmlns="urn:&lt;&amp;&quot;&gt;"><a/></v>'),
    ("a namespace that is one character", '<v xmlns="x"/>'),
    ("many attributes", "<v xmlns='urn:v' " + " ".join(f'a{it}="{it}"' for it in range(200)) + "/>"),
    ("many children", "<v xmlns='urn:v'>" + "<a>1</a>" * 1000 + "</v>"),
    ("100 levels", "<v xmlns='urn:v'>" + "<a>" * 100 + "</a>" * 100 + "</v>"),
    ("100 levels that each bind a prefix",
     "<v xmlns='urn:v'>" + "".join(f"<p{it}:a xmlns:p{it}='urn:p{it}'>" for it in range(100))
     + "".join(f"</p{it}:a>" for it in reversed(range(100))) + "</v>"),
    ("a long text", '<v xmlns="urn:v">' + "0123456789\u00e9" * 10_000 + "</v>"),
    ("the prefix ns0", '<ns0:v xmlns:ns0="urn:v" ns0:a="1"><ns1:b xmlns:ns1="urn:w"/></ns0:v>'),
    ("the word xml in a prefix", '<x:xmlish xmlns:x="urn:v" xmlns:y="urn:y" y:xmlns="1"/>'),
]
ENCODINGS = [
    ("UTF-8 with a byte order mark", "utf-8-sig", "UTF-8"),
    ("UTF-8 without a declaration", "utf-8", None),
    ("US-ASCII", "ascii", "US-ASCII"),
]


def update(value: str) -> str:
    return (
        '<D:propertyupdate xmlns:D="DAV:" xmlns:o="urn:outer"><D:set><D:prop>'
        f"{value}</D:prop></D:set></D:propertyupdate>"
    )


def same(one: ElementTree.Element, other: ElementTree.Element) -> bool:
    """Whether two elements are equal, but for the prefixes of their names."""
    return (
        (one.tag, one.attrib, one.text or "") == (other.tag, other.attrib, other.text or "")
        and len(one) == len(other)
        and all(same(a, b) and (a.tail or "") == (b.tail or "") for a, b in zip(one, other))
    )


def shown(element: ElementTree.Element) -> str:
    return ElementTree.tostring(element, "unicode")[:800]


def round_trip(server: Server, value: str):
    path = server.folder() + "a"
    server.ask("PUT", path, b"x", status=201)
    body = ('<?xml version="1.0" encoding="utf-8"?>' + update(value)).encode()
    wanted = ElementTree.fromstring(body).find(f".//{D}prop")[0]
    answer = server.ask("PROPPATCH", path, body, {"Content-Type": "application/xml"}, 207)
    expect("the status of the PROPPATCH", multistatus.only(answer).status_of(wanted.tag), 200)
    name, attributes = propfind(wanted.tag)
    for request in (f'<D:propfind xmlns:D="DAV:"><D:prop><{name} {attributes}/></D:prop></D:propfind>'.encode(),
                    multistatus.ALLPROP):
        answer = server.ask("PROPFIND", path, request, {"Depth": "0"}, 207)
        status, got = multistatus.only(answer).properties.get(wanted.tag, (None, None))
        if status != 200 or not same(wanted, got):
            raise Wrong(f"expected {shown(wanted)}\n  got {status}, {shown(got) if got is not None else answer}")


def propfind(tag: str) -> tuple[str, str]:
    """An element's name as written, and its declaration of the namespace."""
    if not tag.startswith("{"):
        return tag, 'xmlns=""'
    namespace, _, name = tag[1:].rpartition("}")
    escaped = namespace.replace("&", "&amp;").replace("<", "&lt;").replace('"', "&quot;")
    return name, f'xmlns="{escaped}"'


for name, value in VALUES:
    GROUP.add(name, round_trip, value)


def encoded(server: Server, encoding: str, declared: str | None):
    path = server.folder() + "a"
    server.ask("PUT", path, b"x", status=201)
    head = f'<?xml version="1.0" encoding="{declared}"?>' if declared else ""
    answer = server.ask("PROPPATCH", path, (head + update('<v xmlns="urn:v">&#233;</v>')).encode(encoding))
    if answer.status == 207:
        answer = server.ask("PROPFIND", path, multistatus.propfind("{urn:v}v"), {"Depth": "0"}, 207)
        expect("the value", multistatus.only(answer).text("{urn:v}v"), "\u00e9")
    elif answer.status not in (400, 415) or encoding.startswith("utf-8"):
        raise Wrong(f"expected the value, got {answer}")


for name, encoding, declared in ENCODINGS:
    GROUP.add(f"a body in {name}", encoded, encoding, declared)


@GROUP.check("the order of changes counts, and all or none are made")
def order(server):
    path = server.folder() + "a"
    server.ask("PUT", path, b"x", status=201)
    change = (
        '<D:propertyupdate xmlns:D="DAV:" xmlns:v="urn:v"><D:set><D:prop><v:a>1</v:a><v:b>1</v:b></D:prop></D:set>'
        "<D:remove><D:prop><v:a/></D:prop></D:remove><D:set><D:prop><v:b>2</v:b></D:prop></D:set></D:propertyupdate>"
    ).encode()
    server.ask("PROPPATCH", path, change, status=207)
    found = multistatus.only(server.ask("PROPFIND", path, multistatus.propfind("{urn:v}a", "{urn:v}b"), {"Depth": "0"}))
    expect("a and b", (found.status_of("{urn:v}a"), found.text("{urn:v}b")), (404, "2"))
    failing = (
        '<D:propertyupdate xmlns:D="DAV:" xmlns:v="urn:v"><D:set><D:prop><v:b>3</v:b><D:getetag>no</D:getetag></D:prop>'
        "</D:set></D:propertyupdate>"
    ).encode()
    found = multistatus.only(server.ask("PROPPATCH", path, failing, status=207))
    expect("the statuses", (found.status_of("{urn:v}b"), found.status_of(D + "getetag")), (424, 403))
    found = multistatus.only(server.ask("PROPFIND", path, multistatus.propfind("{urn:v}b"), {"Depth": "0"}))
    expect("b", found.text("{urn:v}b"), "2")


@GROUP.check("properties go with a MOVE and a COPY of their file")
def go_with(server):
    path = server.folder()
    server.ask("PUT", f"{path}a", b"x", status=201)
    server.ask("PROPPATCH", f"{path}a", update('<v xmlns="urn:v">1</v>').encode(), status=207)
    server.ask("COPY", f"{path}a", None, {"Destination": f"{path}b"}, 201)
    server.ask("MOVE", f"{path}a", None, {"Destination": f"{path}c"}, 201)
    for name in "bc":
        found = multistatus.only(server.ask("PROPFIND", path + name, multistatus.propfind("{urn:v}v"), {"Depth": "0"}))
        expect(f"the value at {name}", found.text("{urn:v}v"), "1")


@GROUP.check("PROPFIND of names has no values")
def names_only(server):
    path = server.folder() + "a"
    server.ask("PUT", path, b"x", status=201)
    server.ask("PROPPATCH", path, update('<v xmlns="urn:v">1</v>').encode(), status=207)
    body = b'<propfind xmlns="DAV:"><propname/></propfind>'
    found = multistatus.only(server.ask("PROPFIND", path, body, {"Depth": "0"}, 207))
    expect("the status of v", found.status_of("{urn:v}v"), 200)
    full = [name for name, (_, element) in found.properties.items() if element.text or len(element)]
    expect("the properties with values", full, [])


@GROUP.check("href escapes what a URL must escape")
def hrefs(server):
    path = server.folder()
    for name in ("100%25", "a%23b", "what%3F", "%3Ctag%3E%26", "%C3%BC%20%E4%BD%A0", "%5B1%5D%22"):
        server.ask("PUT", path + name, b"x", status=201)
    answer = server.ask("PROPFIND", path, None, {"Depth": "1"}, 207)
    wanted = {path, *(path + it for it in ("100%", "a#b", "what?", "<tag>&", "\u00fc \u4f60", '[1]"'))}
    expect("the paths", set(multistatus.resources(answer)), wanted)
    for response in multistatus.root(answer, D + "multistatus").findall(D + "response"):
        href = response.findtext(D + "href").strip()
        server.ask("GET", href, status=200)

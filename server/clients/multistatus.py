"""The XML of responses, as ElementTree reads it with namespaces."""
import re
import typing
import urllib.parse
import xml.etree.ElementTree as ElementTree

from connection import Answer, Wrong

D = "{DAV:}"
STATUS = re.compile(r"HTTP/1\.1 (\d{3}) .*")
ALLPROP = b'<?xml version="1.0"?><propfind xmlns="DAV:"><allprop/></propfind>'


class Resource(typing.NamedTuple):
    """A `D:response`: its status if it has one, and each property with its status and its element."""

    status: int | None
    properties: dict[str, tuple[int, ElementTree.Element]]

    def text(self, name: str) -> str | None:
        """The text of a property that was found."""
        status, element = self.properties.get(name, (404, None))
        return None if status != 200 else element.text or ""

    def status_of(self, name: str) -> int | None:
        return self.properties[name][0] if name in self.properties else None

    def is_collection(self) -> bool:
        status, element = self.properties.get(D + "resourcetype", (404, None))
        return status == 200 and element.find(D + "collection") is not None


def root(answer: Answer, name: str) -> ElementTree.Element:
    """The root of the body, which must be XML of this name."""
    kind = (answer.field("Content-Type") or "").replace(" ", "").lower()
    if kind.partition(";")[0] not in ("application/xml", "text/xml"):
        raise Wrong(f"expected a body of XML, got Content-Type {kind!r}\n{answer}")
    try:
        element = ElementTree.fromstring(answer.content())
    except ElementTree.ParseError as error:
        raise Wrong(f"expected XML, got {error}\n{answer}") from None
    if element.tag != name:
        raise Wrong(f"expected the root {name}, got {element.tag}\n{answer}")
    return element


def resources(answer: Answer) -> dict[str, Resource]:
    """The resources of a multistatus by their paths, percent-decoded. RFC 4918, section 14.24, has its form."""
    if answer.status != 207:
        raise Wrong(f"expected 207, got {answer}")
    found = {}
    for response in root(answer, D + "multistatus").findall(D + "response"):
        href = response.findtext(D + "href") or ""
        path = urllib.parse.unquote(urllib.parse.urlsplit(href.strip()).path)
        if not path.startswith("/"):
            raise Wrong(f"expected a path in D:href, got {href!r}\n{answer}")
        if path in found:
            raise Wrong(f"{path} comes twice\n{answer}")
        found[path] = resource(response, answer)
    return found


def resource(response: ElementTree.Element, answer: Answer) -> Resource:
    parts = response.findall(D + "propstat")
    own = response.findtext(D + "status")
    if (own is None) == (not parts):
        raise Wrong(f"expected either D:status or D:propstat in a D:response\n{answer}")
    properties = {}
    for part in parts:
        code = status(part.findtext(D + "status"), answer)
        for element in part.find(D + "prop"):
            if element.tag in properties:
                raise Wrong(f"{element.tag} comes twice\n{answer}")
            properties[element.tag] = code, element
    return Resource(None if own is None else status(own, answer), properties)


def status(line: str | None, answer: Answer) -> int:
    found = STATUS.fullmatch((line or "").strip())
    if not found:
        raise Wrong(f"expected a status line in D:status, got {line!r}\n{answer}")
    return int(found[1])


def only(answer: Answer) -> Resource:
    """The only resource of a multistatus."""
    found = resources(answer)
    if len(found) != 1:
        raise Wrong(f"expected one D:response, got {sorted(found)}\n{answer}")
    return next(iter(found.values()))


def propfind(*names: str) -> bytes:
    """The body of a PROPFIND of these properties, each written as {namespace}name."""
    asked = []
    for name in names:
        namespace, _, local = name[1:].partition("}")
        asked.append(f'<{local} xmlns="{namespace}"/>')
    return f'<D:propfind xmlns:D="DAV:"><D:prop>{"".join(asked)}</D:prop></D:propfind>'.encode()


def lockinfo(owner: str = "<D:href>mailto:anna@example.org</D:href>", scope: str = "exclusive") -> bytes:
    """The body of a LOCK."""
    return (
        f'<?xml version="1.0" encoding="utf-8"?><D:lockinfo xmlns:D="DAV:"><D:lockscope><D:{scope}/></D:lockscope>'
        f"<D:locktype><D:write/></D:locktype><D:owner>{owner}</D:owner></D:lockinfo>"
    ).encode()


def token_of(answer: Answer) -> str:
    """The token that the response to a LOCK grants, with its angle brackets."""
    token = answer.field("Lock-Token") or ""
    if not re.fullmatch(r"<[a-z]+:[^<> ]+>", token):
        raise Wrong(f"expected a token in Lock-Token, got {token!r}\n{answer}")
    return token


def lock_seconds(answer: Answer) -> int:
    """The timeout of the lock that the response to a LOCK shows."""
    timeout = root(answer, D + "prop").findtext(f"{D}lockdiscovery/{D}activelock/{D}timeout") or ""
    found = re.fullmatch(r"Second-(\d+)", timeout.strip())
    if not found:
        raise Wrong(f"expected a timeout of seconds, got {timeout!r}\n{answer}")
    return int(found[1])

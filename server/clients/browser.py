"""What a browser asks for: the page of a collection, pages of other origins (CORS), and the health."""
import base64
import hashlib
import html.parser
import urllib.parse

import accounts
from accounts import AS_ANNA
from connection import Wrong
from harness import Group
from server import Server, expect

ORIGIN = "https://app.example.org"
NAMES = [
    "plain.txt", "two words", "<script>alert(1)<", "a&amp;b", 'quote"s', "it's", "100%", "100%25", "a#b", "what?",
    "\u00fcber", "\u4f60\u597d", "javascript:alert(1)", "back\\slash", "a+b", "{{.}}", "`tick`", "=1+1",
    "<img src=x onerror=y>", "\u202eright to left", "data:text", "semi;colon",
]
PAGE = Group("page of a collection")
PREFIXED = Group("page below a prefix", "-prefix", "/dav/files")
CORS = Group("cors", *accounts.FLAGS, "-cors-origin", ORIGIN, "-cors-origin", "http://localhost:3000",
             files=accounts.FILES)
HEALTH = Group("health")
GROUPS = [PAGE, PREFIXED, CORS, HEALTH]


class Page(html.parser.HTMLParser):
    """The links of a page with their texts, all its elements, and what its scripts and styles contain."""

    def __init__(self, text: str):
        super().__init__()
        self.links: dict[str, str] = {}
        self.elements: list[tuple[str, dict]] = []
        self.inline: dict[str, str] = {}
        self.link: str | None = None
        self.inside: str | None = None
        self.feed(text)
        self.close()

    def handle_starttag(self, tag, attributes):
        self.elements.append((tag, dict(attributes)))
        if tag in ("script", "style"):
            self.inside = tag
            self.inline[tag] = ""
        if tag == "a":
            self.link = dict(attributes).get("href") or ""
            self.links[self.link] = ""

    def handle_endtag(self, tag):
        if tag == "a":
            self.link = None
        if tag == self.inside:
            self.inside = None

    def handle_data(self, data):
        if self.link is not None:
            self.links[self.link] += data
        if self.inside:
            self.inline[self.inside] += data

    def members(self) -> dict[str, str]:
        """The links to members, with their names."""
        return {link: text for link, text in self.links.items() if link.startswith("./")}


# ---- the page


def fill(server: Server) -> str:
    """Makes a folder with odd names, once."""
    path = server.notes.get("path")
    if not path:
        path = server.notes["path"] = server.folder()
        for name in NAMES:
            server.ask("PUT", path + urllib.parse.quote(name, safe=""), name.encode(), status=201)
        server.ask("MKCOL", path + "sub%20folder/", status=201)
        server.ask("PUT", path + "sub%20folder/x", b"below", status=201)
    return path


def page_of(server: Server, path: str) -> Page:
    answer = server.ask("GET", path, status=200)
    kind = (answer.field("Content-Type") or "").replace(" ", "").lower()
    expect("Content-Type", kind, "text/html;charset=utf-8")
    return Page(answer.body.decode())


def links(server: Server):
    """Each member has a link that leads to it, and its name as text."""
    path = fill(server)
    found = {}
    for link, text in page_of(server, path).links.items():
        target = urllib.parse.urljoin(server.url(path), link)
        parts = urllib.parse.urlsplit(target)
        if not target.startswith(server.url("")) or parts.query or parts.fragment:
            raise Wrong(f"expected a link to a path of the server, got {link!r} for {text!r}")
        if parts.path.startswith(path) and parts.path != path:
            found[text.strip()] = parts.path
    expect("the names", sorted(found), sorted([*NAMES, "sub folder/"]))
    for name in NAMES:
        expect(f"what the link of {name!r} leads to", server.ask("GET", found[name], status=200).body, name.encode())
    below = page_of(server, found["sub folder/"])
    expect("the link below", "x" in {it.strip() for it in below.links.values()}, True)


def crumbs(server: Server):
    """Each collection above the page has a link, and the page itself its name without one."""
    path = fill(server) + "sub%20folder/"
    page = page_of(server, path)
    found = [(urllib.parse.urljoin(path, link), text) for link, text in page.links.items() if link.startswith("..")]
    top = f"{server.prefix}/"
    name = fill(server)[len(top) :].rstrip("/")
    expect("the links above", found, [(top, "Files"), (f"{top}{name}/", name)])
    for target, text in found:
        above = page_of(server, target)
        below = {urllib.parse.urljoin(target, it) for it in above.members()}
        expect(f"whether {text} has the page below it", any(path.startswith(it) for it in below), True)
    current = [attributes for tag, attributes in page.elements if "aria-current" in attributes]
    expect("what is the page itself", current, [{"aria-current": "page"}])


def no_script(server: Server):
    """No name becomes an element or an attribute. The only script is the one that the policy allows."""
    page = page_of(server, fill(server))
    for tag, attributes in page.elements:
        has_handler = any(it.startswith("on") for it in attributes)
        if has_handler or "style" in attributes or tag in ("img", "iframe", "object", "base", "form", "link"):
            raise Wrong(f"expected no element {tag} with {attributes}")
        if urllib.parse.urlsplit(attributes.get("href") or "").scheme:
            raise Wrong(f"expected a relative link, got {attributes}")
    found = [it for it in page.elements if it[0] in page.inline]
    expect("scripts and styles", found, [("style", {}), ("script", {})])


def source(text: str) -> str:
    """The source of a policy that allows a script or a style (Content Security Policy Level 3, section 6.7.2)."""
    return f"'sha256-{base64.b64encode(hashlib.sha256(text.encode()).digest()).decode()}'"


def policy(server: Server):
    """The policy allows this script, this style and requests to this server, and nothing else."""
    answer = server.ask("GET", fill(server), status=200)
    inline = Page(answer.body.decode()).inline
    rules = [it.split() for it in (answer.field("Content-Security-Policy") or "").split(";")]
    wanted = [
        ["base-uri", "'none'"], ["connect-src", "'self'"], ["default-src", "'none'"], ["form-action", "'none'"],
        ["frame-ancestors", "'none'"], ["script-src", source(inline["script"])], ["style-src", source(inline["style"])],
    ]
    expect("Content-Security-Policy", sorted(rules), wanted)


def redirects(server: Server):
    """A collection without its trailing slash redirects to it, on this host."""
    path = fill(server)
    answer = server.ask("GET", path.rstrip("/"), status=(301, 302, 307, 308))
    target = urllib.parse.urljoin(server.url(path.rstrip("/")), answer.field("Location") or "")
    expect("Location", target, server.url(path))
    answer = server.ask("GET", f"{path}sub%20folder", status=(301, 302, 307, 308))
    target = urllib.parse.urljoin(server.url(path), answer.field("Location") or "")
    expect("Location", target, server.url(f"{path}sub%20folder/"))


def heads(server: Server):
    path = fill(server)
    answer, page = server.ask("HEAD", path, status=200), server.ask("GET", path, status=200)
    expect("Content-Type", (answer.field("Content-Type") or "").partition(";")[0], "text/html")
    for name in ("Content-Length", "Content-Security-Policy", "Cache-Control"):
        expect(name, answer.field(name), page.field(name))
    server.ask("HEAD", path.rstrip("/"), status=(301, 302, 307, 308))


def nothing(server: Server):
    server.ask("GET", fill(server) + "none", status=404)
    server.ask("GET", fill(server) + "none/", status=404)


for group in (PAGE, PREFIXED):
    group.add("each member has a link that works", links)
    group.add("the collections above have links that work", crumbs)
    group.add("no other script, whatever the names are", no_script)
    group.add("the policy allows only its script and its style", policy)
    group.add("a path without its trailing slash redirects", redirects)
    group.add("HEAD", heads)
    group.add("what does not exist is 404", nothing)


@PAGE.check("a redirect stays on this host")
def open_redirect(server):
    server.ask("MKCOL", "/example.org/", status=201)
    for path in ("//example.org", "/%2fexample.org", "///example.org", "/.//example.org"):
        answer = server.ask("GET", path)
        target = urllib.parse.urljoin(server.url("/"), answer.field("Location") or "/")
        if urllib.parse.urlsplit(target).netloc != f"127.0.0.1:{server.port}":
            raise Wrong(f"expected no redirect of {path} to another host, got {answer}")


@PAGE.check("a file of HTML does not run scripts with the user's rights")
def sandbox(server):
    server.ask("PUT", "/evil.html", b"<script>alert(1)</script>", status=201)
    answer = server.ask("GET", "/evil.html", status=200)
    isolated = "sandbox" in (answer.field("Content-Security-Policy") or "")
    if not isolated and "attachment" not in (answer.field("Content-Disposition") or ""):
        raise Wrong(f"expected a sandbox or an attachment, got {answer}")
    expect("X-Content-Type-Options", answer.field("X-Content-Type-Options"), "nosniff")


@PAGE.check("a page of 3000 members")
def large(server):
    path = server.folder()
    with server.connect() as connection:
        for number in range(3000):
            connection.request("PUT", f"{path}f{number}", b"")
            expect("the status of a PUT", connection.answer("PUT").status, 201)
    page = page_of(server, path)
    expect("the number of members", sum(it.strip().startswith("f") for it in page.links.values()), 3000)


# ---- pages of other origins (the Fetch Standard, section 3.2)


def preflight(server: Server, method: str, names: str, origin=ORIGIN):
    fields = {"Origin": origin, "Access-Control-Request-Method": method, "Access-Control-Request-Headers": names}
    return server.ask("OPTIONS", "/a", None, fields)


def allowed(server: Server, method: str, names: str):
    """The response to a preflight has a 2xx status and allows the method and the fields, without a user."""
    answer = preflight(server, method, names)
    expect("whether the status is 2xx", 200 <= answer.status < 300, True)
    expect("Access-Control-Allow-Origin", answer.field("Access-Control-Allow-Origin"), ORIGIN)
    if method not in answer.members("Access-Control-Allow-Methods"):
        raise Wrong(f"expected {method} in Access-Control-Allow-Methods, got {answer}")
    have = {it.lower() for it in answer.members("Access-Control-Allow-Headers")}
    missing = set(names.split(", ")) - have
    if missing:
        raise Wrong(f"expected {sorted(missing)} in Access-Control-Allow-Headers, got {answer}")
    expect("Origin in Vary", "origin" in {it.lower() for it in answer.members("Vary")}, True)


PREFLIGHTS = [
    ("PROPFIND", "authorization, content-type, depth"),
    ("PROPPATCH", "authorization, content-type, if"),
    ("PUT", "authorization, content-type, if, if-match, if-none-match"),
    ("PATCH", "authorization, content-type, x-update-range"),
    ("MKCOL", "authorization"),
    ("COPY", "authorization, depth, destination, overwrite"),
    ("MOVE", "authorization, destination, if, overwrite"),
    ("DELETE", "authorization, if"),
    ("LOCK", "authorization, content-type, depth, if, timeout"),
    ("UNLOCK", "authorization, lock-token"),
    ("GET", "authorization, range, if-range, if-none-match"),
]
for method, names in PREFLIGHTS:
    CORS.add(f"a preflight of {method}", allowed, method, names)


def stranger(server: Server, origin: str):
    """A preflight of another origin is not allowed."""
    answer = preflight(server, "PUT", "authorization", origin)
    if answer.field("Access-Control-Allow-Origin") in ("*", origin):
        raise Wrong(f"expected that {origin} is not allowed, got {answer}")


for origin in ("https://other.example.org", "https://app.example.org.evil.example", "http://app.example.org",
               "https://APP.example.org:8443", "null"):
    CORS.add(f"a preflight of {origin} is not allowed", stranger, origin)


@CORS.check("a request of the origin can read the fields of WebDAV")
def actual(server):
    answer = server.ask("PUT", "/cors", b"1", {**AS_ANNA, "Origin": ORIGIN}, 201)
    expect("Access-Control-Allow-Origin", answer.field("Access-Control-Allow-Origin"), ORIGIN)
    shown = {it.lower() for it in answer.members("Access-Control-Expose-Headers")}
    missing = {"etag", "dav", "lock-token"} - shown
    if missing:
        raise Wrong(f"expected {sorted(missing)} in Access-Control-Expose-Headers, got {answer}")


@CORS.check("401 can be read by the origin, too")
def unauthorized(server):
    answer = server.ask("GET", "/cors", None, {"Origin": ORIGIN}, 401)
    expect("Access-Control-Allow-Origin", answer.field("Access-Control-Allow-Origin"), ORIGIN)


@CORS.check("a request of another origin is served without the fields of CORS")
def other(server):
    answer = server.ask("GET", "/cors", None, {**AS_ANNA, "Origin": "https://other.example.org"})
    expect("Access-Control-Allow-Origin", answer.field("Access-Control-Allow-Origin"), None)


@CORS.check("OPTIONS without Origin is that of WebDAV")
def options(server):
    answer = server.ask("OPTIONS", "/", None, AS_ANNA, 200)
    expect("1 in DAV", "1" in answer.members("DAV"), True)


# ---- the health


@HEALTH.check("200 and ok")
def healthy(server):
    answer = server.ask("GET", "/-/health", status=200)
    expect("the body", answer.body.strip(), b"ok")
    server.ask("HEAD", "/-/health", status=200)


@HEALTH.check("other methods change nothing there")
def nothing_else(server):
    for method in ("PUT", "DELETE", "MKCOL", "PROPPATCH", "LOCK"):
        server.ask(method, "/-/health", b"", status=(403, 405))
    server.ask("GET", "/-/health", status=200)

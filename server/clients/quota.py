"""The quota: what is reported (RFC 4331), and what is rejected with 507."""
import threading

import multistatus
from connection import Wrong, chunked
from harness import Group
from multistatus import D
from server import Server, expect

TOTAL = 1_000_000
GROUP = Group("quota", "-quota", str(TOTAL))
WITHOUT = Group("no quota")
KEPT = Group("quota over a folder", "-quota", str(TOTAL), "-folder", "{folder}/kept")
GROUPS = [GROUP, WITHOUT, KEPT]
PATCH_TYPE = {"Content-Type": "application/x-sabredav-partialupdate"}


def figures(server: Server) -> tuple[int, int]:
    """The bytes that are used and those that are left, as the root has them."""
    names = D + "quota-used-bytes", D + "quota-available-bytes"
    answer = server.ask("PROPFIND", "/", multistatus.propfind(*names), {"Depth": "0"}, 207)
    texts = [multistatus.only(answer).text(it) for it in names]
    if not all(it and it.isdigit() for it in texts):
        raise Wrong(f"expected two numbers, got {answer}")
    return int(texts[0]), int(texts[1])


def emptied(server: Server) -> str:
    """A collection in a server without other files."""
    for path in multistatus.resources(server.ask("PROPFIND", "/", None, {"Depth": "1"})):
        if path != "/":
            server.ask("DELETE", path, status=204)
    return server.folder()


@GROUP.check("used and available bytes are reported")
def reported(server):
    path = emptied(server)
    expect("used and available", figures(server), (0, TOTAL))
    server.ask("PUT", f"{path}a", b"x" * 1000, status=201)
    server.ask("PUT", f"{path}b", b"x" * 500, status=201)
    expect("used and available", figures(server), (1500, TOTAL - 1500))
    server.ask("DELETE", f"{path}a", status=204)
    expect("used and available", figures(server), (500, TOTAL - 500))


@GROUP.check("PUT beyond the quota is 507, by length and in chunks, and changes nothing")
def put(server):
    path = emptied(server)
    server.ask("PUT", f"{path}a", b"x" * 600_000, status=201)
    server.ask("PUT", f"{path}b", b"x" * 400_001, status=507)
    server.ask("PUT", f"{path}b", chunked(b"x" * 400_001), {"Transfer-Encoding": "chunked"}, 507)
    server.ask("GET", f"{path}b", status=404)
    expect("used and available", figures(server), (600_000, 400_000))
    server.ask("PUT", f"{path}b", b"x" * 400_000, status=201)
    expect("used and available", figures(server), (TOTAL, 0))
    server.ask("PUT", f"{path}c", b"x", status=507)
    server.ask("PUT", f"{path}empty", b"", status=201)


@GROUP.check("PUT that replaces a file counts only the difference")
def replace(server):
    path = emptied(server)
    server.ask("PUT", f"{path}a", b"x" * 900_000, status=201)
    server.ask("PUT", f"{path}a", b"y" * 950_000, status=204)
    expect("used and available", figures(server), (950_000, 50_000))
    server.ask("PUT", f"{path}a", b"z" * 1_000_001, status=507)
    body = server.ask("GET", f"{path}a").body
    expect("the length and the first byte", (len(body), body[:1]), (950_000, b"y"))
    server.ask("PUT", f"{path}a", b"z" * 1_000_000, status=204)


@GROUP.check("PATCH far beyond the quota is 507 and changes nothing")
def patch(server):
    path = emptied(server)
    server.ask("PUT", f"{path}a", b"old", status=201)
    for update in ("bytes=2000000-", "bytes=999999-1000001"):
        server.ask("PATCH", f"{path}a", b"xyz", {**PATCH_TYPE, "X-Update-Range": update}, 507)
    expect("the file", server.ask("GET", f"{path}a").body, b"old")
    server.ask("PATCH", f"{path}a", b"xyz", {**PATCH_TYPE, "X-Update-Range": "bytes=999997-"}, 204)
    expect("used and available", figures(server), (TOTAL, 0))
    server.ask("PATCH", f"{path}a", b"xyz", {**PATCH_TYPE, "X-Update-Range": "append"}, 507)
    server.ask("PATCH", f"{path}a", b"xyz", {**PATCH_TYPE, "X-Update-Range": "bytes=0-2"}, 204)


@GROUP.check("COPY beyond the quota is 507 and changes nothing")
def copy(server):
    path = emptied(server)
    server.ask("MKCOL", f"{path}from/", status=201)
    for name in ("a", "b", "c"):
        server.ask("PUT", f"{path}from/{name}", b"x" * 200_000, status=201)
    server.ask("COPY", f"{path}from/", None, {"Destination": f"{path}to/"}, 507)
    server.ask("PROPFIND", f"{path}to/", None, {"Depth": "0"}, 404)
    expect("used and available", figures(server), (600_000, 400_000))
    server.ask("COPY", f"{path}from/a", None, {"Destination": f"{path}a"}, 201)
    server.ask("COPY", f"{path}from/b", None, {"Destination": f"{path}b"}, 201)
    server.ask("COPY", f"{path}from/c", None, {"Destination": f"{path}c"}, 507)
    server.ask("GET", f"{path}c", status=404)


@GROUP.check("MOVE and MKCOL at a full quota are served")
def full(server):
    path = emptied(server)
    server.ask("PUT", f"{path}a", b"x" * TOTAL, status=201)
    server.ask("MKCOL", f"{path}sub/", status=201)
    server.ask("MOVE", f"{path}a", None, {"Destination": f"{path}sub/a"}, 201)
    expect("used and available", figures(server), (TOTAL, 0))
    server.ask("DELETE", f"{path}sub/", status=204)
    expect("used and available", figures(server), (0, TOTAL))
    server.ask("PUT", f"{path}a", b"x" * TOTAL, status=201)


@GROUP.check("32 clients at once cannot exceed the quota")
def race(server):
    path = emptied(server)
    statuses = []

    def store(number):
        statuses.append(server.ask("PUT", f"{path}{number}", b"x" * 100_000, seconds=20).status)

    threads = [threading.Thread(target=store, args=(number,)) for number in range(32)]
    for it in threads:
        it.start()
    for it in threads:
        it.join()
    expect("the statuses", sorted(statuses), [201] * 10 + [507] * 22)
    expect("used and available", figures(server), (TOTAL, 0))


@WITHOUT.check("the properties of the quota are 404")
def none(server):
    names = D + "quota-used-bytes", D + "quota-available-bytes"
    found = multistatus.only(server.ask("PROPFIND", "/", multistatus.propfind(*names), {"Depth": "0"}, 207))
    statuses = [found.status_of(it) for it in names]
    if statuses[1] != 404 or statuses[0] not in (200, 404):
        raise Wrong(f"expected that the available bytes are not known, got {statuses}")


@KEPT.check("a quota over a folder is reported and enforced as in memory")
def kept(server):
    path = emptied(server)
    expect("used and available", figures(server), (0, TOTAL))
    server.ask("PUT", f"{path}a", b"x" * 600_000, status=201)
    server.ask("PUT", f"{path}b", b"x" * 400_001, status=507)
    expect("used and available", figures(server), (600_000, 400_000))

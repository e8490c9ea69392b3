"""The metrics for Prometheus: their format, what they count, and that no client makes many of them."""
import math
import os
import re
import signal
import time

import kept
import multistatus
import server as servers
from connection import Connection, Wrong
from harness import Group, Starter
from server import expect, expected

GROUP = Group("metrics", is_shared=False)
GROUPS = [GROUP]

COUNTED_SECONDS = 5
HEAD = re.compile(r"# (HELP|TYPE) ([a-z][a-z_]*) (.+)")
SAMPLE = re.compile(r'([a-z][a-z_]*)((?:\{(?:[a-z]+="(?:[^"\\]|\\["\\n])*",?)+\})?) (\S+)')
BUCKET = re.compile(r'(\w+)_bucket\{(?:(.*),)?le="[^"]*"\}')


def scrape(port: int) -> dict[str, float]:
    """The samples, each by its name and labels. Raises `Wrong` if the format is wrong."""
    with Connection(port) as connection:
        connection.request("GET", "/metrics")
        answer = expected(connection.answer(), 200, "GET /metrics")
    expect("the type", answer.field("Content-Type"), "text/plain; version=0.0.4; charset=utf-8")
    samples: dict[str, float] = {}
    kinds: dict[str, str] = {}
    begun = None  # the metric whose samples come
    for line in answer.body.decode().splitlines():
        if head := HEAD.fullmatch(line):
            if head[1] == "HELP":
                expect(f"{head[2]} was there before", head[2] in kinds, False)
            kinds[head[2]], begun = head[3], head[2]
            continue
        sample = SAMPLE.fullmatch(line)
        if not sample or sample[1] + sample[2] in samples:
            raise Wrong(f"the line {line!r} is none of the format, or is there twice")
        parts = ("_bucket", "_sum", "_count") if kinds[begun] == "histogram" else ("",)
        expect(f"the metric of {line}", sample[1] in [begun + it for it in parts], True)
        samples[sample[1] + sample[2]] = float(sample[3])
    check_histograms(samples)
    return samples


def check_histograms(samples: dict[str, float]):
    """Raises `Wrong` unless the buckets of each histogram increase up to its count."""
    last: dict[str, float] = {}
    for name, value in samples.items():
        if found := BUCKET.fullmatch(name):
            count = found[1] + "_count" + (f"{{{found[2]}}}" if found[2] else "")
            if not last.get(count, 0) <= value < math.inf:
                raise Wrong(f"{name} is {value}, and the bucket before {last.get(count)}")
            last[count] = value
    for count, value in last.items():
        expect(count, samples.get(count), value)


def start(starter: Starter, *flags) -> tuple[servers.Server, int]:
    """A server over a folder, and the port of its metrics."""
    port = servers.free_port()
    servers.PORTS.remove(port)  # So that the server does not take it.
    return kept.start(starter, *flags, "-metrics", f"127.0.0.1:{port}"), port


def await_samples(port: int, wanted: dict[str, float]) -> dict[str, float]:
    """Waits until samples have these values: a request is counted after its response. Returns all samples."""
    end = time.monotonic() + COUNTED_SECONDS
    while True:
        samples = scrape(port)
        got = {name: samples.get(name) for name in wanted}
        if got == wanted:
            return samples
        if time.monotonic() > end:
            raise Wrong(f"expected {wanted} within {COUNTED_SECONDS} s, got {got}")
        time.sleep(0.02)


@GROUP.check("what clients do is counted")
def counted(starter: Starter):
    server, port = start(starter, "-quota", "1M")
    before = scrape(port)
    server.ask("PUT", "/a", b"x" * 300_000, status=201)
    for _ in range(3):
        server.ask("GET", "/a", status=200)
    server.ask("GET", "/none", status=404)
    server.ask("LOCK", "/a", multistatus.lockinfo(), {"Timeout": "Second-60"}, 200)
    with server.connect() as connection:
        connection.request("OPTIONS", "/")
        expected(connection.answer(), 200, "OPTIONS /")
        samples = await_samples(port, {
            'davserve_requests_total{method="PUT",status="201"}': 1,
            'davserve_requests_total{method="GET",status="404"}': 1,
            'davserve_requests_total{method="LOCK",status="200"}': 1,
            'davserve_request_duration_seconds_count{method="PUT"}': 1,
            "davserve_connections": 1,
            "davserve_requests_under_way": 0,
            "davserve_locks": 1,
            "davserve_quota_used_bytes": 300_000,
            "davserve_quota_bytes": 1 << 20,
            "davserve_davd_up": 1,
            "davserve_davd_full": 0,
            "davserve_davd_restarts_total": 0,
        })
    gets = 'davserve_requests_total{method="GET",status="200"}'
    expect("the GETs beside those of the health", samples[gets] - before[gets], 3)
    for name, least, most in (
        ("davserve_received_bytes_total", 300_000, 310_000),
        ("davserve_sent_bytes_total", 900_000, 920_000),
        ("davserve_connections_accepted_total", 7, 7),
        ('davserve_batch_duration_seconds_count{changes="true"}', 2, 5),
        ("davserve_batch_frames_count", 10, 1000),  # Each read of the metrics has one.
        ("davserve_davd_memory_bytes", 1 << 20, 1 << 30),
        ('davserve_folder_bytes{file="data"}', 300_000, 400_000),
        ('davserve_folder_bytes{file="meta.db"}', 4096, 1 << 20),
        ("davserve_folder_free_bytes", 1, 1 << 60),
    ):
        value = samples[name] - before[name] if "_total" in name or "_count" in name else samples[name]
        if not least <= value <= most:
            raise Wrong(f"{name}: expected {least} to {most}, got {value}")


@GROUP.check("a small PUT takes one batch of davd")
def one_batch(starter: Starter):
    server, port = start(starter)
    server.ask("PUT", "/a", b"first", status=201)  # With it davd begins the body of the next one.
    batches = "davserve_batch_frames_count"
    before = scrape(port)[batches]
    for number in range(20):
        server.ask("PUT", "/a", b"%d" % number, status=204)
    took = scrape(port)[batches] - before
    if not 20 <= took <= 22:  # One for what is held, which the metrics ask for, and one for a second without changes.
        raise Wrong(f"expected 20 PUTs to take 20 batches, and at most 2 for others, got {took}")


@GROUP.check("no client makes metrics of its own, and they are at their own address only")
def bounded(starter: Starter):
    server, port = start(starter)
    for number in range(40):
        server.ask(f"BREW{number}", f"/{number}", status=501)
    samples = await_samples(port, {'davserve_requests_total{method="other",status="501"}': 40})
    expect("what a client has named", [it for it in samples if "BREW" in it], [])
    server.ask("GET", "/metrics", status=404)
    with Connection(port) as connection:
        for method, path, status in (("GET", "/", 404), ("PUT", "/metrics", 405), ("HEAD", "/metrics", 200)):
            connection.request(method, path)
            expected(connection.answer(method), status, f"{method} {path}")


@GROUP.check("a davd that is started again is counted")
def restarted(starter: Starter):
    server, port = start(starter)
    os.kill(server.davd(), signal.SIGKILL)
    await_samples(port, {"davserve_davd_up": 1, "davserve_davd_restarts_total": 1})

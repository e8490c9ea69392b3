"""ffmpeg writes a stream of segments by PUT, each on a connection of its own, and leaves before the response."""
import time

from connection import Wrong
from harness import Group
from server import PROCESSES, expect

SECONDS = 60
ROUNDS = 5
SEGMENTS = 10
ARRIVES_WITHIN = 5.0
PACKET = 188  # bytes of a packet of an MPEG transport stream
GROUP = Group("ffmpeg", needs="ffmpeg")
GROUPS = [GROUP]
SOURCE = ["-f", "lavfi", "-i", f"testsrc=duration={SEGMENTS}:size=64x64:rate=5", "-c:v", "mpeg4", "-g", "5"]
STREAM = ["-f", "hls", "-hls_time", "1", "-hls_list_size", "0", "-method", "PUT"]


@GROUP.check("each segment of a stream is stored")
def segments(server):
    """The list is not compared: ffmpeg sends the next one before it knows of the last one, and either may come later."""
    for number in range(ROUNDS):
        server.ask("MKCOL", f"/{number}/", status=201)
        to = server.url(f"/{number}/list.m3u8")
        ran = PROCESSES.run(["ffmpeg", "-loglevel", "error", *SOURCE, *STREAM, to], SECONDS)
        if ran.returncode != 0:
            raise Wrong(f"expected that ffmpeg ends with status 0, got {ran.returncode}:\n{ran.stdout}")
        for segment in range(SEGMENTS):
            length = len(arrived(server, f"/{number}/list{segment}.ts"))
            expect("whether the segment is of whole packets", length > 0 and length % PACKET == 0, True)
    return f"{ROUNDS * SEGMENTS} segments"


def arrived(server, path: str) -> bytes:
    """The bytes of a file whose PUT may still be served."""
    until = time.monotonic() + ARRIVES_WITHIN
    while (answer := server.ask("GET", path, status=(200, 404))).status == 404:
        if time.monotonic() > until:
            raise Wrong(f"expected {path} within {ARRIVES_WITHIN} s, got 404")
        time.sleep(0.05)
    return answer.body

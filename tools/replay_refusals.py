"""Random batches for a davd whose allocations fail: the fourth kind of test of tools/replay.

Each run has one allocation that fails. It ends well, with a batch of replies for each batch. Where the replies differ
from those with enough memory, the first that differs is a failure or a response with status 507, or the batch has it.
"""
import os
import random
import tempfile

import davd
import frames
from davd import Wrong
from refusing_malloc import compile_shim
from replay_batches import MOST_BYTES, Batches
from tool import Progress

BATCHES = 10
# Of more allocations, so many are tried, evenly spread.
MOST_REFUSALS = 400
NO_MEMORY = (3, b"davd: out of memory\n", b"")


def first_difference(ample: list[frames.ReplyBatch], got: list[frames.ReplyBatch]) -> int | None:
    """The status of the first reply or batch that differs, or `None` without a difference."""
    for one, other in zip(ample, got):
        if one == other:
            continue
        if one.status != other.status:
            return other.status
        if len(one.replies) != len(other.replies):
            raise Wrong(f"batch {one.number} has {len(other.replies)} replies, and not {len(one.replies)}")
        reply = next(it for was, it in zip(one.replies, other.replies) if was != it)
        return getattr(frames.decode_reply(reply), "status", 200)
    return None


def try_refusal(program, arguments: list[str], source: bytes, ample: list[frames.ReplyBatch], environment: dict):
    ended = davd.run(program, arguments, source, environment)
    if (ended.status, ended.said, ended.wrote) == NO_MEMORY:
        return
    status = first_difference(ample, davd.answers(ended, len(ample)))
    if status not in (None, 507):
        raise Wrong(f"the first reply that differs has the status {status}, and not 507")


def try_run(seed: str, program, shim, progress: Progress) -> tuple[int, list[str]]:
    """Serves the batches of a seed with each allocation failing in turn. Returns how many runs pass, and what fails."""
    source = Batches(random.Random(seed), "")
    sent = b"".join(source.batch().sent.encode() for _ in range(BATCHES))
    arguments = [*davd.arguments_of(None), "-max-batch", str(MOST_BYTES)]
    under_shim = {**os.environ, "LD_PRELOAD": str(shim)}
    with tempfile.NamedTemporaryFile() as counted:
        ample = davd.answers(davd.run(program, arguments, sent, {**under_shim, "COUNT": counted.name}), BATCHES)
        allocations = int(counted.read())
    passed, failed = 0, []
    for number in range(1, allocations + 1, -(-allocations // MOST_REFUSALS)):
        progress.show(f"refusals of run {seed}: allocation {number}/{allocations}")
        try:
            try_refusal(program, arguments, sent, ample, {**under_shim, "REFUSED": str(number)})
            passed += 1
        except (Wrong, frames.Malformed) as wrong:
            failed.append(f"allocation {number} of {allocations} fails: {wrong}")
    return passed, failed


def try_refusals(count: int, seed: str, program, progress: Progress) -> tuple[int, int]:
    passed, failed = 0, 0
    with tempfile.TemporaryDirectory() as work:
        shim = compile_shim(work)
        for number in range(1, count + 1):
            well, wrong = try_run(f"{seed}.{number}", program, shim, progress)
            passed, failed = passed + well, failed + len(wrong)
            for line in wrong:
                progress.print(f"run {number} of --refusals {count} --seed {seed}: {line}")
    progress.print(f"{passed + failed} refused allocations in {count} runs, {failed} of which end otherwise")
    return passed, failed

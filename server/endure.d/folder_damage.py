"""The files of a folder are damaged while nobody uses them: tails that are cut off, and bits that are flipped.

A server over such a folder refuses it, or serves all that was there. Only a file whose own bytes are damaged cannot be
read then.
"""
import argparse
import collections
import pathlib
import random
import time
import typing

import folder_host
import folder_look
import folder_requests
from connection import Cut, Wrong
from endure_client import Client
from folder_host import Place
from folder_model import Found, Kept, difference, wanted
from folder_worker import Tags, Worker
from harness import Run

# The log of the database begins again after about 400 requests. From then on most pages are in meta.db alone.
MOST_REQUESTS = 2000
SHORT, LONG = 2, 200  # how many requests follow
# After so many seconds without changes the number of the last batch is on the disk, and no lost change goes unnoticed.
REST = 4
RESOURCES, BYTES = 150, 16 << 20
FILES = ("meta.db-wal", "data", "meta.db", "last", "last-wal")
BEHIND = 64  # bytes at the end of a file, which are chosen more often
SHOWN = 5


class Original:
    """A folder that nobody uses, and its state."""

    def __init__(self, kept: pathlib.Path, state: Kept):
        self.kept = kept
        self.state = state

    def sizes(self) -> str:
        return ", ".join(f"{it} {(self.kept / it).stat().st_size:,} bytes" for it in FILES)


class Making:
    """One worker over the folder."""

    def __init__(self, place: Place, seed: str):
        self.place, self.folder = place, place.part("damage")
        self.host = place.start(self.folder)
        self.worker = Worker(0, self.host.port, f"{seed}.damage", Tags())
        self.worker.most_resources, self.worker.most_bytes = RESOURCES, BYTES
        self.worker.begin()

    def request(self):
        if not self.worker.perform(folder_requests.some_request(self.worker)):
            raise Wrong("a request has no answer")

    def turn(self) -> bytes:
        """The number in the header of the log that counts how often it began again."""
        with (self.folder / "kept/meta.db-wal").open("rb") as log:
            return log.read(16)[12:]

    def original(self, requests: int, name: str) -> Original:
        """The folder after some more requests, a rest and a kill."""
        for _ in range(requests):
            self.request()
        time.sleep(REST)
        folder_host.kill_both(self.host, True)
        folder_host.copy(self.folder / "kept", self.folder / name)
        self.host = self.place.start(self.folder)
        self.worker.connect(self.host.port)
        return Original(self.folder / name, self.worker.tree.clone())


def originals(place: Place, seed: str) -> dict[str, Original]:
    """A folder soon after the log of its database began again, and one with a long log."""
    making = Making(place, seed)
    first = making.turn()
    for _ in range(MOST_REQUESTS):
        if making.turn() != first:
            break
        making.request()
    else:
        raise Wrong(f"the log of the database does not begin again within {MOST_REQUESTS} requests")
    made = {"short": making.original(SHORT, "short"), "long": making.original(LONG, "long")}
    making.host.stop()
    return made


class Seen:
    """What a server over a damaged folder has. A file that cannot be read has no bytes."""

    def __init__(self, client: Client, top: str, more: list[str]):
        self.errors: list[str] = []
        self.found: dict[str, Found] = {}
        self.list(client, top)
        for path in {*self.found, *more}:
            self.read(client, path)

    def list(self, client: Client, top: str):
        try:
            self.found = folder_look.list_all(client, top)
        except Wrong as wrong:
            self.errors.append(f"PROPFIND: {str(wrong).splitlines()[0]}")
            client.close()

    def read(self, client: Client, path: str):
        """Reads a file. A response that breaks off has the bytes that came before."""
        found = self.found.get(path)
        if found and found.is_folder:
            return
        try:
            got = client.ask("GET", path)
        except Cut as cut:
            client.close()
            self.errors.append(path)
            self.found[path] = (found or Found(False, None, {}, frozenset(), None, None))._replace(data=cut.body)
            return
        if got.status == 200:
            data = got.body
            self.found[path] = (found or Found(False, None, {}, frozenset(), None, len(data)))._replace(data=data)
        elif got.status != 404:
            self.errors.append(path)


class Damage:
    """The trials, each with a copy of the original."""

    def __init__(self, place: Place, seed: str, made: dict[str, Original]):
        self.place, self.made = place, made
        self.original = made["long"]
        self.chance = random.Random(f"{seed}.damage")
        self.folder = place.part("damaged")
        self.results: collections.Counter[str] = collections.Counter()

    def copy(self, file: str) -> pathlib.Path:
        folder_host.copy(self.original.kept, self.folder / "kept")
        return self.folder / "kept" / file

    def cut(self, file: str) -> str:
        """Cuts the tail of a file. Returns what was done."""
        target = self.copy(file)
        size = target.stat().st_size
        length = self.chance.randrange(max(0, size - BEHIND) if self.chance.random() < 0.2 else 0, size)
        with target.open("r+b") as opened:
            opened.truncate(length)
        return f"{file} was cut from {size:,} to {length:,} bytes"

    def flip(self, file: str) -> str:
        """Flips a bit of a file. Returns what was done."""
        target = self.copy(file)
        place, bit = self.chance.randrange(target.stat().st_size), self.chance.randrange(8)
        with target.open("r+b") as opened:
            opened.seek(place)
            byte = opened.read(1)[0]
            opened.seek(place)
            opened.write(bytes([byte ^ 1 << bit]))
        return f"in {file} bit {bit} of byte {place:,} was flipped"

    def seen(self) -> Seen | str:
        """What a server over the copy has, or why it refuses it."""
        host = self.place.start(self.folder, is_awaited=False)
        try:
            if why := folder_host.refusal(host):
                return why
            return Seen(Client(host.port, "", ""), self.original.state.root, self.original.state.files())
        finally:
            host.check_log()
            if host.is_running():
                folder_host.kill_both(host, True)
            host.log_file.unlink()

    def trial(self, check: "Check"):
        what = check.damage(self, check.file)
        try:
            seen = self.seen()
            result = f"refused ({seen})" if isinstance(seen, str) else check.judge(self, seen)
            self.results[f"{check.damage.__name__} {check.file}: {result}"] += 1
        except (Wrong, OSError) as wrong:
            kept = self.place.folder / f"failed-{len(list(self.place.folder.glob('failed-*')))}"
            folder_host.copy(self.folder / "kept", kept)
            raise Wrong(f"{what}: {wrong}\nthe folder is {kept}, and without the damage {self.original.kept}") from None

    # ---- what may be seen

    def is_whole(self, seen: Seen) -> str:
        """All is there as it was, and can be read."""
        if seen.errors:
            raise Wrong(f"{len(seen.errors)} files cannot be read: {seen.errors[:SHOWN]}")
        return self.is_there(seen)

    def is_there(self, seen: Seen) -> str:
        """All is there as it was, but that some files cannot be read."""
        if different := difference_of(seen, self.original.state):
            raise Wrong(different)
        return f"serves, and {len(seen.errors)} files cannot be read" if seen.errors else "serves all that was there"


def difference_of(seen: Seen, state: Kept) -> str | None:
    """What differs between what was seen and a state. A file that cannot be read has the bytes of the state."""
    if set(seen.found) != set(state.resources):
        return f"the paths {sorted(set(seen.found) ^ set(state.resources))[:SHOWN]}"
    for path, found in seen.found.items():
        must = wanted(state, path)
        if path in seen.errors and found.data is not None and must and must.data is not None:
            if not must.data.startswith(found.data):
                return f"{path}: other bytes before the response breaks off"
            found = found._replace(data=None)
        if different := difference(found, must):
            return f"{path}: {different}"
    return None


class Check(typing.NamedTuple):
    """`made` is which folder is damaged."""

    trials: int
    name: str
    file: str
    made: str
    damage: typing.Callable[[Damage, str], str]
    judge: typing.Callable[[Damage, Seen], str]


CHECKS = tuple(
    Check(trials, f"a {damage.__name__} of {file} is found, or all is there", file, made, damage, judge)
    for file, made, judge, cuts, flips in (
        ("meta.db-wal", "long", Damage.is_whole, 10, 20),
        ("meta.db", "short", Damage.is_whole, 10, 30),
        ("data", "long", Damage.is_there, 10, 30),
        ("last", "long", Damage.is_whole, 5, 5),
        ("last-wal", "long", Damage.is_whole, 5, 5),
    )
    for trials, damage in ((cuts, Damage.cut), (flips, Damage.flip))
)


def run(place: Place, options: argparse.Namespace, counts: Run):
    try:
        made = originals(place, options.seed)
    except (Wrong, OSError) as wrong:
        counts.fail("damage: the folder that is damaged", str(wrong))
        return
    for name, original in made.items():
        counts.note(f"the folder with a {name} log: {original.sizes()}")
    damage = Damage(place, options.seed, made)
    for check in CHECKS:
        try_check(damage, check, counts)
    for result, count in sorted(damage.results.items()):
        counts.note(f"{count} times {result}")


def try_check(damage: Damage, check: Check, counts: Run):
    wrong = []
    damage.original = damage.made[check.made]
    for _ in range(check.trials):
        try:
            damage.trial(check)
        except Wrong as it:
            wrong.append(str(it))
    name = f"damage: {check.name}"
    if wrong:
        counts.fail(name, f"{len(wrong)} of {check.trials} trials\n" + "\n".join(wrong[:SHOWN]))
    else:
        counts.pass_(name)

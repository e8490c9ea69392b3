"""The disk of the folder is full: what is answered then, and that nothing that was answered is lost."""
import argparse
import os
import random
import subprocess

import folder_host
import folder_requests
from connection import Wrong
from folder_host import Place
from folder_worker import Tags, Worker
from harness import Run, Skipped

SIZE = "40m"
KILLS = 3
# The bodies with which the disk is filled. davd gets one of more than 256 KiB in pieces, and a smaller one at once.
WHOLE, PIECES = 200_000, 1 << 20
SMALL = (100_000, 10_000, 1000)
MOST_PUTS = 300
REPLACED = 5
DELETES = 3
ROUNDS = 2


class Disk:
    """A small disk in memory, mounted while it is used."""

    def __init__(self, place: Place):
        self.folder = place.part("disk")
        self.place = place

    def __enter__(self):
        words = ["mount", "-t", "tmpfs", "-o", f"size={SIZE}", "tmpfs", str(self.folder)]
        if os.geteuid() != 0:
            raise Skipped("only root can mount a small disk")
        try:
            ran = subprocess.run(words, capture_output=True, text=True)
        except FileNotFoundError:
            raise Skipped("no command mount") from None
        if ran.returncode:
            raise Skipped(f"`{' '.join(words)}` fails: {ran.stderr.strip()}")
        return self.folder

    def __exit__(self, error, *_):
        if error:
            folder_host.copy(self.folder, self.place.folder / "disk-kept")
        subprocess.run(["umount", "-l", str(self.folder)], capture_output=True)


class Full:
    """A worker that fills the disk, and the server over it."""

    def __init__(self, place: Place, seed: str, folder):
        self.place, self.folder = place, folder
        self.chance = random.Random(f"{seed}.full")
        self.host = place.start(folder)
        self.worker = Worker(0, self.host.port, f"{seed}.full", Tags())
        self.worker.begin()
        self.serial = 0

    def put(self, size: int):
        """Sends a PUT of a new file."""
        self.serial += 1
        return self.perform(folder_requests.put_at(self.worker, f"{self.worker.tree.root}/file-{self.serial}", size))

    def perform(self, request):
        """Sends a request to a server that answers at present, and learns whether it was done."""
        self.host.await_health(seconds=folder_host.BACK_SECONDS)
        got = self.worker.perform(request)
        self.host.await_health(seconds=folder_host.BACK_SECONDS)
        self.worker.settle()
        return got

    def fill(self, sizes):
        """Sends PUTs of each size until one is 507."""
        for size in sizes:
            for _ in range(MOST_PUTS):
                got = self.put(self.chance.randint(size // 2, size))
                if got and got.status == 507:
                    break
            else:
                raise Wrong(f"expected 507 within {MOST_PUTS} PUTs of {size} bytes")

    def start_again(self):
        """Starts davserve again, so that it does not wait before it starts davd."""
        folder_host.kill_both(self.host, self.chance.random() < 0.5)
        self.host = self.place.start(self.folder)
        self.worker.connect(self.host.port)
        self.worker.settle()

    def compare(self):
        self.worker.compare(True)

    # ---- the checks

    def fills(self, sizes=(WHOLE,)):
        self.fill(sizes)
        self.compare()
        return f"{len(self.worker.tree.files())} files of {self.worker.tree.size():,} bytes"

    def fills_up(self):
        """To the last page."""
        return self.fills(SMALL)

    def is_whole(self):
        return self.expect_whole(WHOLE)

    def is_whole_after_pieces(self):
        return self.expect_whole(PIECES)

    def expect_whole(self, size: int):
        """PUTs onto some files are 507, and the files are as before."""
        refused, emptied = 0, []
        for path in self.largest()[:REPLACED]:
            before = self.worker.tree[path].data
            got = self.perform(folder_requests.put_at(self.worker, path, size))
            if got and got.status == 507:
                refused += 1
                if len(self.worker.tree[path].data) != len(before):
                    emptied.append(f"{path} has {len(self.worker.tree[path].data)} bytes of {len(before):,}")
        self.start_again()
        self.compare()
        if emptied:
            raise Wrong(f"after 507 {len(emptied)} of {refused} files were not as before: {', '.join(emptied[:3])}")
        return f"{refused} times 507"

    def largest(self) -> list[str]:
        tree = self.worker.tree
        return sorted(tree.files(), key=lambda it: -len(tree[it].data))

    def killed(self):
        """Kills while a PUT is sent to the full disk."""
        for _ in range(KILLS):
            folder_host.kill_davd(self.host)
            self.put(self.chance.choice((PIECES, WHOLE, *SMALL)))
            self.worker.compare(False)
        self.start_again()
        self.compare()

    def delete(self):
        path = self.largest()[0]
        request = folder_requests.Request("DELETE", path, None, {}, (204,), lambda tree: tree.remove(path))
        return self.perform(request)

    def deletes(self):
        for _ in range(DELETES):
            got = self.delete()
            self.worker.compare(False)
            if not got or got.status != 204:
                raise Wrong(f"expected 204 of a DELETE on a full disk, got {got or 'no answer'}")
        self.compare()

    def puts_again(self):
        """A PUT of less than what was deleted."""
        got = self.put(SMALL[0])
        self.worker.compare(False)
        if not got or got.status != 201:
            raise Wrong(f"expected 201 of a PUT of a tenth of what was deleted, got {got or 'no answer'}")

    def rounds(self):
        """Fills and deletes in turn, with kills."""
        for _ in range(ROUNDS):
            self.fill((PIECES, WHOLE, *SMALL))
            self.start_again()
            folder_host.kill_davd(self.host)
            self.host.await_health(seconds=folder_host.BACK_SECONDS)
            self.worker.compare(False)
            self.delete()
        self.start_again()
        self.compare()

    def starts(self):
        """With the disk as it is."""
        self.host.stop()
        self.host = self.place.start(self.folder)
        self.worker.connect(self.host.port)
        self.compare()
        self.host.stop()


CHECKS = {
    "a PUT is 507 when the disk is full, and all that was answered is there": Full.fills,
    "a PUT of 200 kB that is 507 leaves the file as it was": Full.is_whole,
    "a PUT of 1 MiB that is 507 leaves the file as it was": Full.is_whole_after_pieces,
    "a DELETE is 204 on the full disk, and nothing else is lost": Full.deletes,
    "a PUT works again after a DELETE": Full.puts_again,
    "all is there when the disk is full to the last page": Full.fills_up,
    "nothing is lost when davd is killed on the full disk": Full.killed,
    "a DELETE is 204 when the disk is full to the last page": Full.deletes,
    "a PUT works again after a DELETE when the disk was full to the last page": Full.puts_again,
    "nothing is lost when the disk is filled again and again": Full.rounds,
    "everything is there when davserve is started again over the full disk": Full.starts,
}


def run(place: Place, options: argparse.Namespace, counts: Run):
    try:
        with Disk(place) as folder:
            full = Full(place, options.seed, folder)
            failed = [name for name, check in CHECKS.items() if not passes(full, name, check, counts)]
            if failed:
                folder_host.copy(folder, place.folder / "disk-kept")
    except Skipped as reason:
        counts.skip("full disk", str(reason))


def passes(full: Full, name: str, check, counts: Run) -> bool:
    name = f"full disk: {name}"
    try:
        note = check(full)
    except (Wrong, OSError) as wrong:
        counts.fail(name, full.worker.described(wrong), folder_host.tail(full.host))
        return False
    counts.pass_(name)
    if note:
        counts.note(note)
    return True

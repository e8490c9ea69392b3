"""A worker over a folder: sends requests, and knows what the server must have after each kill."""
import collections
import dataclasses
import random
import threading
import time

import folder_look
import folder_requests
import multistatus
from connection import Answer, Cut, Wrong
from endure_client import Client
from folder_model import Found, Kept, changed_paths, difference, wanted
from folder_requests import Request

# What says that a request was not done (docs/SERVER.md). After the other ones a file may have been opened.
NOT_DONE = (503, 507)
NOT_SENT = 503
REFUSED_PAUSE = 0.05
# How many files and folders are compared after a kill, if not all.
COMPARED_FILES = 6
COMPARED_FOLDERS = 2


class Tags:
    """All entity tags that any worker has seen. Each has a part that the server draws when it starts."""

    def __init__(self):
        self.seen: set[str] = set()
        self.part: str | None = None  # of this server; none: no tag of it was seen yet
        self.parts: set[str] = set()
        self.guard = threading.Lock()

    def start_again(self):
        """The server was started again. What its tags begin with is not known yet."""
        self.part = None

    def check_part(self, tag: str):
        """Raises `Wrong` unless a tag has the part of this server, which no earlier one had."""
        part = tag.strip('"').partition("-")[0]
        with self.guard:
            if self.part is None and part not in self.parts:
                self.parts.add(part)
                self.part = part
        if part != self.part:
            raise Wrong(f"expected entity tags with {self.part or 'a part that was never seen'}, found {tag}")

    def add(self, tag: str) -> bool:
        """Whether the tag is new."""
        with self.guard:
            is_new = tag not in self.seen
            self.seen.add(tag)
            return is_new


def version(tag: str) -> str:
    """What an entity tag has behind the part that the server draws when it starts."""
    return tag.strip('"').partition("-")[2]


@dataclasses.dataclass
class Pending:
    """A request of which nobody knows whether it was done, and the state that it leads to if it was."""

    request: Request
    after: Kept
    done: str = "unanswered and done"
    not_done: str = "unanswered and not done"


class Worker:
    """One worker, which a thread at a time uses. `tree` is the state after the last request that was answered."""

    def __init__(self, number: int, port: int, seed: str, tags: Tags):
        self.number = number
        self.chance = random.Random(f"{seed}.{number}")
        self.client = Client(port, "", "")
        self.tree = Kept(f"/w{number}")
        self.tags = tags
        self.serial = 0
        self.most_resources, self.most_bytes = folder_requests.MOST_RESOURCES, folder_requests.MOST_BYTES
        self.pending: Pending | None = None
        self.counts: collections.Counter[str] = collections.Counter()
        self.not_done: tuple[int, ...] = NOT_DONE
        self.unread: tuple[int, ...] = (NOT_SENT,)  # the statuses of a GET that cannot be answered

    def begin(self):
        """Makes the folder of the worker."""
        self.client.ask("MKCOL", self.tree.root, status=201)

    def connect(self, port: int):
        """The server was started again, on this port."""
        self.client.close()
        self.client.port = port
        self.tags.start_again()

    def bytes(self, size: int) -> bytes:
        """Bytes that no other file has."""
        self.serial += 1
        mark = f"{self.number}.{self.serial}.".encode()
        return (mark + self.chance.randbytes(size))[:size] if size > len(mark) else self.chance.randbytes(size)

    # ---- requests

    def work(self, stop: threading.Event):
        """Sends requests until it must stop, or until one has no answer."""
        while not stop.is_set() and not self.pending:
            if self.chance.random() < 0.15:
                self.read_some()
            else:
                self.perform(folder_requests.some_request(self))

    def perform(self, request: Request) -> Answer | None:
        """Sends a request. Returns its answer, or `None` if there is none: then it is pending."""
        after = self.tree.clone()
        request.change(after)
        try:
            got = self.client.ask(request.method, request.path, request.body, request.fields)
        except (Cut, OSError):
            self.client.close()
            self.pending = Pending(request, after)
            return None
        self.counts["requests"] += 1
        if got.status in request.statuses:
            self.tree = after
            self.learn(request, got)
        elif got.status in self.not_done:
            self.counts[f"answered {got.status}"] += 1
            self.refuse(request, got.status)
        else:
            raise Wrong(f"{request}: expected one of {(*request.statuses, *self.not_done)}, got {got}")
        return got

    def refuse(self, request: Request, status: int):
        """The request was not done. But a store that could not write may have opened the file."""
        if status != NOT_SENT and request.open:
            opened = self.tree.clone()
            request.open(opened)
            self.pending = Pending(request, opened, f"{status} and emptied", f"{status} and not done")
        time.sleep(REFUSED_PAUSE)

    def learn(self, request: Request, got: Answer):
        """Learns what only an answer says: the entity tag of a file, and the token of a lock."""
        if request.method == "LOCK":
            self.tree.locks[request.path].token = multistatus.token_of(got)
        elif request.method in ("PUT", "PATCH") and request.path in self.tree and (tag := got.field("ETag")):
            if got.status != 423:
                self.learn_tag(request.path, tag)

    def learn_tag(self, path: str, tag: str | None):
        """A file that did not change keeps its entity tag, but for the part that the server draws when it starts. Another
        tag was never seen before."""
        file = self.tree[path]
        if not tag:
            raise Wrong(f"{path}: expected an entity tag, found none")
        self.tags.check_part(tag)
        if file.tag and version(file.tag) != version(tag):
            raise Wrong(f"{path}: expected the entity tag {file.tag}, found {tag}")
        is_new = self.tags.add(tag)
        if not file.tag and not is_new:
            raise Wrong(f"{path}: expected an entity tag that was never seen, found {tag}")
        if not file.tag:
            self.counts["new entity tags"] += 1
        file.tag = tag

    def read_some(self):
        """Reads a file while others write. A server that is killed meanwhile breaks it off."""
        path = folder_requests.some(self, self.tree.files())
        if not path:
            return
        try:
            got = self.client.ask("GET", path)
        except (Cut, OSError):
            self.client.close()
            time.sleep(REFUSED_PAUSE)
            return
        if got.status == 200:
            must = wanted(self.tree, path)
            self.check(path, must._replace(data=got.body, length=len(got.body), tag=got.field("ETag")), "in a GET")
        elif got.status in self.unread:
            self.counts[f"GET answered {got.status}"] += 1
        else:
            raise Wrong(f"GET {path}: expected 200 or one of {self.unread}, got {got}")

    # ---- after a kill

    def settle(self):
        """Finds out whether the request without an answer was done. It was done wholly, or not at all."""
        if not self.pending:
            return
        pending, self.pending = self.pending, None
        request, after = pending.request, pending.after
        found = {it: folder_look.look(self.client, it) for it in changed_paths(self.tree, after)}
        not_done, done = (self.first_difference(it, found) for it in (self.tree, after))
        if not_done and done:
            raise Wrong(
                f"{request} had no answer or was 507, and was neither done nor not done.\n"
                f"If it was done, {done}.\nIf it was not done, {not_done}."
            )
        if not found:
            self.forget_tag(request.path)
            return
        self.counts[pending.done if not_done else pending.not_done] += 1
        if not_done:
            self.tree = after
            self.adopt(request.path, found.get(request.path))

    def first_difference(self, tree: Kept, found: dict[str, Found | None]) -> str | None:
        for path, it in found.items():
            if different := difference(it, wanted(tree, path)):
                return f"{path}: {different}"
        return None

    def adopt(self, path: str, found: Found | None):
        """Learns the token of a lock whose answer did not come."""
        lock = self.tree.locks.get(path)
        if lock and lock.token is None and found:
            lock.token = next(iter(found.tokens))

    def forget_tag(self, path: str):
        """A request may have been done that changes nothing but perhaps the entity tag."""
        if path in self.tree.files() and (tag := self.tree[path].tag):
            self.tree[path].tag = None
            self.tags.seen.discard(tag)

    def compare(self, is_all: bool):
        """Compares all with the model, or a part: bytes, members, properties, locks and entity tags."""
        chosen = self.tree.folders(), self.tree.files()
        if not is_all:
            chosen = [self.sample(it, most) for it, most in zip(chosen, (COMPARED_FOLDERS, COMPARED_FILES))]
        for folder in chosen[0]:
            self.compare_folder(folder)
        for path in chosen[1]:
            self.check(path, folder_look.look(self.client, path), "after the kill")
        self.counts["files compared"] += len(chosen[1])
        self.check_lock()

    def sample(self, paths: list[str], most: int) -> list[str]:
        return self.chance.sample(paths, min(most, len(paths)))

    def compare_folder(self, folder: str):
        listed = folder_look.list_folder(self.client, folder)
        must = {folder, *self.tree.members(folder)}
        if set(listed) != must:
            more, less = sorted(set(listed) - must), sorted(must - set(listed))
            raise Wrong(f"the members of {folder}: {more} too much, {less} missing")
        for path, found in listed.items():
            self.check(path, found, "in a list")
        self.counts["folders compared"] += 1

    def check(self, path: str, found: Found | None, when: str):
        must = wanted(self.tree, path)
        if different := difference(found, must):
            raise Wrong(f"{path} ({when}): {different}")
        if found and not found.is_folder:
            self.learn_tag(path, found.tag)

    def check_lock(self):
        """A file that was locked is still locked."""
        if request := folder_requests.refused(self):
            self.client.ask(request.method, request.path, request.body, request.fields, request.statuses)
            self.counts["locks tried"] += 1

    def settle_and_compare(self, is_all: bool):
        self.settle()
        self.compare(is_all)

    def described(self, wrong: Exception) -> str:
        lately = "\n  ".join(self.client.lately)
        return f"{wrong}\nthe last requests of the worker:\n  {lately}"

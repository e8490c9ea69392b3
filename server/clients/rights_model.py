"""A plain model of access rules: what a request of a user must be answered, and what it leaves.

A path is a tuple of names. The model serves no locks, no conditions and no PATCH.
"""
import typing

Path = tuple[str, ...]
EVERYONE = "*"
CALLER = "{user}"
LIST, READ, WRITE = "list", "read", "write"
ANY_NAME = "*"  # the name of a member that no rule names
INVALID = {403, 404, 405, 409}  # what a request gets that is wrong without any rule, too


class Rule(typing.NamedTuple):
    """A rule for these users, made for a path or, if it is `deep`, for a path and all below it."""

    users: tuple[str, ...]
    path: Path
    deep: bool
    allow: frozenset[str]


class Expected(typing.NamedTuple):
    """What must come: one of the statuses, and in a 207 exactly these paths."""

    statuses: set[int]
    paths: set[Path] = frozenset()


class Rights:
    """What some rules allow a user."""

    def __init__(self, rules: list[Rule], user: str):
        resolved = [it._replace(path=tuple(user if name == CALLER else name for name in it.path)) for it in rules]
        self.rules = [it for it in resolved if EVERYONE in it.users or user in it.users]

    def at(self, path: Path) -> frozenset[str]:
        """What the rule that decides at a path allows: the first one with the longest path."""
        made = [it for it in self.rules if path == it.path or it.deep and path[: len(it.path)] == it.path]
        return max(made, key=lambda it: len(it.path)).allow if made else frozenset()

    def may(self, right: str, path: Path) -> bool:
        leads_on = any(it.allow and it.path != path and it.path[: len(path)] == path for it in self.rules)
        return right in self.at(path) or right == LIST and leads_on

    def may_below(self, rights: set[str], path: Path) -> bool:
        """Whether one may do this at a path, and at all below as far as rules say."""
        places = [path, *(it.path for it in self.rules if it.path[: len(path)] == path)]
        return all(rights <= self.at(it) and rights <= self.at((*it, ANY_NAME)) for it in places)


class Model:
    """The files with their lengths, and the directories, which have none. The root is always there."""

    def __init__(self):
        self.tree: dict[Path, int | None] = {}

    def is_directory(self, path: Path) -> bool:
        return path == () or self.tree.get(path, 0) is None

    def exists(self, path: Path) -> bool:
        return path == () or path in self.tree

    def members(self, path: Path) -> list[Path]:
        return sorted(it for it in self.tree if it[:-1] == path)

    def get(self, may: Rights, path: Path) -> Expected:
        if not may.may(LIST, path):
            return Expected({403})
        if not self.exists(path):
            return Expected({404})
        if self.is_directory(path):
            return Expected({301 if path else 200})  # a page, at a path with a slash at its end
        return Expected({200 if may.may(READ, path) else 403})

    def propfind(self, may: Rights, path: Path, depth: str) -> Expected:
        if not may.may(LIST, path):
            return Expected({403})
        if not self.exists(path):
            return Expected({404})
        members = self.members(path) if depth == "1" else []
        return Expected({207}, {path, *(it for it in members if may.may(LIST, it))})

    def put(self, may: Rights, path: Path, length: int) -> Expected:
        if not self.is_directory(path[:-1]) or self.is_directory(path):
            return Expected(INVALID)
        if not may.may(WRITE, path):
            return Expected({403})
        is_seen = self.exists(path) and may.may(LIST, path)
        self.tree[path] = length
        return Expected({204 if is_seen else 201})

    def mkcol(self, may: Rights, path: Path) -> Expected:
        if not self.is_directory(path[:-1]) or self.exists(path):
            return Expected(INVALID)
        if not may.may(WRITE, path):
            return Expected({403})
        self.tree[path] = None
        return Expected({201})

    def proppatch(self, may: Rights, path: Path) -> Expected:
        if not self.exists(path):
            return Expected(INVALID)
        if may.may(LIST, path) and may.may(WRITE, path):
            return Expected({207}, {path})
        return Expected({403})

    def lock(self, may: Rights, path: Path, depth: str) -> Expected:
        """A LOCK where nothing is makes an empty file. The lock is removed at once."""
        if not (may.may_below({WRITE}, path) if depth == "infinity" else may.may(WRITE, path)):
            return Expected({403})
        if self.exists(path):
            is_odd = self.is_directory(path) and not may.may(LIST, path)
            return Expected({200, 201} | (INVALID if is_odd else set()))
        if not self.is_directory(path[:-1]):
            return Expected(INVALID)
        self.tree[path] = 0
        return Expected({201})

    # ---- what may be done in part. The result of these is the paths of what could not be done

    def delete(self, may: Rights, path: Path) -> Expected:
        if not may.may(LIST, path):
            return Expected({403})
        if not self.exists(path):
            return Expected({404})
        return ended(path, self.remove(may, path), 204)

    def remove(self, may: Rights, path: Path) -> set[Path]:
        failed = set()
        for member in self.members(path):
            failed |= self.remove(may, member) if may.may(LIST, member) else {path}
        if failed:
            return failed
        if not may.may(WRITE, path):
            return {path}
        del self.tree[path]
        return set()

    def transfer(self, may: Rights, source: Path, target: Path, is_move: bool) -> Expected:
        """A COPY or a MOVE to a path that is neither that of the source, nor above or below it."""
        if not may.may(LIST, source):
            return Expected({403})
        if not self.exists(source):
            return Expected({404})
        if not self.is_directory(target[:-1]) or not may.may(LIST, target[:-1]):
            return Expected({409})
        if not may.may(LIST, target):
            return Expected({403})
        is_there = self.exists(target)
        if is_there and (failed := self.remove(may, target)):
            return Expected({207}, failed)
        failed = self.move(may, source, target) if is_move else self.copy(may, source, target)
        return ended(source, failed, 204 if is_there else 201)

    def move(self, may: Rights, source: Path, target: Path) -> set[Path]:
        if not may.may_below({READ, WRITE}, source) or not may.may_below({WRITE}, target):
            return {source}
        moved = {it: length for it, length in self.tree.items() if it[: len(source)] == source}
        for path, length in moved.items():
            del self.tree[path]
            self.tree[target + path[len(source) :]] = length
        return set()

    def copy(self, may: Rights, source: Path, target: Path) -> set[Path]:
        if not self.is_directory(source):
            if not may.may(READ, source) or not may.may(WRITE, target):
                return {source}
            self.tree[target] = self.tree[source]
            return set()
        if not may.may(WRITE, target):
            return {target}
        self.tree[target] = None
        failed = set()
        for member in self.members(source):
            if not may.may(LIST, member):
                return failed | {source}  # The members behind it are not copied.
            failed |= self.copy(may, member, target + member[-1:])
        return failed


def ended(path: Path, failed: set[Path], status: int) -> Expected:
    """A failure of the path itself is the status of the response, if it is the only one."""
    if failed == {path}:
        return Expected({403})
    return Expected({207}, failed) if failed else Expected({status})

"""What a worker knows of its folder on the server: resources, and locks that stay."""
import dataclasses
import typing

from endure_model import File, Folder, Resource, Tree, is_at_or_below


@dataclasses.dataclass
class Lock:
    """`token` has its angle brackets. It is `None` if the response that names it did not come."""

    token: str | None
    scope: str
    is_deep: bool


class Kept(Tree):
    """A tree with the locks of its resources. A resource has at most one lock, its own or a deep one above."""

    def __init__(self, root: str):
        super().__init__(root)
        self.locks: dict[str, Lock] = {}

    def clone(self) -> "Kept":
        """The same tree. What is changed in the one is not changed in the other."""
        same = Kept(self.root)
        same.resources = {path: clone_of(it) for path, it in self.resources.items()}
        same.locks = {path: dataclasses.replace(it) for path, it in self.locks.items()}
        return same

    def lock_of(self, path: str) -> Lock | None:
        """The lock that covers a path."""
        for top, lock in self.locks.items():
            if top == path or lock.is_deep and is_at_or_below(path, top):
                return lock
        return None

    def has_lock_below(self, path: str) -> bool:
        return any(it != path and is_at_or_below(it, path) for it in self.locks)

    def is_free(self, path: str) -> bool:
        """Whether no lock covers a path or something below it."""
        return not self.lock_of(path) and not self.has_lock_below(path)

    def remove(self, path: str):
        super().remove(path)
        self.locks = {it: lock for it, lock in self.locks.items() if not is_at_or_below(it, path)}

    def move(self, source: str, target: str):
        """Moves a resource with everything below it. Files keep their entity tags (docs/DECISIONS-STORE.md)."""
        tags = {rest: it.tag for rest, it in self.below(source) if isinstance(it, File)}
        super().move(source, target)
        for rest, tag in tags.items():
            self.resources[target + rest].tag = tag


def clone_of(resource: Resource) -> Resource:
    return dataclasses.replace(resource, properties=dict(resource.properties))


class Found(typing.NamedTuple):
    """A resource as it is found, or as it must be. `data` is `None` for a folder, and if it was not read."""

    is_folder: bool
    data: bytes | None
    properties: dict[str, str]
    tokens: frozenset[str]
    tag: str | None
    length: int | None


UNKNOWN = "a token that nobody knows"


def wanted(tree: Kept, path: str) -> Found | None:
    """What must be found at a path. A lock whose token is not known has the token `UNKNOWN`."""
    resource = tree.resources.get(path)
    if resource is None:
        return None
    lock = tree.lock_of(path)
    tokens = frozenset([lock.token or UNKNOWN] if lock else [])
    if isinstance(resource, Folder):
        return Found(True, None, resource.properties, tokens, None, None)
    return Found(False, resource.data, resource.properties, tokens, resource.tag, len(resource.data))


def difference(found: Found | None, must: Found | None) -> str | None:
    """What differs between a resource as it is found and as it must be, except the entity tag."""
    if found is None or must is None:
        return None if found is must else f"expected {described(must)}, found {described(found)}"
    if found.is_folder != must.is_folder:
        return f"expected {described(must)}, found {described(found)}"
    if found.length != must.length:
        return f"expected {must.length} bytes, found {found.length}"
    if found.data is not None and found.data != must.data:
        return f"of {must.length} bytes byte {first_difference(found.data, must.data)} is the first that differs"
    if found.properties != must.properties:
        return f"expected the properties {shortened(must.properties)}, found {shortened(found.properties)}"
    unknown = len(must.tokens - found.tokens)
    if len(found.tokens) != len(must.tokens) or unknown and UNKNOWN not in must.tokens:
        return f"expected the locks {sorted(must.tokens)}, found {sorted(found.tokens)}"
    return None


def described(found: Found | None) -> str:
    if found is None:
        return "nothing"
    return "a folder" if found.is_folder else f"a file of {found.length} bytes"


def first_difference(one: bytes, other: bytes) -> int:
    return next((at for at, (a, b) in enumerate(zip(one, other)) if a != b), min(len(one), len(other)))


def shortened(properties: dict[str, str]) -> dict[str, str]:
    return {name: value[:40] for name, value in properties.items()}


def changed_paths(before: Kept, after: Kept) -> list[str]:
    """The paths at which two states of a tree differ, in order."""
    paths = {*before.resources, *after.resources}
    return sorted(it for it in paths if is_changed(before, after, it))


def is_changed(before: Kept, after: Kept, path: str) -> bool:
    one, other = wanted(before, path), wanted(after, path)
    if one is None or other is None:
        return one is not other
    return one._replace(tag=None) != other._replace(tag=None)

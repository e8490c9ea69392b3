"""What must exist on the server: a tree of files and folders."""
import dataclasses
import typing


@dataclasses.dataclass
class File:
    """A file. `tag` is its entity tag, with its quotes, if a response has shown it."""

    data: bytes
    properties: dict[str, str] = dataclasses.field(default_factory=dict)
    tag: str | None = None


@dataclasses.dataclass
class Folder:
    properties: dict[str, str] = dataclasses.field(default_factory=dict)


Resource = File | Folder


def parent_of(path: str) -> str:
    return path.rpartition("/")[0]


def is_at_or_below(path: str, top: str) -> bool:
    return path == top or path.startswith(f"{top}/")


class Tree:
    """The resources at and below a folder. A path has no trailing slash."""

    def __init__(self, root: str):
        self.root = root
        self.resources: dict[str, Resource] = {root: Folder()}

    def __contains__(self, path: str) -> bool:
        return path in self.resources

    def __getitem__(self, path: str) -> Resource:
        return self.resources[path]

    def __len__(self) -> int:
        return len(self.resources)

    def is_folder(self, path: str) -> bool:
        return isinstance(self.resources.get(path), Folder)

    def files(self) -> list[str]:
        return [path for path, it in self.resources.items() if isinstance(it, File)]

    def folders(self) -> list[str]:
        return [path for path, it in self.resources.items() if isinstance(it, Folder)]

    def members(self, path: str) -> list[str]:
        return [it for it in self.resources if it != self.root and parent_of(it) == path]

    def size(self) -> int:
        """The bytes of all files."""
        return sum(len(it.data) for it in self.resources.values() if isinstance(it, File))

    def below(self, top: str) -> typing.Iterator[tuple[str, Resource]]:
        """The resource at a path, and those below it, each with the rest of its path."""
        return ((path[len(top) :], it) for path, it in list(self.resources.items()) if is_at_or_below(path, top))

    # ---- changes

    def write(self, path: str, data: bytes, tag: str | None):
        """Makes a file or changes its bytes. Its properties stay."""
        old = self.resources.get(path)
        self.resources[path] = File(data, old.properties if old else {}, tag)

    def make_folder(self, path: str):
        self.resources[path] = Folder()

    def remove(self, path: str):
        for rest, _ in self.below(path):
            del self.resources[path + rest]

    def copy(self, source: str, target: str, is_deep: bool = True):
        """Copies a resource with everything below it, except what is at the target. Folders lose their properties."""
        copied = [
            (rest, File(it.data, dict(it.properties)) if isinstance(it, File) else Folder())
            for rest, it in self.below(source)
            if (is_deep or not rest) and not is_at_or_below(source + rest, target)
        ]
        self.remove(target)
        for rest, it in copied:
            self.resources[target + rest] = it

    def move(self, source: str, target: str):
        moved = list(self.below(source))
        self.remove(target)
        self.remove(source)
        for rest, it in moved:
            if isinstance(it, File):
                it.tag = None
            self.resources[target + rest] = it

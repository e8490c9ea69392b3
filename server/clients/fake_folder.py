"""A davd over a folder, in which it keeps only the number of the last batch. The folder is the last argument.

The first argument says how the first davd over the folder ends: `kept` (it keeps a batch and does not answer it), or an
exit status (it does not keep the batch). Behind a space it says at what: a method, `read` or `piece`. Each other davd
over the folder, and each one with `sound`, answers whatever it is sent.
"""
import fcntl
import pathlib
import sys

from fake_davd import batch_of, good, header, replies, write
from frames import AddToBody, BodyStarted, Done, DropBody, Held, Holdings, Read, Request, Response, StartBody

IN_USE = 5
USED = 900  # bytes of all files


def reply(frame):
    match frame:
        case Request():
            return Response(201, False, (), None)
        case StartBody():
            return BodyStarted(1)
        case AddToBody() | DropBody():
            return Done()
        case Held():
            return Holdings(0, (USED, 1000))
    return good(frame)


def is_wanted(frame, what: str) -> bool:
    """Whether a frame is a request with this method, a read or a piece."""
    if isinstance(frame, Request):
        return frame.method.decode() == what
    return what == "read" and isinstance(frame, Read) or what == "piece" and isinstance(frame, AddToBody)


def lock(folder: pathlib.Path):
    """Locks the folder until the program ends."""
    file = (folder / "lock").open("w")
    try:
        fcntl.flock(file, fcntl.LOCK_EX | fcntl.LOCK_NB)
    except BlockingIOError:
        print(f"davd: {folder} is in use", file=sys.stderr)
        sys.exit(IN_USE)
    return file


class Kept:
    """The number of the last batch, in a file of the folder."""

    def __init__(self, folder: pathlib.Path):
        self.file = folder / "last"
        (folder / "meta.db").touch()
        self.is_first = not self.file.exists()
        self.number = 0 if self.is_first else int(self.file.read_text())
        self.keep(self.number)

    def keep(self, number: int):
        self.number = number
        self.file.write_text(str(number))


def serve(kept: Kept, end: str, what: str):
    """Answers batches until the input ends, or until the first davd ends."""
    while True:
        number, length = header()
        asked = batch_of(length)
        if number != kept.number + 1:
            write(replies(kept.number, [], 409))
            continue
        is_last = kept.is_first and any(is_wanted(it, what) for it in asked)
        if is_last and end != "kept":
            sys.exit(int(end))
        kept.keep(number)
        if is_last:
            sys.exit(3)
        write(replies(number, [reply(it) for it in asked]))


def main():
    end, _, what = sys.argv[1].partition(" ")
    folder = pathlib.Path(sys.argv[-1])
    with lock(folder):
        serve(Kept(folder), end, what)


if __name__ == "__main__":
    main()

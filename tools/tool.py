"""What the tools share: how they are called, how they stop, and how they show how far they are."""
import argparse
import pathlib
import sys

TOP = pathlib.Path(__file__).resolve().parent.parent


class Missing(Exception):
    """Something that a tool needs does not exist, so it stops."""


class Parser(argparse.ArgumentParser):
    """A parser that prints its help as written, and reports a wrong call in one line."""

    def __init__(self, name, summary, details):
        as_written = argparse.RawDescriptionHelpFormatter
        super().__init__(f"tools/{name}", description=summary, epilog=details, formatter_class=as_written)

    def error(self, message):
        self.stop(f"{message} (see --help)")

    def stop(self, message):
        """Ends the tool with status 2 and a message of one line."""
        self.exit(2, f"{self.prog}: {message}\n")


class Progress:
    """A line that is rewritten in place. It is shown only if standard error is a terminal."""

    def __init__(self):
        self.is_shown = sys.stderr.isatty()

    def show(self, text):
        if self.is_shown:
            sys.stderr.write(f"\r\033[K{text[:79]}")
            sys.stderr.flush()

    def print(self, text):
        """Prints a line of the result, and clears the line that was shown."""
        self.show("")
        print(text, flush=True)


def shown(path):
    """A path as the repository's user writes it."""
    return str(path.relative_to(TOP) if path.is_relative_to(TOP) else path)


def text_of(path):
    return path.read_text(encoding="utf-8")


def summed(passed, failed):
    """Prints the last line of a tool, and returns its exit status."""
    print(f"{passed} passed, {failed} failed")
    return 1 if failed else 0

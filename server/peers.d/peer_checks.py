"""Counts the checks. They are shown on standard error, since standard output gets the tables."""
import sys


class Checks:
    def __init__(self):
        self.passed = self.failed = self.skipped = 0

    def note(self, text: str):
        print(text, file=sys.stderr, flush=True)

    def pass_(self, name: str, text: str = ""):
        self.passed += 1
        self.note(f"passed   {name}" + (f": {text}" if text else ""))

    def fail(self, name: str, text: str):
        self.failed += 1
        self.note(f"FAILED   {name}: {text}")

    def skip(self, name: str, text: str):
        self.skipped += 1
        self.note(f"skipped  {name}: {text}")

    def judge(self, name: str, wrong: str, text: str = ""):
        """Counts a check as failed if something is wrong."""
        self.fail(name, wrong) if wrong else self.pass_(name, text)


def table(head: list[str], rows: list[list[str]]) -> str:
    """A table of Markdown."""
    lines = [f"| {' | '.join(cells)} |" for cells in (head, *rows)]
    lines.insert(1, "|---" * len(head) + "|")
    return "".join(f"{it}\n" for it in lines)

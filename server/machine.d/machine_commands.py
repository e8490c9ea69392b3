"""The commands of docs/SERVER.md."""
from connection import Wrong
from programs import TOP


def commands(heading: str, first: str) -> list[str]:
    """The commands of a block in a section, whose first one begins with these words."""
    section = (TOP / "docs/SERVER.md").read_text().partition(f"\n{heading}\n")[2].partition(f"\n{'#' * heading.count('#')} ")[0]
    lines = section.splitlines()
    for place, line in enumerate(lines):
        if line.startswith(f"    {first}"):
            block = lines[place:]
            end = next((at for at, it in enumerate(block) if not it.startswith("    ")), len(block))
            return [it.strip() for it in block[:end]]
    raise Wrong(f"docs/SERVER.md has no block of commands with `{first}` in the section {heading!r}")

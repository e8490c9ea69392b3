"""Reads the parts of Markdown that the checks need: blocks, prose, links and headings."""
import collections
import re

# `line` is the number of the first line of the text, `kind` the word behind the fence, or "indented".
Block = collections.namedtuple("Block", "line kind text")
Link = collections.namedtuple("Link", "line text target")

CODE_SPAN = re.compile(r"(`+)(?:(?!\n\n)[^`])+\1")
LINK = re.compile(r"\[((?:[^\[\]]|\[[^\[\]]*\])*)\]\(([^()\s]+)\)")
HEADING = re.compile(r"^#{1,6} +(.*?)(?: +#+)?$", re.M)


def split(text):
    """The blocks of code of a document, and its prose: the text with an empty line for each line of a block."""
    blocks, prose, kind, start, held = [], [], None, 0, []
    for number, line in enumerate(text.split("\n"), 1):
        is_fence = line.lstrip().startswith("```")
        is_indented = kind in (None, "indented") and line.startswith("    ")
        if kind == "indented" and not is_indented and (is_fence or line.strip()):
            blocks.append(Block(start, kind, "\n".join(held).rstrip("\n") + "\n"))
            kind = None
        if is_fence and kind is None:
            kind, start, held = line.strip().strip("`").split(" ")[0], number + 1, []
        elif is_fence:
            blocks.append(Block(start, kind, "".join(it + "\n" for it in held)))
            kind = None
        elif kind is None and is_indented:
            kind, start, held = "indented", number, [line[4:]]
        elif kind is not None:
            held.append(line[4:] if kind == "indented" else line)
        prose.append("" if is_fence or kind is not None else line)
    if kind == "indented":
        blocks.append(Block(start, kind, "\n".join(held).rstrip("\n") + "\n"))
    return blocks, "\n".join(prose)


def line_at(text, position):
    return text.count("\n", 0, position) + 1


def without_code(prose, characters=r"\S"):
    """The prose with these characters blotted out in each code span."""
    blot = lambda span: span[1] + re.sub(characters, "\0", span[0][len(span[1]) : -len(span[1])]) + span[1]
    return CODE_SPAN.sub(blot, prose)


def words(prose):
    """The prose with its code spans and the targets of its links blotted out."""
    return re.sub(r"\]\([^()\s]+\)", lambda target: "\0" * len(target[0]), without_code(prose))


def links(prose):
    """The links of the prose, each with the text as written."""
    for found in LINK.finditer(without_code(prose, r"[\[\]()]")):
        text = prose[found.start(1) : found.end(1)]
        yield Link(line_at(prose, found.start()), " ".join(text.split()), found[2])


def slugs(prose):
    """The anchors of the headings, by GitHub's rules, and those that are set by `<a id=..>`."""
    seen = collections.Counter()
    for heading in HEADING.findall(prose):
        words = re.sub(r"[^\w\- ]", "", LINK.sub(r"\1", heading).lower())
        slug = words.replace(" ", "-")
        yield f"{slug}-{seen[slug]}" if seen[slug] else slug
        seen[slug] += 1
    yield from re.findall(r'<a (?:id|name)="([^"]+)"', prose)

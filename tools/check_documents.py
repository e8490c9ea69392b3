"""Checks that what the documents show, link to and cite exists. tools/cases runs it.

- Links: each relative link names a file that exists and, after a #, a heading of it.
- Blocks: a ```rust block is a part of a source of the example crate (EXAMPLE), in one piece. A ```text block is the whole
  of its stdout, or a whole file of examples/. An indented block that begins with a request line is the whole of some
  examples/*.dav, one that begins with `> ` the whole of some examples/*.out. Blocks of other kinds are not compared.
- Citations of docs/GUARANTEES.md: of [`handle_delete` (`emptied`)](../crates/dav_engine/src/delete.rt) the file must
  have the function and its contract the clause. The file of a link to an .antt file must define each name. In the other
  documents only citations with clauses are checked.
- Laws: docs/GUARANTEES.md cites each definition that a field of a law of dav_engine uses (specs/Law.antt).
- The picture docs/crates.svg is that of crates.txt (tools/picture), and the charts docs/speed.svg and
  docs/server-speed.svg are those of the tables in docs/SPEED.md (tools/chart).
- Words: the documents and the comments of the sources, those in Go too, use no word of WORDS. tools/words-allowed lists
  exceptions.
"""
import re
import subprocess

import markdown
from tool import TOP, shown, text_of

GUARANTEES = TOP / "docs/GUARANTEES.md"
ENGINE = TOP / "crates/dav_engine"
EXAMPLE = TOP / "crates/embedding_example"
ALLOWED = TOP / "tools/words-allowed"
WORDS = [
    "told", "tells", "tell", "telling", "handed in", "hand in", "hands in", "is let", "are let", "lent", "lends",
    "sought", "withheld", "want of memory", "wrong body", "wrong bodies", "what stands", "in the name of",
    "partly refused",
]
# The words of a phrase may stand on two lines.
BETWEEN = r"(?:[ \t]+|[ \t]*\n[ \t]*)"
FORBIDDEN = re.compile(r"\b(?:" + "|".join(it.replace(" ", BETWEEN) for it in WORDS) + r")\b", re.I)
CITED_FUNCTION = re.compile(r"`(\w+)`(?: \((`\w+`(?:, `\w+`)*)\))?")
CLAUSE = re.compile(r"^\s*ensures (\w+) \{(.*)", re.M)


def documents():
    files = [TOP / it for it in ("README.md", "CONTRIBUTING.md", "CHANGELOG.md", "cases/README.md")]
    return [it for it in files if it.is_file()] + sorted((TOP / "docs").glob("*.md"))


# ---- links and blocks


def check_links(document, prose):
    for link in markdown.links(prose):
        if re.match(r"[a-z]+:", link.target):
            continue
        name, _, anchor = link.target.partition("#")
        file = (document.parent / name).resolve() if name else document
        wrong = None
        if not file.exists():
            wrong = f"no file {name}"
        elif anchor and anchor not in markdown.slugs(markdown.split(text_of(file))[1]):
            wrong = f"no heading #{anchor} in {shown(file)}"
        yield f"{shown(document)}:{link.line}", wrong


def is_part(text, file):
    return bool(text.strip()) and f"\n{text}" in f"\n{text_of(file)}"


def is_whole(text, files):
    return any(text_of(it) == text for it in files if it.is_file())


def check_blocks(document, blocks):
    outputs, scripts = (sorted((TOP / "examples").glob(f"*.{it}")) for it in ("out", "dav"))
    for block in blocks:
        where = f"{shown(document)}:{block.line}"
        if block.kind == "rust":
            is_shown = any(is_part(block.text, it) for it in EXAMPLE.glob("src/*.rt"))
            yield where, None if is_shown else f"no part of a source of {shown(EXAMPLE)}"
        elif block.kind == "text":
            is_shown = is_whole(block.text, [EXAMPLE / "stdout", *outputs, *scripts])
            yield where, None if is_shown else f"not the stdout of {shown(EXAMPLE)}, and no file of examples/"
        elif block.kind == "indented" and block.text.startswith("> "):
            yield where, None if is_whole(block.text, outputs) else "not the whole of any examples/*.out"
        elif block.kind == "indented" and re.match(r"[A-Z]+ /", block.text):
            yield where, None if is_whole(block.text, scripts) else "not the whole of any examples/*.dav"


# ---- citations and laws


def contracts(source, name):
    """The contract of each function of this name: what stands between its signature and its body."""
    for found in re.finditer(rf"^\s*(?:pub(?:\([a-z]+\))? )?(?:unsafe )?fn {name}\b", source, re.M):
        yield re.split(r"^\s*\{$|;$|^\s*\}$|^\s*fn ", source[found.end() :], maxsplit=1, flags=re.M)[0]


def wrong_function(text, file):
    """What is wrong with a citation of a function and its clauses, if anything is."""
    cited = CITED_FUNCTION.fullmatch(text)
    if not cited:
        return f"{text}: a function in backticks is wanted, and then its clauses in parentheses"
    source = text_of(file)
    found = [set(re.findall(r"\bensures (\w+) \{", it)) for it in contracts(source, cited[1])]
    labels = set(re.findall(r"\w+", cited[2] or ""))
    if not found and (labels or not re.search(rf"\b(?:trait|struct|enum) {cited[1]}\b", source)):
        return f"no function {cited[1]} in {shown(file)}"
    missing = min((labels - it for it in found), key=len, default=())
    return f"no clause {', '.join(sorted(missing))} of {cited[1]} in {shown(file)}" if missing else None


def is_defined(name, source):
    """Whether a definition of this name begins a line. One without a keyword is not indented, or has its type after it."""
    name = re.escape(name)
    return re.search(rf"^ *(?:(?:pub|abbrev|record|data) )+{name}(?![\w'])|^{name}(?![\w'])|^ *{name} :", source, re.M)


def check_citations(document, prose):
    """Checks what a document cites: in GUARANTEES.md each link to a source, in others those that have clauses."""
    for link in markdown.links(prose):
        file = (document.parent / link.target.partition("#")[0]).resolve()
        where = f"{shown(document)}:{link.line}"
        cited = CITED_FUNCTION.fullmatch(link.text)
        if not file.is_file() or document != GUARANTEES and not (cited and cited[2]):
            continue
        if file.suffix == ".rt":
            yield where, wrong_function(link.text, file)
        elif file.suffix == ".antt":
            source = text_of(file)
            names = re.findall(r"`([^`]+)`", link.text)
            missing = [it for it in names if not is_defined(it, source)]
            wrong = f"no definition {', '.join(missing)} in {shown(file)}" if missing else None
            yield where, wrong if names else f"{link.text}: a name in backticks is wanted"


LAW_FILES = ["Bounds", "Causes", "Reports", "Laws", "Law"]
LAW = re.compile(r"^pub record (\w*Law|IsBounded) (.*?)\n\n", re.M | re.S)
FIELD = re.compile(r"^  pub (\w+) : (.*(?:\n    .*)*)", re.M)


def laws():
    """Each field of a law of dav_engine: its file, law and name, and the definitions of the laws in it."""
    texts = {it: text_of(ENGINE / f"specs/{it}.antt") for it in LAW_FILES}
    defined = {it for text in texts.values() for it in re.findall(r"^(?:(?:pub|abbrev|record) )+([A-Z]\w+)", text, re.M)}
    for file, text in texts.items():
        for law, fields in LAW.findall(text + "\n\n"):
            for name, said in FIELD.findall(fields):
                yield file, law, name, sorted(set(re.findall(r"\w+", said)) & defined)


def check_laws(prose):
    """Checks that GUARANTEES.md cites what each law of dav_engine says."""
    names = set()
    for link in markdown.links(prose):
        if re.search(r"dav_engine/specs/\w+\.antt$", link.target):
            names |= set(re.findall(r"`([^`]+)`", link.text))
    for file, law, name, said in laws():
        missing = [it for it in said if it not in names]
        wrong = f"{shown(GUARANTEES)} does not cite {', '.join(missing)}" if missing else None
        yield f"{file}.antt, {law} ({name})", wrong


def check_pictures():
    for tool, picture in (("picture", "docs/crates.svg"), ("chart", "the charts of docs/SPEED.md")):
        ran = subprocess.run([TOP / "tools" / tool, "--check"], capture_output=True, text=True)
        yield picture, (ran.stdout + ran.stderr).strip() or f"status {ran.returncode}" if ran.returncode else None


# ---- words


def comments_of(source, mark):
    """The comments of a source by lines, and an empty line for each line without one."""
    found = (re.search(rf"(?:^|\s){mark}[/!]?(?:\s(.*))?$", line) for line in source.split("\n"))
    return "\n".join(it[1] or "" if it else "" for it in found)


def texts():
    """What is checked for words: each document, and the comments of each source."""
    for document in documents():
        yield document, text_of(document)
    for pattern, mark in (("crates/*/src/**/*.rt", "//"), ("crates/*/specs/**/*.antt", "--"), ("server/**/*.go", "//")):
        for file in sorted(TOP.glob(pattern)):
            yield file, comments_of(text_of(file), mark)


def allowed_words():
    """The exceptions: FILE: WORD: REASON."""
    lines = text_of(ALLOWED).splitlines() if ALLOWED.is_file() else []
    return {tuple(it.split(": ")[:2]) for it in lines if it and not it.startswith("#")}


def check_words():
    allowed = allowed_words()
    for file, text in texts():
        prose = markdown.words(markdown.split(text)[1])
        found = ((it.start(), " ".join(it[0].split()).lower()) for it in FORBIDDEN.finditer(prose))
        found = [(markdown.line_at(prose, at), word) for at, word in found if (shown(file), word) not in allowed]
        yield from ((f"{shown(file)}:{line}", f'the word "{word}"') for line, word in found)
        if not found:
            yield shown(file), None


def check_all():
    """Checks all documents, and yields each thing that was checked with what is wrong with it."""
    for document in documents():
        blocks, prose = markdown.split(text_of(document))
        yield from check_blocks(document, blocks)
        yield from check_links(document, prose)
        yield from check_citations(document, prose)
    if GUARANTEES.is_file():
        yield from check_laws(markdown.split(text_of(GUARANTEES))[1])
    else:
        yield shown(GUARANTEES), "is missing"
    yield from check_pictures()
    yield from check_words()

"""Checks what no contract says of a store around another one: that it passes on its own arguments as they are.

A contract sees the key of a path, and of options and properties what a store may not ignore. So a wrapper that passes
on a path without its prefix or slash, options without a checksum, or a property without a prefix keeps its contract.
Here each method of a wrapper has exactly one call of the wrapped store's method of the same name, with its own
parameters in their order, and gives none of these names another value. `records` is not passed on: a wrapper has a log
of its own. tools/cases runs this.
"""
import re

from tool import TOP, shown, text_of

TRAIT = TOP / "crates/dav_store/src/store.rt"
WRAPPERS = [TOP / "crates/dav_refusing/src/refusing.rt", TOP / "crates/dav_guarding/src/guarding.rt"]
OWN = {"records"}
# A method: its name, its signature and contract, and its body.
METHOD = re.compile(r"^    fn (\w+)\((.*?)^    \{$(.*?)^    \}$", re.M | re.S)


def block(source, head):
    """The block that begins with this line."""
    found = re.search(rf"^{head}.*?\n\}}$", source, re.M | re.S)
    return found[0] if found else ""


def methods(source):
    """The methods of an implementation by name: the parameters and the body of each."""
    # Without a contract the brace of the body is not on a line of its own.
    source = re.sub(r"^(    (?:fn|\)).*) \{$", r"\1\n    {", source, flags=re.M)
    for name, head, body in METHOD.findall(source):
        words = re.split(r"\b(?:ensures|requires|where)\b", head)[0]
        yield name, re.findall(r"(\w+): ", words), body


def wrong_method(name, parameters, body):
    """What is wrong with a method of a wrapper, if anything is."""
    calls = [re.findall(r"[^,\s]+", it) for it in re.findall(rf"\.inner\s*\.{name}\(([^()]*)\)", body)]
    if calls != [parameters]:
        return f"{name} does not pass on {', '.join(parameters) or 'the call'}"
    for it in parameters:
        bound = rf"\b(?:let|ref|mut|for)\b[^=;]*\b{it}\b|\|[^|]*\b{it}\b[^|]*\||^ *\*?{it}(?:\.\w+)* *\W?=[^=]"
        if re.search(bound, body, re.M):
            return f"{name} gives {it} another value"


def check_wrappers():
    """Yields each wrapper with what is wrong with it."""
    wanted = set(re.findall(r"^    fn (\w+)", block(text_of(TRAIT), r"pub trait GuardedFileSystem<C>"), re.M)) - OWN
    for file in WRAPPERS:
        source = block(text_of(file), r"impl<.*\bGuardedFileSystem<C> for ")
        found = {name: (parameters, body) for name, parameters, body in methods(source)}
        wrong = [f"no method {it}" for it in sorted(wanted - set(found))]
        wrong += filter(None, (wrong_method(name, *found[name]) for name in sorted(wanted & set(found))))
        yield shown(file), "; ".join(wrong)

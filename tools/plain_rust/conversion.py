"""One file of Rattle as Rust: the rules in their order."""
import itertools
import re

from . import deletion, handles, parameters, spelling
from .tokens import tokens_of

TOKEN_RULES = (
    deletion.delete_attributes,
    deletion.delete_derives,
    deletion.delete_impls,
    deletion.delete_bounds,
    spelling.rename_methods,
    handles.delete_allocators,
    handles.delete_runtimes,
    parameters.mark_unread,
    spelling.end_lines,
)


# stands for a text while rules over the whole file are at work
PLACE = '"text {}"'
PLACES = re.compile(r'"text (\d+)"')


def rust_of(source, crate, crates, module):
    """The Rust text of a Rattle text of a crate, where each of some crates becomes a module below `module`."""
    tokens = tokens_of(source)
    for rule in TOKEN_RULES:
        tokens = rule(tokens)
    texts = [token.text for token in tokens if token.kind == "string"]
    numbers = itertools.count()
    whole = "".join(PLACE.format(next(numbers)) if it.kind == "string" else it.text for it in tokens)
    whole = moved(spelling.with_imports(spelling.respell(whole)), crate, crates, module)
    return PLACES.sub(lambda found: texts[int(found.group(1))], whole)


def moved(text, crate, crates, module):
    """The text with the paths of modules in the place of those of crates."""
    text = re.sub(r"\bcrate::(?!shim\b)", f"{module}::{crate}::", text)
    names = "|".join(sorted(crates, key=len, reverse=True))
    text = re.sub(rf"(?<![:\w])({names})::", rf"{module}::\1::", text)
    return re.sub(rf"\buse ({names})( as |;)", rf"use {module}::\1\2", text)

"""What docs/FROM_WIT_PARSER.md says of the cargo crate that tools/plain-rust makes: its names, and how calls look there."""
import dataclasses
import functools
import re
import sys

from claims.contracts import ORIGINAL_NAMES, calls_of, is_called_so
from claims.markdown import is_plain, rows_of, spans
from claims.names import COMMENTS, WORD, names_in
from claims.repository import TOP, crates, read, tracked
from claims.rust import functions, functions_of, parts, types_of, without_generics

sys.path.insert(0, f"{TOP}/tools")
from plain_rust.parser_names import INNER_CALLS, NAMES

# The marks of the column: wit-parser's form, that of the column before, and no such name.
ORIGINAL, SOURCE, NONE = "✓", "←", "–"
LIBRARY, JSON = "plain/src/lib.rs", "plain/src/face/json.rs"
BY_HAND = ("plain/src/face/", "plain/src/values/", "plain/parser/src/")
PACKAGES = ("plain/Cargo.toml", "plain/parser/Cargo.toml")
# What the rules spell otherwise: wit-parser's names, and the texts of `plain/src/values`.
SPELLED = {**NAMES, "Text": "String"}


# ---- what the crate has


@functools.cache
def shown():
    """The names that the crate hands on."""
    found = set()
    for begin, some in re.findall(r"(?ms)^pub use ([\w:]+?)(?:::\{(.*?)\})?;", read(LIBRARY) + read(JSON)):
        found.update(parts(some) or [begin.split("::")[-1]])
    return found


@functools.cache
def by_hand():
    """The functions that are written by hand, by their names."""
    found = {}
    for path in tracked():
        if path.startswith(BY_HAND):
            for it in functions_of("plain", path):
                it.signature = without_generics(it.signature.strip(), it.name)
                found.setdefault(it.name, []).append(it)
    return found


@functools.cache
def words():
    """The words of what is written by hand, what the crate hands on with its members, and the names of its packages."""
    found = set(shown())
    for path in tracked():
        if path.startswith((*BY_HAND, LIBRARY)):
            found.update(re.findall(WORD, re.sub(COMMENTS[".rs"], "", read(path))))
    for crate in crates():
        for name, members in types_of(crate).items():
            found.update(map(respelled, members) if respelled(name) in shown() else ())
    for path in PACKAGES:
        found.update(it.replace("-", "_") for it in re.findall(WORD, read(path)))
    return found


def respelled(text):
    """A text of the source as the rules spell it."""
    return re.sub(WORD, lambda found: SPELLED.get(found[0], found[0]), text)


def is_made(it):
    """Whether callers of the crate meet a function of the source: it is of a type that the crate hands on."""
    is_open = it.is_public and it.name not in INNER_CALLS or it.name == "default"
    return is_open and respelled(it.owner) in shown() - {"Resolve"}


def called(owner, name):
    """The functions of a name, of a type where it is named: those by hand, else those that the rules make."""
    hand = [it for it in by_hand().get(name, ()) if it.owner == owner or not owner]
    made = [it for it in functions().get(name, ()) if is_made(it) and (respelled(it.owner) == owner or not owner)]
    return hand or [dataclasses.replace(it, signature=respelled(it.signature)) for it in made]


# ---- what is said of it


def rows(text):
    """The rows with a column for the crate: the type that calls without one are of, and the cells."""
    for heading, columns, cells in rows_of(text):
        if columns and is_plain(columns[-1]):
            whole = "Resolve" if heading.startswith("`Resolve`") else ""
            yield next((owner for owner, *_ in calls_of(cells[0]) if owner), whole), cells


def said_of(cells):
    """The cells that say what the crate has."""
    there, here, plain = cells
    if plain.startswith(ORIGINAL):
        return [there]
    if plain.startswith(SOURCE):
        return [here, there] if here.startswith("the same") else [here]
    return [] if plain == NONE else [plain]


def stale_calls(cell, owner):
    for of, name, said, answer in calls_of(respelled(cell)):
        those = called(of.split("::")[-1] or owner, name)
        answer = None if answer and "impl Iterator" in answer else answer
        if not name[0].isupper() and not any(is_called_so(it, said, answer) for it in those):
            yield f"`{name}` isn't called with ({', '.join(said)})" + (f" -> {answer}" if answer else "") + " in plain Rust"


def stale_words(cell):
    for span in spans(respelled(cell)):
        yield from (f"`{name}`, which plain Rust hasn't" for sort, name in names_in(span) if sort == "name" and name not in words())


def stale_plain(path, text):
    """Each name and call that the crate is said to have is there, and none that it is said to lack."""
    if path != ORIGINAL_NAMES:
        return
    for owner, cells in rows(text):
        for cell in said_of(cells):
            yield from stale_calls(cell, owner)
            yield from stale_words(cell if cell is cells[-1] or cell is cells[0] else "")
        if cells[-1] == NONE:
            named = {name for span in spans(cells[0]) for _, name in names_in(span.split("(")[0])}
            yield from (f"`{name}`, which plain Rust has" for name in sorted(named & shown()))
    for line in re.findall(r"(?m)^(?:New\b(?! in Rattle)|Only plain Rust has|Of these, plain Rust has).*$", text):
        yield from stale_calls(line, "Resolve" if line.startswith("New on") else "")
        yield from stale_words(line)


CHECKS = [stale_plain]

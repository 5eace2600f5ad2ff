"""The table of docs/REFUSALS.md, compared with the kinds and causes of errors, their numbers, and their texts."""
import functools
import re

from claims.markdown import rows_of, section, spans
from claims.repository import read, tracked
from claims.scripts import cases

REFUSALS = "docs/REFUSALS.md"
NUMBERS, KINDS = "crates/wit_graph_data/specs/Error.antt", "crates/wit_graph_data/src/error_kind.rt"
# The definitions that give a text of a refusal.
TEXTS = """
wit_graph_data/specs/ErrorText wit_link_spec/specs/CauseText wit_link_spec/specs/Reasons wit_link_spec/specs/WorldReasons
wit_remap_spec/specs/Borrows wit_remap_spec/specs/FunctionMismatch wit_merge_spec/specs/MismatchText
wit_merge_spec/specs/Matches wit_merge_spec/specs/Structure wit_merge_spec/specs/Cause wit_semver/specs/SemverMerged
wit_elaboration/specs/AllElaborated wit_transform/specs/Transformed wit_queries/specs/Selection wit_data/specs/Kind
""".split()
PLACEHOLDER = r"\b(?:[A-Z]{2,}|[AB])\b"


@functools.cache
def numbers():
    """The number of each kind and each cause of an error."""
    said = re.findall(r"(?m)^(?:error|cause)_number \(?(\w+).*\)? = ([1-9]\d*)$", read(NUMBERS))
    return {name: int(number) for name, number in said}


@functools.cache
def fields():
    """The fields of each kind of an error, in order."""
    text = re.sub(r"//.*", "", read(KINDS))
    body = re.search(r"(?ms)^pub enum ResolveErrorKind \{(.*?)^\}", text)[1]
    found = {}
    for name, inner in re.findall(r"(?ms)^    (\w+)(?: \{(.*?)^    \})?,", body):
        found[name] = re.findall(r"(?m)^ +(\w+):", inner)
    return found


@functools.cache
def literals():
    """All that definitions of texts have between quotes."""
    found = []
    for path in TEXTS:
        if f"crates/{path}.antt" in tracked():
            found += re.findall(r'codes "((?:[^"\\]|\\.)*)"', read(f"crates/{path}.antt"))
    return [it.replace(r"\n", "\n").replace(r"\"", '"').replace(r"\x20", " ") for it in found]


@functools.cache
def printed(number):
    """What the worked scripts print of refusals of a number."""
    answers = "".join(answer for _, answer in cases().values())
    return re.findall(rf"(?m)^refused {number} (.*(?:\n  .*)*)", answers)


def expression(text):
    """What a text of the table matches: capitals stand for anything."""
    return r".+?".join(map(re.escape, re.split(PLACEHOLDER, text)))


def stale_kinds(path, text):
    """Each row has the kind or cause of its number, a kind with its fields."""
    if path != REFUSALS:
        return
    for _, columns, cells in rows_of(text):
        if columns[0] != "No.":
            continue
        name, _, inner = spans(cells[1])[0].partition(" {")
        if numbers().get(name) != int(cells[0]):
            yield f"{cells[0]} isn't the number of `{name}`"
        elif inner and re.findall(r"\w+", inner) != fields().get(name):
            yield f"the fields of `{name}`"
        elif not inner and fields().get(name):
            yield f"`{name}` stands without its fields"


def unknown_parts(number, text):
    """The parts of texts, between the words in capitals, that no definition has and no worked script prints."""
    known = [*literals(), *printed(number)]
    for span in spans(text):
        for part in map(str.strip, re.split(PLACEHOLDER, span)):
            # a word may get its `s` from another literal
            if re.search(r"[a-z]{2}", part) and not any(part in it or part == f"{it}s" for it in known):
                yield part


def stale_texts(path, text):
    """The text of a row is that of a worked refusal of its number; all parts of texts are of a definition."""
    if path != REFUSALS:
        return
    for _, columns, cells in rows_of(text):
        if columns[0] != "No.":
            continue
        shown = spans(cells[2])
        if cells[2].startswith("`") and (said := printed(cells[0])):
            if not any(re.match(expression(shown[0]), it) for it in said):
                yield f"no worked script is refused by {cells[0]} with `{shown[0]}`"
        yield from (f"no text of {cells[0]} has `{part}`" for part in unknown_parts(cells[0], cells[2]))
    for number in ("24", "26"):
        below = section(text, f"### The text of {number}")
        yield from (f"no text of {number} has `{part}`" for part in unknown_parts(number, below))


CHECKS = [stale_kinds, stale_texts]

"""What documents say of functions: their clauses, which are laws, in which file they stand, how they are called."""
import re

from claims.markdown import rows_of, spans, without_blocks
from claims.repository import crates, read, tracked
from claims.rust import between, called, laws, parts, types_of, under

GUARANTEES, ORIGINAL_NAMES, WALK = "docs/GUARANTEES.md", "docs/FROM_WIT_PARSER.md", "docs/WALK.md"
USERS = ["wit_items", "wit_graph", "wit_link", "wit_unite", "wit_resolve_graph", "wit_script", "witgraph_c"]
NAMES = r"(?:`[\w:]+`(?: of `?\w+`?)?(?:, | and )?)+"


# ---- clauses and laws


def lines_with_crates(text):
    """The lines of docs/GUARANTEES.md, each with the crates of which it speaks: those of its heading, or of its row."""
    named = USERS
    for line in text.split("\n"):
        if line.startswith("#"):
            named = crates_in(line) or USERS
        yield line, line.startswith("|") and crates_in(line.split("|")[1]) or named


def crates_in(text):
    return [it for it in re.findall(r"\bwit\w*", text) if it in crates()]


def found_in(shown, name, clauses):
    """Whether one of some crates shows a function of this name with these clauses."""
    return any(it.clauses >= clauses for crate in shown for it in called(crate, name))


def stale_clauses(path, text):
    if path != GUARANTEES:
        return
    for line, shown in lines_with_crates(text):
        line = re.sub(r"[Ll]aws?:? " + NAMES + r"(?:: (?:`\w+`(?:, )?)+)?", "", line)
        for names, clauses in re.findall(rf"({NAMES}): ((?:`\w+`(?:, | and )?)+)", line):
            owner = ""
            for name in re.findall(r"`([\w:]+)`", names):
                owner = name.rpartition("::")[0] or owner
                whole = name if "::" in name or not owner else f"{owner}::{name}"
                wanted = set(re.findall(r"`(\w+)`", clauses))
                if not found_in(shown, whole, wanted) and not found_in(shown, name, wanted):
                    yield f"`{name}` of {', '.join(shown)} has no clause {', '.join(f'`{it}`' for it in sorted(wanted))}"


def stale_calls(path, text):
    """Each function that docs/GUARANTEES.md names behind a statement is shown by the crates of its heading."""
    if path != GUARANTEES:
        return
    for line, shown in lines_with_crates(text.partition("## What is only tested")[0]):
        carriers = line.split("|")[-2] if line.startswith("|") else line.rpartition(". ")[2] if line.startswith("- ") else ""
        shown = [*shown, *re.findall(r"` of (wit_\w+)", carriers)]
        for name in spans(re.sub(r"`: (?:`\w+`(?:, | and )?)+", "`", carriers)):
            own = name.split("::")[-1]
            if under(own) and own not in laws() and not found_in(shown, name, set()):
                yield f"`{name}` is no function of {', '.join(shown)}"


def laws_in(line):
    """The names that a line says to be laws."""
    for names in re.findall(rf"\b[Ll]aws?:? ((?:`\w+`(?:; |, | and )?)+)", line):
        yield from re.findall(r"`(\w+)`", names)


def stale_laws(path, text):
    """What is called a law is one; in docs/GUARANTEES.md of the crates of its heading, which name all that they have."""
    below = False
    for line, shown in lines_with_crates(text) if path == GUARANTEES else ((it, None) for it in without_blocks(text).split("\n")):
        below = line.startswith("Laws:") or below and (line.startswith("- ") or not line)
        listed = line if line.startswith("Laws:") else line.partition(": ")[0] if below else ""
        listed = [it for it in spans(listed) if re.fullmatch(r"[a-z]+(?:_[a-z]+)+", it)]
        for name in dict.fromkeys([*laws_in(line), *listed]):
            there = set().union(*(laws(it) for it in shown)) if shown and shown != USERS else laws()
            if name not in there:
                yield f"`{name}`, which is no law" + (f" of {', '.join(shown)}" if shown else "")
    if path == GUARANTEES:
        named = set(spans(text))
        for crate in USERS:
            for law in sorted(laws(crate)):
                if law not in named and not law.startswith(("examples_", "worked_")):
                    yield f"the law `{law}` of {crate} stands nowhere"


# ---- walks


def declares(crate, file, name):
    """Whether a file of a crate declares a function or a type."""
    path = f"crates/{crate}/src/{file}"
    return path in tracked() and re.search(rf"\b(?:fn|struct|enum|trait) {name}\b", read(path))


def stale_walk(path, text):
    """Each file of a walk stands with what it declares: `crate`, `file.rt`: `name`, or `name` (`file.rt`)."""
    if path != WALK:
        return
    for item in re.findall(r"(?m)^\d+\. (.*)$", text):
        crate = ""
        for found in re.finditer(r"(?:`(\w+)` \()?(?:`(wit\w*)`, )?`(\w+\.rt)`(?::(?: a)? `(\w+)`)?", item):
            before, of, file, behind = found.groups()
            crate = of or crate
            if not (name := before or behind):
                yield f"{file} of {crate} stands without what it declares"
            elif not declares(crate, file, name):
                yield f"`{name}` isn't in {file} of {crate}"


# ---- signatures


def plain_type(text):
    """A type without lifetimes, spaces and paths."""
    text = re.sub(r"<'\w+>|'\w+ ", "", text)
    return re.sub(r"\s|\b(?:std|fmt|wit_\w+)::", "", text).rstrip(",")


def plain_answer(text):
    """What a call answers where it isn't refused."""
    while found := re.fullmatch(r"(?:ResolveResult|Result)<(.*)>", text):
        text = parts(found[1])[0]
    return plain_type(text)


def fits(said, parameter):
    """Whether what a document says of a parameter, its name or its type or both, is so."""
    name, kind = parameter
    if re.fullmatch(r"[a-z_]\w*", said) and said not in ("u32", "usize", "bool"):
        return said == name
    return plain_type(said.rpartition(": ")[2]) == plain_type(kind)


def is_called_so(it, said, answer):
    """Whether a function is called as a document says: its parameters without the allocator, and its answer."""
    named = [(name.lstrip("_"), kind) for name, kind in it.parameters]
    named = [parameter for parameter in named if parameter != ("alloc", "Global") or "alloc" in said[:1]]
    if len(named) != len(said) or not all(map(fits, said, named)):
        return False
    own = it.answer.replace("Self", it.owner)
    return answer is None or plain_type(answer) in (plain_type(own), plain_answer(own))


CALL = r"(?:[\w&:]+::|\w+\.)?(\w+)"


def calls_of(cell):
    """The calls of a cell with what is said of them: the owner, the name, the parameters and the answer."""
    waiting = []
    for span in spans(cell):
        head, behind = span.split("(", 1) if "(" in span else (span, None)
        owner, _, name = head.replace("`", "").strip().rpartition("::")
        if name and not re.fullmatch(r"\w+", name):
            waiting = []
            continue
        if behind is None:
            waiting.append((owner, name))
            continue
        inner = between(f"({behind}", 0)
        answer = behind[len(inner) + 1 :].partition("->")[2].strip() or None
        for owner, name in [*waiting, (owner, name)] if not name else [(owner, name)]:
            if name:
                yield owner, name, parts(inner), answer
        waiting = []


def stale_signatures(path, text):
    """In docs/FROM_WIT_PARSER.md each call that is written with its parameters is one here."""
    if path != ORIGINAL_NAMES:
        return
    for heading, columns, cells in rows_of(text):
        if "wit-parser" not in columns or heading == "Left out":
            continue
        there, here = cells[0], cells[1]
        owner = "Resolve" if "wit_resolve_graph::Resolve" in heading else ""
        if here.startswith("the same"):
            yield from stale_cell(there, owner)
            yield from stale_memory(there, owner, "no memory" in here)
        yield from stale_cell(here, owner)
        for part in here.split("; "):
            if ("no memory" in part) == ("no memory" in here):
                yield from stale_memory(part, owner, "no memory" in part)
    for line in re.findall(r"(?m)^(?:New\b.*|`wit_graph::Graph`.*)$", text):
        yield from stale_cell(line, "Resolve" if line.startswith("New on") else "")


def functions_called(of, name, owner):
    """The functions of a name, of a type where it is named; and that type, or the module."""
    of = of.split("::")[-1] or owner
    those = [it for it in under(name) if not it.crate.startswith(("test_", "examples_"))]
    return of, [it for it in those if it.owner == of] if of and not of.islower() else those


def stale_memory(cell, owner, is_free):
    """A call that is said to take no memory has no allocator among its parameters, and any other has one."""
    for of, name, said, answer in calls_of(cell):
        _, those = functions_called(of, name, owner)
        takes = {"Global" in [kind for _, kind in it.parameters] for it in those if is_called_so(it, said, answer)}
        if takes == {is_free} and said and said[0] != "alloc":
            yield f"`{name}` takes {'memory' if is_free else 'no memory'}"


def stale_cell(cell, owner):
    for of, name, said, answer in calls_of(cell):
        of, those = functions_called(of, name, owner)
        if those and not any(is_called_so(it, said, answer) for it in those):
            yield f"`{name}` isn't called with ({', '.join(said)})" + (f" -> {answer}" if answer else "")
        elif not those and not (name[0].isupper()):
            yield f"`{name}`, which is no call" + (f" of {of}" if of else "")


# ---- fields


def stale_fields(path, text):
    """Where something is the same here, its type has the fields that are named; one may end with `_`."""
    if path != ORIGINAL_NAMES:
        return
    for _, columns, cells in rows_of(text):
        if "wit-parser" in columns and "the same" in cells[1]:
            for name, inner in re.findall(r"`(\w+) \{ ([^}]*) \}`", cells[0]):
                said = set(inner.split(", "))
                if not any(all({it, f"{it}_"} & of[name] for it in said) for of in map(types_of, crates()) if name in of):
                    yield f"`{name}` hasn't the fields {inner}"


CHECKS = [stale_fields, stale_clauses, stale_calls, stale_laws, stale_walk, stale_signatures]

"""docs/JSON.md, compared with the definitions by which documents are read and written, and with a stored document.

A definition that reads an object says `only` with all its members, and `required` or `optional` of each; one that writes
an object says `member` or `optional`. What stands under a word, as `{"pushed": ID}`, is read by a choice of words, or
written by `tagged`.
"""
import functools
import json
import re

from claims.markdown import blocks, rows_of, section, spans, without_blocks
from claims.refusals import numbers
from claims.repository import read, specs

LAYOUT = "docs/JSON.md"
CRATES = ["wit_json_reading", "wit_json_graphs", "wit_json", "wit_json_commands"]
# Those that write objects.
WRITERS = ["wit_json", "wit_json_commands"]
STORED = "crates/witgraph_json/stdin", "crates/witgraph_json/stdout"
# The definitions that read what a row calls by a word in capitals.
THINGS = {"PACKAGE": "read_package", "WORLD": "read_world", "INTERFACE": "read_interface"}
# The definitions of which each line has the members of an object.
LINES = {"error_fields"}
# The members that some definitions always write for others.
WRITTEN_BY = {"interface_member": ["interface"]}
# The definitions, beside those of commands, of which the document has each word.
SAID_WHOLE = "json_of_answer", "json_of_function_kind", "read_package", "read_resolve", "json_of_remap"
# Members that are read of a graph and stand in no package.
OF_GRAPHS = {"package"}
# Where a line of a definition goes on, but for the choices of a word, of which each has a line.
CONTINUED = re.compile(r"\n {4,}(?!else\b|if\b|then\b)")


@functools.cache
def definitions():
    """The crates, names and texts of definitions; a name may stand in several files."""
    found = []
    for crate in CRATES:
        for path in specs(crate):
            text = re.sub(r"(?m)^ *--.*\n", "", read(path))
            for name, body in re.findall(r"(?ms)^(?:unfoldable|abbrev) pub (\w+) : .*?\n(.*?)(?=^\S+ pub |\Z)", text):
                found.append((crate, name, CONTINUED.sub(" ", body)))
    return found


@functools.cache
def lists_of_names():
    """The lists of members that have a name of their own."""
    return {name: re.findall(r'codes "([^"]*)"', body) for _, name, body in definitions() if name.endswith("_members")}


@functools.cache
def single_members():
    """The definitions that write one member, which may be left out: by their names, the member."""
    found = {}
    for _, name, body in definitions():
        names = set(re.findall(r'\boptional .*?\(codes "([^"]*)"\)|= member \(codes "([^"]*)"\)', body))
        names = {one or other for one, other in names}
        if name.endswith("_member") and len(names) == 1:
            found[name] = names.pop()
    return found


def read_shape(body):
    """The members that a reader takes, each with whether it may be left out; None where it reads no object."""
    said = re.search(r"_ ← only (\w+|\((?:codes .*?)\)) j$", body, re.M)
    if not said:
        return None
    members = lists_of_names().get(said[1]) or re.findall(r'codes "([^"]*)"', said[1])
    needed = set(re.findall(r'← read_required .*\(codes "([^"]*)"\) j', body))
    return {it: it not in needed for it in members}


def written_shapes(body):
    """The members of each object that a writer makes."""
    for part in re.split(r"(?=\bobject \()", body)[1:]:
        shape = {}
        for word, name in re.findall(r'\b(member|optional|\w+_members?)\b(?: \(codes "([^"]*)"\))?', part):
            if word in ("member", "optional") and name:
                shape[name] = word == "optional"
            elif word in WRITTEN_BY:
                shape.update({it: False for it in WRITTEN_BY[word]})
            elif word in single_members():
                shape[single_members()[word]] = True
        yield shape


@functools.cache
def shapes():
    """The shapes of objects by the names of their definitions."""
    found = {}
    for crate, name, body in definitions():
        read = read_shape(body)
        those = [read] if read else written_shapes(body) if crate in WRITERS else []
        if name in LINES:
            those = [dict.fromkeys(re.findall(r'\bmember \(codes "([^"]*)"\)', line), False) for line in body.splitlines()]
        found.setdefault(name, []).extend(those)
    return found


def shapes_behind(name):
    """The shapes of a definition, or of those that it names."""
    if shapes().get(name):
        return shapes()[name]
    bodies = [body for _, own, body in definitions() if own == name]
    return [shape for body in bodies for inner in re.findall(r"\w+", body) for shape in shapes().get(inner, [])]


@functools.cache
def tags():
    """What may stand under a word: the shapes of what is read or written there."""
    found = {}
    for crate, _, body in definitions():
        chosen = re.findall(r'bytes_eq (?:name|word) \(codes "([^"]*)"\)\s*then (.*)', body)
        chosen += re.findall(r'tagged \(codes "([^"]*)"\) (.*)', body)
        for word, behind in chosen:
            those = found.setdefault(word, [])
            for name in re.findall(r"\w+", behind):
                those += shapes_behind(name)
            those += [{it[1]: False} for it in re.findall(r'alone (\(.*?\)|\w+) \(codes "([^"]*)"\)', behind)]
            those += list(written_shapes(behind))
    return found


@functools.cache
def words():
    """All words that readers and writers know: members, names of commands and answers, kinds, causes."""
    found = set()
    for crate in CRATES:
        for path in specs(crate):
            found.update(re.findall(r'codes "([^"\\]*)"', read(path)))
    return found


# ---- what the document says


TOKEN = r'"[^"]*"|\.\.|[{}\[\]:,?]|[\w-]+'


class Objects:
    """The objects of a text in the manner of the document: members with `?` may be left out."""

    def __init__(self, text):
        self.tokens, self.found = re.findall(TOKEN, text), []
        while self.tokens:
            if self.tokens[0] == "{":
                self.found.append(self.object())
            else:
                self.tokens.pop(0)

    def take(self, *signs):
        return self.tokens.pop(0) if self.tokens and self.tokens[0] in signs else None

    def object(self):
        """The members of an object, each with whether it may be left out and the objects in its value."""
        self.take("{")
        members = {}
        while self.tokens and not self.take("}"):
            name = self.tokens.pop(0)
            left_out = bool(self.take("?"))
            inner = self.value() if self.take(":") else []
            members[name] = left_out, inner
            self.take(",")
        return members

    def value(self):
        """The objects of a value, up to a comma or the end of what it stands in."""
        inner, depth = [], 0
        while self.tokens and not (depth == 0 and self.tokens[0] in (",", "}", "]")):
            if self.tokens[0] == "{":
                inner.append(self.object())
            else:
                depth += {"[": 1, "]": -1}.get(self.tokens.pop(0), 0)
        return inner


def shape_said(members):
    """The shape of an object of the document; None where it has members under any name, or says only some."""
    if not members or ".." in members or not all(it.startswith('"') for it in members):
        return None
    return {name.strip('"'): left_out for name, (left_out, _) in members.items()}


def is_shape(said, shape):
    """Whether a shape is said so, without what only a graph has, or as a value that has only what it needs."""
    needed = {name: False for name, left_out in shape.items() if not left_out}
    return said in (shape, needed, {name: left_out for name, left_out in shape.items() if name not in OF_GRAPHS})


def fits(said, known):
    return any(is_shape(said, shape) for shape in known)


def stale_object(members, known):
    """What an object says of its members, where it stands under a word or anywhere."""
    said = shape_said(members)
    shown = "{" + ", ".join(members) + "}"
    if said is not None and not fits(said, known) and not (len(said) == 1 and set(said) <= set(tags())):
        yield f"no definition has the members {shown}"
    for name, (_, inner) in members.items():
        below = tags().get(name.strip('"'))
        for it in inner:
            every = [shape for those in shapes().values() for shape in those]
            yield from stale_object(it, below if below and shape_said(it) and len(said or {}) == 1 else every)


def stale_objects(path, text):
    if path == LAYOUT:
        every = [shape for those in shapes().values() for shape in those]
        for span in spans(without_blocks(text)):
            for members in Objects(span).found:
                yield from stale_object(members, every)


def stale_members(path, text):
    """The rows that say a thing's members one by one have all of them."""
    if path != LAYOUT:
        return
    for heading, columns, cells in rows_of(text):
        if columns == ["Thing", "Members"] and cells[0] in THINGS:
            yield from wrong_members(cells[0], cells[1], shapes()[THINGS[cells[0]]])
    cells = [cells[0] for _, columns, cells in rows_of(text) if columns[0] == "Member"]
    if cells:
        yield from wrong_members("RESOLVE", ", ".join(cells), shapes()["read_resolve"])


def wrong_members(thing, cell, known):
    said = {found[1]: bool(found[2]) for span in spans(cell) if (found := re.match(r'"([^"]*)"(\?)?', span))}
    if not fits(said, known):
        yield f"the members of {thing}: {', '.join(said)}"


def stale_strings(path, text):
    """Each word between quotes is known; each command, question, answer, kind of function and cause stands there."""
    if path != LAYOUT:
        return
    said = {it for span in spans(without_blocks(text)) for it in re.findall(r'"([^"]*)"', span)}
    known = words() | set(re.findall(r'"([^"]*)"', "".join(read(it) for it in specs("wit_shape"))))
    for it in sorted(said - known):
        if re.fullmatch(r"[a-z][a-z0-9 -]*", it):
            yield f'"{it}" is no word of a definition'
    for it in sorted(wanted() - said - set(re.findall(r'"([^"]*)"', "".join(blocks(text, "json"))))):
        yield f'"{it}" stands nowhere'


@functools.cache
def wanted():
    """The words that the document has to have."""
    found = set()
    words_of = r'(?:bytes_eq \w+|tagged|json_of_text|read_required \S+|read_optional \S+|optional \S+) \(codes "([a-z-]+)"\)'
    for crate, name, body in definitions():
        if crate == "wit_json_commands" or name in SAID_WHOLE:
            found.update(re.findall(words_of, body))
    return found | set(causes().values())


@functools.cache
def causes():
    """The word of each number of a refusal."""
    text = read("crates/wit_json/specs/Refusals.antt")
    said = re.findall(r'(?m)^kind_word \(?kind\.(\w+).*= codes "([a-z-]+)"|^cause_word cause\.(\w+) = codes "([a-z-]+)"', text)
    return {numbers()[a or b]: word or other for a, word, b, other in said if (a or b) in numbers()}


def stale_causes(path, text):
    """The words of causes stand in a row, in the order of their numbers."""
    if path == LAYOUT:
        row = ", ".join(f'`"{causes()[number]}"`' for number in sorted(causes()))
        if row not in text:
            yield "the words of causes aren't, in order, " + row


# ---- the example


def beginning(whole, pushed):
    """What packages that are pushed first make of a whole graph: the beginnings of its lists, and their files."""
    groups = [group for it in pushed for group in [it["main"], *it["deps"]]]
    packages = [package for group in groups for package in [group["main"], *group["nested"]]]
    counts = {sort: sum(len(it[sort]) for it in packages) for sort in ("worlds", "interfaces", "types")}
    counts["packages"] = len(packages)
    lists = {part: {sort: those[: counts[sort]] for sort, those in whole[part].items()} for part in ("graph", "details")}
    return whole | lists | {"sources": [file for group in groups for file in group["sources"]]}


def stale_example(path, text):
    """The document In begins the stored one, whose later commands only add; Out is what is stored of that beginning."""
    if path != LAYOUT:
        return
    shown = [json.loads(it) for it in blocks(text, "json") if it.startswith(('{"commands"', '{"replies"'))]
    if len(shown) != 2:
        yield "the example isn't two blocks"
        return
    (asked, answered), (all_asked, all_answered) = shown, [json.loads(read(it)) for it in STORED]
    count = len(asked["commands"])
    if asked["commands"] != all_asked["commands"][:count] or asked.keys() != all_asked.keys():
        yield f"the document In doesn't begin {STORED[0]}"
    pushed = [it["push-groups"] for it in asked["commands"] if "push-groups" in it]
    resolve = beginning(all_answered["resolve"], pushed)
    if answered != {"replies": all_answered["replies"][:count], "resolve": resolve}:
        yield f"the document Out isn't that of {STORED[1]}"


def stale_values(path, text):
    """Each other block is a value that an example proves."""
    if path == LAYOUT:
        joined = re.sub(r'"\s+\+\+ codes "', "", "".join(map(read, specs("examples_json"))))
        proved = re.findall(r'≡ codes\s+"((?:[^"\\]|\\.)*)"', joined)
        there = {it.replace('\\"', '"') for it in proved}
        for block in blocks(text, "json"):
            if not block.startswith(('{"commands"', '{"replies"')) and block.strip() not in there:
                yield f"no example has {block.strip()}"


CHECKS = [stale_objects, stale_members, stale_strings, stale_causes, stale_example, stale_values]

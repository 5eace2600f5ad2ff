#!/usr/bin/env python3
"""Counts the definitions that a reader must believe behind a name.

    tools/definitions.py                  a line for each subject: definitions, lines, files, and what is new in it
    tools/definitions.py NAME..           what stands behind these names (a name is File/name where several have it)
    tools/definitions.py --cited [NAME..] each definition, how many others cite it, where it stands and its lines
    tools/definitions.py --misplaced      what stands at the top of the specs though no public contract rests on it, and
                                          what one rests on though it stands in specs/steps, facts, laws or examples

Names are followed through the files of specs: from a definition to each definition that its text names, and on from
there. What the code declares, and what the toolchain and its kit define, ends the way. A line is one of the definition
itself that isn't empty and no comment. A public contract is one that users have (tools/offered.py); what laws alone rest on
may stand at the top.
"""
import pathlib
import re
import sys
from collections import defaultdict
from dataclasses import dataclass, field

from offered import Offer, is_of_laws

CRATES = pathlib.Path(__file__).resolve().parent.parent / "crates"
# not a value `record x { field = ..` at the head of a line, nor `record x` alone in one
BEGIN = re.compile(r"( *)(?:pub )?(?:abbrev|unfoldable|record|data)(?: pub)? ([^\s{(.]+)(?![.\w]|$)(?! \{(?:$| \w+ =))")
USE = re.compile(r"^(pub )?use (Rattle(?:\.[\w«»]+)+)(?:\.\{([^}]*)\}| as (\S+))")
WORD = re.compile(r"(?<![\w.'«»-])[A-Za-z_«◌][\w'«»◌-]*(?:\.[A-Za-z_«][\w'«»-]*)*|[^\s\w(){},;\"']+")
BOUND = re.compile(r"λ ([^.]*?)\.|\(((?:\w+ )+): ")

# what a reader asks of each subject, in the order in which it is read
SUBJECTS = [
    ("elaborated world, conflict", ["Elaborated", "HasTransitiveConflict", "IsRefusedName", "all_elaborated"]),
    ("valid graph", ["IsValid"]),
    ("push of one", ["added", "IsAdditionCause"]),
    ("groups, shape", ["IsGroupsCause", "AreAdded", "IsGroupShaped", "PushesGroups"]),
    ("merge", ["merged", "IsMergeCause", "Merges"]),
    ("semver merge", ["semver_merged", "SemverMergeCause"]),
    ("turns", ["transformed", "ImportizeCause", "ExportizeCause", "Exportizes"]),
    ("Step, Run", ["Step", "Run"]),
    ("questions, core names, selection", ["Queries/*", "Names/import_names", "Names/export_name", "selected_world"]),
]


@dataclass
class Definition:
    """One definition: where it stands, and what its text names."""
    name: str
    path: pathlib.Path
    lines: list = field(default_factory=list)
    cites: set = field(default_factory=set)

    @property
    def place(self):
        """Its crate, the folders below specs, its file and its name."""
        return f"{self.path.relative_to(CRATES).with_suffix('')}/{self.name}".replace("/specs/", "/")


def without_comment(line):
    """A line without its comment: two hyphens that stand outside of a text."""
    parts = re.split(r'("(?:[^"\\]|\\.)*")', line)
    for i in range(0, len(parts), 2):
        if match := re.search(r"(^|\s)--(\s|-|$)", parts[i]):
            return "".join(parts[:i]) + parts[i][:match.start()]
    return line


class File:
    """A file of specs: its definitions, and what names mean in it."""

    def __init__(self, path):
        self.path, self.definitions, self.names, self.aliases, self.public = path, {}, {}, {}, {}
        text = "\n".join(map(without_comment, path.read_text(encoding="utf-8").splitlines()))
        for match in re.finditer(USE.pattern, text, re.M):
            self.note_use(*match.groups())
        made = None
        for line in text.splitlines():
            made = self.after(line, made)

    def note_use(self, public, module, names, alias):
        """A `use`: of names of a module, or of a module under another name."""
        if alias:
            self.aliases[alias] = module
        for name in filter(None, map(str.strip, (names or "").split(","))):
            name, _, other = name.partition(" as ")
            self.names[other or name] = module, name
            if public:
                self.public[other or name] = module, name

    def after(self, line, made):
        """Which definition is open after a line."""
        if match := BEGIN.match(line):
            made = self.definitions.setdefault(match[2], Definition(match[2], self.path))
            made.indent = len(match[1])
        elif line.strip() and made:
            indent = len(line) - len(line.lstrip())
            goes_on = indent > made.indent or indent == made.indent and (line.split()[0] == made.name or line.strip() in "})]")
            made = made if goes_on else None
        if made and line.strip():
            made.lines.append(line)
        return made


class Specs:
    """All files of specs, and the way from a name to what it names."""

    def __init__(self):
        self.files = {path: File(path) for path in sorted(CRATES.glob("*/specs/**/*.antt"))}
        self.all = [it for file in self.files.values() for it in file.definitions.values()]
        for it in self.all:
            it.cites = self.cited_by(it) - {it.place}
        self.at = {it.place: it for it in self.all}

    def file_of(self, module):
        """The file of a module that stands in specs and isn't declared by code."""
        crate, folder, *names = module.split(".")[1:]
        path = CRATES / crate / folder / ("/".join(names) + ".antt")
        return self.files.get(path)

    def found(self, module, name):
        """The definition of a name in a module, through re-exports."""
        file = self.file_of(module)
        if file is None:
            return None
        if name in file.definitions:
            return file.definitions[name]
        return self.found(*file.public[name]) if name in file.public else None

    def cited_by(self, definition):
        """The places of what the text of a definition names."""
        file, text = self.files[definition.path], "\n".join(definition.lines)
        text = re.sub(r'"(?:[^"\\]|\\.)*"', '""', text)
        # the name of a field to which a value is given
        text = re.sub(r"([{;]\s*)[\w«»]+(?= =)", r"\1", text)
        bound = {word for match in BOUND.finditer(text) for word in re.findall(r"[\w']+", match[1] or match[2])}
        bound |= self.parameters(definition, text)
        cited, operators = set(), {name.strip("◌"): name for name in [*file.definitions, *file.names] if "◌" in name}
        for word in WORD.findall(text):
            head, _, rest = operators.get(word, word).partition(".")
            made = None
            if head in file.aliases and rest:
                made = self.found(file.aliases[head], rest.split(".")[0])
            elif head not in bound or head in file.definitions and head == definition.name:
                made = file.definitions.get(head) or (self.found(*file.names[head]) if head in file.names else None)
            cited |= {made.place} if made else set()
        return cited

    @staticmethod
    def parameters(definition, text):
        """The names that the left sides of equations and the fields of records bring in."""
        bound = set()
        for line in definition.lines:
            if line.split()[0] == definition.name and " = " in line + " " and ":" not in line.split("=")[0]:
                bound |= set(re.findall(r"(?<![.\w])[a-z_]\w*", line.split("=")[0])) - {definition.name}
            elif match := re.match(r"\s+(?:pub )?([\w«»]+) :", line):
                bound.add(match[1])
        return bound

    def behind(self, places):
        """All places that are reached from some, these with them."""
        reached, left = set(), list(places)
        while left:
            place = left.pop()
            if place not in reached:
                reached.add(place)
                left += self.at[place].cites
        return reached

    def named(self, name):
        """The places of a name, at the top of the specs of a crate where it stands there."""
        file, _, name = name.rpartition("/")
        fits = [it for it in self.all if name in ("*", it.name) and file in ("", it.path.stem)]
        top = [it.place for it in fits if it.path.parent.name == "specs"]
        if not fits:
            raise SystemExit(f"no definition is called {name}")
        return set(top or [it.place for it in fits])


def sums(specs, places):
    """How many definitions, lines and files."""
    made = [specs.at[place] for place in places]
    return len(made), sum(len(it.lines) for it in made), len({it.path for it in made})


def by_subject(specs):
    """Prints a line for each subject."""
    before, row = set(), "{:34}{:>6}{:>7}{:>6}{:>7}{:>8}"
    print(row.format("behind", "all", "lines", "files", "new", "lines"))
    for subject, names in SUBJECTS:
        reached = specs.behind(set().union(*map(specs.named, names)))
        new = sums(specs, reached - before)
        print(row.format(subject, *sums(specs, reached), *new[:2]))
        before |= reached
    print(row.format("together", *sums(specs, before), "", ""))
    return before


def by_citations(specs, places):
    """Prints each definition, by how many others cite it."""
    citing = defaultdict(set)
    for place in places:
        for cited in specs.at[place].cites:
            citing[cited].add(place)
    for place in sorted(places, key=lambda it: (len(citing[it]), it)):
        by = ", ".join(sorted(it.split("/")[-1] for it in citing[place])[:4])
        print(f"{len(citing[place]):4} {len(specs.at[place].lines):4}  {place:64} {by}")


def cited(specs, path, lines):
    """The places that some lines of a source name."""
    text = "\n".join(map(without_comment, lines))
    for line in re.findall(r"^ *ghost (use .*);", path.read_text(encoding="utf-8"), re.M):
        _, module, some, _ = USE.match(line).groups()
        for name in filter(None, map(str.strip, (some or "").split(","))):
            found = specs.found(module, name)
            if found and re.search(rf"(?<![\w.]){re.escape(name)}(?!\w)", text):
                yield found.place


def under_contracts(specs):
    """The places on which public contracts rest."""
    offer = Offer()
    lines = {path: [line for _, line, _ in offer.clauses(path)] for path in offer.sources()}
    return specs.behind({place for path, some in lines.items() for place in cited(specs, path, some)})


def under_laws(specs):
    """The places on which laws rest."""
    sources = [it for it in CRATES.glob("*/src/**/*.rt") if is_of_laws(it)]
    return specs.behind({place for it in sources for place in cited(specs, it, it.read_text(encoding="utf-8").splitlines())})


def misplaced(specs):
    """What public contracts rest on and stands in a folder of specs; and what stands at the top beside such definitions,
    though no contract and no law rests on it."""
    under = under_contracts(specs)
    either = under | under_laws(specs)
    tops = {specs.at[place].path.parent for place in under if specs.at[place].path.parent.name == "specs"}
    believed = [it.place for it in specs.all if it.place in under and it.path.parent.name != "specs"]
    return believed, [it.place for it in specs.all if it.place not in either and it.path.parent in tops], under


def print_misplaced(specs):
    believed, at_top, under = misplaced(specs)
    print(*(f"believed, not at the top: {it}" for it in believed), sep="\n")
    print(*(f"at the top, under no public contract: {it}" for it in at_top), sep="\n")
    print("{} definitions, {} lines, {} files under public contracts".format(*sums(specs, under)))


def main(words):
    specs = Specs()
    flags, names = [it for it in words if it.startswith("--")], [it for it in words if not it.startswith("--")]
    chosen = names or [name for _, some in SUBJECTS for name in some]
    places = specs.behind(set().union(*map(specs.named, chosen)))
    if "--cited" in flags:
        by_citations(specs, places)
    elif "--misplaced" in flags:
        print_misplaced(specs)
    elif names:
        print(*sorted(places), sep="\n")
        print("{} definitions, {} lines, {} files".format(*sums(specs, places)))
    else:
        by_subject(specs)


if __name__ == "__main__":
    main(sys.argv[1:])

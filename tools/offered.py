"""What users have of the crates: what those in bold in docs/ARCHITECTURE.md declare or hand on."""
import pathlib
import re
from collections import defaultdict

TOP = pathlib.Path(__file__).resolve().parent.parent
CRATES = TOP / "crates"
HANDED_ON = re.compile(r"^pub use ([^;]+);", re.M)
MODULE = re.compile(r"^pub mod (\w+);", re.M)
ITEM = re.compile(r'^pub (?:const |extern "C" |unsafe )*(?:fn|struct|enum|trait|type|const|static) (\w+)', re.M)
FUNCTION = re.compile(r'( *)(?:pub )?(?:const |extern "C" |unsafe )*fn (\w+)')
BLOCK = re.compile(r"(pub )?(impl|trait)\b")
TYPE = re.compile(r"^pub (struct|enum) (\w+)[^;{]*\{\n(.*?)^\}", re.M | re.S)
CLAUSE = re.compile(r"\s+(requires|ensures)\b")
GHOST = re.compile(r"\s+ghost \w+ =")
IMPORTED = re.compile(r"^use (wit\w*)::([^;]+);", re.M)
ALL = "*"


def crate_of(path):
    return path.relative_to(CRATES).parts[0]


def users():
    """The crates that users name."""
    text = (TOP / "docs" / "ARCHITECTURE.md").read_text(encoding="utf-8")
    named = [name for line in re.findall(r"^- .*", text, re.M) for name in re.findall(r"\*\*(\w+)\*\*", line)]
    return [name for name in dict.fromkeys(named) if (CRATES / name).is_dir()]


def root(crate):
    """The source that the others of a crate are modules of; of a program all of that is for users."""
    found = CRATES / crate / "src" / "lib.rt"
    return found if found.exists() else found.with_name("main.rt")


def named_in(use):
    """What a `pub use` names: a crate or a module, and the names below it; `*` is all of a crate."""
    head, brace, some = use.partition("{")
    if brace:
        return head.strip().removesuffix("::"), [it.strip() for it in some.rstrip("} \n").split(",") if it.strip()]
    head, _, last = use.rpartition("::")
    return (head, [last]) if head else (last.partition(" ")[0], [last.replace(last.partition(" ")[0], ALL, 1)])


def handed_on(text):
    """What is handed on: the name that users have, the crate or `crate`, and the path below it."""
    for head, names in map(named_in, HANDED_ON.findall(text)):
        crate, *path = head.split("::")
        for name, _, other in (it.partition(" as ") for it in names):
            yield other or name, crate, [*path, name]


class Offer:
    """The sources with the names that users have of them, `*` where they have all that is public there."""

    def __init__(self):
        self.of, self.names, self.done = defaultdict(set), defaultdict(set), set()
        for crate in users():
            self.add(crate, ALL)
        count = 0
        while count < len(self.done):
            count = len(self.done)
            self.collect()
            for path in list(self.sources()):
                self.add_named(path)

    def collect(self):
        """Gathers the names by crates."""
        for path, some in self.of.items():
            of_all = ITEM.findall(path.read_text(encoding="utf-8")) if ALL in some else []
            self.names[crate_of(path)] |= some - {ALL} | set(of_all)

    def add_named(self, path):
        """Adds the types that signatures and public fields of what users have name."""
        text = path.read_text(encoding="utf-8")
        known = {word: crate for crate, some in IMPORTED.findall(text) for word in re.findall(r"\w+", some)}
        own = {name for name, crate, _ in handed_on(root(crate_of(path)).read_text(encoding="utf-8")) if crate == "crate"}
        for line in [*self.signatures(path), *self.fields(path)]:
            for word in re.findall(r"\b[A-Z]\w+", line):
                if word in known:
                    self.add(known[word], word)
                elif word in own:
                    self.add(crate_of(path), word)

    def signatures(self, path):
        """The lines of signatures of functions that users have."""
        head, is_open = "", False
        for line in path.read_text(encoding="utf-8").splitlines():
            if BLOCK.match(line):
                head = line
            elif match := FUNCTION.match(line):
                is_open = self.has(path, head, line, bool(match[1]), match[2])
            elif CLAUSE.match(line):
                is_open = False
            if is_open:
                yield line
            is_open = is_open and not line.endswith(("{", ";", "}"))

    def fields(self, path):
        """The lines of public fields and of variants that users have."""
        for sort, name, body in TYPE.findall(path.read_text(encoding="utf-8")):
            if name in self.names[crate_of(path)]:
                yield from (line for line in body.splitlines() if sort == "enum" or line.startswith("    pub "))

    def add(self, crate, name, *below):
        """Adds what a crate has under a name, or all; below the name of a module some of that."""
        if (crate, name, below) in self.done or not (CRATES / crate).is_dir():
            return
        self.done.add((crate, name, below))
        path = root(crate)
        text = path.read_text(encoding="utf-8")
        own = ITEM.findall(text)
        if path.stem == "main" or name in own or name == ALL and own:
            self.of[path].add(name)
        for module in MODULE.findall(text):
            if name in (ALL, module):
                self.add_in(path.with_name(f"{module}.rt"), below[0] if below else ALL)
        for known, other, way in handed_on(text):
            if name in (ALL, known) and other == "crate":
                self.add_in(path.parent.joinpath(*way[:-1]).with_suffix(".rt"), way[-1])
            elif name in (ALL, known):
                self.add(other, *way)

    def add_in(self, path, name):
        """Adds what a module has under a name, or all, and what it hands on of the modules in its folder."""
        self.of[path].add(name)
        for known, module, way in handed_on(path.read_text(encoding="utf-8")):
            below = path.with_suffix("").joinpath(module, *way[:-1]).with_suffix(".rt")
            if name in (ALL, known) and below.exists():
                self.add_in(below, way[-1])

    def sources(self):
        """The sources of crates of which users have something. Laws aren't asked."""
        for crate in sorted(self.names):
            for path in sorted((CRATES / crate / "src").rglob("*.rt")):
                if not is_of_laws(path):
                    yield path

    def has(self, path, head, line, is_method, name):
        """Whether users have a function: of a type or a trait that they have, or under its name."""
        names = self.of.get(path, set())
        if is_method:
            is_public = "pub " in line or " for " in head or head.startswith("pub trait")
            return is_public and bool(self.names[crate_of(path)] & set(re.findall(r"\w+", head)))
        return path.stem == "main" or "pub " in line and bool(names & {ALL, name})

    def clauses(self, path):
        """The lines that begin a clause of a function that users have, or say what contracts see of a type that they
        have, with their numbers; and those that go on with one."""
        head, is_open, depth, own = "", False, 0, self.names[crate_of(path)]
        for number, line in enumerate(path.read_text(encoding="utf-8").splitlines(), 1):
            if depth > 0:
                depth += line.count("{") - line.count("}")
                yield number, line, False
            elif BLOCK.match(line):
                head, is_open = line, False
            elif match := FUNCTION.match(line):
                is_open = self.has(path, head, line, bool(match[1]), match[2])
            elif GHOST.match(line) and own & set(re.findall(r"\w+", head)):
                depth = line.count("{") - line.count("}")
                yield number, line, True
            elif is_open and CLAUSE.match(line):
                yield number, line, True
            elif line in ("{", "    {"):
                is_open = False
            elif is_open and line.startswith("  "):
                yield number, line, False


def is_of_laws(path):
    return path.stem == "laws" or "laws" in path.parts

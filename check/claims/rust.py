"""What the code of the crates declares: functions with parameters, answers and clauses, types with their members, and
what each crate hands on. The code has the layout of `rt fmt`, so lines are read, not a grammar."""
import functools
import re
from dataclasses import dataclass, field

from claims.repository import crates, read, sources

FUNCTION = re.compile(r"( *)(pub(?:\([^)]*\))? )?(?:unsafe |const |extern \"C\" )*fn (\w+)")
OWNER = re.compile(r"(?:unsafe )?impl(?:<.*?>)? (?:.+ for )?&?(?:'\w+ )?(?:\w+::)*(\w+)|(?:pub(?:\([^)]*\))? )?trait (\w+)")
TYPE = re.compile(r"(?:pub(?:\([^)]*\))? )?(?:struct|enum|trait|type|const|static|mod) (\w+)")


@dataclass
class Function:
    """A function: where it is declared, of what type, and its contract."""
    crate: str
    path: str
    owner: str
    name: str
    is_public: bool
    signature: str = ""
    clauses: set = field(default_factory=set)

    @property
    def parameters(self):
        """Its parameters but `self`, as pairs of a name and a type."""
        inner = between(self.signature, self.signature.index("("))
        found = [tuple(part.strip() for part in it.partition(":")[::2]) for it in parts(inner)]
        return [(name.removeprefix("mut "), kind) for name, kind in found if kind]

    @property
    def answer(self):
        """The type that it answers, empty where it answers nothing."""
        begin = self.signature.index("(")
        behind = self.signature[begin + len(between(self.signature, begin)) + 2 :]
        return re.sub(r"\s*where .*", "", behind.replace("->", "", 1)).strip() if "->" in behind else ""


def between(text, begin):
    """What stands between a bracket and its end."""
    depth = 0
    for at in range(begin, len(text)):
        depth += (text[at] in "([{<") - (text[at] in ")]}" or text[at] == ">" and text[at - 1] != "-")
        if depth == 0:
            return text[begin + 1 : at]
    return text[begin + 1 :]


def parts(text):
    """The parts of a list that commas part outside of brackets."""
    found, depth = [""], 0
    for at, sign in enumerate(text):
        depth += (sign in "([{<") - (sign in ")]}" or sign == ">" and text[at - 1 : at] != "-")
        if sign == "," and depth == 0:
            found.append("")
        else:
            found[-1] += sign
    return [it.strip() for it in found if it.strip()]


def without_generics(signature, name):
    """A signature from its name on, without the type parameters behind that."""
    signature = signature[signature.index(f"fn {name}") + len("fn ") :] if f"fn {name}" in signature else signature
    at = len(name)
    if signature[at : at + 1] == "<":
        return signature[:at] + signature[at + len(between(signature, at)) + 2 :]
    return signature


def functions_of(crate, path):
    """The functions of a file."""
    owner, made = "", None
    for line in read(path).split("\n"):
        line = re.sub(r"^(\s*)//.*", r"\1", line)
        if line[:1] not in ("", " ", "}", ")", ">") and (found := OWNER.match(line)):
            owner = found[1] or found[2]
        if line.startswith("}"):
            owner = ""
        if found := FUNCTION.match(line):
            if made:
                yield made
            made = Function(crate, path, owner if found[1] else "", found[3], found[2] == "pub ")
            is_open = True
        if made:
            is_open = note(made, line.strip(), is_open)
    if made:
        yield made


def note(made, line, is_open):
    """Notes a line of a function's head; answers whether the signature goes on."""
    if clause := re.match(r"(ensures|requires)(?: (\w+))? \{", line):
        made.clauses.update([clause[2] or ""] if clause[1] == "ensures" else [])
        return False
    if is_open:
        made.signature += " " + re.sub(r"\s*(?:\{.*|;)$", "", line)
        if re.search(r"(?:\{\}?|;)$", line) or line == "{":
            return False
    return is_open


@functools.cache
def functions():
    """All functions, by their names."""
    found = {}
    for crate in crates():
        for path in sources(crate):
            for it in functions_of(crate, path):
                it.signature = without_generics(it.signature.strip(), it.name)
                found.setdefault(it.name, []).append(it)
    return found


@functools.cache
def types_of(crate):
    """The types and modules that a crate declares, each with its members: fields, variants and methods."""
    found = {}
    for path in sources(crate):
        name = ""
        for line in read(path).split("\n"):
            if declared := TYPE.match(line):
                name = declared[1]
                found.setdefault(name, set())
            elif member := re.match(r"    (?:pub(?:\([^)]*\))? )?(\w+)(?:[:,({]| \{|$)", line):
                found.get(name, set()).add(member[1])
            if line.startswith("}"):
                name = ""
    for those in functions().values():
        for it in those:
            if it.crate == crate and it.owner:
                found.setdefault(it.owner, set()).add(it.name)
    return found


@functools.cache
def handed_on(crate):
    """What a crate hands on: under a name the crate that it is of, and its name there."""
    path, found = f"crates/{crate}/src/lib.rt", {}
    for whole in re.findall(r"(?ms)^pub use (.*?);", read(path) if path in sources(crate) else ""):
        begin, _, some = whole.partition("::{")
        there = crate if begin.startswith("crate") else re.match(r"\w+", begin)[0]
        for name in parts(some.rstrip("} \n")) or [begin.split("::")[-1]]:
            name, _, other = name.partition(" as ")
            found[other or name] = there, name
    return found


@functools.cache
def home(crate, name):
    """The crate that declares what a crate shows under a name, and its name there; None where it shows no such thing."""
    there, own = handed_on(crate).get(name, (None, None))
    if there and there != crate:
        return (own, "") if own == there else home(there, own) or (there, own)
    declares = name in types_of(crate) or any(it.crate == crate and it.is_public for it in functions().get(name, ()))
    return (crate, own or name) if declares else None


@functools.cache
def under(name):
    """The functions of a name, and those that a crate hands on under it."""
    found = list(functions().get(name, ()))
    for crate in crates():
        there, own = handed_on(crate).get(name, (None, None))
        if there and own != name:
            found += [it for it in functions().get(own, ()) if it.crate == there and not it.owner]
    return found


def is_shown(crate, it):
    """Whether a crate shows a function: by its name, by its type, or within a module that it shows."""
    name = it.owner or it.name
    if home(crate, name) == (it.crate, name):
        return True
    return (it.is_public or bool(it.owner)) and any(shows(module, it, name) for module in shown_modules(crate))


def shows(module, it, name):
    """Whether a module, which may be a whole crate, shows what has a name."""
    own, inner = module
    if own != it.crate:
        return False
    return not inner or it.path.endswith(f"/{inner}.rt") or hands_on(f"crates/{own}/src/{inner}.rt", name)


def hands_on(path, name):
    """Whether a module hands on a name."""
    return path in sources(path.split("/")[1]) and re.search(rf"(?m)^pub use crate::.*\b{name}\b", read(path))


@functools.cache
def shown_modules(crate):
    """The modules that a crate hands on: the crate of each, and its name there, empty where it is that crate."""
    found = [there for name in handed_on(crate) if name.islower() and (there := home(crate, name))]
    return [it for it in found if not it[1] or f"crates/{it[0]}/src/{it[1]}.rt" in sources(it[0])]


@functools.cache
def called(crate, name):
    """The functions that a crate shows under a name, which may be of a type or in a module."""
    owner, _, own = name.rpartition("::")
    own = own or name
    found = [it for it in under(own) if it.crate == crate or is_shown(crate, it)]
    if owner:
        module = owner.split("::")[-1]
        inner = [it for it in found if shows((it.crate, module), it, own)]
        found = [it for it in found if it.owner == module] or inner
    return found


@functools.cache
def laws(crate=None):
    """The laws of a crate, or of all: functions of a module `laws`, declared there or handed on."""
    found = set()
    for name in [crate] if crate else crates():
        path = f"crates/{name}/src/laws.rt"
        if path in sources(name):
            text = read(path)
            found.update(re.findall(r"(?m)^pub fn (\w+)", text))
            for names in re.findall(r"(?ms)^pub use [\w:]+?::(\{.*?\}|\w+);", text):
                found.update(parts(names.strip("{}")))
    return found

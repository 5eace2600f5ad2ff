"""Reads the lines of packages."""
import re

from .data import UNKNOWN, Entry, Foreign, Function, Include, Interface, Package, Type, World
from .labels import groups_of
from .names import NotUnderstood, PackageName, need, read_use_path, version_key

PRIMITIVES = set("bool u8 u16 u32 u64 s8 s16 s32 s64 f32 f64 char string error-context".split())
# what stands in interfaces alone, and in worlds alone
OF_INTERFACES = {"func"}
OF_WORLDS = {"import", "export", "import-func", "export-func", "include"}


def note_of(words):
    """The words of a line without the note at their end, and the note."""
    word, equals, text = words[-1].partition("=")
    if not equals or word not in ("@since", "@unstable"):
        return words, UNKNOWN
    need(text)
    if word == "@since":
        version_key(text)
    return words[:-1], ("stable" if word == "@since" else "unstable", text)


def read_part(text):
    """The name of a field or of a parameter, and the text of its type."""
    name, _, ty = text.partition(":")
    need(name)
    return name, ty


class Reader:
    """The packages that the lines since the last command tell.

    A reader is of no use after a line that isn't understood.
    """

    def __init__(self):
        self.packages, self.package, self.scope = [], None, None

    def line(self, words):
        if words[0] == "package":
            need(len(words) == 2)
            self.package, self.scope = Package(PackageName.read(words[1])), None
            self.packages.append(self.package)
            return
        words, note = note_of(words)
        need(self.package and words)
        if words[0] in ("interface", "world"):
            need(len(words) == 2)
            self.open(words[0], words[1], note)
        else:
            need(self.scope)
            need(words[0] not in (OF_WORLDS if isinstance(self.scope, Interface) else OF_INTERFACES))
            self.statement(words[0], words[1:], note)

    def open(self, word, name, note):
        """Begins an interface or a world, of which the next lines are."""
        table, sort = (self.package.interfaces, Interface) if word == "interface" else (self.package.worlds, World)
        need(name not in table)
        self.scope = table[name] = sort(name, note)

    def statement(self, word, rest, note):
        match word, rest:
            case "type", [name, text]:
                kind = self.kind(text, note)
                self.add_named(name, kind if isinstance(kind, tuple) else ("alias", kind), note)
            case "record", [name, *parts] if parts:
                fields, texts = zip(*map(read_part, parts))
                self.add_named(name, ("record", *(self.reference(it, note) for it in texts)), note).fields = fields
            case "resource", [name]:
                self.add_named(name, ("resource",), note)
            case "use", [path, name, *news] if len(news) < 2:
                self.add_named(news[0] if news else name, ("alias", self.used(path, name, note)), note)
            case "func", [text]:
                function = self.signature(text, note)
                need(function.name not in self.scope.functions)
                self.scope.functions[function.name] = function
            case "import-func" | "export-func", [text]:
                function = self.signature(text, note)
                self.enter(word.removesuffix("-func"), Entry(function.name, function, note))
            case "import" | "export", [text]:
                label, equals, path = text.partition("=")
                need(label and (path or not equals))
                item = self.item(path or label, "interfaces", note)
                self.enter(word, Entry(label if equals else None, item, note))
            case "include", [path, *renames]:
                names = [it.partition("=")[::2] for it in renames]
                need(all(old and new for old, new in names))
                self.scope.includes.append(Include(self.item(path, "worlds", note), names, note))
            case _:
                raise NotUnderstood

    # what stands in interfaces and worlds

    def enter(self, word, entry):
        entries = self.scope.imports if word == "import" else self.scope.exports
        need(all(it.key != entry.key for it in entries))
        entries.append(entry)

    def add_type(self, name, kind, owner, note):
        ty = Type(name, kind, owner, note)
        self.package.types.append(ty)
        return ty

    def add_named(self, name, kind, note):
        need(name not in self.scope.types)
        ty = self.scope.types[name] = self.add_type(name, kind, self.scope, note)
        if isinstance(self.scope, World):
            self.enter("import", Entry(name, ty, note))
        return ty

    # what is named

    def item(self, path, table, note):
        """The interface or the world of a path."""
        if ":" not in path:
            own = getattr(self.package, table)
            need(path in own)
            return own[path]
        package, name = read_use_path(path)
        known = self.package.foreign.setdefault((package.key, name), Foreign(package, name, table))
        need(known.table == table)
        known.notes.append(note)
        return known

    def used(self, path, name, note):
        """The type that a `use` names. One of another package is taken to be there."""
        of = self.item(path, "interfaces", note)
        if isinstance(of, Foreign) and name not in of.types:
            of.types[name] = self.add_type(name, ("unknown",), of, note)
        need(name in of.types)
        return of.types[name]

    def named(self, name):
        need(name in self.scope.types)
        return self.scope.types[name]

    def handled(self, name):
        """The type of a handle, which leads to a resource, or to a type of which that is asked later."""
        ty = self.named(name)
        end = ty.end()
        need(end.kind[0] in ("resource", "unknown"))
        if end.kind[0] == "unknown" and end not in self.package.required:
            self.package.required.append(end)
        return ty

    # types and functions

    def kind(self, text, note):
        """A reference, or the kind of a type that the text writes in place."""
        if text in PRIMITIVES:
            return text
        if text in ("future", "stream"):
            return (text,)
        if found := re.fullmatch(r"(list|option|future|stream)<(.*)>", text):
            return found[1], self.reference(found[2], note)
        if found := re.fullmatch(r"(own|borrow)<(.*)>", text):
            return found[1], self.handled(found[2])
        return self.named(text)

    def reference(self, text, note):
        kind = self.kind(text, note)
        return self.add_type(None, kind, None, note) if isinstance(kind, tuple) else kind

    def signature(self, text, note):
        """The function of a text such as `f(x:u32,y:t)->string`."""
        found = re.fullmatch(r"([^(]*)\((.*?)\)(?:->(.+))?", text)
        need(found)
        parts = [read_part(it) for it in found[2].split(",")] if found[2] else []
        names, references = [name for name, _ in parts], [self.reference(ty, note) for _, ty in parts]
        result = found[3] and self.reference(found[3], note)
        return Function(found[1], self.resource_of(found[1]), names, references, result, note)

    def resource_of(self, name):
        """The resource that a function of this name belongs to, None where it belongs to none."""
        groups, rest = groups_of(name)
        need(rest and not rest.startswith("["))
        if groups == ["[constructor]"]:
            return self.named(rest)
        if groups and groups[0] in ("[method]", "[static]"):
            need("." in rest and groups[1:] in ([], ["[get]"], ["[set]"]))
            return self.named(rest.partition(".")[0])
        need(groups in ([], ["[get]"], ["[set]"]))
        return None

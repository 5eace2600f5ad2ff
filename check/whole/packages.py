"""The packages and commands of a document as those of the model of the rules (check/model)."""
import pathlib
import sys

sys.path.insert(0, str(pathlib.Path(__file__).parent.parent.parent / "check"))

from model import data
from model.names import PackageName


def note(gate):
    """The note of a gate, with the deprecation as it is told."""
    if not gate:
        return data.UNKNOWN
    [(word, of)] = gate.items()
    said = (word, of["since"] if word == "stable" else of["feature"])
    return said + (("deprecated", of["deprecated"]) if of.get("deprecated") else ())


class Read:
    """A package of a document as the model has it, whose file begins at a position. Things have `spans`, those that a
    reason to refuse the package may be told at."""

    def __init__(self, package, begin=0):
        self.raw, self.begin, self.made = package, begin, data.Package(PackageName.read(package["name"]))
        self.interfaces, self.worlds, self.types = {}, {}, {}
        self.read_foreign()
        for at, it in enumerate(package["interfaces"]):
            if at not in self.interfaces:
                self.interfaces[at] = self.at(it, data.Interface(it["name"], note(it.get("stability")), self.made.name))
        for at, it in enumerate(package["worlds"]):
            if at not in self.worlds:
                self.worlds[at] = self.at(it, data.World(it["name"], note(it.get("stability")), self.made.name))
        self.read_types()
        for at, it in self.interfaces.items():
            self.fill_interface(it, package["interfaces"][at])
        for at, it in self.worlds.items():
            if isinstance(it, data.World):
                self.fill_world(it, package["worlds"][at])
        self.made.required = [self.types[at] for at, _ in package["required-resources"]]
        for at, span in package["required-resources"]:
            self.types[at].spans.append(self.span(span))
        for at, span in enumerate(package["unknown-type-spans"]):
            self.types[at].spans.append(self.span(span))

    def span(self, span):
        return span and [it + self.begin for it in span]

    def at(self, raw, thing, more=()):
        """A thing that is told at the span of what is read, or at those of its parts."""
        thing.spans = [self.span(it.get("span")) for it in [raw, *more]]
        return thing

    def read_foreign(self):
        for (package, items), span in zip(self.raw["foreign-deps"].items(), self.raw["foreign-dep-spans"]):
            for name, (item, gates) in items.items():
                [(sort, at)] = item.items()
                notes = [note(it) for it in gates]
                made = data.Foreign(PackageName.read(package), name, sort + "s", notes)
                self.at(self.raw[sort + "s"][at], made).spans.append(self.span(span))
                getattr(self, sort + "s")[at] = self.made.foreign[package, name] = made

    def read_types(self):
        for at, it in enumerate(self.raw["types"]):
            owner = it["owner"] and next(getattr(self, sort + "s")[of] for sort, of in it["owner"].items())
            kind, fields = self.kind(it["kind"])
            parts = it["kind"]["record"]["fields"] if kind[0] == "record" else ()
            self.types[at] = self.at(it, data.Type(it["name"], kind, owner, note(it.get("stability")), fields), parts)
        self.made.types = list(self.types.values())

    def type(self, value):
        return self.types[value] if isinstance(value, int) else value

    def kind(self, kind):
        """The kind, and the names of its parts."""
        if isinstance(kind, str):
            return (kind,), None
        [(word, of)] = kind.items()
        match word:
            case "type":
                return ("alias", self.type(of)), None
            case "handle":
                [(word, target)] = of.items()
                return (word, self.type(target)), None
            case "map":
                return (word, *map(self.type, of)), None
            case "fixed-length-list":
                return (word, self.type(of[0])), (of[1],)
            case "result":
                return (word, self.type(of["ok"]), self.type(of["err"])), None
            case "tuple":
                return (word, *map(self.type, of["types"])), tuple(range(len(of["types"])))
            case "record" | "variant" | "flags" | "enum":
                [parts] = of.values()
                types = [self.type(it["type"]) for it in parts if "type" in it]
                return (word, *types), tuple(it["name"] for it in parts)
        return (word, self.type(of)), None

    def function(self, it):
        kind = it["kind"]
        word, resource = (kind, None) if isinstance(kind, str) else next(iter(kind.items()))
        names, parts = [of["name"] for of in it["params"]], [self.type(of["type"]) for of in it["params"]]
        result, gate = self.type(it.get("result")), note(it.get("stability"))
        return self.at(it, data.Function(it["name"], self.type(resource), names, parts, result, gate, word))

    def fill_interface(self, made, it):
        made.types = {name: self.types[at] for name, at in it["types"].items()}
        if isinstance(made, data.Interface):
            made.functions = {name: self.function(of) for name, of in it["functions"].items()}
            if made.name:
                self.made.interfaces[made.name] = made

    def fill_world(self, made, it):
        for side, (_, entries) in zip(("imports", "exports"), made.lists()):
            entries += [self.entry(key, of) for key, of in it[side].items()]
        made.types = {of.label: of.item for of in made.imports if isinstance(of.item, data.Type)}
        for of in it.get("includes", []):
            names = [(name["name"], name["as"]) for name in of["names"]]
            made.includes.append(self.at(of, data.Include(self.worlds[of["id"]], names, note(of.get("stability")))))
        self.made.worlds[made.name] = made

    def entry(self, key, item):
        [(sort, of)] = item.items()
        label = key.removeprefix("%")
        if sort == "function":
            made = self.function(of)
            return self.at(of, data.Entry(label, made, made.note))
        if sort == "type":
            ty = self.types[of["id"]]
            return self.at(of, data.Entry(label, ty, ty.note))
        label = None if key == f"interface-{of['id']}" else label
        return self.at(of, data.Entry(label, self.interfaces[of["id"]], note(of.get("stability"))))


def groups_of(command):
    return [command["push-groups"]["main"], *command["push-groups"]["deps"]] if "push-groups" in command else []


def size(group):
    """How many positions its files take."""
    return sum(len(it["text"].encode()) + 1 for it in group["sources"])


def packages_of(groups, begin):
    """The packages of groups, whose files begin at a position."""
    for it in groups:
        yield from (Read(package, begin).made for package in [it["main"], *it["nested"]])
        begin += size(it)


def command_of(command, begin=0):
    """A command as the model has it, with its packages, whose files begin at a position; None of a question."""
    if isinstance(command, str):
        return None
    [(word, of)] = command.items()
    match word:
        case "add-feature":
            return ["feature", of], []
        case "set-all-features":
            return ["all-features"], []
        case "set-track-rule":
            return ["tracks", of], []
        case "push-groups":
            return ["push"], list(packages_of(groups_of(command), begin))
        case "semver":
            return [word, PackageName.read(of["package"]), of["world"]], []
        case "importize":
            return [word, PackageName.read(of["package"]), of["world"], *([of["out"]] if "out" in of else [])], []
        case "exportize":
            # (no key at all is a filter that nothing passes)
            keys = of.get("keys", []) or ([" "] if "keys" in of else [])
            return [word, PackageName.read(of["package"]), of["world"], of.get("out", "-"), *keys], []
    return None


def commands_of(commands, place=()):
    """The commands as the model has them, each with its place; a merge is what begins another graph, its commands, and
    what ends it. Answers how many positions the files take."""
    begin = 0
    for at, command in enumerate(commands):
        if isinstance(command, dict) and "merge" in command:
            yield None, (["other"], [])
            begin += yield from commands_of(command["merge"], (at,))
            yield (at,), (["merge"], [])
        else:
            made = command_of(command, begin)
            if made:
                yield (*place, at), made
            begin += sum(map(size, groups_of(command)))
    return begin

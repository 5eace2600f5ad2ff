"""Random packages written as WIT, and read by tools/wit2json.py: each kind of type and function that WIT can say,
documentation, gates, deprecation, external ids, labels and interfaces in place, includes.

A text is made once for a document: where the packages that it names are there it is the same again in another graph.
"""
import pathlib
import random
import sys

from random_packages import FEATURES, Chances

sys.path.insert(0, str(pathlib.Path(__file__).resolve().parent.parent.parent / "tools"))

import wit  # noqa: E402
import wit2json  # noqa: E402

PRIMITIVES = sorted(wit.PRIMITIVES)


class Named:
    """What others need to know of an interface or a world: its path, and its package where that is another one."""

    def __init__(self, path, package=None):
        self.path, self.package = path, package

    def name(self):
        return self.path.rpartition("/")[2].partition("@")[0]


class World(Named):
    pass


class Interface(Named):
    """An interface has types, too, each with whether it is a resource."""

    def __init__(self, path, package=None):
        super().__init__(path, package)
        self.types = {}


def id_text(package, name):
    """The path of an interface or a world."""
    base, at, version = package.partition("@")
    return f"{base}/{name}{at}{version}"


class Text:
    """The text of a package. `known` has what can be named of others, as in random_packages.py."""

    def __init__(self, seed, full_name, known):
        self.r, self.full_name = random.Random(str(seed)), full_name
        self.name, _, self.version = full_name.partition("@")
        self.noted = Chances(seed, "noted").one([0, 0.06, 0.06, 0.15])
        self.interfaces, self.worlds, self.count, self.used = [], [], 0, set()
        self.known = []
        for package, parts in known.items():
            for name, types in parts["interfaces"].items():
                self.known.append(Interface(id_text(package, name), package))
                self.known[-1].types = dict(types)
            self.known += [World(id_text(package, name), package) for name in parts["worlds"]]
        self.text = self.package()

    def known_parts(self):
        """What packages made later can name of this one."""
        no_labels = {"imports": [], "exports": []}
        return {
            "interfaces": {it.name(): it.types for it in self.interfaces},
            "worlds": {it.name(): no_labels for it in self.worlds},
        }

    def maybe(self, chance):
        return self.r.random() < chance

    def fresh(self, word):
        self.count += 1
        return f"{word}{self.count}"

    def gate(self):
        gates = ""
        if self.maybe(0.15):
            gates += f"/// {self.r.choice(['One line.', 'Some words on it.'])}\n"
        if self.maybe(self.noted):
            if self.version and self.maybe(0.7):
                gates += f"@since(version = {self.r.choice(['0.1.0', self.version])}) "
            else:
                gates += f"@unstable(feature = {self.r.choice(FEATURES)}) "
            if self.maybe(0.3):
                gates += "@deprecated(version = 1.1.0) "
        return gates

    def external_id(self):
        return f'@external-id("id-{self.r.randrange(9)}") ' if self.maybe(0.1) else ""

    # types

    def type(self, types, depth=0):
        forms = ["list", "option", "result", "tuple", "map", "fixed", "future", "stream", "own", "borrow"]
        if depth > 2 or self.maybe(0.45):
            return self.r.choice(PRIMITIVES + 2 * list(types))
        inner = lambda: self.type(types, depth + 1)  # noqa: E731
        form = self.r.choice(forms)
        resources = [name for name, is_resource in types.items() if is_resource]
        if form in ("own", "borrow"):
            return f"{form}<{self.r.choice(resources)}>" if resources else "u8"
        if form == "result":
            return self.r.choice(["result", f"result<{inner()}>", f"result<_, {inner()}>", f"result<{inner()}, {inner()}>"])
        if form == "tuple":
            return f"tuple<{', '.join(inner() for _ in range(self.r.randint(1, 3)))}>"
        if form == "map":
            return f"map<{self.r.choice(['string', 'u32'])}, {inner()}>"
        if form == "fixed":
            return f"list<{inner()}, {self.r.randint(1, 9)}>"
        return self.r.choice([form, f"{form}<{inner()}>"]) if form in ("future", "stream") else f"{form}<{inner()}>"

    def definition(self, types):
        name, word = self.fresh("t"), self.r.choice(["record", "variant", "enum", "flags", "type", "resource", "resource"])
        parts = [self.fresh("p") for _ in range(self.r.randint(1, 3))]
        head, gate = f"{word} {name}", self.gate()
        is_resource = False
        if word == "record":
            text = f"{head} {{ {', '.join(f'{it}: {self.type(types)}' for it in parts)} }}"
        elif word == "variant":
            cases = [f"{it}({self.type(types)})" if self.maybe(0.5) else it for it in parts]
            text = f"{head} {{ {', '.join(cases)} }}"
        elif word in ("enum", "flags"):
            text = f"{head} {{ {', '.join(parts)} }}"
        elif word == "type":
            target = self.type(types)
            is_resource, text = types.get(target, False), f"{head} = {target};"
        else:
            types[name] = is_resource = True
            text = f"{head} {{ {self.resource_functions(name, types)} }}"
        types[name] = is_resource
        return gate + self.external_id() + text

    def resource_functions(self, name, types):
        made = []
        if self.maybe(0.4):
            result = self.r.choice(["", "", f" -> result<{name}, string>"])
            made.append(f"constructor({self.parameters(types)}){result};")
        for _ in range(self.r.randint(0, 2)):
            words = self.r.choice(["", "static "]) + self.r.choice(["", "async "])
            made.append(f"{self.gate()}{self.fresh('m')}: {words}{self.signature(types)};")
        return " ".join(made)

    def parameters(self, types):
        return ", ".join(f"{self.fresh('x')}: {self.type(types)}" for _ in range(self.r.randint(0, 2)))

    def signature(self, types):
        result = self.type({name: False for name in types}) if self.maybe(0.6) else ""
        return f"func({self.parameters(types)})" + (f" -> {result}" if result and "borrow" not in result else "")

    def function(self, name, types):
        return f"{name}: {self.r.choice(['', '', 'async '])}{self.signature(types)};"

    # interfaces and worlds

    def use(self, of, types):
        """A `use` of a type of an interface, under a name that isn't there yet."""
        if not of.types:
            return ""
        old, new = self.r.choice(list(of.types)), self.fresh("v")
        types[new] = of.types[old]
        return f"{self.gate()}use {self.path(of)}.{{{old} as {new}}};"

    def path(self, of):
        """The name of an own interface or world, the path of another one."""
        if of.package is None:
            return of.name()
        self.used.add(of.package)
        return of.path

    def some_interfaces(self, most):
        known = [it for it in self.known if isinstance(it, Interface)] + self.interfaces
        return self.r.sample(known, min(len(known), self.r.randint(0, most)))

    def interface_body(self, types):
        lines = [self.use(it, types) for it in self.some_interfaces(2)]
        lines += [self.definition(types) for _ in range(self.r.randint(0, 4))]
        functions = [self.gate() + self.external_id() + self.function(self.fresh("g"), types) for _ in range(self.r.randint(0, 3))]
        return "\n".join([*lines, *functions])

    def interface(self):
        name = self.fresh("i")
        made = Interface(id_text(self.full_name, name))
        text = f"{self.gate()}interface {name} {{\n{self.interface_body(made.types)}\n}}"
        self.interfaces.append(made)
        return text

    def entry(self, word, types, there):
        """An import or an export, nothing where an interface is there under its own name."""
        label, head = self.fresh("l"), f"{self.gate()}{self.external_id()}{word} "
        of = self.some_interfaces(1)
        form = self.r.choice(["path", "path", "path", "label", "inline", "function"])
        if form == "function" or (form != "inline" and not of):
            return head + self.function(label, types)
        if form == "inline":
            return f"{head}{label}: interface {{\n{self.interface_body({})}\n}}"
        if form == "label":
            return f"{head}{label}: {self.path(of[0])};"
        if (word, of[0].path) in there:
            return ""
        there.add((word, of[0].path))
        return f"{head}{self.path(of[0])};"

    def world(self):
        name, types, lines = self.fresh("w"), {}, []
        lines += [self.use(it, types) for it in self.some_interfaces(1)]
        lines += [self.definition(types) for _ in range(self.r.randint(0, 1))]
        there = set()
        for _ in range(self.r.randint(0, 4)):
            lines.append(self.entry(self.r.choice(["import", "import", "export"]), types, there))
        worlds = [it for it in self.known if isinstance(it, World)] + self.worlds
        if worlds and self.maybe(0.4):
            lines.append(f"include {self.path(self.r.choice(worlds))};")
        text = f"{self.gate()}world {name} {{\n{chr(10).join(lines)}\n}}"
        self.worlds.append(World(id_text(self.full_name, name)))
        return text

    def package(self):
        parts = [self.interface() for _ in range(self.r.randint(1, 3))] + [self.world() for _ in range(self.r.randint(0, 2))]
        return f"/// Package {self.name}.\npackage {self.full_name};\n\n" + "\n\n".join(parts) + "\n"


class TextGroup:
    """A group of packages, a file for each, of which the first is the main one."""

    def __init__(self, graph, name):
        self.graph, self.texts = graph, []

    def add(self, name, known):
        """Adds a package. Answers what packages made later can name of it."""
        made = self.graph.texts.get(name)
        if made is None or not made.used <= known.keys():
            made = self.graph.texts[name] = Text(self.graph.seed_of(name), name, known)
        self.texts.append(made)
        return made.known_parts()

    def document(self):
        report, packages = wit.Report(), []
        files = [wit.File(f"{it.full_name}.wit", it.text) for it in self.texts]
        places = wit.Places(files)
        for file in files:
            reader = wit.GroupReader([file], places, report)
            reader.read()
            packages.append(reader.main)
        if report.problems:
            raise ValueError("\n".join(report.lines()))
        return wit2json.group_of(wit.Group(packages[0], packages[1:], files, ""))

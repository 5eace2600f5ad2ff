"""Random packages of docs/JSON.md: every kind of type and function, docs, spans, gates, deprecation, external ids,
unnamed interfaces and includes.

What a package has is told by its `seed` alone, so that it can be made again under another version, or for another
graph: each item comes of a number of its own, and `less` is the chance that a function is left out.
"""
import itertools
import random
import string

NUMBERS = ["bool", "u8", "u16", "u32", "u64", "s8", "s16", "s32", "s64", "f32", "f64", "char"]
PRIMITIVES = [*NUMBERS, "string", "error-context"]
VERSIONS = ["0.2.0", "0.2.1", "0.2.3", "0.3.0", "1.0.0", "1.1.0", "1.1.0-rc.1", "1.1.0+b"]
INTERFACES = ["one", "two", "three", "four"]
WORLDS = ["left", "right", "both"]
TYPES = ["t", "u", "v", "r", "s", "q", "big-type", "k"]
LABELS = ["run", "log", "init", "at", "p", "q"]
FEATURES = ["f", "g"]
FUNCTIONS = ["freestanding", "async-freestanding", "getter", "setter"]
# what an interface and a world have, each empty at first
LISTS = {"interface": {"types": dict, "functions": dict}, "world": {"imports": dict, "exports": dict, "includes": list}}
OF_RESOURCES = {
    "method": "[method]{}.{}",
    "async-method": "[method]{}.{}",
    "static": "[static]{}.{}",
    "async-static": "[static]{}.{}",
    "constructor": "[constructor]{}",
    "method-getter": "[method][get]{}.{}",
    "method-setter": "[method][set]{}.{}",
    "static-getter": "[static][get]{}.{}",
    "static-setter": "[static][set]{}.{}",
}


class Thing(dict):
    """A type, an interface or a world of a package; the same only where it is one object, and a number in the end."""

    __hash__ = object.__hash__
    __eq__ = object.__eq__
    # of a type: whether it leads to a resource, holds a `borrow`, and which foreign type it leads to
    leads, borrows, foreign = False, False, None


class Chances:
    """Random choices."""

    def __init__(self, *seed):
        self.random = random.Random("/".join(map(str, seed)))

    def one(self, of):
        return self.random.choice(list(of))

    def may(self, chance):
        return self.random.random() < chance

    def some(self, least, most):
        return range(self.random.randint(least, most))

    def names(self, most):
        return self.random.sample(string.ascii_lowercase, self.random.randint(1, most))


class File:
    """The text of a group, and spans in it."""

    def __init__(self, chances, path):
        self.chances, self.path = chances, path
        words = ["func", "interface i {", "}", "\n", "\n\n", "  type t = u8;", "// ü\n", "", "world"]
        self.text = " ".join(chances.one(words) for _ in chances.some(0, 40))
        self.places = [0, *itertools.accumulate(len(it.encode()) for it in self.text)]

    def span(self):
        if self.chances.may(0.1):
            return None
        return sorted(self.chances.one(self.places) for _ in range(2))


class Scope:
    """An interface or a world, and the types that stand in it."""

    def __init__(self, thing, sort):
        self.thing, self.sort, self.types = thing, sort, {}


class Package:
    """A package that is made. `known` has what can be named of others: by name their interfaces with their types, each
    with whether it leads to a resource, and their worlds with their labels."""

    def __init__(self, seed, name, known, file, less=0.0, features=(), chances=None):
        self.seed, self.name, self.known, self.file, self.less = seed, name, known, file, less
        self.features, self.chances = list(features), chances or Chances(seed, "more")
        self.version = name.partition("@")[2] or None
        self.noted = Chances(seed, "noted").one([0, 0, 0.08, 0.2])
        self.unknown, self.foreign_interfaces, self.foreign_worlds = [], [], []
        self.types, self.interfaces, self.worlds, self.deps, self.dep_spans = [], [], [], {}, []
        self.required, self.scopes, self.labels = [], [], {}
        structure = Chances(seed)
        self.more = structure.may(0.3)
        for name in structure.random.sample(INTERFACES, structure.random.randint(0, 4)):
            self.make_interface(name)
        for name in structure.random.sample(WORLDS, structure.one([0, 1, 1, 2, 3])):
            self.make_world(name)

    # what things have beside their structure

    def told(self, chances, docs=0.15, external=0.05):
        """Docs, a span and an external id, where there are some."""
        made = {}
        if self.chances.may(docs):
            made["docs"] = {"contents": self.chances.one(["Docs.", "More\nlines.", "", "Ü \"quoted\" \\ \t"])}
        span = self.file.span()
        if span or self.chances.may(0.5):
            made["span"] = span
        if chances.may(external):
            made["external-id"] = self.chances.one(["x", "urn:y", ""])
        return made

    def gate(self, chances, chance=None):
        """A gate, mostly one that lets a thing take part; None for none."""
        if not chances.may(self.noted if chance is None else chance):
            return None
        deprecated = {"deprecated": chances.one(VERSIONS)} if chances.may(0.3) else {}
        if self.version and chances.may(0.6):
            return {"stable": {"since": self.version if chances.may(0.97) else chances.one(VERSIONS)} | deprecated}
        features = self.features if self.features and chances.may(0.8) else FEATURES
        return {"unstable": {"feature": chances.one(features)} | deprecated}

    @staticmethod
    def gated(gate):
        return {"stability": gate} if gate else {}

    # other packages

    def foreign(self, table, sort, package, name, gate):
        """An interface or a world of another package, with a note of what names it."""
        if package not in self.deps:
            self.deps[package] = {}
            self.dep_spans.append(self.file.span())
        items = self.deps[package]
        if name not in items:
            made = Thing(name=name, **self.told(self.chances, docs=0, external=0))
            made |= {name: of() for name, of in LISTS[sort].items()}
            table.append(made)
            items[name] = [{sort: made}, []]
        [(found, thing)] = items[name][0].items()
        if found != sort:
            return None
        items[name][1].append(gate)
        return thing

    def foreign_type(self, package, interface, name, gate):
        owner = self.foreign(self.foreign_interfaces, "interface", package, interface, gate)
        if owner is None:
            return None
        if name not in owner["types"]:
            made = Thing(name=name, kind="unknown", owner={"interface": owner}, **self.gated(gate))
            made["span"] = self.file.span()
            made.leads, made.foreign = self.known[package]["interfaces"].get(interface, {}).get(name, False), made
            owner["types"][name] = made
            self.unknown.append(made)
        return owner["types"][name]

    def other_interface(self, chances, gate):
        """Another interface: an own one, or a foreign one."""
        own = [it.thing for it in self.scopes if it.sort == "interface" and it.thing["name"]]
        others = [(package, name) for package, it in self.known.items() for name in it["interfaces"]]
        if others and (not own or chances.may(0.5)):
            return self.foreign(self.foreign_interfaces, "interface", *chances.one(self.likely(chances, others)), gate)
        return chances.one(own) if own else None

    def likely(self, chances, others):
        """Sometimes those alone whose package has an item that is named already, so that tracks of it meet."""
        named = {package.partition("@")[0] for package in self.deps}
        found = [it for it in others if it[0].partition("@")[0] in named]
        return found if found and chances.may(0.6) else others

    def other_type(self, chances, scope, gate):
        """A type of another interface."""
        own = [ty for it in self.scopes if it.thing["name"] and it is not scope for ty in it.types.values()]
        others = [
            (package, name, ty)
            for package, of in self.known.items()
            for name, it in of["interfaces"].items()
            for ty in it
        ]
        if others and (not own or chances.may(0.5)):
            return self.foreign_type(*chances.one(others), gate)
        return chances.one(own) if own else None

    # types

    def value(self, chances, scope, gate, depth=0, may_borrow=False):
        """What stands at the place of a value."""
        chance = chances.random.random()
        named = [it for it in scope.types.values() if may_borrow or not it.borrows]
        if chance < 0.35 or depth > 3:
            return chances.one(PRIMITIVES)
        if chance < 0.7 and named:
            return chances.one(named)
        return self.unnamed(chances, scope, gate, depth + 1, may_borrow)

    def optional(self, *of):
        return self.value(*of) if of[0].may(0.7) else None

    def unnamed(self, chances, scope, gate, depth, may_borrow):
        made = Thing(name=None, kind=None, owner=None, **self.gated(gate), **self.told(chances, 0.02, 0.01))
        self.give_kind(made, chances, scope, gate, depth, may_borrow)
        self.types.append(made)
        return made

    def give_kind(self, made, chances, scope, gate, depth, may_borrow):
        """Gives a type a kind that an unnamed one may have."""
        of = (chances, scope, gate, depth, may_borrow)
        resources = [it for it in scope.types.values() if it.leads]
        if resources and chances.may(0.35):
            self.give_handle(made, chances, chances.one(resources), may_borrow)
            return
        word = chances.one(
            ["list", "option", "tuple", "result", "future", "stream", "map", "fixed-length-list", "option", "list"]
            + (["record", "variant", "flags", "enum"] if chances.may(0.1) else [])
        )
        made["kind"] = self.kind(word, of)
        made.borrows = any(it.borrows for it in things_of(made["kind"]))

    def give_handle(self, made, chances, resource, may_borrow):
        word = "borrow" if may_borrow and chances.may(0.6) else "own"
        made["kind"], made.borrows = {"handle": {word: resource}}, word == "borrow"
        if resource.foreign is not None:
            self.required.append([resource.foreign, self.file.span()])

    def kind(self, word, of):
        chances = of[0]
        match word:
            case "list" | "option":
                return {word: self.value(*of)}
            case "future" | "stream":
                return {word: self.optional(*of)}
            case "map":
                return {word: [chances.one(NUMBERS), self.value(*of)]}
            case "fixed-length-list":
                return {word: [self.value(*of), chances.one([0, 1, 4, 4294967295])]}
            case "tuple":
                return {word: {"types": [self.value(*of) for _ in chances.some(0, 3)]}}
            case "result":
                return {word: {"ok": self.optional(*of), "err": self.optional(*of)}}
            case "record":
                return {word: {"fields": [self.part(it, {"type": self.value(*of)}) for it in chances.names(4)]}}
            case "variant":
                return {word: {"cases": [self.part(it, {"type": self.optional(*of)}) for it in chances.names(4)]}}
        return {word: {"flags" if word == "flags" else "cases": [self.part(it, {}) for it in chances.names(5)]}}

    def part(self, name, members):
        return {"name": name} | members | self.told(self.chances, external=0)

    def make_type(self, chances, scope):
        """A type with a name in an interface or a world, None where it has none to name."""
        name, gate = chances.one(TYPES), self.gate(chances)
        if name in scope.types or strong(name) in self.taken(scope):
            return None
        made = Thing(name=name, kind=None, owner={scope.sort: scope.thing}, **self.gated(gate), **self.told(chances))
        if not self.give_named_kind(made, chances, scope, gate):
            return None
        self.types.append(made)
        scope.types[name] = made
        return made

    def taken(self, scope):
        return map(strong, self.labels[scope.thing["name"]]["imports"] if scope.sort == "world" else ())

    def give_named_kind(self, made, chances, scope, gate):
        chance = chances.random.random()
        if chance < 0.3:
            target = self.other_type(chances, scope, gate)
        elif chance < 0.4:
            target = chances.one(scope.types.values()) if scope.types else chances.one(PRIMITIVES)
        elif chance < 0.6:
            made["kind"], made.leads = "resource", True
            return True
        elif chance < 0.8:
            word = chances.one(["record", "variant", "flags", "enum"])
            made["kind"] = self.kind(word, (chances, scope, gate, 1, chances.may(0.1)))
            made.borrows = any(it.borrows for it in things_of(made["kind"]))
            return True
        else:
            self.give_kind(made, chances, scope, gate, 1, chances.may(0.1))
            return True
        if target is None:
            return False
        made["kind"] = {"type": target}
        if isinstance(target, Thing):
            made.leads, made.borrows, made.foreign = target.leads, target.borrows, target.foreign
        return True

    # functions

    def make_function(self, chances, scope, labels):
        """A function under a label that isn't there, None where there is none."""
        gate = self.gate(chances, 0.12 if self.noted else 0)
        resources = [it for it in scope.types.values() if it["kind"] == "resource"]
        if resources and chances.may(0.45):
            word, resource = chances.one(OF_RESOURCES), chances.one(resources)
            name = OF_RESOURCES[word].format(resource["name"], chances.one(LABELS))
            kind = {word: resource}
        else:
            kind, name = chances.one(FUNCTIONS + ["freestanding"] * 4), chances.one(LABELS)
            name = {"getter": "[get]", "setter": "[set]"}.get(kind, "") + name
        if strong(name) in map(strong, labels):
            return None
        # a setter mostly stands behind its getter
        if "[set]" in name and name.replace("[set]", "[get]") not in labels and chances.may(0.9):
            return None
        params = [
            {"name": it, "type": self.value(chances, scope, gate, 0, True)} | self.told(self.chances, 0, 0)
            for it in (chances.names(3) if chances.may(0.7) else [])
        ]
        made = {"name": name, "kind": kind, "params": params}
        if chances.may(0.6):
            made["result"] = self.value(chances, scope, gate, 0, chances.may(0.02))
        return made | self.gated(gate) | self.told(chances)

    # interfaces and worlds

    def make_interface(self, name, path=None):
        """An interface, unnamed where it has a path of its own."""
        chances = Chances(self.seed, path or name)
        gate = self.gate(chances, self.noted / 3) if name else None
        made = Thing(name=name, types={}, functions={}, **self.gated(gate), **self.told(chances, external=0))
        scope = Scope(made, "interface")
        for number in chances.some(0, 9):
            self.extend_interface(Chances(self.seed, path or name, number), scope)
        self.interfaces.append(made)
        self.scopes.append(scope)
        return made

    def extend_interface(self, chances, scope):
        if chances.may(0.55):
            ty = self.make_type(chances, scope)
            if ty is not None:
                scope.thing["types"][ty["name"]] = ty
        else:
            made = self.make_function(chances, scope, scope.thing["functions"])
            if made and not self.chances.may(self.less):
                scope.thing["functions"][made["name"]] = made

    def make_world(self, name):
        chances = Chances(self.seed, name)
        gate = self.gate(chances, self.noted / 3)
        lists = {name: of() for name, of in LISTS["world"].items()}
        made = Thing(name=name, **lists, **self.gated(gate), **self.told(chances, external=0))
        scope = Scope(made, "world")
        self.labels[name] = {"imports": [], "exports": []}
        for number in chances.some(0, 10):
            self.extend_world(Chances(self.seed, name, number), scope, number)
        self.worlds.append(made)

    def add(self, world, side, key, item):
        """An entry of a world."""
        world[side][key] = item
        if isinstance(key, str):
            self.labels[world["name"]][side].append(key)

    def extend_world(self, chances, scope, number):
        world, chance = scope.thing, chances.random.random()
        side = chances.one(["imports", "exports"])
        if chance < 0.25:
            self.add_type(chances, scope)
        elif chance < 0.45:
            made = self.make_function(chances, scope, self.labels[world["name"]][side])
            if made:
                self.add(world, side, made["name"], {"function": made})
        elif chance < 0.85:
            self.add_interface(chances, scope, side, number)
        elif chance < 0.95 or not self.worlds:
            self.add_include(chances, world)

    def add_type(self, chances, scope):
        ty = self.make_type(chances, scope)
        if ty is not None:
            self.add(scope.thing, "imports", ty["name"], {"type": {"id": ty, "span": self.file.span()}})

    def add_interface(self, chances, scope, side, number):
        """An interface under its key or a label, or an unnamed one."""
        gate = self.gate(chances)
        label, world = chances.one(LABELS), scope.thing
        is_free = strong(label) not in map(strong, self.labels[world["name"]][side])
        if is_free and chances.may(0.25):
            interface = self.make_interface(None, f"{scope.thing['name']} {number}")
        else:
            interface = self.other_interface(chances, gate)
        if interface is None:
            return
        is_labelled = interface["name"] is None or is_free and chances.may(0.25)
        key = label if is_labelled else (interface,)
        if key not in world[side]:
            item = {"id": interface} | self.gated(gate) | self.told(chances, external=0.15)
            self.add(world, side, key, {"interface": item})

    def add_include(self, chances, world):
        gate = self.gate(chances)
        others = [(package, name) for package, it in self.known.items() for name in it["worlds"]]
        if others and (not self.worlds or chances.may(0.5)):
            package, name = chances.one(others)
            labels = self.known[package]["worlds"][name]
        elif self.worlds:
            package, name = None, chances.one(self.worlds)["name"]
            labels = self.labels[name]
        else:
            return
        bases = dict.fromkeys(base(it) for of in labels.values() for it in of)
        names = {it: f"n{number}" for number, it in enumerate(bases) if chances.may(0.5)}
        come = {side: [renamed(it, names) for it in of] for side, of in labels.items()}
        there = self.labels[world["name"]]
        is_free = not any(strong(it) in map(strong, there[side]) for side in come for it in come[side])
        if not (is_free or chances.may(0.03)):
            return
        if package:
            of = self.foreign(self.foreign_worlds, "world", package, name, gate)
        else:
            of = next(it for it in self.worlds if it["name"] == name)
        if of is not None:
            said = [{"name": old, "as": new} for old, new in names.items()]
            world["includes"].append({"id": of, "names": said, "span": self.file.span()} | self.gated(gate))
            for side, labels in come.items():
                there[side] += labels

    # what is written

    def document(self):
        interfaces = self.foreign_interfaces + self.interfaces
        worlds, types = self.foreign_worlds + self.worlds, self.unknown + self.types
        ids = {it: at for of in (interfaces, worlds, types) for at, it in enumerate(of)}
        whole = lambda of: [numbered(dict(it), ids) for it in of]
        return {
            "name": self.name,
            "worlds": whole(worlds),
            "interfaces": whole(interfaces),
            "types": whole(types),
            "foreign-deps": numbered(self.deps, ids),
            "foreign-dep-spans": self.dep_spans,
            "unknown-type-spans": [self.file.span() for _ in self.unknown],
            "required-resources": numbered(self.required, ids),
        } | self.told(self.chances, external=0)

    def known_parts(self):
        """What packages made later can name of this one."""
        named = [it for it in self.scopes if it.thing["name"]]
        return {
            "interfaces": {it.thing["name"]: {name: ty.leads for name, ty in it.types.items()} for it in named},
            "worlds": {it["name"]: self.labels[it["name"]] for it in self.worlds},
        }


def things_of(kind):
    """The types that a kind names."""
    if isinstance(kind, Thing):
        return [kind]
    parts = kind.values() if isinstance(kind, dict) else kind if isinstance(kind, list) else []
    return [thing for it in parts for thing in things_of(it)]


def strong(label):
    """What no two labels of a list may have in common."""
    groups, _, rest = label.rpartition("]")
    accessors = [it for it in ("[constructor", "[get", "[set") if it in groups]
    return accessors, rest.lower()


def base(label):
    """What an include can rename of a label."""
    return label.rpartition("]")[2].partition(".")[0]


def renamed(label, names):
    """A label with the new name in the place of an old one."""
    groups, bracket, rest = label.rpartition("]")
    old, dot, method = rest.partition(".")
    return groups + bracket + names.get(old, old) + dot + method


def numbered(value, ids):
    """A value in which things are their numbers."""
    if isinstance(value, Thing):
        return ids[value]
    if isinstance(value, dict):
        return {key_text(key, ids): numbered(it, ids) for key, it in value.items()}
    return [numbered(it, ids) for it in value] if isinstance(value, list) else value


def key_text(key, ids):
    return f"interface-{ids[key[0]]}" if isinstance(key, tuple) else key

"""Texts of WIT made at random, for check/wit_texts.py: all of its grammar, few names, and now and then a fault.

`written(n)` is text n. `changed(n, known)` is one of the known texts, or a written one, with a few changes.
"""
import random

NAMES = ["a", "b", "c", "d", "r", "s", "t", "u", "aB", "x-y", "A", "B-1", "%use", "%list", "a1", "%a"]
KEYWORDS = ["use", "type", "func", "u8", "from", "static", "interface", "as", "include", "with", "async", "map", "self"]
PRIMITIVES = ["bool", "u8", "s16", "u32", "u64", "f32", "f64", "char", "string", "error-context"]
VERSIONS = ["1.0.0", "0.2.3", "1.2.3-rc.1", "1.0.0+b-1.2", "1.0.0-a-b.c+0", "2.0.0-0.x"]
# what a change puts into a text
PIECES = """
    { } ( ) < > = , ; : / . @ _ -> - + * % $ " ' // /* */ /** */ /**/ /// 0 00 1 18446744073709551616 a B
    interface world use type record enum flags variant resource import export include with as func async static constructor
    list< map< own< borrow< tuple< result< option< future stream u8 package a:b; @since(version=1.0.0)
    @unstable(feature=f) @deprecated(version=1.0.0) include a; use a.{t}; type t=u8; f:func(); 1.0.0 a:b/c@1.0.0-x
""".split() + ["\n", "\t", "\r", "\0", "\u00e9", "\u202a", "\u0149", "\ufeff", " ", "package n:m {"]


class Writer:
    """Writes one text. `odd` is how often something is out of order."""

    def __init__(self, seed):
        self.r = random.Random(seed)
        self.odd = self.r.choice([0, 0, 0.003, 0.01])
        # whether all of it can be in a component; whether a `borrow` can be in what is written
        self.is_plain, self.may_borrow = False, True
        # whether it names no other package, and has few gates; whether it has gates here
        self.is_gentle, self.has_gates = False, True
        self.interfaces, self.worlds, self.aliases = [], [], []
        # the types of each interface that is written, with whether each is a resource
        self.known = {}

    def maybe(self, chance):
        return self.r.random() < chance

    def some(self, write, most, least=0):
        return [write() for _ in range(self.r.randint(least, most))]

    def fresh(self, taken):
        """A name that isn't taken, or now and then any."""
        if self.maybe(self.odd):
            return self.r.choice(NAMES + KEYWORDS)
        for _ in range(40):
            name = self.r.choice(["", "", "", "", "%"]) + self.r.choice("abcdefgrstuvA")
            name += self.r.choice(["", "", "1", "-x", "-Y2"])
            name = name.lower() if self.is_plain else name
            if name.strip("%") not in taken:
                taken.add(name.strip("%"))
                return name
        return f"n{len(taken)}"

    def of(self, names):
        """One of these names, or now and then any."""
        return self.r.choice(NAMES) if not names or self.maybe(self.odd) else self.r.choice(sorted(names))

    def blank(self):
        return self.r.choice([" "] * 12 + ["\n", "  // c\n", " /* c */ ", "\r\n", "\t"])

    def commas(self, parts, may_end=True):
        end = "," if parts and may_end and self.maybe(0.2) else ""
        return f",{self.blank()}".join(parts) + end

    def gate(self):
        text = self.r.choice([""] * 6 + ["/// d\n", "/** d\n e */ ", "// c\n"])
        if self.is_plain or not self.has_gates or self.maybe(0.97 if self.is_gentle else 0.85):
            return text
        gates = [self.r.choice(["@since(version = 1.0.0)", "@unstable(feature = f)", "@unstable(feature = x-y)"])]
        if self.maybe(0.3):
            gates.insert(self.r.randint(0, 1), "@deprecated(version = 1.0.0)")
        if self.maybe(self.odd):
            gates = self.r.sample([*gates, "@foo", "@since(feature = a)", "@deprecated(version = 1.0)"], 2)
        return text + " ".join(gates) + " "

    # types

    def type(self, types, depth=0):
        if depth > 2 or self.maybe(0.5):
            named = [self.of(types)] * 3 if types else []
            return self.r.choice([*PRIMITIVES, *named])
        inner = lambda: self.type(types, depth + 1)  # noqa: E731
        form = self.r.choice("list list option result tuple future stream own borrow map fixed".split())
        resources = {name for name, is_resource in types.items() if is_resource}
        if form in ("own", "borrow"):
            form = form if self.may_borrow else "own"
            return f"{form}<{self.of(resources)}>" if resources or self.maybe(self.odd) else "u8"
        if form == "result":
            return self.r.choice(["result", f"result<{inner()}>", f"result<_, {inner()}>", f"result<{inner()}, {inner()}>"])
        if form == "tuple":
            return f"tuple<{self.commas(self.some(inner, 3, 0 if self.maybe(self.odd) else 1))}>"
        if form == "map":
            return f"map<{inner() if self.maybe(self.odd) else self.r.choice(['string', 'u8', 'char'])}, {inner()}>"
        if form == "fixed":
            most = [] if self.is_plain else ["4294967295"]
            size = self.r.choice(["1", "3", "02", *most] + ["0", "4294967296"] * self.maybe(self.odd))
            return f"list<{inner()}, {size}>"
        if form == "stream" and self.is_plain:
            return self.r.choice(["stream", "stream<u8>"])
        return self.r.choice([form, f"{form}<{inner()}>"]) if form in ("future", "stream") else f"{form}<{inner()}>"

    def parameters(self, types):
        taken, self.may_borrow = {"self"}, True
        made = self.commas(self.some(lambda: f"{self.fresh(taken)}: {self.type(types)}", 3))
        self.may_borrow = not self.is_plain
        return made

    def function(self, types):
        result = f" -> {self.type(types)}" if self.maybe(0.5) else ""
        return f"{self.r.choice(['', '', 'async '])}func({self.parameters(types)}){result};"

    # definitions

    def definition(self, name, word, types):
        """A definition that names types that are there, or come later."""
        taken, head = set(), f"{self.gate()}{word}{self.blank()}{name}"
        least = 0 if self.maybe(self.odd) else 1
        if word == "type":
            return f"{head} = {self.type(types)};"
        if word == "resource":
            return f"{head};" if self.maybe(0.3) else f"{head} {{ {self.resource_functions(name, types)} }}"
        docs = lambda: self.r.choice(["", "", "", "/// p\n"])  # noqa: E731
        if word == "record":
            parts = self.some(lambda: f"{docs()}{self.fresh(taken)}: {self.type(types)}", 3, int(self.is_plain))
        elif word == "variant":
            payload = lambda: f"({self.type(types)})" if self.maybe(0.5) else ""  # noqa: E731
            parts = self.some(lambda: f"{docs()}{self.fresh(taken)}{payload()}", 3, least)
        else:
            parts = self.some(lambda: docs() + self.fresh(taken), 3, least)
        return f"{head} {{ {self.commas(parts)} }}"

    def resource_functions(self, name, types):
        made, taken = [], {name.strip("%")}
        if self.maybe(0.4):
            result = self.r.choice(["", "", f" -> result<{name}>", f" -> result<{name}, string>"])
            result = " -> u8" if self.maybe(self.odd) else result
            made.append(f"{self.gate()}constructor({self.parameters(types)}){result};")
        for _ in range(self.r.randint(0, 2)):
            static = self.r.choice(["", "", "static "])
            made.append(f"{self.gate()}{self.fresh(taken)}: {static}{self.function(types)}")
        self.r.shuffle(made)
        return self.blank().join(made)

    def definitions(self, taken, types):
        """Definitions, in whatever order; each names those that were made before it."""
        made = []
        for _ in range(self.r.randint(0, 4)):
            word = self.r.choice("record variant enum flags type type resource".split())
            name = self.fresh(taken)
            visible = types if not self.maybe(self.odd) else dict.fromkeys(NAMES, True)
            made.append(self.definition(name, word, {it: is_resource for it, is_resource in visible.items()}))
            types[name] = word == "resource"
        if self.maybe(0.5):
            self.r.shuffle(made)
        return made

    def uses(self, taken, types):
        """Uses of types of the interfaces that are there, and of other packages."""
        made = []
        for _ in range(self.r.choice([0, 0, 1, 1, 2])):
            is_alone = self.is_plain or self.is_gentle
            if is_alone and not any(self.known.values()):
                return made
            if not is_alone and (not self.known or self.maybe(0.15)):
                path, known = f"x:y/{self.r.choice('ijk')}{self.version(0.5)}", {"t": False, "r": True}
            else:
                path = self.of(self.known)
                known = self.known.get(path, {})
            names = []
            for _ in range(self.r.randint(0, 2) if known or not self.is_plain else 0):
                old, new = self.of(known), self.fresh(taken)
                names.append(f"{old} as {new}")
                types[new] = known.get(old, False)
            made.append(f"{self.gate()}use {path}.{{{self.commas(names)}}};")
        return made

    def version(self, chance):
        return f"@{self.r.choice(VERSIONS)}" if self.maybe(chance) else ""

    # interfaces and worlds

    def interface_body(self, types):
        taken = set()
        parts = self.uses(taken, types) + self.definitions(taken, types)
        visible = types if not self.maybe(self.odd) else dict.fromkeys(NAMES, False)
        parts += self.some(lambda: f"{self.gate()}{self.fresh(taken)}: {self.function(visible)}", 3)
        if self.maybe(0.3):
            self.r.shuffle(parts)
        return "{" + self.blank() + "\n".join(parts) + self.blank() + "}"

    def interface(self, name):
        types = {}
        text = f"{self.gate()}interface {name} {self.interface_body(types)}"
        self.known[name] = types
        return text

    def entry(self, word, taken, types, there):
        head = f"{self.gate()}{word} "
        form = self.r.choice(["path", "path", "inline", "function", "function", "foreign"])
        if form == "function":
            return f"{head}{self.fresh(taken)}: {self.function(types)}"
        if form == "inline":
            return f"{head}{self.fresh(taken)}: interface {self.interface_body({})}"
        is_own = self.is_gentle or form == "path"
        if self.is_gentle and not self.known:
            return ""
        path = self.of(self.known) if is_own and self.known else f"x:y/{self.r.choice('ijk')}{self.version(0.3)}"
        if (word, path) in there and not self.maybe(self.odd):
            return ""
        there.add((word, path))
        return f"{head}{path};"

    def world(self, name):
        taken, types, there = set(), {}, set()
        exported = set()
        # (wit-parser refuses gated types of worlds whose feature is off: docs/DIFFERENCES.md)
        self.has_gates = not self.is_gentle
        parts = self.uses(taken, types) + self.definitions(taken, types)
        self.has_gates = True
        for _ in range(self.r.randint(0, 4)):
            word = self.r.choice(["import", "import", "export"])
            parts.append(self.entry(word, taken if word == "import" else exported, types, there))
        if self.worlds and self.maybe(0.3):
            renamed = f" with {{ {self.fresh(set())} as {self.fresh(set())} }}" if self.maybe(0.3) else ";"
            parts.append(f"{self.gate()}include {self.of(self.worlds)}{renamed}")
        if self.maybe(0.3):
            self.r.shuffle(parts)
        self.worlds.append(name)
        return f"{self.gate()}world {name} {{ {chr(10).join(parts)} }}"

    def items(self):
        taken, made = set(), []
        for _ in range(self.r.randint(1, 4)):
            name = self.fresh(taken)
            made.append(self.interface(name) if self.maybe(0.6) else self.world(name))
            if self.maybe(0.1) and (self.known or not self.is_gentle):
                of = self.of(self.known or ([] if self.is_gentle else ["x:y/i"]))
                alias = self.fresh(taken)
                made.append(f"use {of} as {alias};")
                self.known[alias] = dict(self.known.get(of, {}))
        if self.maybe(0.3):
            self.r.shuffle(made)
        return made

    def package(self):
        docs = self.r.choice(["", "", "/// p\n"])
        made = [f"{docs}package a:{self.fresh(set())}{self.version(0.6)};"] if not self.maybe(self.odd) else []
        made += self.items()
        while self.maybe(0.1):
            self.known, self.worlds = {}, []
            inner = " ".join(self.items())
            made.append(f"package n:{self.fresh(set())}{self.version(0.5)} {{ {inner} }}")
        if self.maybe(self.odd):
            self.r.shuffle(made)
        return "\n".join(made) + self.r.choice(["", "\n"])


    def plain(self):
        """A package and perhaps another one that it uses, all of whose functions a world imports."""
        self.is_plain, self.may_borrow, self.odd, parts = True, False, 0, []
        if self.maybe(0.5):
            taken, version = set(), self.version(0.5)
            inner = [self.interface(self.fresh(taken)) for _ in range(self.r.randint(1, 2))]
            parts.append(f"package n:x{version} {{ {' '.join(inner)} }}")
            self.known = {f"n:x/{name.strip('%')}{version}": types for name, types in self.known.items()}
        taken = {"all"}
        names = [self.fresh(taken) for _ in range(self.r.randint(1, 3))]
        parts += [self.interface(name) for name in names]
        parts.append(f"world all {{ {' '.join(f'import {name};' for name in names)} }}")
        self.r.shuffle(parts)
        return "\n".join([f"package a:b{self.version(0.5)};", *parts])


    def gentle(self):
        """A package of which few reasons refuse a push."""
        self.is_gentle, self.odd = True, 0
        return "\n".join(["package a:b@1.2.3;", *self.items(), *self.items_behind()])

    def items_behind(self):
        """Packages that nothing of the main one names."""
        self.known, self.worlds = {}, []
        return [f"package n:x@1.0.0 {{ {' '.join(self.items())} }}"] if self.maybe(0.2) else []

    def folder(self):
        """The files of a package, by their names."""
        header, files = f"package a:b{self.version(0.3)};", {}
        items = self.items() + self.items() if self.maybe(0.3) else self.items()
        names = ["a.wit", "b.wit", "c.wit"][: self.r.randint(2, 3)]
        with_header = self.r.choice(names)
        for name in names:
            docs = self.r.choice(["", "", "", "/// p\n", "// c\n", "/** */ "])
            other = "package c:d;" if self.maybe(self.odd) else header
            head = f"{docs}{other}\n" if name == with_header or self.maybe(0.3) else ""
            files[name] = head + "\n".join(it for it in items if name == self.place_of(it, names))
        return files

    def place_of(self, item, names):
        """The file of an item: the same for the same text."""
        return names[len(item) % len(names)]


def written(seed):
    return Writer(seed).package()


def plain(seed):
    return Writer(f"plain {seed}").plain()


def gentle(seed):
    return Writer(f"gentle {seed}").gentle()


def folder(seed):
    return Writer(f"folder {seed}").folder()


def changed(seed, known):
    """A text with a few changes: a piece left out, put in, moved, or said twice."""
    r = random.Random(f"changed {seed}")
    text = r.choice(known) if r.random() < 0.3 else Writer(seed).package()
    for _ in range(r.choice([1, 1, 2, 5])):
        at, size = r.randrange(len(text) + 1), r.choice([1, 1, 3, 10, 40])
        piece = text[at : at + size]
        change = r.choice(["out", "in", "in", "in", "instead", "twice", "move"])
        if change == "out":
            text = text[:at] + text[at + size :]
        elif change == "in":
            text = text[:at] + r.choice(PIECES) + text[at:]
        elif change == "instead":
            text = text[:at] + r.choice(PIECES) + text[at + size :]
        elif change == "twice":
            text = text[:at] + piece + text[at:]
        else:
            rest = text[:at] + text[at + size :]
            to = r.randrange(len(rest) + 1)
            text = rest[:to] + piece + rest[to:]
    return text

"""Writes random scripts."""
import random

import model

PACKAGES = ["a:p", "a:q", "b:r", "a:p@1.0.0", "a:p@1.1.0", "b:r@2.0.0", "b:r@1.0.0-rc.1", "a:q@1.0.0"]
VERSIONED = ["a:p@1.0.0", "a:p@1.1.0", "b:r@2.0.0", "a:q@1.0.0", "a:q@1.2.0"]
TRACKED = ["a:p@1.0.0", "a:p@1.1.0", "a:p@1.2.0-rc.1", "a:q@0.2.0", "a:q@0.2.1", "a:q@0.3.0", "b:r@0.0.1-rc.1", "b:r@0.0.1"]
INTERFACES = ["i", "j", "k", "l"]
WORLDS = ["w", "v", "x", "w-importized", "w-exportized"]
TYPES = ["t", "u", "r", "s", "o"]
LABELS = [*TYPES, "f", "g", "p", "lab", "lib"]
# the first are met by every version from 1.0.0 on
MET_NOTES = ["@since=1.0.0", "@since=0.9.0"]
NOTES = [*MET_NOTES, "@since=1.1.0", "@unstable=f", "@unstable=g", "@since=2.0.0", "@since=1.0.0-rc.1"]
SELECTED = ["", " w", " v", " a:p/w", " b:r/v", " a:q/x", " a:p/w@1.0.0", " a:p/q/w", " b:r/w@2.0.0", " W_"]


class Writer:
    """Writes one script; what it names is there for the most part."""

    def __init__(self, number, kind):
        self.random = random.Random(number)
        self.kind = kind
        self.lines, self.block = [], []
        self.follower, self.reader = model.Follower(), model.Reader()
        # the types of interfaces of other packages, by path, and the worlds
        self.interfaces, self.worlds, self.turned, self.there = {}, [], [], set()
        self.foreign, self.kept = self.one([0.1, 0.3, 0.6]), self.one([0.2, 0.7])
        self.noted = {"notes": 0.35, "chains": 0, "exports": 0, "tracks": 0}.get(self.kind, self.one([0, 0, 0.05, 0.15, 0.3]))
        self.names = {"notes": VERSIONED, "tracks": [*TRACKED, "c:main"]}.get(self.kind, PACKAGES)
        self.notes = MET_NOTES if self.kind == "notes" else NOTES

    def one(self, of):
        return self.random.choice(of)

    def may(self, chance):
        return self.random.random() < chance

    def write(self, line):
        """Adds a line to the package, where it is understood, sometimes with a note."""
        if self.may(self.noted) and not line.startswith("package"):
            line += " " + self.one(self.notes)
        return self.add(line)

    def add(self, line):
        """Adds a line to the package, where it is understood."""
        try:
            self.reader.line(line.split(" "))
        except model.NotUnderstood:
            self.reader = model.Reader()
            for it in self.block:
                self.reader.line(it.split(" "))
            return False
        self.block.append(line)
        return True

    def type(self, names, depth=0):
        """The text of a type, written with these names."""
        chance = self.random.random()
        if chance < 0.3 or depth > 2:
            return self.one(["u32", "string", "bool", "u8"])
        if chance < 0.6 and names:
            return self.one(names)
        if chance < 0.75 or not names:
            return f"{self.one(['list', 'option', 'future', 'stream'])}<{self.type(names, depth + 1)}>"
        if chance < 0.8:
            return self.one(["future", "stream"])
        return f"{self.one(['own', 'borrow', 'borrow'])}<{self.one(names)}>"

    def signature(self, names):
        name = self.one(["f", "g", "h", "p", "P"])
        if names and self.may(0.3):
            of = self.one(names)
            groups = ["[method]", "[static]", "[method][get]", "[method][set]", "[static][get]"]
            name = self.one([f"[constructor]{of}", *(f"{it}{of}.{name}" for it in groups)])
        elif self.may(0.3):
            name = self.one(["[get]", "[set]", "[get]"]) + name
        parts = ",".join(f"{self.one('xyz')}:{self.type(names)}" for _ in range(self.one([0, 0, 1, 1, 2])))
        return f"{name}({parts})" + (f"->{self.type(names)}" if self.may(0.5) else "")

    def type_line(self, names):
        name, chance = self.one(TYPES), self.random.random()
        if chance < 0.25:
            return f"resource {name}"
        if chance < 0.35:
            fields = [f"{self.one('abc')}:{self.type(names)}" for _ in range(self.one([1, 1, 2]))]
            return " ".join(["record", name, *fields])
        return f"type {name} {self.type(names)}"

    def path(self):
        """A path of an interface, and its types."""
        own = self.reader.package.interfaces
        if self.may(0.01):
            return "c:q/i", TYPES  # which is nowhere
        if self.interfaces and (not own or self.may(self.foreign)):
            return self.one(list(self.interfaces.items()))
        return self.one([(name, list(it.types)) for name, it in own.items()]) if own else (None, [])

    def use_line(self):
        path, types = self.path()
        if path and ":" in path and self.may(0.02):
            types = TYPES
        if not types:
            return None
        return f"use {path} {self.one(types)}" + (f" {self.one([*TYPES, 'm', 'n'])}" if self.may(0.4) else "")

    def item_line(self):
        path, _ = self.path()
        word = self.one(["import", "export", *["export"] * (2 * (self.kind == "exports"))])
        return f"{word} {self.one(['', '', '', '', self.one(LABELS) + '='])}{path}" if path else None

    def include_line(self, world):
        own = [it for it in self.reader.package.worlds if it != world]
        of = self.worlds if self.worlds and (not own or self.may(self.foreign)) else own
        if not of:
            return None
        path, names = self.one(of), LABELS
        if path in self.reader.package.worlds:
            labels = [it.label for it in self.reader.package.worlds[path].entries() if it.label]
            names = [model.groups_of(it)[1].partition(".")[0] for it in labels] or LABELS
        renames = f" {self.one(names)}={self.one([*LABELS, 'n1', 'n2', 'n3'])}" if self.may(0.5) else ""
        return f"include {path}{renames}"

    def interface_line(self):
        """A line of an interface, None where there is nothing to name."""
        names, chance = list(self.reader.scope.types), self.random.random()
        if self.kind in ("chains", "exports"):
            chance = 0.3 + chance * 0.45
        if self.kind == "tracks" and self.may(0.85):
            line = self.one([f"type {self.one('tu')} u32", "func f(x:u32)", None, None])
            return line or self.use_line()
        if chance < 0.35:
            return self.type_line(names)
        return self.use_line() if chance < 0.8 else f"func {self.signature(names)}"

    def world_line(self, world):
        """A line of a world, None where there is nothing to name."""
        names, chance = list(self.reader.scope.types), self.random.random()
        if self.kind in ("chains", "exports", "tracks") and self.may(0.7):
            chance = 0
        if self.kind == "notes":
            chance = self.one([0, 0, 0.9, chance])
        if chance < 0.4:
            return self.item_line()
        if chance < 0.55:
            return self.use_line()
        if chance < 0.65:
            return self.type_line(names)
        if chance < 0.8:
            return f"{self.one(['import-func', 'export-func'])} {self.signature(names)}"
        return self.include_line(world)

    def package(self, name):
        """Writes a package, and answers it as it is read."""
        self.block, self.reader = [], model.Reader()
        self.write(f"package {name}")
        self.fill(name)
        self.lines += self.block
        return self.reader.package

    def fill(self, name):
        """Writes what a package of this name has."""
        scopes = [("interface", it) for it in self.random.sample(INTERFACES, self.random.randint(0, 4))]
        scopes += [("world", it) for it in self.random.sample(WORLDS, self.one([0, 1, 1, 2, 3]))]
        for word, it in scopes:
            if self.write(f"{word} {it}"):
                self.extend(word, it, 0, 8 if word == "world" else 5)

    def extend(self, word, name, least, most):
        """Writes lines of the interface or world that was begun last."""
        for _ in range(self.random.randint(least, most)):
            line = self.world_line(name) if word == "world" else self.interface_line()
            if line:
                self.write(line)

    def learn(self, package):
        """Lets later lines name what a package has."""
        for name, interface in package.interfaces.items():
            self.interfaces[package.name.id_of(name)] = list(interface.types)
        self.worlds += [package.name.id_of(it) for it in package.worlds]
        self.turned += [(package.name, it) for it in package.worlds]

    def push(self):
        names = self.random.sample(self.names, self.one([1, 1, 1, 2, 3]))
        self.push_all([it for it in names if it not in self.there or self.may(0.05)])

    def push_all(self, names):
        """Writes packages of these names, and their push."""
        before = dict(self.interfaces), list(self.worlds), list(self.turned), list(self.lines)
        packages = []
        for name in names:
            packages.append(self.package(name))
            if self.may(0.8):
                self.learn(packages[-1])
        if not packages:
            return
        self.lines.append("push")
        is_done = self.is_done()
        self.interfaces, self.worlds, self.turned = before[:3]
        if is_done:
            self.there |= {str(it.name) for it in packages}
            for it in packages:
                self.learn(it)
        elif not self.may(self.kept):
            self.lines = before[3]
            self.follower.drop_to(self.lines)

    def is_done(self):
        """Whether the last command isn't refused."""
        return not any(it.startswith("refused") for it in self.follower.answer(self.lines))

    def turn(self):
        """Writes a command that turns a world."""
        package, world = self.one(self.turned)
        if self.may(0.4):
            self.lines.append(f"importize {package} {world}" + self.one(["", " z", " " + self.one(WORLDS)]))
        else:
            keys, many = [*self.interfaces, "t", "f", "lab"], self.one([0, 1, 2, 3])
            keys = [self.one(keys) for _ in range(many if self.interfaces else 0)]
            name = self.one(["-", "-", "z", self.one(WORLDS)])
            self.lines.append(" ".join([f"exportize {package} {world} {name}", *keys]))

    def merge(self):
        """Writes a command that merges the imports of a world by tracks."""
        package, world = self.one(self.turned)
        if self.may(0.2):
            self.lines.append(f"tracks {self.one(['published', 'with-prereleases'])}")
        self.lines.append(f"semver {package} {world}")

    def script(self):
        for _ in range(self.random.randint(2, 8) + 4 * (self.kind == "tracks")):
            if self.noted and self.may(0.15):
                self.lines.append(self.one(["feature f", "feature g", "all-features"]))
            self.push()
            for _ in range(self.one([0, 0, 1, 2])):
                if self.turned:
                    (self.merge if self.kind == "tracks" and self.may(0.8) else self.turn)()
        self.print_worlds()
        if self.kind == "broken":
            self.break_lines()
        return "\n".join(self.lines) + "\n"

    def print_worlds(self):
        """Writes what asks for the worlds that are there."""
        for package in sorted({str(it) for it, _ in self.turned}):
            worlds = [it for of, it in self.turned if str(of) == package]
            turned = [f"{it}-{self.one(['im', 'ex'])}portized" for it in worlds]
            self.lines += [f"print {package} {it}" for it in [*worlds, "z", *turned]]
            if self.may(0.3):
                self.lines.append(f"select {package}" + self.one(SELECTED))

    def break_lines(self):
        """Changes some lines, mostly so that they aren't understood."""
        for _ in range(self.one([0, 1, 1, 2])):
            if not self.lines:
                return
            at = self.random.randrange(len(self.lines))
            words = self.lines[at].split(" ")
            word = self.random.randrange(len(words))
            text = words[word]
            place = self.random.randrange(len(text) + 1)
            less, more = text[:place] + text[place + 1 :], text[:place] + self.one("aB1-.@:/[](),<># ") + text[place:]
            words[word] = self.one([less, more, self.one(self.lines).split(" ")[-1]])
            line, changed = self.lines[at], [" ".join(words)]
            others = [[], [line, line], [f" {line} "], ["", line, "# a note"]]
            self.lines[at : at + 1] = self.one([changed] * 6 + others)

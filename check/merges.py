"""Writes random scripts with other graphs that go into the first."""
import re

import model
from writer import INTERFACES, PACKAGES, TRACKED, TYPES, VERSIONED, WORLDS, Writer

# what makes one line differ: a pattern, and what takes its place
CHANGES = [
    (r"\b[xyz]:", "n:"),  # the name of a parameter
    (r"\b(u32|string|bool|u8)\b", "u64"),
    (r":[^,():]+", ":u32"),  # the type of a parameter
    (r"\((?=.)", "(n:u32,"),
    (r"\(\w:[^,]*,", "("),
    (r"->\S+", ""),
    (r"->\S+", "->u32"),
    (r"\)$", ")->u32"),
    (r"^type (\S+) .*", r"type \1 u32"),
    (r"^type (\S+) .*", r"resource \1"),
    (r"^resource (\S+)", r"type \1 u32"),
    (r"^(import|export) (\w+)$", r"\1 lab=\2"),
    (r"^(import|export) (\S+=)?\S+$", r"\1 \2i"),
    (r"^(import|export) (\S+=)?\S+$", r"\1 \2j"),
    (r"^(type|resource) (\w+)\b.*", r"import-func \2()"),
    (r"^import-func (\w+)\(.*", r"type \1 u32"),
    (r"^import-func (\w+)\(.*", r"import \1=i"),
    (r"^import ", "export "),
    (r"^import-func ", "export-func "),
]
OTHER_NOTES = [(r"( @\S+)?$", " @since=0.0.0"), (r"( @\S+)?$", " @unstable=f"), (r" @\S+$", "")]
# what makes a type that is a borrow none
NO_BORROW = [(r" borrow<.*", " u32"), (r"^type (\S+) .*", r"resource \1")]


def scopes_of(block):
    """The interfaces and worlds of a package, each with its lines."""
    scopes = []
    for it in block[1:]:
        if it.startswith(("interface ", "world ")):
            scopes.append([])
        scopes[-1].append(it)
    return scopes


class Merger(Writer):
    """Writes one script. Packages of another graph have for the most part what those of the first have."""

    def __init__(self, number, kind):
        super().__init__(number, kind)
        self.names = [*self.one([PACKAGES, VERSIONED, TRACKED]), "c:main", "c:more"]
        # (the lines of the first graph's packages)
        self.blocks, self.is_other = {}, False
        self.noted, self.exports, self.uses = self.one([0, 0, 0.1, 0.3]), self.one([0, 0.9]), self.one([0.7, 0.9])
        if self.noted:
            self.names, self.notes = [*VERSIONED, "c:main@1.0.0"], ["@since=1.0.0", "@since=0.0.0", "@unstable=f"]

    def push(self):
        left = [it for it in self.names if it not in self.there]
        self.push_all(self.random.sample(left, min(len(left), self.one([1, 1, 1, 2]))))

    def interface_line(self):
        types, chance = self.reader.scope.types, self.random.random()
        resources = [name for name, it in types.items() if it.end().kind[0] == "resource"]
        values = [name for name, it in types.items() if not it.holds_borrow()]
        if chance < 0.12:
            name = self.one(TYPES)
            return f"type {name} borrow<{self.one(resources)}>" if resources else f"resource {name}"
        if chance < 0.3:
            return f"func {self.one('fgh')}()->{self.one(values)}" if values else f"func {self.signature(list(types))}"
        return self.use_line() if chance < self.uses else super().interface_line()

    def use_line(self):
        line = super().use_line()
        is_short = line and line.count(" ") == 2
        return f"{line} {self.one('abmn')}" if is_short and self.is_other and self.may(0.7) else line

    def world_line(self, world):
        path, _ = self.path()
        return f"export {path}" if path and self.may(self.exports) else super().world_line(world)

    def fill(self, name):
        if self.is_other and name in self.blocks:
            self.fill_like(name)
        else:
            self.fill_new()
            self.blocks[name] = self.block

    def fill_new(self):
        """Writes interfaces, and worlds of a few lines, so that a push is seldom refused."""
        for it in self.random.sample(INTERFACES, self.one([1, 2, 3, 4])):
            if self.write(f"interface {it}"):
                self.extend("interface", it, 1, 6)
        for it in self.random.sample(WORLDS, self.one([0, 1, 1, 2])):
            if self.write(f"world {it}"):
                self.extend("world", it, 1, 4)

    def fill_like(self, name):
        """Writes what the first graph's package of this name has, some of it otherwise."""
        scopes = [it for it in scopes_of(self.blocks[name]) if self.may(self.kept_of[it[0].split(" ")[0]])]
        for scope in self.turned_round(scopes):
            word, of = scope[0].split(" ")[:2]
            if self.add(self.changed(scope[0])):
                for line in scope[1:]:
                    if self.is_there(line):
                        self.add_like(line)
                if self.may(self.more[word]):
                    self.extend(word, of, 1, 3)
        for word, of in [("interface", self.one("ijklm")), ("world", self.one("yv"))]:
            if self.may(0.3) and self.add(f"{word} {of}"):
                self.extend(word, of, 1, 3)

    def turned_round(self, things):
        return things[::-1] if self.is_backwards else things

    def is_there(self, line):
        """Whether what a line names of other packages is there."""
        path = line.split(" ")[1].rpartition("=")[2]
        return "/" not in path or path in self.interfaces or path in self.worlds

    def add_like(self, line):
        """Adds a line, or one that differs a little; where it is no borrow any more, a function that returns it."""
        if re.match("type .* borrow<", line) and self.may(0.4):
            if self.add(re.sub(*self.one(NO_BORROW), line, count=1)):
                self.add(f"func give()->{line.split(' ')[1]}")
        else:
            self.add(self.changed(line))

    def changed(self, line):
        """The line, or one that differs a little."""
        changes = OTHER_NOTES if self.noted and self.may(0.5) else CHANGES
        changes = [it for it in changes if re.search(it[0], line)]
        return re.sub(*self.one(changes), line, count=1) if changes and self.may(self.change) else line

    def commands(self):
        """Writes commands that nothing is pushed by."""
        if self.may(0.15):
            self.lines.append(self.one(["feature f", "all-features", "tracks with-prereleases"]))
        for _ in range(self.one([0, 0, 0, 1])):
            if self.turned:
                self.one([self.turn, self.turn, self.merge])()
        if self.turned and self.may(0.2):
            self.lines.append("print {} {}".format(*self.one(self.turned)))

    def other(self):
        """Writes another graph, which then goes into the first."""
        self.change, self.is_backwards = self.one([0, 0.03, 0.1]), self.may(0.4)
        self.more = {"interface": self.one([0, 0.4, 0.8]), "world": self.one([0, 0, 0, 0.2])}
        are_worlds_kept = self.one([0.1, 0, 0] if self.more["interface"] or self.is_backwards else [0.5, 1])
        self.kept_of = {"interface": self.one([0.9, 1]), "world": are_worlds_kept}
        known = self.interfaces, self.worlds, self.turned, self.there
        in_both = [it for it in self.blocks if it in self.there and self.may(0.85)]
        self.interfaces, self.worlds, self.turned, self.there = {}, [], [], set()
        self.is_other = True
        self.lines.append("other")
        if self.noted and self.may(0.7):
            self.lines.append("feature f")
        for name in self.turned_round(in_both):
            self.push_all([name])
            self.commands()
        for _ in range(self.one([0, 0, 1])):
            self.push()
        self.lines.append("merge")
        self.is_other = False
        self.interfaces, self.worlds, self.turned, self.there = self.joined(known) if self.is_done() else known

    def joined(self, known):
        """What was known of the first graph, with what is known of the other."""
        interfaces, worlds, turned, there = known
        for path, types in self.interfaces.items():
            interfaces[path] = list(dict.fromkeys([*interfaces.get(path, []), *types]))
        worlds = list(dict.fromkeys([*worlds, *self.worlds]))
        named = {(str(package), world): (package, world) for package, world in [*turned, *self.turned]}
        return interfaces, worlds, list(named.values()), there | self.there

    def script(self):
        if self.noted and self.may(0.7):
            self.lines.append("feature f")
        for _ in range(self.one([1, 2, 3])):
            self.push()
            self.commands()
        for _ in range(self.one([1, 1, 1, 2])):
            self.other()
            self.commands()
            if self.may(0.6):
                self.push()
        self.print_worlds()
        if self.may(0.05):
            self.break_lines()
        return "\n".join(self.lines) + "\n"

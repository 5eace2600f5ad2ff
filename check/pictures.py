#!/usr/bin/env python3
"""Which frames, boxes and arrows the picture of a script has, by a model of its own: what docs/PICTURES.md says, over the model
of the rules.

    python3 check/pictures.py SCRIPT             prints the arrows of a script, by names
    python3 check/pictures.py --stored FOLDER..  compares all of each NAME.script with the stored NAME.dot
    python3 check/pictures.py --of SCRIPT DOT    compares all of a script with a picture

An arrow is told as `FROM KIND TO`, where TO of a whole frame is `PACKAGE/*`, and behind a label stands in brackets. A frame has
the name of its package, and in it its boxes in their order: interfaces by their names, worlds with their functions and types.
Colours, lines and the note below are compared by no one.
"""
import re
import sys
from itertools import zip_longest
from pathlib import Path

from model.data import Interface, Type
from model.names import NotUnderstood, PackageName
from model.scripts import Rules, Session, commands_of
from model.tracks import track

WASI = Path(__file__).resolve().parent.parent / "examples" / "wasi"
COLOURS = {"#8a8a8a": "uses", "#1f5fa8": "lists", "#d1660f": "adds", "#2e7d32": "exports"}


class Listed:
    """What lines list and include, by names: of each world the interfaces and the worlds, each as (package, name)."""

    def __init__(self):
        self.imports, self.includes = {}, {}

    def add(self, table, world, thing):
        there = table.setdefault(world, [])
        if thing not in there:
            there.append(thing)

    def push(self, packages, graph):
        """What a gate leaves out may name what isn't there: that isn't listed."""
        interfaces = {(it.name.key, name) for it in graph.packages for name in it.interfaces}
        worlds = {(it.name.key, name) for it in graph.packages for name in it.worlds}
        pairs = []
        for package in packages:
            for world in package.worlds.values():
                at = (package.name.key, world.name)
                for it in world.imports:
                    if it.label is None and named(it.item, package) in interfaces:
                        self.add(self.imports, at, named(it.item, package))
                for it in world.includes:
                    if at in worlds and named(it.world, package) in worlds:
                        pairs.append((at, named(it.world, package)))
                        self.add(self.includes, *pairs[-1])
        for _ in pairs:
            for at, of in pairs:
                for table in (self.imports, self.includes):
                    for it in list(table.get(of, [])):
                        self.add(table, at, it)

    def merge(self, other):
        for mine, theirs in ((self.imports, other.imports), (self.includes, other.includes)):
            for world, things in theirs.items():
                for it in things:
                    self.add(mine, world, it)

    def rename(self, old, new):
        for table in (self.imports, self.includes):
            if old != new and old in table:
                table[new] = table.pop(old)
        for things in self.includes.values():
            things[:] = [new if it == old else it for it in things]


def named(thing, package=None):
    """Package and name of what a package names: a thing of another, or of its own."""
    owner = thing.package or (package and package.name)
    return owner.key, thing.name


def own(entries):
    return [(it.item.package.key, it.item.name) for it in entries if it.label is None]


class Stage(Session):
    """A session that keeps beside each graph what lines list."""

    def __init__(self):
        super().__init__(Rules())
        self.listed = [Listed()]

    def follow(self, words, packages):
        graph, listed = self.graphs[-1], self.listed[-1]
        world = None
        if words[0] in ("importize", "exportize", "semver"):
            package = graph.find(words[1])
            world = package and package.worlds.get(words[2])
            before = world and own(world.exports)
        told = self.answer(words, packages)
        if words[0] == "other":
            self.listed.append(Listed())
        elif words[0] == "merge":
            other = self.listed.pop()
            if told == {"merged"}:
                self.listed[-1].merge(other)
        elif words[0] == "push" and all(it.startswith("pushed") for it in told):
            listed.push(packages, self.graphs[-1])
        elif world and told == {"done"}:
            self.transform(words, listed, package.name.key, before)

    def transform(self, words, listed, key, before):
        graph = self.graphs[-1]
        package = next(it for it in graph.packages if it.name.key == key)
        old = (key, words[2])
        if words[0] == "semver":
            there = listed.imports.setdefault(old, [])
            for it in own(package.worlds[words[2]].imports):
                if any(self.are_versions(graph, it, of) for of in list(there)):
                    listed.add(listed.imports, old, it)
            return
        unnamed = len(words) < 4 or words[0] == "exportize" and words[3] == "-"
        new = f"{words[2]}-{words[0]}d" if unnamed else words[3]
        listed.rename(old, (key, new))
        if words[0] == "importize":
            listed.imports[key, new] = before
        else:
            gone = own(package.worlds[new].exports)
            listed.imports[key, new] = [it for it in listed.imports.get((key, new), []) if it not in gone]

    def are_versions(self, graph, one, other):
        names = [next(it.name for it in graph.packages if it.name.key == thing[0]) for thing in (one, other)]
        versions = [it.version for it in names]
        same = one[1] == other[1] and (names[0].namespace, names[0].name) == (names[1].namespace, names[1].name)
        return same and all(versions) and track(versions[0], graph.tracks) == track(versions[1], graph.tracks)


class Choice:
    """What the comment lines of a script choose."""

    def __init__(self, text):
        self.shown, self.hidden, self.only_added = [], [], False
        for line in text.split("\n"):
            self.only_added |= line == "# only-added"
            for mark, picks in (("# show ", self.shown), ("# hide ", self.hidden)):
                words = [it for it in line.removeprefix(mark).split(" ") if it]
                if line.startswith(mark) and len(words) in (1, 2):
                    try:
                        picks.append((PackageName.read(words[0]), *words[1:]))
                    except NotUnderstood:
                        pass

    def picked(self, picks, package, name):
        def is_one(owner, only=None):
            base = (owner.namespace, owner.name) == (package.namespace, package.name)
            return base and (owner.version is None or owner.key == package.key) and only in (None, name)

        return any(is_one(*it) for it in picks)

    def worlds(self, graph):
        every = [(package.name, it) for package in graph.packages for it in package.worlds.values()]
        return [(owner.key, it.name) for owner, it in every if self.has(owner, it.name)]

    def has(self, owner, name, besides=False):
        wanted = not self.shown or besides or self.picked(self.shown, owner, name)
        return wanted and not self.picked(self.hidden, owner, name)

    def interfaces(self, graph):
        brought = []
        for package in graph.packages:
            for world in package.worlds.values():
                if self.picked(self.shown, package.name, world.name):
                    brought += [it.item for it in world.entries() if isinstance(it.item, Interface)]
        every = [(package.name, it) for package in graph.packages for it in package.interfaces.values()]
        return [(owner.key, it.name) for owner, it in every if self.has(owner, it.name, it in brought)]


class Picture:
    def __init__(self, text):
        stage, commands = Stage(), commands_of(text)
        for words, packages in commands:
            stage.follow(words, packages)
        self.graph, self.listed, self.choice = stage.graphs[0], stage.listed[0], Choice(text)
        self.shown, self.worlds = self.choice.interfaces(self.graph), self.choice.worlds(self.graph)
        self.names = {it.name.key: str(it.name) for it in self.graph.packages}
        self.frames = {
            it.name.key: [(it.name.key, name) for name in it.interfaces if (it.name.key, name) in self.shown]
            for it in self.graph.packages
        }

    def world(self, at):
        return next(it for it in self.graph.packages if it.name.key == at[0]).worlds[at[1]]

    def imports(self, at):
        return own(self.world(at).imports)

    def text(self, thing):
        return f"{self.names[thing[0]]}/{thing[1]}"

    def bundle(self, frames, targets):
        whole = [it for it in frames.values() if len(it) > 1 and set(it) <= set(targets)]
        return [(it[0][0], "*") for it in whole], [it for it in targets if not any(it in frame for frame in whole)]

    def arrows(self):
        made = []
        for package in self.graph.packages:
            for it in package.interfaces.values():
                at = (package.name.key, it.name)
                if at in self.shown:
                    used = list(dict.fromkeys((of.package.key, of.name) for of in it.direct_uses()))
                    made += self.told(at, "uses", self.frames, [of for of in used if of in self.shown])
        for at in self.worlds:
            made += self.of_world(at)
        return sorted(made)

    def boxes(self):
        """The frames in the order of packages, each with its interfaces and its worlds."""
        made = []
        for package in self.graph.packages:
            key = package.name.key
            shown = [name for owner, name in self.shown if owner == key]
            worlds = [self.box(self.world(at)) for at in self.worlds if at[0] == key]
            made += [(str(package.name), shown, worlds)] if shown or worlds else []
        return made

    def box(self, world):
        """What a world's box says: its name, and below it its functions and types."""
        lines = [world.name]
        for side, entries in (("import", world.imports), ("export", world.exports)):
            items = [it for it in entries if not isinstance(it.item, Interface)]
            lines += [f"{side} {'type' if isinstance(it.item, Type) else 'func'} {it.label}" for it in items]
        return "\\n".join(lines)

    def told(self, at, kind, frames, targets):
        return [f"{self.text(at)} {kind} {self.text(it)}" for part in self.bundle(frames, targets) for it in part]

    def of_world(self, at):
        world = self.world(at)
        imports, exports = [it for it in self.imports(at) if it in self.shown], own(world.exports)
        lines = self.listed.imports.get(at, [])
        frames = {key: [it for it in frame if it not in exports] for key, frame in self.frames.items()}
        if self.choice.only_added:
            return self.told(at, "adds", frames, [it for it in imports if it not in lines])
        included = self.listed.includes.get(at, [])
        stands = [
            it
            for it in included
            if it in self.worlds and self.imports(it) and set(self.imports(it)) <= set(self.imports(at))
        ]
        outer = [it for it in stands if not any(it in self.listed.includes.get(of, []) for of in stands)]
        made = [f"{self.text(at)} lists {self.text(it)}" for it in outer]
        left = [it for it in imports if not any(it in self.imports(of) for of in outer)]
        brought = [it for it in left if any(it in self.imports(of) for of in included)]
        whole, _ = self.bundle(frames, brought)
        made += [f"{self.text(at)} lists {self.text(it)}" for it in whole]
        left = [it for it in left if it[0] not in [of[0] for of in whole] or it not in brought]
        made += self.told(at, "lists", frames, [it for it in left if it in lines])
        made += self.told(at, "adds", frames, [it for it in left if it not in lines])
        made += self.told(at, "exports", self.frames, [it for it in exports if it in self.shown])
        for kind, entries in (("lists", world.imports), ("exports", world.exports)):
            labels = {}
            for it in entries:
                if it.label is not None and isinstance(it.item, Interface):
                    labels.setdefault((it.item.package.key, it.item.name), []).append(it.label)
            made += [
                f"{self.text(at)} {kind} {self.text(of)} [{' '.join(some)}]" for of, some in labels.items() if of in self.shown
            ]
        return made


def unquoted(label):
    """What the labels of a box say, one behind the other."""
    return re.sub(r"\\(.)|&amp;", lambda it: {"n": " ", None: "&"}.get(it[1], it[1]), label)


def arrows_of_dot(text):
    """The arrows of a picture, by names."""
    names, frame, middle = {}, "", {}
    for line in text.split("\n"):
        if found := re.match(r'    p\d+ \[shape=plaintext.* label="(.*)"\];$', line):
            frame = found[1]
        elif found := re.match(r'\s+([iw]\d+) \[.*?label="(.*?)(?:\\n.*)?"\];', line):
            names[found[1]] = (frame, found[2])
        elif found := re.match(r'  ([mx]\d+_\d+) \[.*label="(.*)"\];', line):
            middle[found[1]] = unquoted(found[2])
    made = []
    for line in text.split("\n"):
        if found := re.match(r'  (\w+) -> (\w+) \[color="(#\w+)"(.*)\];', line):
            start, end, colour, more = found.groups()
            if end in middle:
                continue
            label = f" [{middle[start]}]" if start in middle else ""
            start = re.sub(r"[mx](\d+)_\d+", r"w\1", start)
            to = (names[end][0], "*") if "lhead" in more else names[end]
            made.append(f"{'/'.join(names[start])} {COLOURS[colour]} {'/'.join(to)}{label}")
    return sorted(made)


def boxes_of_dot(text):
    """The frames of a picture with their boxes."""
    frames = []
    for line in text.split("\n"):
        if found := re.match(r'    p\d+ \[shape=plaintext.* label="(.*)"\];$', line):
            frames.append((found[1], [], []))
        elif found := re.match(r'\s+(i|w)\d+ \[.*?label="(.*?)"\];', line):
            frames[-1][1 if found[1] == "i" else 2].append(found[2])
    return frames


def whole(script):
    """The script, with the packages of WASI that a line `#+ VERSION/PACKAGE ..` names in its place."""
    lines = []
    for line in Path(script).read_text().split("\n"):
        packages = line[3:].split() if line.startswith("#+ ") else []
        lines += [(WASI / f"{it}.script").read_text().rstrip("\n") for it in packages] or [line]
    return "\n".join(lines)


def differ(script, dot):
    picture, text = Picture(whole(script)), Path(dot).read_text()
    arrows, found = picture.arrows(), arrows_of_dot(text)
    told = [f"lacks {it}" for it in arrows if it not in found] + [f"has {it}" for it in found if it not in arrows]
    if len(found) != len(set(found)):
        told.append("has an arrow twice")
    for ours, theirs in zip_longest(picture.boxes(), boxes_of_dot(text)):
        if ours != theirs:
            told.append(f"has the frame {theirs}, and the model's is {ours}")
    print("\n".join(f"{dot}: {it}" for it in told), end="\n" if told else "")
    return bool(told)


def main(words):
    if words[0] == "--of":
        return differ(*words[1:3])
    if words[0] == "--stored":
        scripts = sorted(it for folder in words[1:] for it in Path(folder).glob("*.script"))
        bad = sum(differ(it, it.with_suffix(".dot")) for it in scripts)
        print(f"{len(scripts)} pictures, {bad} differ")
        return bad > 0
    print("\n".join(Picture(whole(words[0])).arrows()))
    return 0


if __name__ == "__main__":
    sys.exit(main(sys.argv[1:]))

"""Merges two graphs."""
import copy

from .causes import note_mismatch, returns_borrow
from .data import UNKNOWN, Entry, Function, Interface, Owns, Package, Type
from .finishing import finish, interfaces_of
from .mismatches import function_mismatches, type_mismatch


def merge(graph, other, by_structure):
    """A graph into which another went, and the causes that speak against it; both stay as they are.

    Where `by_structure` says so, types that are to be one are compared by their structures, too.
    """
    made = Merge(graph, other)
    if by_structure:
        made.compare_types()
    if not any(number == 24 for number, _ in made.causes):
        made.unite()
        finish(made.graph, made.causes, lambda world: (world.imports, world.exports))
    return made.graph, made.causes


class Merge:
    """Two graphs of which what is to be one is matched.

    `partner` has, by their ids, what things of the other graph are to be in the graph; `pairs` are the types that are
    to be one, each pair after its package and what it stands in.
    """

    def __init__(self, graph, other):
        self.graph, self.other = copy.deepcopy(graph), copy.deepcopy(other)
        self.causes, self.partner, self.pairs = set(), {}, []
        shared = [(it, self.graph.find(it.name)) for it in self.other.packages]
        shared = [(package, into) for package, into in shared if into]
        for package, into in shared:
            for it in package.interfaces.values():
                if it.name in into.interfaces:
                    self.match_interface(package, it, into.interfaces[it.name])
        # (worlds once all interfaces are matched)
        for package, into in shared:
            for it in package.worlds.values():
                if it.name in into.worlds:
                    self.match_world(package, it, into.worlds[it.name])

    def mismatch(self, package, what, text):
        self.causes.add(
            (24, f"failed to merge package `{package.name}` into existing copy: failed to merge {what}: {text}")
        )

    def join_notes(self, into, added):
        """Gives one thing the note of both."""
        if into.note == UNKNOWN:
            into.note = added.note
        elif added.note not in (UNKNOWN, into.note):
            self.causes.add(note_mismatch(into.note, added.note))

    def match(self, one, into):
        self.partner[id(one)] = into
        self.join_notes(into, one)

    def match_interface(self, package, interface, into, what=None):
        what = what or f"interface `{interface.name}`"
        self.match(interface, into)
        for ty in interface.types.values():
            if ty.name in into.types:
                self.match(ty, into.types[ty.name])
                self.pairs.append((package, what, ty, into.types[ty.name]))
        for it in interface.functions.values():
            if it.name in into.functions:
                for text in function_mismatches(it, into.functions[it.name]):
                    self.mismatch(package, what, f"mismatch in function `{it.name}`: {text}")

    def match_world(self, package, world, into):
        what = f"world `{world.name}`"
        self.match(world, into)
        for (word, entries), (_, there) in zip(world.lists(), into.lists()):
            if len(entries) != len(there):
                self.mismatch(package, what, f"world contains different number of {word}s than expected")
            by_key = {it.key: it for it in there}
            for it in entries:
                key = id(self.partner.get(id(it.item))) if it.label is None else it.label
                if key in by_key:
                    self.match_entry(package, f"{what}: {word} `{it.key_text()}`", it, by_key[key])
                else:
                    self.mismatch(package, what, f"{word} `{it.key_text()}` not found in target world")

    def match_entry(self, package, what, entry, into):
        what = f"{what} didn't match target world"
        if type(into.item) is not type(entry.item):
            self.mismatch(package, what, "world items do not have the same type")
        elif isinstance(entry.item, Interface) and entry.item.name is None and into.item.name is None:
            self.match_interface(package, entry.item, into.item, what)
        elif isinstance(entry.item, Interface):
            if not self.are_one(entry.item, into.item):
                self.mismatch(package, what, "interfaces are not the same")
            if entry.label is None:
                self.join_notes(into, entry)
        elif isinstance(entry.item, Type):
            self.match(entry.item, into.item)
            self.pairs.append((package, what, entry.item, into.item))

    def are_one(self, one, into):
        return self.partner.get(id(one)) is into

    def compare_types(self):
        """Adds the first mismatch of the structures of matched types."""
        for package, what, one, into in self.pairs:
            found = type_mismatch(one, into, self.are_one)
            if found:
                path, text = found
                at = f"at {'.'.join(path)}: " if path else ""
                self.mismatch(package, what, f"mismatch in type `{one.name}`: {at}{text}")
                return

    # what comes of it

    def at(self, thing):
        """Where a type or an interface of the other graph is now."""
        return self.partner.get(id(thing), thing)

    def unite(self):
        """Puts what the other graph alone has into the graph."""
        owns, new = Owns(), self.new(self.other.types)
        for ty in new:
            ty.kind = ty.kind[0], *(self.at(it) for it in ty.kind[1:])
            ty.owner = self.at(ty.owner)
        # (what leads to a resource is told once all are in place)
        for ty in new:
            ty.kind = owns.with_values(ty.kind)
        functions = []
        for package in self.other.packages:
            into = self.graph.find(package.name)
            if into is None:
                into = Package(package.name)
                self.graph.packages.append(into)
            for it in package.interfaces.values():
                functions += self.unite_interface(into, it)
            for it in package.worlds.values():
                for interface in it.unnamed():
                    functions += self.unite_interface(into, interface)
                if it.name not in into.worlds:
                    functions += self.unite_world(into, it)
        for it in functions:
            it.parts = [self.at(part) for part in it.parts]
            it.result, it.resource = self.at(it.result), self.at(it.resource)
            it.take_values(owns)
            if isinstance(it.result, Type) and it.result.holds_borrow():
                self.causes.add(returns_borrow(it.name))
        for it in interfaces_of(self.graph):
            it.types = {name: self.at(ty) for name, ty in it.types.items()}
        self.graph.types += [*new, *owns.of(self.at(it) for it in self.other.types)]
        self.graph.interfaces += self.new(self.other.interfaces)
        self.graph.worlds += self.new(self.other.worlds)

    def new(self, things):
        """Those that aren't to be one with things of the graph."""
        return [it for it in things if id(it) not in self.partner]

    def unite_interface(self, package, interface):
        """Puts an interface into a package, and answers the functions that are new there."""
        into = self.at(interface)
        if into is interface:
            if interface.name:
                package.interfaces[interface.name] = interface
            return list(interface.functions.values())
        into.types.update({it.name: it for it in interface.types.values() if id(it) not in self.partner})
        new = {name: it for name, it in interface.functions.items() if name not in into.functions}
        into.functions.update(new)
        return list(new.values())

    def unite_world(self, package, world):
        """Puts a world into a package, and answers its functions."""
        package.worlds[world.name] = world
        for _, entries in world.lists():
            entries[:] = [Entry(it.label, self.at(it.item), it.note, it.span) for it in entries]
        return [it.item for it in world.entries() if isinstance(it.item, Function)]

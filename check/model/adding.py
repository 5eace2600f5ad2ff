"""Adds a package to a graph."""
from .causes import defined_twice, excluded, returns_borrow
from .data import Entry, Foreign, Function, Interface, Owns, Package, Type, World
from .elaboration import Conflict, elaborate
from .including import Copier, include
from .labels import label_causes, place_setters
from .names import version_key

# what is called with each reason to refuse a package: its number, its text and what it lies in
WATCHERS = []
# the causes with which it can't be said what the package becomes
WITHOUT_IMAGE = {1, 2, 3, 9, 10, 11, 12, 13}


class Addition:
    """A package that is added to a graph: what takes part, the causes to refuse it, and what comes of it.

    `active` tells of each thing whether it takes part, `found` has the graph's thing for each that is foreign,
    `images` what the package's own things become, and `made` is the package that is added. Behind the images of types
    come the `owns` of values and then the `copies` of includes.
    """

    def __init__(self, graph, package):
        self.graph, self.package, self.causes = graph, package, set()
        self.active, self.found, self.images = {}, {}, {}
        self.owns, self.copies, self.interfaces = Owns(), [], []
        self.look_up()
        self.ask_package()
        self.has_image = not any(number in WITHOUT_IMAGE for number, _ in self.causes)
        self.check_handles()
        self.check_results()
        self.made = Package(package.name)
        if self.has_image:
            self.move()
        for world in package.worlds.values():
            if self.active[world]:
                self.finish(world)

    def refuse(self, number, text, place=None):
        self.causes.add((number, text))
        for watch in WATCHERS:
            watch(number, text, place)

    # what is there

    def look_up(self):
        if self.graph.find(self.package.name):
            self.refuse(*defined_twice(self.package.name), self.package)
        for foreign in self.package.foreign.values():
            of = self.package_of(foreign)
            # (a foreign thing takes part where one of the lines that name it does)
            if any(self.ask(foreign, note) for note in foreign.notes) and of is not None:
                item = getattr(of, foreign.table).get(foreign.name)
                if item is None:
                    number, word = (3, "interface") if foreign.table == "interfaces" else (2, "world")
                    self.refuse(number, f"{word} '{foreign.name}' not found in package '{foreign.package}'", foreign)
                else:
                    self.found[foreign] = item

    def package_of(self, foreign):
        """The package that something foreign is looked up in: an empty one where it is the package itself."""
        name = self.package.name
        of = self.graph.find(foreign.package)
        if foreign.package.key == name.key:
            return Package(name)
        if of is None:
            known = {it.key: str(it) for it in [*(it.name for it in self.graph.packages), name]}
            listed = "".join(f"\n    {it}" for it in known.values())
            self.refuse(1, f"package '{foreign.package}' not found. known packages:{listed}", foreign)
        return of

    # what takes part

    def ask(self, thing, note):
        """Whether a note lets a thing take part; one that can't be asked counts as active."""
        name = self.package.name
        is_active = True
        if note[0] == "unstable":
            is_active = self.graph.all_features or note[1] in self.graph.features
        elif note[0] == "stable" and name.version is None:
            text = f"package [{name}] contains a feature gate with a version specifier, so it must have a version"
            self.refuse(9, text, thing)
        elif note[0] == "stable" and version_key(note[1]) > version_key(name.version):
            self.refuse(
                10,
                f"feature gate cannot reference unreleased version {note[1]} of package [{name}]"
                f" (current version {name.version})",
                thing,
            )
        self.active[thing] = is_active
        return is_active

    def ask_package(self):
        package = self.package
        for it in [*package.types, *package.all_interfaces(), *package.worlds.values()]:
            self.ask(it, it.note)
        for ty in package.types:
            if self.active[ty]:
                self.ask_references(ty)
                self.ask_owner(ty)
        for interface in package.all_interfaces():
            if self.active[interface]:
                for it in interface.functions.values():
                    if self.ask(it, it.note):
                        self.ask_references(it)
        for world in package.worlds.values():
            if self.active[world]:
                self.ask_world(world)

    def ask_references(self, thing):
        if any(not self.active[it] for it in thing.references()):
            self.refuse(*excluded("type"), thing)

    def ask_owner(self, ty):
        owner = ty.owner
        if isinstance(owner, Foreign):
            if not self.active[owner]:
                self.refuse(*excluded("interface"))  # which lies nowhere
            elif owner in self.found and ty.name not in self.found[owner].types:
                self.refuse(13, f"type `{ty.name}` not defined in interface", ty)
        elif owner is not None and not self.active[owner]:
            word = "interface" if isinstance(owner, Interface) else "world"
            self.refuse(12, f"{excluded(word)[1]}; this type is not gated by a feature but its {word} is", ty)

    def ask_world(self, world):
        for it in world.entries():
            if isinstance(it.item, Type):
                self.active[it] = self.active[it.item]
            elif self.ask(it, it.note):
                if isinstance(it.item, Function):
                    self.active[it.item] = True
                    self.ask_references(it.item)
                elif not self.active[it.item]:
                    self.refuse(*excluded("interface"), it)
        for it in world.includes:
            if self.ask(it, it.note) and not self.active[it.world]:
                self.refuse(*excluded("world"), it)

    # resources

    def seen_as(self, ty):
        """A type, a foreign one as the graph has it."""
        of = self.found.get(ty.owner) if isinstance(ty.owner, Foreign) else None
        return of.types.get(ty.name, ty) if of else ty

    def check_handles(self):
        for ty in self.package.required:
            is_there = self.seen_as(ty) is not ty
            if self.active[ty] and is_there and ty.end(self.seen_as).kind[0] != "resource":
                self.refuse(14, "type used in a handle must be a resource", ty)

    def check_results(self):
        for it, is_active in self.active.items():
            if is_active and isinstance(it, Function) and isinstance(it.result, Type):
                if it.result.holds_borrow(self.seen_as):
                    self.refuse(*returns_borrow(it.name), it)

    # what comes of it

    def image(self, thing):
        """What a type, an interface or a world that takes part becomes."""
        if not isinstance(thing, (Type, Interface, World, Foreign)):
            return thing
        if thing in self.found:
            return self.found[thing]
        if isinstance(thing, Type) and isinstance(thing.owner, Foreign):
            return self.seen_as(thing)
        return self.images[thing]

    def span(self, thing):
        return thing.span and (self.package.file, *thing.span)

    def moved(self, function):
        made = function.moved(function.name, self.image)
        made.take_values(self.owns)
        made.span = self.span(function)
        return made

    def all_types(self):
        """The types of the graph and behind them what comes, in the order of ids."""
        images = [self.images[it] for it in self.package.types if it in self.images]
        unknown = [self.seen_as(it) for it in self.package.types if isinstance(it.owner, Foreign)]
        return [*self.graph.types, *images, *self.owns.of([*unknown, *images]), *self.copies]

    def move(self):
        """Makes the images of what takes part; worlds stay empty."""
        own = [it for it in self.package.types if self.active[it] and not isinstance(it.owner, Foreign)]
        for it in own:
            self.images[it] = Type(it.name, None, None, it.note, it.fields, self.span(it))
        for it in [*self.package.all_interfaces(), *self.package.worlds.values()]:
            if self.active[it]:
                self.images[it] = type(it)(it.name, it.note, self.package.name, span=self.span(it))
        for it in own:
            # (a type is after those that it names)
            self.images[it].kind = self.owns.with_values((it.kind[0], *(self.image(part) for part in it.kind[1:])))
            self.images[it].owner = self.image(it.owner)
        for interface in self.package.all_interfaces():
            if self.active[interface]:
                made = self.images[interface]
                self.interfaces.append(made)
                if interface.name:
                    self.made.interfaces[interface.name] = made
                made.types = {n: self.image(it) for n, it in interface.types.items() if self.active[it]}
                made.functions = {n: self.moved(it) for n, it in interface.functions.items() if self.active[it]}

    def finish(self, world):
        """Adds the finished world, or the causes that lie in it."""
        if self.has_image:
            self.finish_image(world, self.images[world])
        elif not world.includes:
            for word, entries in world.lists():
                self.refuse_labels(world, word, [it for it in entries if self.active[it]])

    def finish_image(self, world, made):
        self.fill(made, world)
        if not self.include_all(made, world):
            return
        for word, entries in made.lists():
            self.refuse_labels(world, word, entries)
            place_setters(entries)
        try:
            made.imports, made.exports = elaborate(made.imports, made.exports)
            self.made.worlds[world.name] = made
        except Conflict as error:
            self.refuse(*error.cause, world)

    def refuse_labels(self, world, word, entries):
        for number, text in label_causes(world.name, word, entries):
            self.refuse(number, text, world)

    def fill(self, made, world):
        """Gives an empty image what the world itself lists."""
        for (_, entries), (_, listed) in zip(made.lists(), world.lists()):
            for it in listed:
                if self.active[it]:
                    item = self.moved(it.item) if isinstance(it.item, Function) else self.image(it.item)
                    note = it.item.note if isinstance(item, Type) else it.note
                    entries.append(Entry(it.label, item, note, self.span(it)))

    def include_all(self, made, world):
        """Includes what the world includes, and answers whether all of it went in."""
        for it in world.includes:
            if self.active[it]:
                of = self.found[it.world] if it.world in self.found else self.made.worlds.get(it.world.name)
                if of is None:
                    return False
                copier = Copier(of, made)
                cause = include(made, of, it.names, copier)
                if cause:
                    self.refuse(*cause, it)
                    return False
                self.copies += [copier.copies[ty] for ty in self.all_types() if ty in copier.copies]
                self.interfaces += [copier.owners[i] for i in [*self.graph.interfaces, *self.interfaces] if i in copier.owners]
        return True

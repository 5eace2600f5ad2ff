"""What packages are made of, handed in or of the graph: types, functions, interfaces and worlds with their entries.

A reference is a type, or the text of a primitive. A note tells when something takes part: `UNKNOWN` where the script
has none, or ("stable", version) or ("unstable", feature). A span of what is handed in is a pair of positions in the file
of its package, one of the graph has that file before them; what has none has `None`. Things are the same only where they
are one object.
"""
from dataclasses import dataclass, field

from .names import KEBAB, PackageName
from .walks import reached

UNKNOWN = ("unknown",)


def as_it_is(ty):
    return ty


@dataclass(eq=False)
class File:
    path: str
    text: bytes = b""

    def __deepcopy__(self, memo):
        """A copy of a graph is of the same files."""
        return self


@dataclass(eq=False)
class Type:
    name: str  # None where it is written in place
    kind: tuple  # its word and what it names; what is named of another package is of the kind ("unknown",)
    owner: object  # an interface, a world or something foreign, None where it is written in place
    note: tuple
    fields: tuple = None  # the names of its parts, or the length of a list
    span: tuple = None

    def references(self):
        return [it for it in self.kind[1:] if isinstance(it, Type)]

    def end(self, seen_as=as_it_is):
        """The type that it leads to by aliases; each on the way is looked at as `seen_as` has it."""
        ty = seen_as(self)
        while ty.kind[0] == "alias" and isinstance(ty.kind[1], Type):
            ty = seen_as(ty.kind[1])
        return ty

    def holds_borrow(self, seen_as=as_it_is):
        """Whether a value of it has a `borrow` within."""

        def parts(ty):
            seen = seen_as(ty)
            return [] if seen.kind[0] in ("own", "borrow") else seen.references()

        return any(seen_as(it).kind[0] == "borrow" for it in reached([self], parts))

    def used_interface(self):
        """The interface of whose type it is an alias, None where it is of another sort."""
        of = self.kind[1].owner if self.kind[0] == "alias" and isinstance(self.kind[1], Type) else None
        return of if isinstance(of, Interface) else None


class Owns(dict):
    """What comes into a graph at one time has one `own` for each type that values need one of: here by that type."""

    def value(self, reference):
        """What stands at the place of a value: of a type that leads to a resource an `own` of it."""
        if not isinstance(reference, Type) or reference.end().kind[0] != "resource":
            return reference
        if reference not in self:
            self[reference] = Type(None, ("own", reference), None, UNKNOWN)
        return self[reference]

    def with_values(self, kind):
        """A kind, at whose places for values stand values."""
        return kind if kind[0] in ("alias", "own", "borrow") else (kind[0], *map(self.value, kind[1:]))

    def of(self, types):
        """Those of some types, in the order of these."""
        return [self[it] for it in types if it in self]


@dataclass(eq=False)
class Function:
    name: str
    resource: Type  # the one that it belongs to, or None
    names: list  # those of the parameters
    parts: list  # a reference for each parameter
    result: object  # a reference, or None
    note: tuple
    kind: str = None  # where its name doesn't tell it
    span: tuple = None

    def references(self):
        return [it for it in [*self.parts, self.result, self.resource] if isinstance(it, Type)]

    def moved(self, name, image):
        """The function under a name, what it refers to being what `image` makes of it."""
        parts = [image(it) for it in self.parts]
        return Function(name, image(self.resource), self.names, parts, image(self.result), self.note, self.kind, self.span)

    def take_values(self, owns):
        """Puts values at the places of its parameters and its result."""
        self.parts, self.result = [owns.value(it) for it in self.parts], owns.value(self.result)


@dataclass(eq=False)
class Interface:
    name: str  # None where it is written in place, in a world
    note: tuple
    package: PackageName = None
    types: dict = field(default_factory=dict)
    functions: dict = field(default_factory=dict)
    span: tuple = None

    def shown_types(self):
        """Its types, and those that its functions refer to."""
        return [*self.types.values(), *(ty for it in self.functions.values() for ty in it.references())]

    def direct_uses(self):
        """The other interfaces of whose types it has aliases, again for each alias."""
        uses = (it.used_interface() for it in self.types.values())
        return [it for it in uses if it is not None and it is not self]


@dataclass(eq=False)
class World:
    name: str
    note: tuple
    package: PackageName = None
    types: dict = field(default_factory=dict)
    imports: list = field(default_factory=list)
    exports: list = field(default_factory=list)
    includes: list = field(default_factory=list)
    span: tuple = None

    def unnamed(self):
        """The interfaces that are written in place."""
        return [it.item for it in self.entries() if isinstance(it.item, Interface) and it.item.name is None]

    def lists(self):
        return [("import", self.imports), ("export", self.exports)]

    def entries(self):
        return [*self.imports, *self.exports]


@dataclass(eq=False)
class Foreign:
    """An interface or a world of another package, with the notes of the lines that name it."""

    package: PackageName
    name: str
    table: str  # the table of a package that it stands in
    notes: list = field(default_factory=list)
    types: dict = field(default_factory=dict)


@dataclass(eq=False)
class Entry:
    """What a world imports or exports: under a label, or, where that is None, under the key of its interface."""

    label: str
    item: object  # an interface, a function or a type
    note: tuple
    span: tuple = None

    @property
    def key(self):
        return id(self.item) if self.label is None else self.label

    def key_text(self):
        return self.item.package.id_of(self.item.name) if self.label is None else self.label

    def order(self):
        """What imports are sorted by."""
        if isinstance(self.item, Type):
            return 1 if self.item.used_interface() else 2
        if isinstance(self.item, Function):
            return 3 if self.item.resource is None else 4
        return 0

    def types(self):
        """The types that it shows, or that its function refers to."""
        if isinstance(self.item, Type):
            return [self.item]
        if isinstance(self.item, Interface) and self.item.name is None:
            return self.item.shown_types()
        return self.item.references() if isinstance(self.item, Function) else []

    def shown(self):
        if self.label is None:
            return self.key_text()
        if isinstance(self.item, Interface):
            return f"{self.label} = {self.item.package.id_of(self.item.name)}" if self.item.name else self.label
        return f"{'type' if isinstance(self.item, Type) else 'func'} {self.label}"


@dataclass(eq=False)
class Include:
    world: object  # a world of the package, or a foreign one
    names: list  # pairs of an old and a new name
    note: tuple


@dataclass(eq=False)
class Package:
    name: PackageName
    types: list = field(default_factory=list)
    interfaces: dict = field(default_factory=dict)
    worlds: dict = field(default_factory=dict)
    foreign: dict = field(default_factory=dict)
    required: list = field(default_factory=list)  # foreign types that have to be resources
    file: File = None  # the one that it was read from, where that is kept

    def all_interfaces(self):
        """Its interfaces, and those that are written in place."""
        return [*self.interfaces.values(), *(it for world in self.worlds.values() for it in world.unnamed())]

    def is_shaped(self):
        """Whether its names are well written, and no world includes itself."""
        names = [self.name.namespace, self.name.name, *self.interfaces, *self.worlds]
        itself = any(it.world is world for world in self.worlds.values() for it in world.includes)
        return all(KEBAB.fullmatch(it) for it in names) and not itself

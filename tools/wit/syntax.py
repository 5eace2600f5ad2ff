"""What a file of WIT says."""
from dataclasses import dataclass, field

PRIMITIVES = set("bool u8 u16 u32 u64 s8 s16 s32 s64 f32 f64 char string error-context".split())
DEFINITIONS = ("type", "record", "variant", "enum", "flags", "resource")


@dataclass
class File:
    path: str
    text: str = ""
    aliases: dict = field(default_factory=dict)  # the paths that its `use .. as ..` give names


@dataclass
class Name:
    """A name and where it stands."""

    text: str
    line: int
    span: tuple  # the places in its file where it begins and where it ends

    def __str__(self):
        return self.text


@dataclass
class Attribute:
    word: str  # since, unstable, deprecated or external-id
    value: str
    line: int
    span: tuple


@dataclass
class Gate:
    """The attributes before a statement, and its documentation."""

    attributes: list = field(default_factory=list)
    docs: list = field(default_factory=list)

    def value(self, word):
        """What an attribute says, None where it isn't there."""
        return next((it.value for it in self.attributes if it.word == word), None)

    @property
    def since(self):
        return self.value("since")

    @property
    def feature(self):
        return self.value("unstable")

    @property
    def deprecated(self):
        return self.value("deprecated")

    @property
    def external_id(self):
        return self.value("external-id")

    @property
    def line(self):
        """The line of `@deprecated`."""
        return next((it.line for it in self.attributes if it.word == "deprecated"), 0)


@dataclass
class Path:
    """An interface or a world, of another package where it names one."""

    name: str
    line: int
    span: tuple  # of its name
    package: str = None
    version: str = None
    package_span: tuple = None

    @property
    def package_name(self):
        return f"{self.package}@{self.version}" if self.version else self.package

    def __str__(self):
        version = f"@{self.version}" if self.version else ""
        return f"{self.package}/{self.name}{version}" if self.package else self.name


@dataclass
class Type:
    """A form with its parts, or a name. A part is a type, None where it is `_`, or a number."""

    name: str
    line: int
    span: tuple  # of the word of a form
    is_form: bool = False
    parts: list = field(default_factory=list)
    is_word: bool = False  # whether it is a primitive, and no name of a type

    def inner_first(self):
        """Its types, in any depth, each behind its parts."""
        found, open_types = [], [self]
        while open_types:
            ty = open_types.pop()
            found.append(ty)
            open_types += [it for it in ty.parts if isinstance(it, Type)]
        return found[::-1]

    def named(self):
        """The names of types in it, from left to right."""
        return [it for it in self.inner_first() if not it.is_form and not it.is_word]

    def names(self):
        return [it.name for it in self.named()]

    def __str__(self):
        """Its text, but for the inner parts of what nests deep."""
        return self.text(8)

    def text(self, depth):
        if depth == 0:
            return ".."
        shown = [it.text(depth - 1) if isinstance(it, Type) else "_" if it is None else str(it) for it in self.parts]
        return f"{self.name}<{', '.join(shown)}>" if shown else self.name


@dataclass
class Part:
    """A field, a case, a flag or a parameter."""

    name: Name
    type: Type = None  # None where it has none
    docs: list = field(default_factory=list)


@dataclass
class Renaming:
    """A name that `use` or `include` takes over, and the name that it has here."""

    name: Name
    new: Name


@dataclass
class Statement:
    gate: Gate
    line: int


@dataclass
class Function(Statement):
    name: str  # with the groups before it, as `[method]`
    span: tuple
    parameters: list  # of `Part`s, without the `self` of a method
    result: Type  # None where there is none
    resource: str = None  # the resource that it is of
    is_async: bool = False

    @property
    def is_method(self):
        return self.name.startswith("[method]")

    @property
    def is_constructor(self):
        return self.name.startswith("[constructor]")


@dataclass
class Use(Statement):
    path: Path
    names: list  # of `Renaming`s


@dataclass
class Definition(Statement):
    word: str
    name: str
    span: tuple
    type: Type = None  # of a `type`
    parts: list = field(default_factory=list)  # of a record, a variant, an enum or flags
    functions: list = field(default_factory=list)  # of a resource

    def named(self):
        """The types that it names."""
        types = [self.type] if self.type else [it.type for it in self.parts if it.type]
        return [it for ty in types for it in ty.named()]

    def names(self):
        return [it.name for it in self.named()]


@dataclass
class Entry(Statement):
    word: str  # import or export
    label: Name  # None where the interface stands under its own name
    item: object  # a path, a function, or an interface that is written in place


@dataclass
class Include(Statement):
    path: Path
    names: list  # of `Renaming`s


@dataclass
class Scope(Statement):
    """An interface or a world."""

    word: str
    name: str
    span: tuple
    file: File
    statements: list = field(default_factory=list)
    is_in_place: bool = False  # whether a world writes it under a label

    def of(self, kind):
        return [it for it in self.statements if isinstance(it, kind)]

    def paths(self):
        """All that it names by a path."""
        entries = [it.item for it in self.of(Entry)]
        inner = [path for it in entries if isinstance(it, Scope) for path in it.paths()]
        return [it.path for it in self.of((Use, Include))] + [it for it in entries if isinstance(it, Path)] + inner

    def needed_first(self):
        """The paths that have to come before it: what an interface uses, what a world includes."""
        return [it.path for it in self.of(Include if self.word == "world" else Use)]


@dataclass
class TopUse(Statement):
    """A `use` of a file, which gives a path a name there."""

    path: Path
    file: File
    name: Name
    span: tuple  # of the word `use`


@dataclass
class Package:
    name: str = None  # None where no file has said it yet
    span: tuple = None
    file: File = None
    docs: list = field(default_factory=list)
    statements: list = field(default_factory=list)  # `Scope`s and `TopUse`s, in the order of the files
    inner: object = None  # the first package in its braces
    data: dict = None  # what it is, once its names were looked up

    @property
    def scopes(self):
        return [it for it in self.statements if isinstance(it, Scope)]


@dataclass
class Header:
    """The line of a file that says which package it is of."""

    name: str
    span: tuple
    docs: list
    docs_span: tuple


@dataclass
class Source:
    """What a file says: its header, the packages in braces, and all else."""

    file: File
    header: Header = None
    nested: list = field(default_factory=list)
    statements: list = field(default_factory=list)


@dataclass
class Group:
    """The packages of a file or a folder, and the files."""

    main: Package
    nested: list
    files: list
    path: str

    @property
    def packages(self):
        return [self.main, *self.nested]

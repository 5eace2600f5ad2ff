"""The data: types, functions, interfaces, worlds, packages and graphs, with the names of wit-parser. An id is an index in
the list of its things."""
from __future__ import annotations

import functools
from dataclasses import dataclass, field
from typing import Any, ClassVar, Literal, NewType, Optional, Union

__all__ = [
    "Alias", "Borrow", "Case", "Enum", "EnumCase", "Field", "FixedLengthList", "Flag", "Flags", "Form", "Function",
    "FunctionItem", "Future", "Graph", "Handle", "IncludeName", "Interface", "InterfaceId", "InterfaceItem", "InterfaceOwner",
    "List", "Map", "Option", "Own", "Package", "PackageId", "Param", "Place", "Record", "Resource", "Result",
    "Source", "Span", "Stability", "Stable", "Stream", "Tagged", "Tuple", "Type", "TypeDef", "TypeDefKind", "TypeId",
    "TypeItem", "Unknown", "UnresolvedPackage", "UnresolvedPackageGroup", "Unstable", "Variant", "World", "WorldId",
    "WorldInclude", "WorldItem", "WorldOwner",
]  # fmt: skip

TypeId = NewType("TypeId", int)
InterfaceId = NewType("InterfaceId", int)
WorldId = NewType("WorldId", int)
PackageId = NewType("PackageId", int)
# a primitive by its name in WIT, or an id
Type = Union[str, TypeId]
# positions in the files of a group, or of a graph
Span = tuple[int, int]

# How JSON has a thing under its tag: as an object of its fields, as its only field alone, as a list of its fields, as the tag
# alone, or as the tag alone where it has no field and else as an object.
Form = Literal["object", "field", "list", "alone-tag", "tag-or-object"]


class Tagged:
    """What JSON has under a tag."""

    tag: ClassVar[str]
    form: ClassVar[Form]

    def __init_subclass__(cls, tag: str, form: Form = "object") -> None:
        cls.tag, cls.form = tag, form


# Gates


@dataclass
class Stable(Tagged, tag="stable"):
    """`@since`."""

    since: str
    deprecated: Optional[str] = None


@dataclass
class Unstable(Tagged, tag="unstable"):
    """`@unstable`."""

    feature: str
    deprecated: Optional[str] = None


Stability = Union[Stable, Unstable]


# Types


@dataclass
class Field:
    """A field of a record."""

    name: str
    type: Type
    docs: Optional[str] = None
    span: Optional[Span] = None


@dataclass
class Case:
    """A case of a variant, with the type of its payload if it has one."""

    name: str
    type: Optional[Type] = None
    docs: Optional[str] = None
    span: Optional[Span] = None


@dataclass
class Flag:
    """One of several flags."""

    name: str
    docs: Optional[str] = None
    span: Optional[Span] = None


@dataclass
class EnumCase:
    """A case of an enum."""

    name: str
    docs: Optional[str] = None
    span: Optional[Span] = None


@dataclass
class Record(Tagged, tag="record"):
    """A record."""

    fields: list[Field]


@dataclass
class Resource(Tagged, tag="resource", form="alone-tag"):
    """A resource."""


@dataclass
class Own(Tagged, tag="own", form="field"):
    """`own<T>`, which may also be written `T`: the resource itself."""

    id: TypeId


@dataclass
class Borrow(Tagged, tag="borrow", form="field"):
    """`borrow<T>`: a loan of it."""

    id: TypeId


@dataclass
class Handle(Tagged, tag="handle", form="field"):
    """A handle of a resource."""

    handle: Union[Own, Borrow]


@dataclass
class Flags(Tagged, tag="flags"):
    """Flags."""

    flags: list[Flag]


@dataclass
class Tuple(Tagged, tag="tuple"):
    """A tuple."""

    types: list[Type]


@dataclass
class Variant(Tagged, tag="variant"):
    """A variant."""

    cases: list[Case]


@dataclass
class Enum(Tagged, tag="enum"):
    """An enum."""

    cases: list[EnumCase]


@dataclass
class Option(Tagged, tag="option", form="field"):
    """`option<T>`."""

    type: Type


@dataclass
class Result(Tagged, tag="result"):
    """`result<T, E>`."""

    ok: Optional[Type] = None
    err: Optional[Type] = None


@dataclass
class List(Tagged, tag="list", form="field"):
    """`list<T>`."""

    type: Type


@dataclass
class Map(Tagged, tag="map", form="list"):
    """`map<K, V>`."""

    key: Type
    value: Type


@dataclass
class FixedLengthList(Tagged, tag="fixed-length-list", form="list"):
    """`list<T, N>`."""

    type: Type
    length: int


@dataclass
class Future(Tagged, tag="future", form="field"):
    """`future<T>`."""

    type: Optional[Type] = None


@dataclass
class Stream(Tagged, tag="stream", form="field"):
    """`stream<T>`."""

    type: Optional[Type] = None


@dataclass
class Alias(Tagged, tag="type", form="field"):
    """Another name of a type."""

    type: Type


@dataclass
class Unknown(Tagged, tag="unknown", form="alone-tag"):
    """A type of another package; an unresolved package knows only its name."""


TypeDefKind = Union[
    Record, Resource, Handle, Flags, Tuple, Variant, Enum, Option, Result, List, Map, FixedLengthList, Future, Stream,
    Alias, Unknown,
]  # fmt: skip


@dataclass
class InterfaceOwner(Tagged, tag="interface", form="field"):
    """The interface that lists a type."""

    id: InterfaceId


@dataclass
class WorldOwner(Tagged, tag="world", form="field"):
    """The world that lists a type among its imports."""

    id: WorldId


@dataclass
class TypeDef:
    """A type; one without a name has no owner."""

    name: Optional[str]
    kind: TypeDefKind
    owner: Optional[Union[InterfaceOwner, WorldOwner]]
    docs: Optional[str] = None
    stability: Optional[Stability] = None
    span: Optional[Span] = None
    external_id: Optional[str] = None


# Functions


@dataclass
class Param:
    """A parameter of a function."""

    name: str
    type: Type
    span: Optional[Span] = None


@dataclass
class Function:
    """A function; its kind is a word, as "freestanding", or a dict, as {"async-method": 7}."""

    name: str
    kind: Union[str, dict[str, TypeId]]
    params: list[Param]
    result: Optional[Type] = None
    docs: Optional[str] = None
    stability: Optional[Stability] = None
    span: Optional[Span] = None
    external_id: Optional[str] = None


# Interfaces and worlds


@dataclass
class Interface:
    """An interface; one that a world writes in place has no name."""

    name: Optional[str]
    types: dict[str, TypeId] = field(default_factory=dict)
    functions: dict[str, Function] = field(default_factory=dict)
    docs: Optional[str] = None
    stability: Optional[Stability] = None
    package: Optional[PackageId] = None
    span: Optional[Span] = None


@dataclass
class InterfaceItem(Tagged, tag="interface"):
    """An interface that a world imports or exports."""

    id: InterfaceId
    stability: Optional[Stability] = None
    docs: Optional[str] = None
    span: Optional[Span] = None
    external_id: Optional[str] = None


@dataclass
class FunctionItem(Tagged, tag="function", form="field"):
    """A function of a world itself."""

    function: Function


@dataclass
class TypeItem(Tagged, tag="type"):
    """A type of a world itself."""

    id: TypeId
    span: Optional[Span] = None


# Under "interface-3" is interface 3, under another name a label's item; behind a "%" stands a label that could be taken for
# another name.
WorldItem = Union[InterfaceItem, FunctionItem, TypeItem]


@dataclass
class IncludeName:
    """A label of an included world, and the one that it gets."""

    name: str
    new: str


@dataclass
class WorldInclude:
    """A world that another one includes."""

    id: WorldId
    names: list[IncludeName] = field(default_factory=list)
    stability: Optional[Stability] = None
    span: Optional[Span] = None


@dataclass
class World:
    """A world; one of a graph has no includes."""

    name: str
    imports: dict[str, WorldItem] = field(default_factory=dict)
    exports: dict[str, WorldItem] = field(default_factory=dict)
    includes: list[WorldInclude] = field(default_factory=list)
    docs: Optional[str] = None
    stability: Optional[Stability] = None
    package: Optional[PackageId] = None
    span: Optional[Span] = None


# Packages


@dataclass
class Package:
    """A package of a graph."""

    name: str
    docs: Optional[str] = None
    interfaces: dict[str, InterfaceId] = field(default_factory=dict)
    worlds: dict[str, WorldId] = field(default_factory=dict)


@dataclass
class UnresolvedPackage:
    """A package before its foreign names are looked up: `tools/wit2json.py` writes them; docs/JSON.md has the rest."""

    name: str
    span: Optional[Span] = None
    docs: Optional[str] = None
    worlds: list[World] = field(default_factory=list)
    interfaces: list[Interface] = field(default_factory=list)
    types: list[TypeDef] = field(default_factory=list)
    foreign_deps: dict[str, dict[str, Any]] = field(default_factory=dict)
    foreign_dep_spans: list[Optional[Span]] = field(default_factory=list)
    unknown_type_spans: list[Optional[Span]] = field(default_factory=list)
    required_resources: list[tuple[TypeId, Optional[Span]]] = field(default_factory=list)


@dataclass
class Source:
    """A file."""

    path: str
    text: str


@dataclass(frozen=True)
class Place:
    """A place in a file: the line and the character in it, each from 1."""

    path: str
    line: int
    column: int

    def __str__(self) -> str:
        return f"{self.path}:{self.line}:{self.column}"


@dataclass
class UnresolvedPackageGroup:
    """A package, the packages that are nested in its files, and the files. A span is a range of positions in the files.
    These follow one another, each with one position more than bytes."""

    main: UnresolvedPackage
    nested: list[UnresolvedPackage] = field(default_factory=list)
    sources: list[Source] = field(default_factory=list)


@dataclass
class Graph:
    """A graph, with its features, its rule of tracks and its files: the fields of wit-parser's `Resolve`."""

    worlds: list[World] = field(default_factory=list)
    interfaces: list[Interface] = field(default_factory=list)
    types: list[TypeDef] = field(default_factory=list)
    packages: list[Package] = field(default_factory=list)
    features: list[str] = field(default_factory=list)
    all_features: bool = False
    track_rule: str = "published"  # or "with-prereleases"
    sources: list[Source] = field(default_factory=list)

    @functools.cached_property
    def package_names(self) -> dict[str, PackageId]:
        """The packages by name, made on first use and kept. If you then change `packages`, `del graph.package_names`, so
        that it is made anew."""
        return {it.name: PackageId(n) for n, it in enumerate(self.packages)}

    def id_of(self, id: InterfaceId) -> Optional[str]:
        """The full name of an interface, `namespace:package/name@1.0.0`, if it has one."""
        interface = self.interfaces[id]
        if interface.package is None or interface.name is None:
            return None
        return self.id_of_name(interface.package, interface.name)

    def id_of_name(self, package: PackageId, name: str) -> str:
        """The full name of an interface or a world of a package, `namespace:package/name@1.0.0`."""
        base, at, version = self.packages[package].name.partition("@")
        return f"{base}/{name}{at}{version}"

    def entry_name(self, key: str, item: WorldItem) -> str:
        """What an entry of a world is called: a label, or the full name of an interface."""
        if isinstance(item, InterfaceItem) and key == f"interface-{item.id}":
            return self.id_of(item.id) or key
        return key.removeprefix("%")

    def place_of(self, span: Span) -> Optional[Place]:
        """Where a span begins, as texts of refusals show it; None if no file has it."""
        position = span[0]
        for source in self.sources:
            contents = source.text.encode()
            if position <= len(contents):
                lines = contents[:position].decode(errors="replace").split("\n")
                return Place(source.path, len(lines), len(lines[-1]) + 1)
            position -= len(contents) + 1
        return None

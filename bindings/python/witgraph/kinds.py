"""What went wrong, with the names and the fields of wit-parser's `ResolveErrorKind`."""
from __future__ import annotations

from dataclasses import dataclass
from typing import Any, Optional, Union

from .data import Place, Span, Stability

__all__ = [
    "DuplicatePackage", "ErrorKind", "InterfaceNotFound", "InvalidTransitiveDependency", "ItemShadowing", "OffsetOverflow",
    "OutOfMemory", "PackageCycle", "PackageNotFound", "Semantic", "StabilityMismatch", "WayStep", "WorldNotFound",
]  # fmt: skip


@dataclass
class PackageNotFound:
    """A package depends on one that isn't known."""

    requested: str
    known: list[str]


@dataclass
class WorldNotFound:
    """A package depends on a world that the other package lacks."""

    requested: str
    package: str


@dataclass
class InterfaceNotFound:
    """A package depends on an interface that the other package lacks."""

    requested: str
    package: str


@dataclass
class InvalidTransitiveDependency:
    """A world would export an interface over an import that depends on an export."""

    name: str


@dataclass
class DuplicatePackage:
    """Two packages have one name."""

    name: str
    span1: Optional[Span]
    span2: Optional[Span]


@dataclass
class PackageCycle:
    """A package depends on itself."""

    package: str


@dataclass
class ItemShadowing:
    """An included world has an item whose label is taken: an `import` or an `export`."""

    item_type: str
    name: str


@dataclass
class StabilityMismatch:
    """Two gates of one item differ."""

    from_: Optional[Stability]
    into: Optional[Stability]


@dataclass
class Semantic:
    """Anything else, with a message and the error's cause."""

    message: str


@dataclass
class OffsetOverflow:
    """A position would be too large."""


@dataclass
class OutOfMemory:
    """Memory was refused."""


ErrorKind = Union[
    PackageNotFound, WorldNotFound, InterfaceNotFound, InvalidTransitiveDependency, DuplicatePackage, PackageCycle,
    ItemShadowing, StabilityMismatch, Semantic, OffsetOverflow, OutOfMemory,
]  # fmt: skip

# by their numbers; all others are `Semantic`
KINDS: dict[int, type[Any]] = {
    1: PackageNotFound,
    2: WorldNotFound,
    3: InterfaceNotFound,
    4: InvalidTransitiveDependency,
    5: DuplicatePackage,
    6: PackageCycle,
    7: ItemShadowing,
    8: StabilityMismatch,
    27: OffsetOverflow,
    28: OutOfMemory,
}


@dataclass
class WayStep:
    """A step of the way of a refusal: what leads to what, and where, if a line says it."""

    from_: str
    to: str
    place: Optional[Place] = None

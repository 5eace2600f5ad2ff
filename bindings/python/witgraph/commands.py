"""The commands, each with its reply in replies.py."""
from __future__ import annotations

from dataclasses import dataclass, field
from typing import Any, Optional, Union

from .data import Tagged, UnresolvedPackageGroup

__all__ = [
    "AddFeature", "AnyCommand", "CanonicalId", "Command", "CoreNamesOf", "Exportize", "FuturesAndStreams", "Importize",
    "InterfaceDependencies", "MergeGraph", "PackageDependencies", "PackageOrder", "PushGroups", "Select", "Semver",
    "SetAllFeatures", "SetTrackRule",
]  # fmt: skip


@dataclass
class AddFeature(Tagged, tag="add-feature", form="field"):
    """Turns a feature on: `Done`."""

    name: str


@dataclass
class SetAllFeatures(Tagged, tag="set-all-features", form="field"):
    """Turns all features on, or off except those that were added: `Done`."""

    all: bool


@dataclass
class SetTrackRule(Tagged, tag="set-track-rule", form="field"):
    """Says which versions share a track: `Done`."""

    rule: str  # "published" or "with-prereleases"


@dataclass
class PushGroups(Tagged, tag="push-groups"):
    """Adds groups of packages, all or none: `Pushed`."""

    main: UnresolvedPackageGroup
    deps: list[UnresolvedPackageGroup] = field(default_factory=list)


@dataclass
class MergeGraph(Tagged, tag="merge", form="field"):
    """Carries out commands on an empty graph, and merges that into this one: `Merge`."""

    commands: list[Any]


@dataclass
class Importize(Tagged, tag="importize"):
    """Makes the exports of a world its imports: `Done`, `NoWorld` or `NoPackage`."""

    package: str
    world: str
    out: Optional[str] = None


@dataclass
class Exportize(Tagged, tag="exportize"):
    """Makes imports of a world its exports: `Done`, `NoWorld` or `NoPackage`."""

    package: str
    world: str
    out: Optional[str] = None
    keys: Optional[list[str]] = None


@dataclass
class Semver(Tagged, tag="semver"):
    """Keeps only the newest version on each track among a world's imports: `Done`, `NoWorld` or `NoPackage`."""

    package: str
    world: str


@dataclass
class Select(Tagged, tag="select"):
    """Finds the world that a name chooses among main packages: `WorldReply`."""

    packages: list[str]
    world: Optional[str] = None


@dataclass
class PackageDependencies(Tagged, tag="package-dependencies"):
    """The packages on which a package depends directly: `Packages`."""

    package: str


@dataclass
class InterfaceDependencies(Tagged, tag="interface-dependencies"):
    """The interfaces on which an interface depends directly: `Interfaces`."""

    package: str
    interface: str


@dataclass
class PackageOrder(Tagged, tag="package-order", form="alone-tag"):
    """All packages, each after its dependencies: `Packages`."""


@dataclass
class CanonicalId(Tagged, tag="canonical-id"):
    """The id of an interface or a world, with its track in the place of the version: `Text`."""

    package: str
    name: str


@dataclass
class CoreNamesOf(Tagged, tag="core-names"):
    """The core wasm names of what a world imports and exports: `CoreNames`."""

    package: str
    world: str
    mangling: str  # "standard32", "legacy-sync", "legacy-async-callback" or "legacy-async-stackful"


@dataclass
class FuturesAndStreams(Tagged, tag="futures-and-streams", form="field"):
    """The futures and streams of a function: `Types`."""

    place: dict[str, dict[str, str]]  # {"import": {"package": .., "name": .., "function": ..}}


Command = Union[
    AddFeature, SetAllFeatures, SetTrackRule, PushGroups, MergeGraph, Importize, Exportize, Semver, Select,
    PackageDependencies, InterfaceDependencies, PackageOrder, CanonicalId, CoreNamesOf, FuturesAndStreams,
]  # fmt: skip
# one of the classes here, or what docs/JSON.md says of a command
AnyCommand = Union[Command, dict[str, Any], str]

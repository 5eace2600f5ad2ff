"""The replies to commands, and what comes out of a run."""
from __future__ import annotations

from dataclasses import dataclass, field
from typing import Any, Optional, TypeVar, Union, overload

from .data import InterfaceId, PackageId, Graph, Place, Span, Tagged, TypeId, WorldId
from .errors import Refusal, ShapeFault
from .kinds import ErrorKind, WayStep

__all__ = [
    "CoreExport", "CoreImport", "CoreNames", "Done", "Interfaces", "Merge", "Merged", "NoPackage", "NotFound", "NotShaped",
    "NoWorld", "Packages", "Plain", "Pushed", "Refused", "RefusedError", "Reply", "Run", "Text", "Types", "WorldReply",
    "accepted",
]  # fmt: skip


@dataclass
class Done(Tagged, tag="done", form="tag-or-object"):
    """The command is carried out, on this world if it changes one. No import had the keys that are `unmatched`."""

    world: Optional[WorldId] = None
    unmatched: list[str] = field(default_factory=list)


@dataclass
class NoPackage(Tagged, tag="no-package", form="alone-tag"):
    """There is no such package."""


@dataclass
class NoWorld(Tagged, tag="no-world", form="alone-tag"):
    """The package has no such world."""


@dataclass
class NotFound(Tagged, tag="not-found", form="alone-tag"):
    """The graph lacks what a question names."""


@dataclass
class NotShaped(Tagged, tag="not-shaped"):
    """A package lacks its shape, so nothing is added: the first such package, and its first fault."""

    path: list[Union[str, int]]
    clause: str
    place: str
    text: str

    @property
    def fault(self) -> ShapeFault:
        return ShapeFault(self.path, self.clause, self.place, self.text)


@dataclass
class Pushed(Tagged, tag="pushed", form="field"):
    """The main package that was added."""

    id: PackageId


@dataclass
class Merged(Tagged, tag="merged"):
    """The new id of each thing of the other graph, at the place of its old one."""

    types: list[Optional[TypeId]]
    interfaces: list[Optional[InterfaceId]]
    worlds: list[Optional[WorldId]]
    packages: list[PackageId]


@dataclass
class RefusedError:
    """Why a command is refused."""

    number: int
    cause: str
    text: str
    span: Optional[Span] = None


@dataclass
class Refused(Tagged, tag="refused"):
    """Nothing but the list of files has changed."""

    error: RefusedError
    fields: ErrorKind
    places: list[Place]
    way: list[WayStep]
    rendered: str
    nearest: Optional[str] = None

    @property
    def refusal(self) -> Refusal:
        it = self.error
        told = (self.fields, self.places, self.way, self.rendered, self.nearest)
        return Refusal(it.number, it.cause, it.text, it.span, *told)


@dataclass
class WorldReply(Tagged, tag="world", form="field"):
    """A world."""

    id: WorldId


@dataclass
class Packages(Tagged, tag="packages", form="field"):
    """Packages."""

    ids: list[PackageId]


@dataclass
class Interfaces(Tagged, tag="interfaces", form="field"):
    """Interfaces."""

    ids: list[InterfaceId]


@dataclass
class Types(Tagged, tag="types", form="field"):
    """Types."""

    ids: list[TypeId]


@dataclass
class Text(Tagged, tag="text", form="field"):
    """A text."""

    text: str


@dataclass
class CoreImport:
    """A function that a world imports, with the module and the name under which core wasm imports it."""

    interface: Optional[str]
    function: str
    module: str
    field: str


@dataclass
class CoreExport:
    """A function that a world exports, with the name under which core wasm exports it."""

    interface: Optional[str]
    function: str
    name: str


@dataclass
class CoreNames(Tagged, tag="core-names"):
    """The functions that a world imports and exports, with their names in core wasm."""

    imports: list[CoreImport]
    exports: list[CoreExport]


Plain = Union[
    Done, NoPackage, NoWorld, NotFound, NotShaped, Pushed, Merged, Refused, WorldReply, Packages, Interfaces, Types, Text,
    CoreNames,
]  # fmt: skip


@dataclass
class Merge(Tagged, tag="merge"):
    """The replies to the commands of another graph, and the one to its merge."""

    replies: list[Plain]
    reply: Plain


Reply = Union[Plain, Merge]


T = TypeVar("T")


@overload
def accepted(reply: Reply) -> Plain: ...


@overload
def accepted(reply: Reply, kind: type[T]) -> T: ...


def accepted(reply: Reply, kind: Optional[type[Any]] = None) -> Any:
    """The reply, or for a merge the reply to the merge itself. Raises it if it is a `Refusal` or a `ShapeFault`, and a
    `TypeError` if a kind of reply is given and it is of another one."""
    if isinstance(reply, Merge):
        reply = reply.reply
    if isinstance(reply, Refused):
        raise reply.refusal
    if isinstance(reply, NotShaped):
        raise reply.fault
    if kind is not None and not isinstance(reply, kind):
        raise TypeError(f"expected {kind.__name__}, found {reply}")
    return reply


@dataclass
class Run:
    """What comes out of commands: a reply for each, and the graph."""

    replies: list[Reply]
    graph: Graph

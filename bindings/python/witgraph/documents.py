"""Data as JSON (docs/JSON.md), and back: commands, replies, graphs and whole documents."""
from __future__ import annotations

import copy
import functools
import json
import typing
from collections.abc import Iterable
from dataclasses import MISSING, fields, is_dataclass
from typing import Any, Optional, Union

from .commands import AnyCommand
from .data import (
    Enum, Flags, Function, FunctionItem, Graph, IncludeName, Interface, InterfaceItem, Package, Record, Source, Span,
    TypeDef, TypeId, TypeItem, Variant, World,
)  # fmt: skip
from .errors import Fault, Unreadable
from .kinds import KINDS, Semantic
from .replies import Refused, Reply, Run

__all__ = ["document_of", "from_json", "graph_of", "run_of", "to_json", "whole_of"]

# What is left out where it is None; all else is written as null.
OPTIONAL = {"docs", "stability", "span", "external_id", "result", "package", "world", "out", "keys", "deprecated", "place"}


def member_name(cls: type, name: str) -> str:
    """The name of a field in JSON. A field that Python reserves has a `_` behind it."""
    return "as" if cls is IncludeName and name == "new" else name.rstrip("_").replace("_", "-")


def to_json(value: Any) -> Any:
    """A value as JSON's own."""
    if is_dataclass(value):
        form, tag = getattr(value, "form", None), getattr(value, "tag", None)
        parts = [getattr(value, it.name) for it in fields(value)]
        if form == "alone-tag":
            return tag
        if form == "field":
            return {tag: to_json(parts[0])}
        if form == "list":
            return {tag: [to_json(it) for it in parts]}
        members = object_of(value)
        if form == "tag-or-object" and not members:
            return tag
        return {tag: members} if tag else members
    if isinstance(value, dict):
        return {name: to_json(it) for name, it in value.items()}
    return [to_json(it) for it in value] if isinstance(value, (list, tuple)) else value


def object_of(value: Any) -> dict[str, Any]:
    """The members of what is written as an object."""
    made: dict[str, Any] = {}
    for it in fields(value):
        part = getattr(value, it.name)
        if (part is None and it.name in OPTIONAL) or (it.name == "unmatched" and not part):
            continue
        written = {"contents": part} if it.name == "docs" else to_json(part)
        made[member_name(type(value), it.name)] = written
    return made


@functools.cache
def hints_of(cls: type) -> dict[str, Any]:
    return typing.get_type_hints(cls)


def hint_of(cls: type, name: str, members: dict[str, Any]) -> Any:
    """The type of a member. The number of a refused error says which fields it has."""
    if cls is Refused and name == "fields":
        return KINDS.get(members["error"]["number"], Semantic)
    return hints_of(cls)[name]


def from_json(hint: Any, value: Any) -> Any:
    """The value of a type that a value of JSON stands for."""
    origin = typing.get_origin(hint)
    if origin is Union:
        return read_union(typing.get_args(hint), value)
    if origin is list:
        (item,) = typing.get_args(hint)
        return [from_json(item, it) for it in expect(list, value)]
    if origin is tuple:
        return tuple(from_json(item, it) for item, it in zip(typing.get_args(hint), expect(list, value)))
    if origin is dict:
        _, item = typing.get_args(hint)
        return {name: from_json(item, it) for name, it in expect(dict, value).items()}
    if is_dataclass(hint):
        return read_class(hint, value)
    return value if hint is Any else expect(getattr(hint, "__supertype__", hint), value)


def expect(cls: Any, value: Any) -> Any:
    if not isinstance(value, cls) or (cls is int and isinstance(value, bool)):
        raise Unreadable(f"expected {cls.__name__}, found {json.dumps(value)[:60]}")
    return value


def tag_of(value: Any) -> Optional[str]:
    """The tag of a value, if it has one: the text that it is, or the first name of an object."""
    if isinstance(value, dict):
        return next(iter(value), None)
    return value if isinstance(value, str) else None


def read_union(choices: tuple[Any, ...], value: Any) -> Any:
    """A value of the one of several types that its tag chooses, or else its form."""
    if value is None and type(None) in choices:
        return None
    tag = tag_of(value)
    for it in choices:
        if hasattr(it, "tag") and it.tag == tag:
            return read_class(it, value)
    for it in choices:
        if not hasattr(it, "tag") and it is not type(None):
            plain = typing.get_origin(it) or getattr(it, "__supertype__", it)
            if isinstance(value, list if plain is tuple else dict if is_dataclass(plain) else plain):
                return from_json(it, value)
    raise Unreadable(f"expected another form, found {json.dumps(value)[:60]}")


def read_class(cls: Any, value: Any) -> Any:
    tag, form = getattr(cls, "tag", None), getattr(cls, "form", "object")
    if form == "alone-tag" or (form == "tag-or-object" and value == tag):
        return cls()
    content = expect(dict, value)[tag] if tag else value
    names = [it.name for it in fields(cls)]
    if form == "field":
        return cls(from_json(hints_of(cls)[names[0]], content))
    if form == "list":
        return cls(*(from_json(hints_of(cls)[name], it) for name, it in zip(names, expect(list, content))))
    if cls is TypeItem and isinstance(content, int):
        return TypeItem(TypeId(content))
    return read_object(cls, expect(dict, content))


def read_object(cls: Any, members: dict[str, Any]) -> Any:
    parts = {}
    for it in fields(cls):
        name = member_name(cls, it.name)
        if name in members:
            part = members[name]
            parts[it.name] = part["contents"] if it.name == "docs" else from_json(hint_of(cls, it.name, members), part)
        elif it.default is MISSING and it.default_factory is MISSING:
            raise Unreadable(f"{cls.__name__} lacks `{name}`")
    return cls(**parts)


def graph_of(whole: dict[str, Any]) -> Graph:
    """The graph of a member `resolve`, with what stands beside it put where it belongs. All but `graph` may be
    missing."""
    graph, details = whole["graph"], whole.get("details", {})
    features = whole.get("features", {"all": False, "names": []})
    made = Graph(
        worlds=from_json(list[World], graph["worlds"]),
        interfaces=from_json(list[Interface], graph["interfaces"]),
        types=from_json(list[TypeDef], graph["types"]),
        packages=from_json(list[Package], graph["packages"]),
        features=features["names"],
        all_features=features["all"],
        track_rule=whole.get("track-rule", "published"),
        sources=from_json(list[Source], whole.get("sources", [])),
    )
    for world, more in zip(made.worlds, details.get("worlds", [])):
        world.span = span_of(more)
        for entries, of in ((world.imports, more["imports"]), (world.exports, more["exports"])):
            for key, item in entries.items():
                add_details(item.function if isinstance(item, FunctionItem) else item, of[key])
    for interface, more in zip(made.interfaces, details.get("interfaces", [])):
        interface.span = span_of(more)
        for name, function in interface.functions.items():
            add_details(function, more["functions"][name])
    for ty, more in zip(made.types, details.get("types", [])):
        add_details(ty, more)
    return made


def span_of(more: dict[str, Any]) -> Optional[Span]:
    return as_span(more.get("span"))


def as_span(value: Optional[list[int]]) -> Optional[Span]:
    return (value[0], value[1]) if value else None


def add_details(thing: Any, more: dict[str, Any]) -> None:
    thing.span = span_of(more)
    if not isinstance(thing, TypeItem):
        thing.external_id = more.get("external-id")
    if isinstance(thing, InterfaceItem):
        thing.docs = more.get("docs", {}).get("contents")
    parts = thing.params if isinstance(thing, Function) else parts_of(thing)
    for part, span in zip(parts, more.get("params", more.get("parts", []))):
        part.span = as_span(span)


def parts_of(thing: Any) -> list[Any]:
    kind: Any = getattr(thing, "kind", None)
    if isinstance(kind, (Variant, Enum)):
        return list(kind.cases)
    if isinstance(kind, Record):
        return list(kind.fields)
    return list(kind.flags) if isinstance(kind, Flags) else []


def whole_of(graph: Graph) -> dict[str, Any]:
    """A graph as the member `resolve` of what comes out: in the layout of `wasm-tools component wit --json`, with what that
    leaves out beside it."""
    made = {name: to_json(getattr(graph, name)) for name in ("worlds", "interfaces", "types", "packages")}
    return {
        "graph": made,
        "details": {
            "worlds": [take_world(it) for it in made["worlds"]],
            "interfaces": [take_functions(it) | taken(it) for it in made["interfaces"]],
            "types": [take_parts(it) | taken(it) for it in made["types"]],
        },
        "features": {"all": graph.all_features, "names": graph.features},
        "track-rule": graph.track_rule,
        "sources": to_json(graph.sources),
    }


def taken(thing: dict[str, Any], *names: str) -> dict[str, Any]:
    """Takes away the members that the layout leaves out, and gives them."""
    return {name: thing.pop(name) for name in ("span", "external-id", *names) if name in thing}


def take_world(world: dict[str, Any]) -> dict[str, Any]:
    del world["includes"]
    sides = {side: {key: take_item(item) for key, item in world[side].items()} for side in ("imports", "exports")}
    return sides | taken(world)


def take_item(item: dict[str, Any]) -> dict[str, Any]:
    if "function" in item:
        return take_params(item["function"])
    if "interface" in item:
        return taken(item["interface"], "docs")
    more = taken(item["type"])
    item["type"] = item["type"]["id"]
    return more


def take_functions(interface: dict[str, Any]) -> dict[str, Any]:
    return {"functions": {name: take_params(it) for name, it in interface["functions"].items()}}


def take_params(function: dict[str, Any]) -> dict[str, Any]:
    return {"params": [it.pop("span", None) for it in function["params"]]} | taken(function)


def take_parts(ty: dict[str, Any]) -> dict[str, Any]:
    kind = ty["kind"]
    word = next(iter(kind)) if isinstance(kind, dict) else kind
    if word not in ("record", "variant", "enum", "flags"):
        return {}
    (parts,) = kind[word].values()
    return {"parts": [it.pop("span", None) for it in parts]}


def text_of(value: Any) -> str:
    return json.dumps(value, ensure_ascii=False, separators=(",", ":"))


def document_of(commands: Iterable[AnyCommand], graph: Optional[Graph] = None) -> bytes:
    """The document of commands on a graph, as `witgraph_json` reads it. Without a graph, the commands are for an empty
    one, or one that stays."""
    begin = "" if graph is None else f'"resolve":{text_of(whole_of(graph))},'
    return f'{{{begin}"commands":{text_of(to_json(list(commands)))}}}'.encode()


def object_with_names(members: list[tuple[str, Any]]) -> dict[str, Any]:
    """An object. Raises `Unreadable` if a name stands twice."""
    made = dict(members)
    if len(made) != len(members):
        names = [name for name, _ in members]
        raise Unreadable(f"two members are called {next(it for it in names if names.count(it) > 1)}")
    return made


def fault_of(value: dict[str, Any]) -> Fault:
    names = ("path", "offset", "line", "column", "expected", "clause", "message")
    return Fault(*(value["fault"].get(it) for it in names))


def run_of(output: Union[str, bytes]) -> Run:
    """The run that an output tells. Raises a `Fault` if it tells one."""
    value = json.loads(output, object_pairs_hook=object_with_names)
    if "fault" in value:
        raise fault_of(value)
    return Run([from_json(Reply, it) for it in value["replies"]], graph_of(value["resolve"]))


def replies_of(output: bytes) -> list[Reply]:
    """The replies to commands on a graph that stays. Raises a `Fault` if the output tells one."""
    value = json.loads(output)
    if "fault" in value:
        raise fault_of(value)
    return [from_json(Reply, it) for it in value["replies"]]


def graph_of_text(resolve: bytes) -> Graph:
    return graph_of(json.loads(resolve, object_pairs_hook=object_with_names))


def take_news(graph: Graph, text: bytes) -> bool:
    """Puts what is new of a graph into its data: each list goes on at an index. Answers whether that changes them."""
    news = json.loads(text, object_pairs_hook=object_with_names)
    new, is_changed = graph_of(news), False
    for name, begin in news["from"].items():
        kept, more = getattr(graph, name), getattr(new, name)
        if kept[begin:] != more:
            kept[begin:] = more
            is_changed = True
    for name in ("features", "all_features", "track_rule"):
        if getattr(graph, name) != getattr(new, name):
            setattr(graph, name, getattr(new, name))
            is_changed = True
    return is_changed


def copy_of(graph: Graph) -> Graph:
    """The graph, with lists of its own of the same things."""
    return Graph(**{it.name: copy.copy(getattr(graph, it.name)) for it in fields(graph)})

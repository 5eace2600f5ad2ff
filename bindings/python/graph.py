#!/usr/bin/env python3
"""Carries out a document of commands from standard input, as tools/wit2json.py makes it from WIT. Then prints what each
world of the graph imports and exports, and the types and functions of each interface.

    tools/wit2json.py examples/wasi/wit/0.2.0/*.wit | python3 bindings/python/graph.py
"""
import json
import sys
from collections.abc import Iterable, Iterator
from typing import Optional, Union

import witgraph as wg


class Shown:
    """The texts of a graph."""

    def __init__(self, graph: wg.Graph) -> None:
        self.graph = graph

    def lines(self) -> Iterator[str]:
        for world in self.graph.worlds:
            yield f"world {self.world_name(world)}"
            for word, entries in (("import", world.imports), ("export", world.exports)):
                yield from (f"  {word} {self.graph.entry_name(*it)}" for it in entries.items())
        for index, interface in enumerate(self.graph.interfaces):
            yield f"interface {self.graph.id_of(wg.InterfaceId(index)) or ''}"
            yield from (f"  type {name}: {self.definition(self.graph.types[it])}" for name, it in interface.types.items())
            yield from (f"  {self.signature(it)}" for it in interface.functions.values())

    def world_name(self, world: wg.World) -> str:
        return world.name if world.package is None else self.graph.id_of_name(world.package, world.name)

    def signature(self, function: wg.Function) -> str:
        result = f" -> {self.type(function.result)}" if function.result is not None else ""
        return f"{function.name}: func({self.named(function.params)}){result}"

    def named(self, parts: Iterable[Union[wg.Param, wg.Field]]) -> str:
        return ", ".join(f"{it.name}: {self.type(it.type)}" for it in parts)

    def definition(self, ty: wg.TypeDef) -> str:
        """What a type with a name is."""
        match ty.kind:
            case wg.Record(fields):
                return f"record {{ {self.named(fields)} }}"
            case wg.Variant(cases):
                texts = (it.name + (f"({self.type(it.type)})" if it.type is not None else "") for it in cases)
                return f"variant {{ {', '.join(texts)} }}"
            case wg.Enum(cases):
                return f"enum {{ {', '.join(it.name for it in cases)} }}"
            case wg.Flags(flags):
                return f"flags {{ {', '.join(it.name for it in flags)} }}"
            case wg.Resource():
                return "resource"
        return self.form(ty.kind)

    def type(self, ty: Optional[wg.Type]) -> str:
        """A type where it is used: its name, or what it is."""
        if not isinstance(ty, int):
            return ty or "_"
        named = self.graph.types[ty]
        return named.name or self.form(named.kind)

    def form(self, kind: wg.TypeDefKind) -> str:
        """A type without a name."""
        match kind:
            case wg.Alias(ty) | wg.Handle(wg.Own(ty)):
                return self.type(ty)
            case wg.Handle(wg.Borrow(ty)):
                return f"borrow<{self.type(ty)}>"
            case wg.Tuple(types):
                return f"tuple<{', '.join(map(self.type, types))}>"
            case wg.Result(ok, err):
                return f"result<{self.type(ok)}, {self.type(err)}>"
            case wg.Map(key, value):
                return f"map<{self.type(key)}, {self.type(value)}>"
            case wg.FixedLengthList(ty, length):
                return f"list<{self.type(ty)}, {length}>"
            case wg.Option(ty) | wg.List(ty) | wg.Future(ty) | wg.Stream(ty):
                return f"{kind.tag}<{self.type(ty)}>"
        return kind.tag


def main() -> None:
    document = json.load(sys.stdin)
    begin = wg.graph_of(document["resolve"]) if "resolve" in document else None
    run = wg.run(document["commands"], begin)
    for reply in run.replies:
        wg.accepted(reply)
    print("\n".join(Shown(run.graph).lines()))


if __name__ == "__main__":
    main()

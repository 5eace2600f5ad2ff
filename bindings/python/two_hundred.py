#!/usr/bin/env python3
"""Links 200 packages one by one on a graph that stays. Each uses a type of the one before it. Prints each with its function
and how many interfaces its world imports.

    WITGRAPH_SHARED=bindings/python/witgraph/libwitgraph.so python3 bindings/python/two_hundred.py
"""
from collections.abc import Iterator
from typing import Any, Optional

import witgraph as wg

PACKAGES = 200


def push(number: int) -> wg.PushGroups:
    """A package with an interface `types`, whose type `t` is that of the package before, and a world that imports it."""
    interfaces: list[wg.Interface] = []
    types: list[wg.TypeDef] = []
    foreign: dict[str, dict[str, Any]] = {}
    if number:
        interfaces.append(wg.Interface("types", {"t": wg.TypeId(0)}))
        types.append(wg.TypeDef("t", wg.Unknown(), wg.InterfaceOwner(wg.InterfaceId(0))))
        foreign[f"chain:p{number - 1}"] = {"types": (wg.InterfaceOwner(wg.InterfaceId(0)), [None])}
    own, t = wg.InterfaceId(len(interfaces)), wg.TypeId(len(types))
    turn = wg.Function("turn", "freestanding", [wg.Param("it", t)], t)
    interfaces.append(wg.Interface("types", {"t": t}, {"turn": turn}))
    types.append(wg.TypeDef("t", wg.Alias(wg.TypeId(0) if number else "u32"), wg.InterfaceOwner(own)))
    world = wg.World("w", {f"interface-{own}": wg.InterfaceItem(own)})
    spans: list[Optional[wg.Span]] = [None] * len(foreign)
    package = wg.UnresolvedPackage(
        f"chain:p{number}",
        worlds=[world],
        interfaces=interfaces,
        types=types,
        foreign_deps=foreign,
        foreign_dep_spans=spans,
        unknown_type_spans=spans,
    )
    return wg.PushGroups(wg.UnresolvedPackageGroup(package))


def linked() -> wg.Resolve:
    resolve = wg.Resolve()
    for number in range(PACKAGES):
        (reply,) = resolve.apply([push(number)])
        wg.accepted(reply, wg.Pushed)
    return resolve


def lines(graph: wg.Graph) -> Iterator[str]:
    def type_name(ty: Optional[wg.Type]) -> str:
        return str(graph.types[ty].name if isinstance(ty, int) else ty)

    for package in graph.packages:
        turn = graph.interfaces[package.interfaces["types"]].functions["turn"]
        params = ", ".join(f"{it.name}: {type_name(it.type)}" for it in turn.params)
        imports = len(graph.worlds[package.worlds["w"]].imports)
        yield f"{package.name}/types {turn.name}: func({params}) -> {type_name(turn.result)}; w imports {imports}"


if __name__ == "__main__":
    print("\n".join(lines(linked().graph)))

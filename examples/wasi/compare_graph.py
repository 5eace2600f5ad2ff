#!/usr/bin/env python3
"""Compares a graph that came out of witgraph_json with the texts in `wit`, or with the published packages as an object
file carries them: all types, functions and parameters.

    tools/wit2json.py examples/wasi/wit/0.2.?/*.wit | PATH/TO/witgraph_json | examples/wasi/compare_graph.py WHAT..

Each WHAT is a version, as 0.2.0, or the path of an object (compare_object.py tells where one is). Of each interface there
its uses, its types with all their parts, and its functions with their parameters and results are written from the graph,
and from the text or the object by way of compare_object.py; of an object's world also what it imports and exports, in
order. What differs is shown as `diff` does, the graph last, and the status is 1 then. What a feature gates is left out;
functions of resources are compared before all others, wherever a text has them.
"""
import json
import os
import sys

from compare_object import differs, texts_of, world_of


class Graph:
    def __init__(self, graph):
        self.graph, self.types = graph, graph["types"]

    def name_of(self, interface):
        package, at, version = self.graph["packages"][interface["package"]]["name"].partition("@")
        return f"{package}/{interface['name']}{at}{version}"

    def type(self, ty):
        """The text of a type that something refers to."""
        if ty is None or isinstance(ty, str):
            return ty or "_"
        made = self.types[ty]
        return made["name"] or self.form(made["kind"])

    def form(self, kind):
        """The text of a type without a name."""
        ((word, parts),) = kind.items()
        if word == "handle":
            ((handle, id),) = parts.items()
            return self.type(id) if handle == "own" else f"borrow<{self.type(id)}>"
        if word == "result":
            ok, err = parts["ok"], parts["err"]
            inner = [self.type(ok), self.type(err)] if err is not None else [self.type(ok)] if ok is not None else []
        else:
            inner = [self.type(it) for it in (parts["types"] if word == "tuple" else [parts])]
        return f"{word}<{', '.join(inner)}>" if inner else word

    def definition(self, name, id):
        kind = self.types[id]["kind"]
        if kind == "resource":
            return f"resource {name}"
        ((word, parts),) = kind.items()
        if word == "type":
            return f"type {name} = {self.aliased(id, parts)}"
        if word not in ("record", "variant", "enum", "flags"):
            return f"type {name} = {self.form(kind)}"
        (parts,) = parts.values()
        typed = "{}: {}" if word == "record" else "{}({})"
        texts = [(it["name"], self.type(it["type"]) if it.get("type") is not None else None) for it in parts]
        shown = ", ".join(typed.format(*it) if it[1] else it[0] for it in texts)
        return f"type {name} = {word} {{{shown}}}"

    def aliased(self, id, target):
        """The text behind another name of a type: of another interface with its name."""
        if isinstance(target, int) and self.types[target]["owner"] != self.types[id]["owner"]:
            owner = self.graph["interfaces"][self.types[target]["owner"]["interface"]]
            return f"{self.name_of(owner)}.{{{self.types[target]['name']}}}"
        return self.type(target)

    def function(self, it):
        parameters = ", ".join(f"{param['name']}: {self.type(param['type'])}" for param in it["params"])
        return f"{it['name']}: func({parameters})" + (f" -> {self.type(it['result'])}" if "result" in it else "")

    def entries(self, world):
        """What a world imports and exports, in order."""
        sides = (("import", world["imports"]), ("export", world["exports"]))
        return [f"{word} {self.entry(*it)}" for word, entries in sides for it in entries.items()]

    def entry(self, key, item):
        id = item.get("interface", {}).get("id")
        return self.name_of(self.graph["interfaces"][id]) if key == f"interface-{id}" else key

    def lines(self, interface):
        functions = sorted(interface["functions"].values(), key=lambda it: not it["name"].startswith("["))
        definitions = [self.definition(name, id) for name, id in interface["types"].items()]
        return [*definitions, *map(self.function, functions)]


def found_there(what):
    """The lines of each interface and world, of a version's texts or of an object."""
    if not os.path.isfile(what):
        return texts_of(what)
    world, entries = world_of(what)
    found = {name: scope.entries for _, name, scope in entries}
    return found | {world: [f"{word} {name}" for word, name, _ in entries]}


def main(*asked):
    graph = Graph(json.load(sys.stdin)["resolve"]["graph"])
    found = {graph.name_of(it): graph.lines(it) for it in graph.graph["interfaces"] if it["name"]}
    found |= {graph.name_of(it): graph.entries(it) for it in graph.graph["worlds"]}
    count = lines = 0
    for what in asked:
        there = found_there(what)
        for name, text in there.items():
            count += differs(name, text, found.get(name, []))
            lines += len(text)
        print(f"{what}: {len(there)} interfaces and worlds")
    print(f"{lines} types, functions and entries, {count} interfaces and worlds differ")
    return 1 if count else 0


if __name__ == "__main__":
    sys.exit(main(*sys.argv[1:]) if len(sys.argv) > 1 else __doc__)

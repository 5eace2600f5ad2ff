#!/usr/bin/env python3
"""The graphs of the worked scripts, made by the model of the rules (check/model) and compared in all data.

    python3 check/worked_graphs.py                            # what is stored is what the model makes
    python3 check/worked_graphs.py --program WITGRAPH_JSON    # what the program gives is, too
    python3 check/worked_graphs.py --make                     # stores what the model makes
    python3 check/worked_graphs.py --program WITGRAPH_JSON --random [--first N] [--many N]

A graph is that at the end of a script, as it stands under `resolve` of the document that comes out (docs/JSON.md): worlds,
interfaces, types and packages at their ids, with spans, gates, features, the rule of tracks and files. The program is given
the script as a document (check/script_documents.py). Its graph has to have the same text, so nothing is free, no number and
no order of a table. Scripts have no docs, no external ids, no interfaces without a name, and of types those that
docs/SCRIPT.md lists; so of others nothing is asked. A script that isn't understood has no graph.

`check/worked_graphs.txt` has the graphs without their files. The last form asks the program of random scripts. Ends with
status 1 where something differs.
"""
import argparse
import json
import os
import sys
from itertools import zip_longest

CHECK = os.path.dirname(os.path.abspath(__file__))
STORED = os.path.join(CHECK, "worked_graphs.txt")
CASES = os.path.join(CHECK, "..", "crates", "test_cases", "stdin")
BEGIN = "Graphs of worked scripts, written by check/worked_graphs.py --make."

import compare  # noqa: E402
import script_documents as documents  # noqa: E402
from model import data  # noqa: E402
from model.labels import groups_of  # noqa: E402
from model.scripts import Rules, Session  # noqa: E402


class Places:
    """Where the files of a graph begin, one behind another with one position between."""

    def __init__(self, files):
        self.begins, end = {}, 0
        for it in files:
            self.begins[id(it)] = end
            end += len(it.text) + 1

    def span(self, thing):
        """A member with the span of a thing, none where it has none."""
        if thing.span is None:
            return {}
        file, *positions = thing.span
        return {"span": [self.begins[id(file)] + it for it in positions]}


class Written:
    """A graph of the model as it is written."""

    def __init__(self, graph):
        self.graph, self.places = graph, Places(graph.files)
        lists = graph.types, graph.interfaces, graph.worlds
        self.ids = {id(it): at for of in lists for at, it in enumerate(of)}
        self.packages = {it.name.key: at for at, it in enumerate(graph.packages)}

    def id(self, thing):
        return self.ids[id(thing)]

    def resolve(self):
        graph = self.graph
        return {
            "graph": {
                "worlds": [self.world(it) for it in graph.worlds],
                "interfaces": [self.interface(it) for it in graph.interfaces],
                "types": [self.type(it) for it in graph.types],
                "packages": [self.package(it) for it in graph.packages],
            },
            "details": {
                "worlds": [self.world_details(it) for it in graph.worlds],
                "interfaces": [self.interface_details(it) for it in graph.interfaces],
                "types": [self.type_details(it) for it in graph.types],
            },
            "features": {"all": graph.all_features, "names": list(graph.features)},
            "track-rule": graph.tracks,
            "sources": [{"path": it.path, "text": it.text.decode()} for it in graph.files],
        }

    # the layout

    def world(self, it):
        sides = {f"{side}s": self.entries(entries) for side, entries in it.lists()}
        return documents.gated({"name": it.name} | sides | {"package": self.packages[it.package.key]}, it.note)

    def entries(self, entries):
        return {self.key(it): self.entry(it) for it in entries}

    def key(self, it):
        return f"interface-{self.id(it.item)}" if it.label is None else documents.marked(it.label)

    def entry(self, it):
        if isinstance(it.item, data.Type):
            return {"type": self.id(it.item)}
        if isinstance(it.item, data.Function):
            return {"function": self.function(it.item)}
        return {"interface": documents.gated({"id": self.id(it.item)}, it.note)}

    def interface(self, it):
        functions = {name: self.function(of) for name, of in it.functions.items()}
        made = {"name": it.name, "types": self.table(it.types), "functions": functions}
        return documents.gated(made, it.note) | {"package": self.packages[it.package.key]}

    def function(self, it):
        params = [{"name": name, "type": self.reference(of)} for name, of in zip(it.names, it.parts)]
        made = {"name": it.name, "kind": self.function_kind(it), "params": params}
        made |= {} if it.result is None else {"result": self.reference(it.result)}
        return documents.gated(made, it.note)

    def function_kind(self, it):
        words = [documents.METHODS.get(of) or documents.ACCESSORS[of] for of in groups_of(it.name)[0]]
        word = "-".join(words) or "freestanding"
        return word if it.resource is None else {word: self.id(it.resource)}

    def reference(self, reference):
        return reference if isinstance(reference, str) else self.id(reference)

    def type(self, it):
        sort = "world" if isinstance(it.owner, data.World) else "interface"
        owner = None if it.owner is None else {sort: self.id(it.owner)}
        return documents.gated({"name": it.name, "kind": self.kind(it), "owner": owner}, it.note)

    def kind(self, ty):
        word, *parts = ty.kind
        parts = [self.reference(it) for it in parts]
        match word:
            case "resource":
                return word
            case "alias":
                return {"type": parts[0]}
            case "record":
                return {word: {"fields": [{"name": name, "type": of} for name, of in zip(ty.fields, parts)]}}
            case "own" | "borrow":
                return {"handle": {word: parts[0]}}
        return {word: parts[0] if parts else None}

    def package(self, it):
        return {"name": str(it.name), "interfaces": self.table(it.interfaces), "worlds": self.table(it.worlds)}

    def table(self, things):
        return {name: self.id(it) for name, it in things.items()}

    # what the layout leaves out

    def world_details(self, it):
        sides = {f"{side}s": {self.key(of): self.entry_details(of) for of in entries} for side, entries in it.lists()}
        return self.places.span(it) | sides

    def entry_details(self, it):
        return self.function_details(it.item) if isinstance(it.item, data.Function) else self.places.span(it)

    def interface_details(self, it):
        return self.places.span(it) | {"functions": {name: self.function_details(of) for name, of in it.functions.items()}}

    def function_details(self, it):
        """A line has one span, so parameters have that of their function."""
        made = self.places.span(it)
        return made | {"params": [made.get("span") for _ in it.names]}

    def type_details(self, it):
        """A line has one span, so fields have that of their record."""
        made = self.places.span(it)
        return made | ({"parts": [made.get("span") for _ in it.fields]} if it.kind[0] == "record" else {})


def graph_of(script):
    """What the model makes of a script, as it stands under `resolve`; None where the script isn't understood."""
    document = documents.read_document(script)
    if document is None:
        return None
    session = Session(Rules())
    for it in document.read_commands:
        session.answer(*it)
    return Written(session.graphs[-1]).resolve()


def text_of(resolve):
    return json.dumps(resolve, separators=(",", ":"), ensure_ascii=False)


def stored_text(graphs):
    """What is stored of graphs by the names of their scripts."""
    lines = [BEGIN]
    for name, it in graphs.items():
        lines += [f"=== {name}", text_of({word: of for word, of in it.items() if word != "sources"})]
    return "\n".join([*lines, ""])


def stored_faults(made, stored):
    """What is stored otherwise than the model makes it, by the lines of both."""
    lines = zip_longest(made.split("\n"), stored.split("\n"), fillvalue="nothing")
    wrong = [at for at, (ours, theirs) in enumerate(lines, 1) if ours != theirs]
    return [f"check/worked_graphs.txt: {len(wrong)} lines are stored otherwise, first line {wrong[0]}"] if wrong else []


def first_difference(ours, theirs, path="resolve"):
    """Where two values differ first, the order of members included; None where they don't."""
    if isinstance(ours, dict) and isinstance(theirs, dict) and list(ours) == list(theirs):
        found = (first_difference(it, theirs[word], f"{path}.{word}") for word, it in ours.items())
    elif isinstance(ours, list) and isinstance(theirs, list) and len(ours) == len(theirs):
        found = (first_difference(it, theirs[at], f"{path}[{at}]") for at, it in enumerate(ours))
    else:
        return None if text_of(ours) == text_of(theirs) else f"{path} is {text_of(theirs)}, and the model's {text_of(ours)}"
    return next((it for it in found if it), None)


def program_fault(program, script, graph):
    """What is wrong with the graph that a program gives of a script; None where it is the model's."""
    status, printed = documents.run(program, text_of(documents.document_of(script)))
    try:
        return first_difference(graph, json.loads(printed)["resolve"])
    except (ValueError, KeyError) as fault:
        return f"{fault!r} {status} {printed[:500]}"


def graphs_of(scripts):
    """The graphs of the scripts that are understood."""
    made = {name: graph_of(script) for name, script in scripts.items()}
    return {name: it for name, it in made.items() if it is not None}


def scripts_of(asked):
    if asked.random:
        return {str(n): compare.written(n, compare.KINDS) for n in range(asked.first, asked.first + asked.many)}
    return compare.stored(compare.read(CASES))[0]


def main():
    parser = argparse.ArgumentParser()
    parser.add_argument("--program")
    parser.add_argument("--make", action="store_true")
    parser.add_argument("--random", action="store_true")
    parser.add_argument("--first", type=int, default=1)
    parser.add_argument("--many", type=int, default=300)
    asked = parser.parse_args()
    scripts = scripts_of(asked)
    graphs = graphs_of(scripts)
    if asked.make:
        with open(STORED, "w", encoding="utf-8", newline="") as file:
            file.write(stored_text(graphs))
        return 0
    faults = []
    if not asked.random:
        faults += stored_faults(stored_text(graphs), compare.read(STORED))
    if asked.program:
        told = ((name, program_fault(asked.program, scripts[name], it)) for name, it in graphs.items())
        faults += [f"{name}: {it}" for name, it in told if it]
    print("\n".join(faults), end="\n" if faults else "")
    print(f"{len(scripts)} scripts, {len(graphs)} with graphs, {len(faults)} differ")
    return 1 if faults else 0


if __name__ == "__main__":
    sys.exit(main())

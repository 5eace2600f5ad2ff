"""What the calls that `test_sweep` makes on the graphs of its scripts have to answer, by the model of the rules.

Of each graph it asks the whole, its last package, its last interface and its last world. Compared are the calls of CALLS, each
time in the order in which they are made. Of the others the model knows nothing: copies (`try_clone` answers `()`), names of core
wasm and futures (worked by hand in check/json_answers.txt and `test_resolve`), sums of whole graphs (`state`, of which
check/worked_graphs.txt has the graphs of other scripts), and calls of layers below, which end as the calls of a `Resolve` do.
"""
import json
import re

import worked_graphs
from model.scripts import Rules, Session, shown
from model.walks import in_order

CALLS = {
    "is_valid", "find_graph_fault", "assert_valid", "topological_packages", "id_of_name", "canonicalized_id_of_name", "select_world",
    "select_world of a text", "id_of", "canonicalized_id_of", "version_suffix_of", "interface_direct_deps", "print_world",
    "name_world_key", "name_canonicalized_world_key", "implements_interface",
}
VERSION = re.compile(r"(\d+)\.(\d+)\.(\d+)(-[^+]+)?(\+.*)?")


def text(value):
    """A text as `Debug` writes it."""
    return json.dumps(value, ensure_ascii=False)


def maybe(value):
    return "None" if value is None else f"Some({value})"


def id_text(index):
    return f"Id {{ index: {index}, .. }}"


def track_of(version):
    """The text of a version's track, and what remains of the version."""
    major, minor, patch, before, _ = VERSION.fullmatch(version).groups()
    end = len(version.partition("+")[0])
    if not before:
        end = len(major) if major != "0" else len(f"0.{minor}") if minor != "0" else len(f"0.0.{patch}")
    return version[:end], version[end:] or None


def canonical(name, item):
    at = f"@{track_of(name.version)[0]}" if name.version else ""
    return f"{name.namespace}:{name.name}/{item}{at}"


class Answers:
    """The answers of a graph of the model, a pair of call and answer each, in the order of the calls."""

    def __init__(self, graph):
        self.graph, self.written = graph, worked_graphs.Written(graph)

    def package_uses(self, package):
        """The other packages whose interfaces its interfaces and worlds name, in the order of ids."""
        own = [*package.interfaces.values()]
        named = [used.package for it in own for used in it.direct_uses()]
        for world in package.worlds.values():
            types = [it.used_interface() for it in world.types.values()]
            items = [it.item for it in [*world.imports, *world.exports] if hasattr(it.item, "direct_uses")]
            inner = [used for it in items if it.name is None for used in it.direct_uses()]
            named += [it.package for it in [*types, *items, *inner] if it is not None and it.package]
        keys = {it.key for it in named if it.key != package.name.key}
        return [it for it in self.graph.packages if it.name.key in keys]

    def whole(self):
        yield "is_valid", "true"
        yield "find_graph_fault", "None"
        yield "assert_valid", "true"
        ordered = in_order(self.graph.packages, self.package_uses)
        places = [id_text(self.written.packages[it.name.key]) for it in ordered]
        yield "topological_packages", f"[{', '.join(places)}]"

    def package(self, package):
        yield "id_of_name", text(package.name.id_of("x"))
        yield "canonicalized_id_of_name", text(canonical(package.name, "x"))
        for call, asked in (("select_world", None), ("select_world of a text", "foo:bar/w")):
            yield call, self.selected(self.graph.select(package, asked))

    def selected(self, said):
        worlds = {f"selected {it.package.id_of(it.name)}": self.written.id(it) for it in self.graph.worlds}
        return id_text(worlds[said]) if said in worlds else said

    def interface(self, interface):
        name = interface.package
        ids = [None if interface.name is None else text(it(interface.name)) for it in (name.id_of, lambda of: canonical(name, of))]
        yield "id_of", maybe(ids[0])
        yield "canonicalized_id_of", maybe(ids[1])
        rest = track_of(name.version)[1] if name.version else None
        yield "version_suffix_of", maybe(rest and text(rest))
        yield "interface_direct_deps", str(len({id(it) for it in interface.direct_uses()}))

    def world(self, world):
        package = self.graph.find(world.package)
        yield "print_world", text("".join(f"{it}\n" for it in shown(package, world).split("\n") if it))
        for entry in [*world.imports, *world.exports]:
            yield from self.entry(entry)

    def entry(self, entry):
        item, label = entry.item, entry.label
        keys = [label] * 2 if label is not None else [item.package.id_of(item.name), canonical(item.package, item.name)]
        yield "name_world_key", text(keys[0])
        yield "name_canonicalized_world_key", text(keys[1])
        is_named = label is not None and hasattr(item, "direct_uses") and item.name is not None
        yield "implements_interface", maybe(id_text(self.written.id(item)) if is_named else None)

    def all(self):
        yield from self.whole()
        for each, of in ((self.package, self.graph.packages), (self.interface, self.graph.interfaces), (self.world, self.graph.worlds)):
            if of:
                yield from each(of[-1])


def told(output):
    """The calls that are compared, with what is told of each, from where the graph is asked on."""
    asked = output.partition("call is_valid\n")
    pairs = re.findall(r"^(?:call|bare) (.*)\nanswer (.*(?:\n  .*)*)", asked[1] + asked[2], re.M)
    return [(call, answer) for call, answer in pairs if call in CALLS]


def faults(script, output):
    """Where what is told of a script isn't what the model answers; nothing of one that is refused."""
    if "call is_valid\n" not in output:
        return
    document = worked_graphs.documents.read_document(script)
    session = Session(Rules())
    for it in document.read_commands:
        session.answer(*it)
    wanted, said = list(Answers(session.graphs[-1]).all()), told(output)
    for at, pair in enumerate(wanted):
        if said[at : at + 1] != [pair]:
            yield f"the call {at} of those that are compared is {said[at : at + 1]}, and the model's {pair}"
            return
    if len(said) != len(wanted):
        yield f"{len(said)} calls are compared, and the model makes {len(wanted)}"

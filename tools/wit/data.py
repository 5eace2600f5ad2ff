"""What a package is, as data in the layout of docs/JSON.md: wit-parser's own first step.

Names within the package are looked up here; what is named of other packages is listed, and looked up by who has them.
"""
import itertools
import json

from . import faults
from .faults import Fault
from .names import ITEM, by_name, check_attributes, item_order, mentions, resolved
from .scopes import ScopeData
from .values import docs_of, stability_of, without_none


class Places:
    """Where each file of a group begins in its map of sources: each takes its bytes and one more."""

    def __init__(self, files):
        self.bases, self.bytes, base = {}, {}, 0
        for file in files:
            sizes = [] if file.text.isascii() else [len(it.encode()) for it in file.text]
            self.bases[file.path], self.bytes[file.path] = base, [0, *itertools.accumulate(sizes)]
            base += len(file.text.encode()) + 1

    def span(self, file, span):
        sums, base = self.bytes[file.path], self.bases[file.path]
        return [base + (sums[at] if len(sums) > 1 else at) for at in span]


class PackageData:
    """Makes the data of a package, and tells all faults that it meets."""

    def __init__(self, package, places, report):
        self.package, self.places, self.report = package, places, report
        self.worlds, self.interfaces, self.types = [], [], []
        self.foreign, self.foreign_spans, self.unknown_spans, self.required = {}, [], [], []
        # the interfaces and worlds by their names; of each its id; of each interface what its names are; the types
        # without a name by their kinds
        self.scopes, self.ids, self.names, self.unnamed = {}, {}, {}, {}

    def make(self):
        """The data, None where something is wrong with the package as a whole."""
        try:
            for file, path, gate, _, word in mentions(self.package):
                self.add_foreign(file, path, gate, word)
            self.scopes = by_name(self.package)
            scopes = [self.scopes[name] for name in item_order(self.package, self.scopes)]
            for scope in scopes:
                self.begin(scope)
            for file, path, gate, use, _ in mentions(self.package):
                if use:
                    self.add_foreign_types(file, path, gate, use)
        except Fault as fault:
            self.report.problem(fault)
            return None
        # (worlds come last, and with them the interfaces that they write in place)
        for scope in sorted(scopes, key=lambda it: it.word == "world"):
            ScopeData(self, scope, self.ids[scope.name]).make()
        return self.data()

    def data(self):
        package = self.package
        return without_none(
            name=package.name,
            span=self.places.span(package.file, package.span),
            docs=docs_of(package.docs),
            worlds=self.worlds,
            interfaces=self.interfaces,
            types=self.types,
            foreign_deps=self.foreign,
            foreign_dep_spans=self.foreign_spans,
            unknown_type_spans=self.unknown_spans,
            required_resources=self.required,
        )

    # what is named by paths

    def add_foreign(self, file, path, gate, word):
        """Adds what is named of another package, or a gate under which it is named."""
        if not path.package:
            return
        check_attributes(file, gate, may_have_id=True)
        name = path.package_name
        if name not in self.foreign:
            self.foreign[name] = {}
            self.foreign_spans.append(self.places.span(file, path.package_span))
        known = self.foreign[name]
        if path.name not in known:
            span = self.places.span(file, path.span)
            id = self.add_interface(path.name, span) if word == "interface" else self.add_world(path.name, span)
            known[path.name] = [{word: id}, []]
        known[path.name][1].append(stability_of(gate))

    def add_foreign_types(self, file, path, gate, use):
        """Adds the types of another package's interface that a `use` names."""
        check_attributes(file, gate)
        id = self.interface_at(file, path)
        if not resolved(path, file).package:
            return
        for it in use.names:
            if it.name.text not in self.names[id]:
                made = self.add_type(it.name.text, "unknown", {"interface": id}, self.places.span(file, it.name.span))
                self.types[made] |= without_none(stability=stability_of(gate))
                self.unknown_spans.append(self.types[made]["span"])
                self.names[id][it.name.text] = self.interfaces[id]["types"][it.name.text] = made

    def item_at(self, file, path, word):
        """The id of the interface or the world that a path names."""
        found = resolved(path, file)
        if found.package:
            item = self.foreign[found.package_name][found.name][0]
        elif found.name in self.scopes:
            item = {self.scopes[found.name].word: self.ids[found.name]}
        else:
            raise faults.NotThere(file, path.span, kind=ITEM, name=path.name)
        if word not in item:
            other = faults.NotAnInterface if word == "interface" else faults.NotAWorld
            raise other(file, path.span, name=path.name)
        return item[word]

    def interface_at(self, file, path):
        return self.item_at(file, path, "interface")

    # lists

    def begin(self, scope):
        add = self.add_interface if scope.word == "interface" else self.add_world
        self.ids[scope.name] = add(scope.name, self.places.span(scope.file, scope.span))

    def add_interface(self, name, span):
        self.names[len(self.interfaces)] = {}
        self.interfaces.append({"name": name, "types": {}, "functions": {}, "span": span})
        return len(self.interfaces) - 1

    def add_world(self, name, span):
        self.worlds.append({"name": name, "imports": {}, "exports": {}, "includes": [], "span": span})
        return len(self.worlds) - 1

    def add_type(self, name, kind, owner, span):
        self.types.append({"name": name, "kind": kind, "owner": owner, "span": span})
        return len(self.types) - 1

    def add_unnamed(self, kind, span, gate=None):
        """The id of a type without a name, which is there once. It has the gate of what it is made of, else this one."""
        key = json.dumps(kind)
        if key not in self.unnamed:
            made = self.unnamed[key] = self.add_type(None, kind, None, span)
            gates = [self.types[id].get("stability") for id in ids_in(kind)]
            self.types[made] |= without_none(stability=next(filter(None, gates), gate))
        return self.unnamed[key]


def ids_in(kind):
    """The ids of types in a kind that has no names, in order."""
    if isinstance(kind, dict):
        if "fixed-length-list" in kind:
            kind = kind["fixed-length-list"][0]
        else:
            kind = list(kind.values())
    if isinstance(kind, list):
        return [id for part in kind for id in ids_in(part)]
    return [kind] if isinstance(kind, int) else []

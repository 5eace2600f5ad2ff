#!/usr/bin/env python3
"""Writes packages of WIT as a script of witgraph (docs/SCRIPT.md).

    tools/wit2script.py [-o SCRIPT] PACKAGE..

A PACKAGE is a file of WIT, or a folder whose `.wit` files are one package. The script has the packages in the order in
which they are named, behind them those in the folder `deps` of such a folder, and one `push`, so the first is the main
one. What is there twice with the same texts is read once. What isn't among them has to be in the graph.

Uses, names, functions, resources and gates are kept. A script names what stands on an earlier line alone, so an
interface or a type that names a later one comes behind that; in each interface and world the uses come first, then the
types, then all else. This is the order in which wit-parser numbers them, too.

The script language has fewer forms than WIT. What it lacks is substituted, and each substitution is told on standard
error, as FILE:LINE: WHAT:

    enum, flags               a record of that name, with a field of `bool` for each name
    variant                   a record of that name, with a field for each case: of its payload, or of `bool`
    result<A, B>              a record named `result<A;B>`, with the fields `ok` and `err`, of `bool` where one lacks
    tuple<A, B>               a record named `tuple<A;B>`, with the fields `f0`, `f1` ..
    map<A, B>                 list<tuple<A, B>>
    list<A, 4>                list<A>
    async func                func
    import l: interface {}    an interface named WORLD-import-l (or -export-l), which stands under the label l
    @deprecated, @external-id nothing

A record that stands for a result or a tuple is a type of the interface or world that writes it. In a world its name
ends with `@WORLD`. A feature that gates a type of its parts, or the whole interface or world, gates the record, too.

Where something can't be read or written, each such place is told with FILE:LINE:COLUMN and its line, there is no script,
and the status is 1.
"""
import argparse
import os
import sys

sys.path.insert(0, os.path.dirname(os.path.abspath(__file__)))

import wit  # noqa: E402
from wit import PRIMITIVES, Definition, Entry, Fault, Function, Include, Path, Scope, Type, Use  # noqa: E402

# what a script reads as a type of its own, wherever it stands
TAKEN = PRIMITIVES | {"future", "stream"}


class InterfaceTaken(Fault):
    text = "the interface here would be called `{name}`, which the package has already"


class NameTaken(Fault):
    text = "a type of a script can't have the name `{name}`, which is that of one of its own"


class NoParts(Fault):
    text = "a {word} of a script has parts, and `{name}` has none"


class StandInTaken(Fault):
    text = "`{name}` is a type already, and can't stand for `{type}`"


class TwoFeatures(Fault):
    text = "a record in place of `{type}` would be gated by two features"


class Writer:
    """Writes packages as lines of a script."""

    def __init__(self, report):
        self.report, self.lines = report, []

    def package(self, package):
        self.lines.append(f"package {package.name}")
        taken = {it.name for it in package.scopes}
        scopes = [it for scope in package.scopes for it in [*self.within(scope, taken), scope]]
        for scope in wit.told_order(scopes, self.needs, lambda it, what: self.report.note(it.file, it.line, what)):
            ScopeWriter(self, scope).write()

    def within(self, world, taken):
        """The interfaces that a world writes in place. Each gets a name, by which the world then names it."""
        made = []
        for entry in world.of(Entry):
            if isinstance(entry.item, Scope):
                inner = entry.item
                inner.name = f"{world.name}-{inner.name}"
                if inner.name in taken:
                    self.report.problem(InterfaceTaken(world.file, inner.span, name=inner.name))
                taken.add(inner.name)
                what = f"the interface under `{entry.label}` becomes the interface `{inner.name}`"
                self.report.note(world.file, entry.line, what)
                entry.item = Path(inner.name, entry.line, inner.span)
                made.append(inner)
        return made

    def needs(self, scope):
        """The names in the package that a scope needs."""
        return [it.name for it in (wit.resolved(path, scope.file) for path in scope.paths()) if not it.package]


class ScopeWriter:
    """Writes an interface or a world."""

    def __init__(self, writer, scope):
        self.writer, self.scope, self.file = writer, scope, scope.file
        self.is_world = scope.word == "world"
        # its types, each with the feature that gates it; its records in place of results and tuples
        self.types, self.stand_ins = {}, set()

    def note(self, line, what):
        self.writer.report.note(self.file, line, what)

    def line(self, words, gate=""):
        self.writer.lines.append(f"{words} {gate}" if gate else words)

    def gate(self, gate):
        """The gate of a statement as a script writes it, empty where it has none."""
        if gate.deprecated:
            self.note(gate.line, f"`@deprecated(version = {gate.deprecated})` is left out")
        if gate.feature:
            return f"@unstable={gate.feature}"
        return f"@since={gate.since}" if gate.since else ""

    def write(self):
        scope = self.scope
        self.writer.lines.append("")
        self.line(f"{scope.word} {scope.name}", self.gate(scope.gate))
        self.each(self.use, scope.of(Use))
        definitions = wit.told_order(scope.of(Definition), Definition.names, lambda it, what: self.note(it.line, what))
        self.each(self.definition, definitions)
        self.each(self.other, scope.statements)

    def each(self, write, statements):
        """Writes statements, and tells what can't be written of them."""
        for statement in statements:
            try:
                write(statement)
            except Fault as fault:
                self.writer.report.problem(fault)

    def other(self, statement):
        """Writes what is no type."""
        if isinstance(statement, Definition):
            self.each(self.function, statement.functions)
        elif isinstance(statement, Function):
            self.function(statement)
        elif isinstance(statement, Entry):
            self.entry(statement)
        elif isinstance(statement, Include):
            renamings = [f"{it.name}={it.new}" for it in statement.names]
            line = " ".join(["include", self.path(statement.path), *renamings])
            self.line(line, self.gate(statement.gate))

    # names

    def add_type(self, span, name, gate):
        self.types[name] = gate.feature
        if name in TAKEN:
            raise NameTaken(self.file, span, name=name)

    def path(self, path):
        """The text of a path."""
        return str(wit.resolved(path, self.file))

    # statements

    def use(self, use):
        for it in use.names:
            self.add_type(it.new.span, it.new.text, use.gate)
        path, gate = self.path(use.path), self.gate(use.gate)
        for old, new in ((it.name.text, it.new.text) for it in use.names):
            self.line(f"use {path} {old}" + (f" {new}" if new != old else ""), gate)

    def definition(self, definition):
        word, name, line = definition.word, definition.name, definition.line
        self.add_type(definition.span, name, definition.gate)
        gate = self.gate(definition.gate)
        if definition.gate.external_id is not None:
            self.note(line, f"the external id of `{name}` is left out")
        if word == "resource":
            self.line(f"resource {name}", gate)
        elif word == "type":
            self.alias(name, definition.type, gate)
        else:
            if not definition.parts:
                raise NoParts(self.file, definition.span, word=word, name=name)
            if word == "variant":
                self.note(line, f"variant `{name}` becomes a record, with a field for each case")
            elif word != "record":
                self.note(line, f"{word} `{name}` becomes a record, with a field of `bool` for each name")
            self.record(name, [(it.name, self.type(it.type) if it.type else "bool") for it in definition.parts], gate)

    def alias(self, name, ty, gate):
        fields = self.fields(ty)
        if fields:
            self.note(ty.line, f"`{ty}` becomes a record, named `{name}`")
            self.record(name, fields, gate)
        else:
            self.line(f"type {name} {self.type(ty)}", gate)

    def record(self, name, fields, gate):
        self.line(f"record {name} " + " ".join(f"{it}:{ty}" for it, ty in fields), gate)

    def function(self, function, of="import"):
        if function.is_async:
            self.note(function.line, f"`{function.name}` is async in WIT, not in the script")
        if function.gate.external_id is not None:
            self.note(function.line, f"the external id of `{function.name}` is left out")
        word = f"{of}-func" if self.is_world else "func"
        parameters = [f"{it.name}:{self.type(it.type)}" for it in function.parameters]
        if function.is_method:
            parameters.insert(0, f"self:borrow<{function.resource}>")
        result = self.type(function.result) if function.result else ""
        if function.is_constructor:
            result = result or function.resource
        signature = f"({','.join(parameters)})" + (f"->{result}" if result else "")
        self.line(f"{word} {function.name}{signature}", self.gate(function.gate))

    def entry(self, entry):
        if isinstance(entry.item, Function):
            self.function(entry.item, entry.word)
            return
        path = self.path(entry.item)
        label = entry.label and entry.label.text
        if entry.gate.external_id is not None:
            self.note(entry.line, f"the external id of `{label or path}` is left out")
        self.line(f"{entry.word} {label}={path}" if label else f"{entry.word} {path}", self.gate(entry.gate))

    # types

    def type(self, ty):
        """The text of a type. The records that stand for its parts are written first."""
        if not ty.is_form:
            return ty.name
        fields = self.fields(ty)
        if fields:
            return self.stand_in(ty, fields)
        if ty.name == "map":
            self.note(ty.line, f"`{ty}` becomes a list of tuples")
            return f"list<{self.type(Type('tuple', ty.line, ty.span, True, ty.parts))}>"
        if ty.name == "list" and len(ty.parts) == 2:
            self.note(ty.line, f"`{ty}` becomes a list of any length")
        return f"{ty.name}<{self.type(ty.parts[0])}>" if ty.parts else ty.name

    def fields(self, ty):
        """The fields of a record that stands for a tuple or a result, None for another type."""
        if not ty.is_form or ty.name not in ("tuple", "result"):
            return None
        texts = [self.type(it) if it else "bool" for it in ty.parts]
        if ty.name == "tuple":
            return [(f"f{n}", it) for n, it in enumerate(texts)]
        return list(zip(("ok", "err"), [*texts, "bool", "bool"]))

    def stand_in(self, ty, fields):
        """The name of the record with these fields, which is written where it isn't there."""
        parts = ";".join("_" if part is None else text for part, (_, text) in zip(ty.parts, fields))
        name = (f"{ty.name}<{parts}>" if parts else ty.name) + (f"@{self.scope.name}" if self.is_world else "")
        if name not in self.stand_ins:
            if name in self.types:
                raise StandInTaken(self.file, ty.span, name=name, type=ty)
            features = {self.types[it] for it in ty.names()} - {None} or {self.scope.gate.feature}
            if len(features) > 1:
                raise TwoFeatures(self.file, ty.span, type=ty)
            (feature,) = features
            self.types[name] = feature
            self.stand_ins.add(name)
            self.note(ty.line, f"`{ty}` becomes a record, named `{name}`")
            self.record(name, fields, f"@unstable={feature}" if feature else "")
        return name


# The command


def script_of(paths, report):
    """The script of these packages, None where something can't be written; the report then says what."""
    packages = [it for group in wit.groups_of(paths, report) for it in group.packages]
    if report.problems:
        return None
    writer = Writer(report)
    for package in packages:
        writer.package(package)
    return None if report.problems else "\n".join([*writer.lines, "push", ""])


def main(arguments=None):
    usage = argparse.ArgumentParser(description=__doc__, formatter_class=argparse.RawDescriptionHelpFormatter)
    usage.add_argument("packages", metavar="PACKAGE", nargs="+", help="a file of WIT, or a folder of such files")
    usage.add_argument("-o", metavar="SCRIPT", dest="output", help="the file to write, standard output where it lacks")
    asked = usage.parse_args(arguments)
    report = wit.Report()
    try:
        script = script_of(asked.packages, report)
        for line in report.lines():
            print(line, file=sys.stderr)
        if script is None:
            return 1
        if asked.output:
            with open(asked.output, "w", encoding="utf-8") as file:
                file.write(script)
        else:
            sys.stdout.write(script)
    except OSError as fault:
        print(f"wit2script.py: {fault}", file=sys.stderr)
        return 1
    except RecursionError:
        print("wit2script.py: a type nests too deep for a script", file=sys.stderr)
        return 1
    return 0


if __name__ == "__main__":
    sys.exit(main())

#!/usr/bin/env python3
"""Compares the texts in `wit` with the types that an object file made of the published packages carries.

    examples/wasi/compare_object.py OBJECT [VERSION]

The section `component-type` of an object has a world and the interfaces that it names. Debian's wasi-libc, in
/usr/lib/wasm32-wasip2, has those of `wasi:cli/command@0.2.0` in crt1-command.o, and those of `wasi:cli/imports@0.2.0`
in wasip2_component_type.o of libc.a. Compared are the uses, types and functions of each interface, in their order, and
the world with what tool.out prints of it, where it does. With VERSION it is the texts of that version, whatever the
object's is. What differs is shown as `diff` does, the text first, and the status is 1 then.

An object has no gates and no docs, and has the functions of resources before all others, wherever a text has them. What
a feature gates is left out.
"""
import difflib
import os
import pathlib
import re
import sys

WASI = pathlib.Path(os.environ.get("WASI", pathlib.Path(__file__).parent)).resolve()
sys.path.append(str(WASI.parent.parent / "tools"))

import wit  # noqa: E402

PRIMITIVES = dict(enumerate("string char f64 f32 u64 s64 u32 s32 u16 s16 u8 s8 bool".split(), 0x73))


class Scope:
    """A world or an interface, read from bytes of which the next one stands last, and only as far as these packages go.

    It has the texts of its types, the names of its interfaces, and an entry for all that it imports and exports.
    """

    def __init__(self, left, outer=None):
        self.left, self.outer, self.types, self.interfaces, self.entries = left, outer, [], [], []

    def number(self):
        byte = self.left.pop()
        return byte if byte < 128 else byte - 128 + 128 * self.number()

    def name(self):
        return bytes(self.left.pop() for _ in range(self.number())).decode()

    def several(self, read):
        return [read() for _ in range(self.number())]

    def numbered(self):
        return self.types[self.number()]

    def type(self):
        return PRIMITIVES[self.left.pop()] if self.left[-1] in PRIMITIVES else self.numbered()

    def maybe(self):
        return self.type() if self.number() else None

    def named(self):
        return f"{self.name()}: {self.type()}"

    def case(self):
        name, payload, _ = self.name(), self.maybe(), self.number()
        return f"{name}({payload})" if payload else name

    def definition(self):
        """The text of a type, or a scope."""
        form = self.number()
        if form in (0x41, 0x42):
            inner = Scope(self.left, self)
            self.several(inner.declaration)
            return inner
        if form == 0x40:
            parameters = ", ".join(self.several(self.named))
            has_result = not self.number() or self.number()
            return f"func({parameters})" + (f" -> {self.type()}" if has_result else "")
        if form in (0x6D, 0x6E, 0x71, 0x72):
            word, read = {
                0x6D: ("enum", self.name),
                0x6E: ("flags", self.name),
                0x71: ("variant", self.case),
                0x72: ("record", self.named),
            }[form]
            return f"{word} {{{', '.join(self.several(read))}}}"
        if form == 0x6A:
            ok, err = self.maybe(), self.maybe()
            return f"result<{ok or '_'}, {err}>" if err else f"result<{ok}>" if ok else "result"
        if form == 0x6F:
            return f"tuple<{', '.join(self.several(self.type))}>"
        if form in (0x6B, 0x70):
            return f"{'option' if form == 0x6B else 'list'}<{self.type()}>"
        if form in (0x68, 0x69):
            return f"borrow<{self.numbered()}>" if form == 0x68 else self.numbered()
        return PRIMITIVES[form]

    def declaration(self):
        kind = self.number()
        if kind == 1:
            self.types.append(self.definition())
        elif kind == 2:  # a type of an interface, or of the world around
            _, is_outer, index = self.number(), self.number(), self.number()
            self.types.append(self.outer.numbered() if is_outer else f"{self.interfaces[index]}.{{{self.name()}}}")
        else:
            self.entry("import" if kind == 3 else "export")

    def entry(self, word):
        _, name, sort = self.number(), self.name(), self.number()
        if sort == 3:
            self.entries.append(f"resource {name}" if self.number() else f"type {name} = {self.numbered()}")
            self.types.append(name)
        elif sort == 1:
            self.entries.append(f"{name}: {self.numbered()}")
        else:
            self.interfaces.append(name)
            self.entries.append((word, name, self.numbered()))


def sections(data):
    """The number of each section and its bytes."""
    scope = Scope(list(data[:7:-1]))
    while scope.left:
        kind, size = scope.number(), scope.number()
        yield kind, bytes(scope.left.pop() for _ in range(size))


def world_of(path):
    """The name of the world of an object, and its entries."""
    custom = [it for kind, it in sections(pathlib.Path(path).read_bytes()) if kind == 0]
    (carried,) = [it[1 + it[0] :] for it in custom if it[1:].startswith(b"component-type")]
    (types,) = [it for kind, it in sections(carried) if kind == 7]
    ((_, name, world),) = Scope(list(types[:0:-1])).definition().entries
    return name, world.entries


def lines_of(package, scope):
    """What an interface says, without what a feature gates."""
    before, version = package.name.split("@")

    def full(path):
        return str(path) if path.package else f"{before}/{path.name}@{version}"

    uses = [f"type {it.new} = {full(use.path)}.{{{it.name}}}" for use in active(scope.of(wit.Use)) for it in use.names]
    definitions = active(wit.told_order(scope.of(wit.Definition), wit.Definition.names, lambda *_: None))
    functions = [it for definition in definitions for it in definition.functions] + scope.of(wit.Function)
    return [*uses, *map(definition_text, definitions), *map(function_text, active(functions))]


def active(statements):
    return [it for it in statements if not it.gate.feature]


def definition_text(it):
    if it.word == "resource":
        return f"resource {it.name}"
    if it.word == "type":
        return f"type {it.name} = {it.type}"
    typed = "{}: {}" if it.word == "record" else "{}({})"
    parts = ", ".join(typed.format(part.name, part.type) if part.type else part.name.text for part in it.parts)
    return f"type {it.name} = {it.word} {{{parts}}}"


def function_text(it):
    parameters = [f"{part.name}: {part.type}" for part in it.parameters]
    if it.is_method:
        parameters.insert(0, f"self: borrow<{it.resource}>")
    result = it.result or (it.is_constructor and it.resource)
    return f"{it.name}: func({', '.join(parameters)})" + (f" -> {result}" if result else "")


def texts_of(version):
    """What each interface of a version says, by its name."""
    groups = wit.groups_of([str(path) for path in (WASI / "wit" / version).iterdir()], wit.Report())
    packages = [it for group in groups for it in group.packages]
    named = [(package, it) for package in packages for it in active(package.scopes) if it.word == "interface"]
    return {f"{package.name.replace('@', f'/{it.name}@')}": lines_of(package, it) for package, it in named}


def differs(name, ours, theirs):
    """Whether they differ, in what is shown then."""
    shown = list(difflib.unified_diff(ours, theirs, f"{name} here", f"{name} there", lineterm="", n=0))
    print(*shown, sep="\n", end="\n" if shown else "")
    return bool(shown)


def main(path, version=None):
    world, entries = world_of(path)
    own_version = world.split("@")[1]
    texts = texts_of(version or own_version)
    count = 0
    for _, name, scope in entries:
        theirs = [it.replace(f"@{own_version}", f"@{version or own_version}") for it in scope.entries]
        here = name.replace(f"@{own_version}", f"@{version or own_version}")
        count += differs(here, texts.get(here, []), theirs)
    printed = re.search(rf"^world {re.escape(world)}\n((?:  .*\n)*)", (WASI / "tool.out").read_text(), re.M)
    if printed and not version:
        count += differs(world, [it.strip() for it in printed[1].splitlines()], [f"{it[0]} {it[1]}" for it in entries])
    print(f"{world}: {len(entries)} interfaces, {sum(len(it.entries) for _, _, it in entries)} entries, {count} differ")
    return 1 if count else 0


if __name__ == "__main__":
    sys.exit(main(*sys.argv[1:]))

#!/usr/bin/env python3
"""Compares what `wit_text` reads in files of WIT with what tools/wit does, the strict model, on texts made at random.

    check/wit_files.py [--many N] [--first N] [--out FOLDER] [FILE..]

`tools/plain_rust` makes Rust of `wit_text`, and cargo a program of it in FOLDER, which prints what files say. The texts are
FILEs or those of examples/, texts of WIT by check/wit_writer.py, the same and those of examples/ changed in a few places. Of
each text all is compared: names, types, attributes, documentation, each with its bytes, and the fault with its words and its
bytes. A difference is printed, and the status is 1 then.
"""
import argparse
import collections
import itertools
import pathlib
import shutil
import subprocess
import sys
import tempfile

TOP = pathlib.Path(__file__).resolve().parent.parent
sys.path[:0] = [str(TOP / "tools"), str(TOP / "check")]

import wit  # noqa: E402
import wit_tokens  # noqa: E402
import wit_writer  # noqa: E402
from plain_rust import layout, packages  # noqa: E402
from wit.grammar import Parser  # noqa: E402
from wit.syntax import Definition, Entry, Function, Include, Path, TopUse, Type, Use  # noqa: E402
from wit.values import docs_of  # noqa: E402

CRATES = ["wit_text", "wit_sources", "wit_values"]
START = 1000  # the position of the first byte of each file
MAIN = pathlib.Path(__file__).with_name("wit_files.rs")


def program(out):
    """The program in a folder."""
    src = out / "src"
    shutil.rmtree(src, ignore_errors=True)
    shutil.copytree(layout.BY_HAND / "src" / "shim", src / "shim")
    for crate in CRATES:
        layout.write_crate(out, crate, CRATES)
    layout.write(src / "made" / "mod.rs", "".join(f"pub mod {it};\n" for it in CRATES))
    shutil.copy(MAIN, src / "main.rs")
    layout.write(out / "Cargo.toml", wit_tokens.CARGO.replace("wit-tokens", "wit-files"))
    packages.take(out)
    subprocess.run(["cargo", "build", "--quiet", "--release"], cwd=out, check=True)
    return out / "target" / "release" / "wit-files"


class Dump:
    """What the model says of a file, as the program prints it."""

    def __init__(self, text):
        self.sums = [START, *itertools.accumulate((len(it.encode()) for it in text), initial=START)][1:]
        self.lines = []

    def line(self, text):
        self.lines.append(text.replace("\n", "\\n"))

    def at(self, span):
        return f"{self.sums[span[0]]}-{self.sums[span[1]]}"

    def named(self, text, span):
        return f"{text}@{self.at(span)}"

    def docs(self, lines):
        docs = docs_of(lines)
        return f"|{docs['contents']}" if docs else ""

    def path(self, it):
        name = self.named(it.name, it.span)
        return f"{it.package_name}/{name} {self.at(it.package_span)}" if it.package else name

    def gate(self, gate):
        self.line(f"gate {self.docs(gate.docs)}")
        for it in gate.attributes:
            self.line(f"@{it.word} {it.value} {self.at(it.span)}")

    def type(self, it):
        """The types in it, each behind its parts, with the numbers of these."""
        numbers = {}
        for n, inner in enumerate(self.nodes(it)):
            numbers[id(inner)] = n
            parts = ["_" if part is None else f"#{numbers[id(part)]}" if id(part) in numbers else self.other(part) for part in inner.parts]
            end = "!" if inner.is_word else f"<{','.join(parts)}>" if inner.is_form else ""
            self.line(f"  {inner.name}@{self.at(inner.span)}{end}")

    def other(self, part):
        return self.named(part.name, part.span) if isinstance(part, Type) else str(part)

    def nodes(self, ty):
        """The types in it but for names in `own` and `borrow`, each behind its parts."""
        found, open_types = [], [ty]
        while open_types:
            it = open_types.pop()
            found.append(it)
            if it.name not in ("own", "borrow") or not it.is_form:
                open_types += [part for part in it.parts if isinstance(part, Type)]
        return found[::-1]

    def part(self, it):
        self.line(f"part {self.named(it.name.text, it.name.span)} {self.docs(it.docs)}")
        if it.type:
            self.type(it.type)

    def function(self, it):
        self.line(f"function {it.name}@{self.at(it.span)} {str(it.is_async).lower()}")
        for part in it.parameters:
            self.part(part)
        if it.result:
            self.line("result")
            self.type(it.result)

    def renamings(self, names):
        for it in names:
            self.line(f"{self.named(it.name.text, it.name.span)} as {self.named(it.new.text, it.new.span)}")

    def statement(self, it):
        self.gate(it.gate)
        if isinstance(it, (Use, Include)):
            self.line(f"{'use' if isinstance(it, Use) else 'include'} {self.path(it.path)}")
            self.renamings(it.names)
        elif isinstance(it, Function):
            self.function(it)
        elif isinstance(it, Entry):
            self.entry(it)
        elif isinstance(it, Definition):
            self.define(it)

    def entry(self, it):
        label = f" {self.named(it.label.text, it.label.span)}" if it.label else ""
        if isinstance(it.item, Path):
            self.line(f"{it.word}{label} {self.path(it.item)}")
        elif isinstance(it.item, Function):
            self.line(f"{it.word}{label}")
            self.function(it.item)
        else:
            self.line(f"{it.word}{label} interface")
            for inner in it.item.statements:
                self.statement(inner)
            self.line("}")

    def define(self, it):
        self.line(f"{it.word} {self.named(it.name, it.span)}")
        if it.word == "type":
            self.type(it.type)
        for part in it.parts:
            self.part(part)
        for function in it.functions:
            self.gate(function.gate)
            self.function(function)

    def item(self, it):
        self.gate(it.gate)
        if isinstance(it, TopUse):
            self.line(f"use {self.at(it.span)} {self.path(it.path)} {self.named(it.name.text, it.name.span)}")
            return
        self.line(f"{it.word} {self.named(it.name, it.span)} {{")
        for statement in it.statements:
            self.statement(statement)
        self.line("}")

    def source(self, source):
        if source.header:
            it = source.header
            docs = self.at(it.docs_span) if it.docs_span else "-"
            self.line(f"header {it.name}@{self.at(it.span)} {docs} {self.docs(it.docs)}")
        for it in source.nested:
            self.line(f"package {it.name}@{self.at(it.span)} {self.docs(it.docs)}")
            if it.inner:
                self.line(f"inner {it.inner.name}@{self.at(it.inner.span)}")
            for statement in it.statements:
                self.item(statement)
            self.line("end")
        for statement in source.statements:
            self.item(statement)


def wanted(text):
    dump = Dump(text)
    try:
        dump.source(Parser(wit.File("p.wit", text)).source())
    except wit.Fault as fault:
        return [f"fault {dump.at(fault.span)} {fault}"]
    return dump.lines


def texts(asked):
    known = [wit.opened(it).text for it in sorted(map(str, (TOP / "examples").rglob("*.wit")))]
    yield from ((path, wit.opened(path).text) for path in asked.files)
    if asked.files:
        return
    yield from ((f"example {n}", text) for n, text in enumerate(known))
    for n in range(asked.first, asked.first + asked.many):
        yield f"written {n}", wit_writer.written(n)
        yield f"changed {n}", wit_writer.changed(n, known)


def main():
    usage = argparse.ArgumentParser(description=__doc__, formatter_class=argparse.RawDescriptionHelpFormatter)
    usage.add_argument("files", metavar="FILE", nargs="*")
    usage.add_argument("--many", type=int, default=2000)
    usage.add_argument("--first", type=int, default=0)
    usage.add_argument("--out", type=pathlib.Path)
    asked = usage.parse_args()
    with tempfile.TemporaryDirectory(prefix="wit-files-") as folder:
        read = program((asked.out or pathlib.Path(folder)).resolve())
        named = list(texts(asked))
        given = b"".join(b"%d\n%s" % (len(text.encode()), text.encode()) for _, text in named)
        told = subprocess.run([read], input=given, stdout=subprocess.PIPE, check=True).stdout.decode().split("\n")
    found, counts, differences = iter(told), collections.Counter(), 0
    for name, text in named:
        here = list(itertools.takewhile(lambda it: it != ".", found))
        there = wanted(text)
        counts[" ".join(here[0].split()[2:4]) if here and here[0].startswith("fault") else "read"] += 1
        if here != there:
            differences += 1
            at = next((n for n, pair in enumerate(itertools.zip_longest(here, there)) if pair[0] != pair[1]))
            print(f"{name}\n  program: {here[at:at + 2]}\n  model: {there[at:at + 2]}\n{text!r}\n"[:2000])
    for what, count in counts.most_common():
        print(f"{count:9} {what}")
    return 1 if differences else 0


if __name__ == "__main__":
    sys.exit(main())

#!/usr/bin/env python3
"""Shows how fast `witgraph_json` reads and writes big documents (docs/JSON.md).

    bench/documents.py LIBRARY [--worlds N] [--times N]
    bench/documents.py LIBRARY --growth
    bench/documents.py --instructions WITGRAPH_JSON [--worlds N]

LIBRARY is a shared library, made as bindings/README.md says. The documents are the packages of examples/wasi at both
versions, and a package of N worlds, each of which imports an interface. Of each first the push is carried out, then the
graph that came out is read, looked at whether it is valid, and written again. Reading alone is timed by a document whose
last command isn't one. The least processor time of several calls counts; a megabyte is a million bytes.

With --growth documents that have many things of one sort are carried out, and the graphs that come out read and written
again, at two sizes: four times the size takes about four times as long. With --instructions what the program takes for the
documents is counted in millions, in all and to read them alone: other work on the machine changes nothing.
"""
import argparse
import ctypes
import json
import pathlib
import sys
import time

TOP = pathlib.Path(__file__).resolve().parent.parent
sys.dont_write_bytecode = True
sys.path.append(str(TOP / "tools"))

import wit  # noqa: E402
import wit2json  # noqa: E402
from counting import counted  # noqa: E402


def wasi():
    """The push of WASI's packages."""
    return wit2json.push_of([str(it) for it in sorted(TOP.glob("examples/wasi/wit/0.2.?/*.wit"))], wit.Report())


def package(name, worlds=(), interfaces=(), types=()):
    lists = {"foreign-deps": {}, "foreign-dep-spans": [], "unknown-type-spans": [], "required-resources": []}
    return {"name": name, "worlds": list(worlds), "interfaces": list(interfaces), "types": list(types)} | lists


def push(main, nested=(), sources=(), deps=()):
    deps = [{"main": it, "nested": [], "sources": []} for it in deps]
    return {"push-groups": {"main": {"main": main, "nested": list(nested), "sources": list(sources)}, "deps": deps}}


def worlds(count):
    """The push of a package of that many worlds."""
    entry = {"interface-0": {"interface": {"id": 0, "span": [0, 4]}}}
    made = [{"name": f"world{it}", "imports": entry, "exports": {}, "span": [it, it + 1]} for it in range(count)]
    interface = {"name": "shared", "types": {}, "functions": {}, "span": [0, 4]}
    return push(package("big:package", made, [interface]), sources=[{"path": "big.wit", "text": "x" * count}])


def interface(name="i", types=None, functions=None):
    return {"name": name, "types": types or {}, "functions": functions or {}}


def importing(imports):
    return {"name": "w", "imports": imports, "exports": {}}


def function(name):
    return {"name": name, "kind": "freestanding", "params": []}


def type_of(name, kind):
    return {"name": name, "kind": kind, "owner": {"interface": 0}}


def forms(count):
    """Commands that have that many things of one sort, by the name of the sort."""
    numbers, named = range(count), [package(f"a:p{it}") for it in range(count)]
    entries = [{"interface": {"id": it}} for it in numbers]
    interfaces = [interface(f"i{it}") for it in numbers]
    functions = {f"f{it}": function(f"f{it}") for it in numbers}
    types = [type_of(f"t{it}", {"type": "u8"}) for it in numbers]
    record = {"record": {"fields": [{"name": f"f{it}", "type": "u8"} for it in numbers]}}
    misnamed = package("c:d", [], [interface(functions={"f": function("g")})])
    own, labels = ({f"{word}{it}": entries[it] for it in numbers} for word in ("interface-", "l"))
    return {
        "imports": [push(package("a:b", [importing(own)], interfaces))],
        "labels": [push(package("a:b", [importing(labels)], interfaces))],
        "functions of a world": [push(package("a:b", [importing({n: {"function": it} for n, it in functions.items()})]))],
        "functions": [push(package("a:b", [], [interface(functions=functions)]))],
        "types": [push(package("a:b", [], [interface(types={f"t{it}": it for it in numbers})], types))],
        "fields": [push(package("a:b", [], [interface(types={"t": 0})], [type_of("t", record)]))],
        "groups": [push(package("a:b"), deps=named), "package-order"],
        "nested packages": [push(package("a:b"), nested=named)],
        "pushes": [push(it) for it in named],
        "packages before one without its shape": [push(package("a:b"), nested=[*named, misnamed])],
        "files": [push(package("a:b"), sources=[{"path": f"{it}.wit", "text": "x"} for it in numbers])],
        "features": [{"add-feature": f"f{it}"} for it in numbers],
        "refusals": [push(package("a:b"))] + [{"select": {"packages": ["a:b"], "world": "x"}}] * count,
        "commands before a fault": ["package-order"] * count + ["nothing"],
        "letters": [{"add-feature": "\u00e9\n\\\"" * count}],
    }


def compact(value):
    return json.dumps(value, separators=(",", ":"), ensure_ascii=False).encode()


class Library:
    """The call, with a buffer that stays."""

    def __init__(self, path):
        size = ctypes.c_size_t
        self.call, self.needed = ctypes.CDLL(path).witgraph_json, size()
        self.call.argtypes = [ctypes.c_char_p, size, ctypes.c_char_p, size, ctypes.POINTER(size)]
        self.output = ctypes.create_string_buffer(1 << 26)

    def timed(self, text, times):
        """What comes out of a document, and the least processor time."""
        spent = []
        for _ in range(times):
            before = time.process_time()
            self.call(text, len(text), self.output, len(self.output), ctypes.byref(self.needed))
            spent.append(time.process_time() - before)
        return ctypes.string_at(self.output, self.needed.value), min(spent)


class Program:
    """The program, whose instructions are counted."""

    def __init__(self, path):
        self.command = [path]

    def timed(self, text, _):
        """What comes out of a document, and the millions of instructions."""
        out, count = counted(self.command, text, (0, 1))
        return out, count / 1e6


def row(library, name, begin, commands, times):
    """Times a document, and tells what comes out of it."""
    text = begin + b'"commands":[' + commands + b"]}"
    out, whole = library.timed(text, times)
    more = b"," * bool(commands) + b'"nothing"]}'
    fault, reading = library.timed(begin + b'"commands":[' + commands + more, times)
    if not out.startswith(b'{"replies":') or not fault.startswith(b'{"fault":'):
        sys.exit(f"{name}: {out[:300]} {fault[:300]}")
    size = len(text) / 1e6, len(out) / 1e6
    told = [f"{1000 * whole:.2f}", f"{size[0] / reading:.0f}", f"{size[1] / (whole - reading):.0f}"]
    told = told if isinstance(library, Library) else [f"{whole:.0f}", f"{reading:.0f}"]
    print(f"| {name} | {size[0]:.2f}, {size[1]:.2f} | {' | '.join(told)} |", flush=True)
    return out


def resolve_of(out):
    """The graph that came out, as text."""
    return out[out.index(b',"resolve":') + 11 : -1]


def show_growth(library, less, more, times):
    print(f"| Many | ms at {less} and {more} | the graph again |\n|---|---|---|")
    sizes = [forms(less), forms(more)]
    for name in sizes[0]:
        pushed, again = [], []
        for size in sizes:
            out, spent = library.timed(b'{"commands":%s}' % compact(size[name]), times)
            pushed.append(1000 * spent)
            if out.startswith(b'{"replies":'):
                resolve = resolve_of(out)
                out, spent = library.timed(b'{"resolve":%s,"commands":[]}' % resolve, times)
                again.append(1000 * spent)
                assert out == b'{"replies":[],"resolve":%s}' % resolve, name
        shown = [f"{it[0]:.1f}, {it[1]:.1f}: {it[1] / it[0]:.1f}" if it else "" for it in (pushed, again)]
        print(f"| {name} | {' | '.join(shown)} |", flush=True)


def main():
    parser = argparse.ArgumentParser()
    parser.add_argument("library", nargs="?")
    parser.add_argument("--instructions")
    parser.add_argument("--growth", action="store_true")
    parser.add_argument("--worlds", type=int, default=10000)
    parser.add_argument("--times", type=int, default=200)
    asked = parser.parse_args()
    if not asked.library and not asked.instructions:
        parser.error("a library or a program is needed")
    library = Program(asked.instructions) if asked.instructions else Library(asked.library)
    if asked.growth:
        show_growth(library, 4000, 16000, 5)
        return
    columns = "millions | reading |\n|---|---|---|---|" if asked.instructions else "ms | reading, MB/s in | the rest, MB/s out |\n|---|---|---|---|---|"
    print(f"| Document | MB in, out | {columns}")
    for name, push in (("WASI", wasi()), (f"{asked.worlds} worlds", worlds(asked.worlds))):
        out = row(library, f"{name}, pushed", b"{", compact(push), asked.times)
        resolve = resolve_of(out)
        again = row(library, f"{name}, the graph again", b'{"resolve":' + resolve + b",", b"", asked.times)
        if again != b'{"replies":[],"resolve":' + resolve + b"}":
            sys.exit(f"{name}: another graph comes out")


if __name__ == "__main__":
    main()

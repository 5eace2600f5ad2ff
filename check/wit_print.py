#!/usr/bin/env python3
"""Prints graphs as WIT by `wit_print` and reads the texts back.

    python3 check/wit_print.py [--out OUT] [--many N] [--first N] [--shown N] KIND..

`tools/plain_rust` makes Rust of the source in OUT (a folder of its own is the default), and cargo a program of it, which carries
documents out and prints the packages of each graph. `tools/wit` reads each text, and the program pushes what was read, in the order of the graph. Then the
graph is to be the same but for spans and the numbers of types without names, and its texts are to be the same. So are all
packages as one text, but for the order of the packages.

A KIND is `wasi` (examples/wasi), `texts` (check/wit_writer.py), `stored` (cases of test_cases), `scripts` (random ones) or
`documents` (check/whole). Counted are graphs that come back the same, those that do so but for the order of what stands in
interfaces, worlds and packages, and what can't be written (crates/wit_print/src/lib.rt), by what the reader says.
Ends with status 1 where something else came back, and with 77 where cargo or its crates aren't there.
"""
import argparse
import collections
import json
import pathlib
import re
import shutil
import subprocess
import sys
import tempfile

TOP = pathlib.Path(__file__).resolve().parent.parent
sys.dont_write_bytecode = True
sys.path[:0] = [str(TOP / "tools"), str(TOP / "check"), str(TOP / "check" / "whole")]

import compare  # noqa: E402
import random_documents  # noqa: E402
import script_documents  # noqa: E402
import wit  # noqa: E402
import wit_writer  # noqa: E402
from plain_rust import layout, packages  # noqa: E402

SKIPPED = 77
MAIN = r"""//! Prints the graphs of documents, which are lines, as WIT: each text behind a letter and the number of its bytes.
use std::io::{Read, Write};
use wit_resolve_graph::json::Document;

fn tell(out: &mut Vec<u8>, sort: &str, text: &str) {
    out.extend_from_slice(format!("{sort} {}\n{text}\n", text.len()).as_bytes());
}

fn main() {
    let (mut input, mut out) = (String::new(), Vec::new());
    std::io::stdin().read_to_string(&mut input).unwrap();
    for line in input.lines() {
        match Document::from_json(line).map(|it| it.carry_out()) {
            Ok(Some((resolve, _))) => {
                tell(&mut out, "G", &resolve.to_json());
                for (id, _) in &resolve.packages {
                    tell(&mut out, "P", &wit_resolve_graph::print_package(&resolve, id));
                }
                if let Some((id, _)) = (&resolve.packages).into_iter().next() {
                    tell(&mut out, "A", &wit_resolve_graph::print_graph(&resolve, id));
                }
            }
            Ok(None) => tell(&mut out, "E", "not valid"),
            Err(fault) => tell(&mut out, "E", &fault.to_string()),
        }
        out.extend_from_slice(b".\n");
    }
    std::io::stdout().write_all(&out).unwrap();
}
"""


def program(out):
    """The program in a folder, None where cargo or its crates aren't there."""
    if shutil.which("cargo") is None:
        return None
    layout.TESTS, layout.STORED = (), ()
    layout.write_documents = lambda folder: None
    layout.make(out)
    if not packages.missing() or packages.can_install():
        packages.take(out)
    if not packages.are_fetched(out):
        return None
    layout.write(out / "examples" / "wit_print.rs", MAIN)
    subprocess.run(["cargo", "build", "--quiet", "-j2", "--example", "wit_print"], cwd=out, check=True)
    return out / "target" / "debug" / "examples" / "wit_print"


def answers(path, documents):
    """Of each document what the program prints: pairs of a letter and a text."""
    lines = "".join(json.dumps(it, ensure_ascii=False) + "\n" for it in documents)
    out = subprocess.run([path], input=lines.encode(), stdout=subprocess.PIPE, check=True).stdout
    at, told, found = 0, [], []
    while at < len(out):
        end = out.index(b"\n", at)
        sort, _, size = out[at:end].decode().partition(" ")
        if sort == ".":
            found, told, at = [*found, told], [], end + 1
        else:
            told.append((sort, out[end + 1 : end + 1 + int(size)].decode()))
            at = end + 2 + int(size)
    return found


def read(text):
    """The group of a text as JSON, None where it can't be read, and the report."""
    report = wit.Report()
    group = wit.group_in([wit.File("p.wit", text)], "p.wit", report)
    if group is None or report.problems:
        return None, report
    main, *nested = [it.data for it in group.packages]
    return {"main": main, "nested": nested, "sources": [{"path": it.path, "text": it.text} for it in group.files]}, report


def without_spans(value):
    """Details without spans. (`parts` and `params` have one member each, which may be a span alone.)"""
    if isinstance(value, dict):
        kept = {k: without_spans(v) for k, v in value.items() if k != "span"}
        return {k: v for k, v in kept.items() if v not in (None, [], {})}
    if isinstance(value, list) and not (len(value) == 2 and all(isinstance(it, int) for it in value)):
        found = [without_spans(it) or None for it in value]
        return found if any(found) else None
    return None if isinstance(value, list) else value


class Told:
    """A graph without numbers and spans. `in_order` says whether the order counts of what stands in a scope."""

    def __init__(self, resolve, in_order):
        self.graph, self.details, self.in_order = resolve["graph"], resolve["details"], in_order
        self.names = [it["name"] for it in self.graph["packages"]]
        self.places = dict(self.in_place())

    def in_place(self):
        """Of each interface without a name where it stands."""
        for world in self.graph["worlds"]:
            for side in ("imports", "exports"):
                for key, item in world[side].items():
                    if "interface" in item:
                        yield item["interface"]["id"], [self.names[world["package"]], world["name"], side, key]

    def order(self, found):
        return found if self.in_order else sorted(found, key=json.dumps)

    def interface_name(self, id):
        it = self.graph["interfaces"][id]
        return self.places.get(id) if it["name"] is None else [self.names[it["package"]], it["name"]]

    def owner(self, owner):
        if owner is None:
            return None
        [(sort, id)] = owner.items()
        world = self.graph["worlds"][id] if sort == "world" else None
        return [self.names[world["package"]], "world", world["name"]] if world else self.interface_name(id)

    def type(self, ty):
        """What names a type: a primitive, an owner and a name, or a kind."""
        if not isinstance(ty, int):
            return ty
        it = self.graph["types"][ty]
        return [self.owner(it["owner"]), it["name"]] if it["name"] is not None else ["unnamed", self.kind(it["kind"])]

    def kind(self, kind):
        if isinstance(kind, str):
            return kind
        [(word, value)] = kind.items()
        if word in ("record", "variant", "enum", "flags"):
            [parts] = value.values()
            return [word, [[it["name"], self.type(it.get("type"))] for it in parts]]
        if word == "fixed-length-list":
            return [word, self.type(value[0]), str(value[1])]
        if isinstance(value, dict):
            return [word, [[k, [self.type(it) for it in v] if isinstance(v, list) else self.type(v)] for k, v in value.items()]]
        return [word, [self.type(it) for it in value] if isinstance(value, list) else self.type(value)]

    def definition(self, id):
        it = self.graph["types"][id]
        more = [it.get("docs"), it.get("stability"), without_spans(self.details["types"][id])]
        return [it["name"], self.owner(it["owner"]), self.kind(it["kind"]), more]

    def function(self, it, details):
        kind = it["kind"] if isinstance(it["kind"], str) else [[k, self.type(v)] for k, v in it["kind"].items()]
        params = [[of["name"], self.type(of["type"])] for of in it["params"]]
        more = [it.get("docs"), it.get("stability"), without_spans(details)]
        return [it["name"], kind, params, self.type(it.get("result")), more]

    def interface(self, id):
        it, details = self.graph["interfaces"][id], self.details["interfaces"][id]
        of_functions = details.get("functions", {})
        types = [[name, self.definition(ty)] for name, ty in it["types"].items()]
        functions = [[name, self.function(of, of_functions.get(name, {}))] for name, of in it["functions"].items()]
        more = [it.get("docs"), it.get("stability"), without_spans({**details, "functions": None})]
        return [it["name"], self.order(types), self.order(functions), more]

    def entry(self, key, item, details):
        [(sort, value)] = item.items()
        if sort == "function":
            return [key, self.function(value, details)]
        if sort == "type":
            return [key, self.definition(value if isinstance(value, int) else value["id"])]
        id = value["id"]
        is_named = self.graph["interfaces"][id]["name"] is not None
        name = self.interface_name(id) if key == f"interface-{id}" else key
        more = [value.get("stability"), value.get("docs"), without_spans(details)]
        return [name, self.interface_name(id) if is_named else self.interface(id), more]

    def world(self, id):
        it, details = self.graph["worlds"][id], self.details["worlds"][id]
        sides = []
        for side in ("imports", "exports"):
            of_side = details.get(side, {})
            sides.append(self.order([self.entry(key, item, of_side.get(key, {})) for key, item in it[side].items()]))
        return [it["name"], sides, it.get("docs"), it.get("stability")]

    def packages(self):
        for it in self.graph["packages"]:
            interfaces = self.order([self.interface(id) for id in it["interfaces"].values()])
            yield [it["name"], it.get("docs"), interfaces, self.order([self.world(id) for id in it["worlds"].values()])]


def docs_in(value):
    """All documentation in a part of a document."""
    if isinstance(value, dict):
        if isinstance(docs := value.get("docs"), dict):
            yield docs["contents"] or ""
        value = list(value.values())
    if isinstance(value, list):
        for it in value:
            yield from docs_in(it)


def is_method_of(it, graph):
    """Whether the first parameter of a method is `self`, a borrow."""
    first = it["params"][0] if it["params"] else {"name": "", "type": None}
    kind = graph["types"][first["type"]]["kind"] if isinstance(first["type"], int) else None
    return first["name"] == "self" and isinstance(kind, dict) and "borrow" in kind.get("handle", {})


def release(version):
    """The numbers of a version."""
    return [int(it) for it in re.split("[-+]", version)[0].split(".")]


def unsayable(resolve, texts):
    """Why texts of a graph read back as something else or not at all, by the list of crates/wit_print/src/lib.rt."""
    graph = resolve["graph"]
    for text in texts:
        version = re.search("^package [^ ;]*@([^ ;]*);$", text, re.M)
        gates = re.findall(r"^ *@since\(version = (.*)\)$", text, re.M)
        if any(version is None or release(it) > release(version[1]) for it in gates):
            yield "a gate of a later version than its package's"
    for it in graph["types"]:
        of = it["kind"].get("type") if isinstance(it["kind"], dict) else None
        if isinstance(of, int) and graph["types"][of]["owner"] != it["owner"] and it.get("docs"):
            yield "docs of a use"
    for docs in docs_in(resolve):
        if docs != docs.strip("\n") or any(line != line.rstrip() for line in docs.split("\n")):
            yield "docs with blanks or empty lines at an end"
    functions = [it for of in graph["interfaces"] for it in of["functions"].values()]
    for world, details in zip(graph["worlds"], resolve["details"]["worlds"]):
        for side in ("imports", "exports"):
            for key, item in world[side].items():
                functions += [item["function"]] if "function" in item else []
                inner = graph["interfaces"][item["interface"]["id"]] if "interface" in item else {"name": ""}
                if inner["name"] is None:
                    docs = item["interface"].get("docs") or details.get(side, {}).get(key, {}).get("docs")
                    if docs or item["interface"].get("stability") != inner.get("stability"):
                        yield "docs or a gate of an entry in place"
    for it in functions:
        word = "" if isinstance(it["kind"], str) else list(it["kind"])[0]
        if word in ("method", "async-method") and not is_method_of(it, graph):
            yield "a method without its self"
        if word == "constructor" and it.get("result") is None:
            yield "a constructor that makes nothing"


def told(resolve, in_order):
    return list(Told(resolve, in_order).packages())


class Comparison:
    """Counts what comes back, and shows the first few graphs that come back other."""

    def __init__(self, shown):
        self.counts, self.shown, self.wrong = collections.Counter(), shown, 0

    def fail(self, name, what, texts):
        self.counts[what] += 1
        self.wrong += 1
        if self.wrong <= self.shown:
            print(f"=== {name}: {what}", *texts, sep="\n")

    def groups(self, texts):
        """The groups of texts, None where one can't be read, which is counted."""
        groups = []
        for text in texts:
            group, report = read(text)
            if group is None:
                fault = re.sub("`.*?`", "`..`", report.lines()[0].split("\n")[0])
                self.counts[f"can't be written: {fault}"] += 1
                return None
            groups.append(group)
        return groups

    def compare(self, name, first, second, whole):
        """What was printed, what came of the texts of its packages, and what came of all as one text."""
        texts = [text for sort, text in first if sort == "P"]
        graph, other, all_of_it = (json.loads(it[0][1]) if it[0][0] == "G" else None for it in (first, second, whole))
        if what := next(unsayable(graph, texts), None):
            self.counts[f"can't be written: {what}"] += 1
            return None
        if other is None or all_of_it is None:
            return self.fail(name, "not pushed", texts)
        of_all = sorted(told(all_of_it, False), key=json.dumps)
        if of_all != sorted(told(graph, False), key=json.dumps):
            return self.fail(name, "other", texts)
        if told(graph, True) == told(other, True):
            if texts != [text for sort, text in second if sort == "P"]:
                return self.fail(name, "other texts", texts)
            self.counts["same"] += 1
        else:
            self.counts["same but for the order"] += 1
        return None


def named(asked):
    """The documents that are asked for, with their names."""
    numbers = range(asked.first, asked.first + asked.many)
    scripts = {}
    if "wasi" in asked.kinds:
        for folder in ("0.2.0", "0.2.3"):
            main, *deps = [read(it.read_text())[0] for it in sorted((TOP / "examples/wasi/wit" / folder).glob("*.wit"))]
            yield folder, {"commands": [{"set-all-features": True}, push(main, deps)]}
    if "texts" in asked.kinds:
        for n in numbers:
            group, _ = read(wit_writer.gentle(n))
            yield f"text {n}", {"commands": [{"set-all-features": n % 2 == 0}, push(group)]}
    if "stored" in asked.kinds:
        scripts |= compare.stored(compare.read(str(TOP / "crates/test_cases/stdin")))[0]
    if "scripts" in asked.kinds:
        scripts |= {f"script {n}": compare.written(n, compare.KINDS) for n in numbers}
    for name, script in scripts.items():
        if document := script_documents.document_of(script):
            yield name, document
    if "documents" in asked.kinds:
        yield from ((f"document {n}", random_documents.document(n, n % 2 == 0)) for n in numbers)


def push(main, deps=()):
    return {"push-groups": {"main": main, "deps": list(deps)}}


def compared(path, asked):
    """How many graphs came back other, after the counts are printed."""
    comparison = Comparison(asked.shown)
    names, documents = zip(*named(asked))
    printed, again = [], []
    for name, first in zip(names, answers(path, documents)):
        if [sort for sort, _ in first] in (["E"], ["G"]):
            comparison.counts["without packages"] += 1
            continue
        groups = comparison.groups([text for sort, text in first if sort != "G"])
        if groups:
            printed.append((name, first))
            again += [{"commands": [{"set-all-features": True}, *map(push, groups[:-1])]}]
            again += [{"commands": [{"set-all-features": True}, push(groups[-1])]}]
    back = answers(path, again)
    for (name, first), second, whole in zip(printed, back[::2], back[1::2]):
        comparison.compare(name, first, second, whole)
    print(*(f"{count:6} {what}" for what, count in comparison.counts.most_common()), sep="\n")
    return comparison.wrong


def main():
    parser = argparse.ArgumentParser()
    parser.add_argument("kinds", nargs="+")
    parser.add_argument("--out", type=pathlib.Path)
    parser.add_argument("--many", type=int, default=300)
    parser.add_argument("--first", type=int, default=0)
    parser.add_argument("--shown", type=int, default=3)
    asked = parser.parse_args()
    with tempfile.TemporaryDirectory(prefix="wit-print-") as folder:
        path = program(asked.out or pathlib.Path(folder))
        if path is None:
            print("SKIPPED: no cargo, or no crates for it: no graph is printed")
            return SKIPPED
        return 1 if compared(path, asked) else 0


if __name__ == "__main__":
    sys.exit(main())

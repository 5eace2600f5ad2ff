#!/usr/bin/env python3
"""Asks whether refusals tell their ways.

    python3 check/ways.py [PROGRAM] [--json WITGRAPH_JSON] [--many N] [--documents N] [--first N]

makes random scripts and has PROGRAM explain them, and the first ones as documents WITGRAPH_JSON, which are
`test_explanations` and `witgraph_json` as `rt ci` leaves them in their folders `out`. The status is 1 where a refusal of
4, 6, 22 or 23 tells no way, or one that doesn't begin with what the refusal names (4), or doesn't lead back to it (6, 22),
or to where it begins (23), or of which a step between interfaces is told by a line of a world; or where a document's
refusals tell other ways, or other data than their texts. No clause says that there is a way.
"""
import argparse
import collections
import json
import os
import random
import re
import subprocess
import sys

from model import refusals
from script_documents import document_of

TOP = os.path.dirname(os.path.dirname(os.path.abspath(__file__)))
PROGRAM = f"{TOP}/crates/test_explanations/out/test_explanations"
JSON = f"{TOP}/crates/witgraph_json/out/witgraph_json"
NAMED = re.compile(r"`([^`]*)`")
LABEL = re.compile(r"/[^@.]+\.")
LABELS = ["m", "n", "o", "q"]


class Package:
    """The lines of a package, and what others may name of it."""

    def __init__(self, source, name, others):
        self.source, self.name, self.others = source, name, [it for it in others if it.name != name]
        self.lines, self.interfaces, self.worlds = [f"package {name}"], {}, []

    def path(self, item):
        name, _, version = self.name.partition("@")
        return f"{name}/{item}" + (f"@{version}" if version else "")

    def foreign(self, kind):
        return [(it.path(item), item, it) for it in self.others for item in getattr(it, kind)]

    def add_interface(self, name, uses):
        self.lines.append(f"interface {name}")
        types = [(item, own) for item, own in self.interfaces.items()]
        types += [(path, it.interfaces[item]) for path, item, it in self.foreign("interfaces")]
        own = []
        for index in range(uses if types else 0):
            path, named = self.source.choice(types)
            own.append(f"u{name}{index}")
            self.lines.append(f"use {path} {self.source.choice(named)} {own[-1]}")
        own.append(f"t{name}")
        self.lines.append(f"type t{name} u32")
        self.interfaces[name] = own

    def add_world(self, name):
        self.lines.append(f"world {name}")
        paths = [*self.interfaces, *[path for path, _, _ in self.foreign("interfaces")]]
        labels = self.source.sample(LABELS[:3], 3)
        entries = [(self.source.choice(["import", "export", "export"]), self.source.choice(paths)) for _ in range(4)]
        for kind, path in dict.fromkeys(entries):
            if self.source.random() < 0.7:
                self.lines.append(f"{kind} {path}")
            elif labels:
                self.lines.append(f"{kind} {labels.pop()}={path}")
        worlds = [*self.worlds, *[path for path, _, _ in self.foreign("worlds")]]
        if worlds and self.source.random() < 0.5:
            renaming = self.source.choice(["", "", " m=q", " n=q"])
            self.lines.append(f"include {self.source.choice(worlds)}{renaming}")
        self.worlds.append(name)


def new_package(source, others, name, interfaces, worlds):
    names = [f"a:{name}{version}" for name in "bcd" for version in ["", "@1.0.0", "@1.1.0"]]
    free = [it for it in names if it not in [other.name for other in others]]
    package = Package(source, name or source.choice(free), others)
    for item in source.sample(interfaces, source.randint(1, len(interfaces))):
        package.add_interface(item, source.choice([0, 1, 1, 2]))
    # a world may have an interface's name
    for item in source.sample(worlds + interfaces[:1], source.randint(0, len(worlds))):
        package.add_world(item)
    return package


def transformation(source, packages):
    worlds = [(it, world) for it in packages for world in it.worlds]
    if not worlds:
        return []
    package, world = source.choice(worlds)
    command = source.choice(["importize", "exportize", "exportize", "semver"])
    if command == "semver":
        return [f"semver {package.name} {world}"]
    new = source.choice(["-", "y", "z"])
    if new != "-":
        package.worlds[package.worlds.index(world)] = new
    keys = [it.path(item) for it in packages for item in it.interfaces] + LABELS
    chosen = source.sample(keys, source.randint(0, 3)) if command == "exportize" else []
    return [" ".join([command, package.name, world, new, *chosen])]


def graph(source, names, interfaces="ijkl", worlds="vwx"):
    packages, lines = [], []
    for index in range(source.randint(1, 4)):
        name = names[index] if index < len(names) and source.random() < 0.7 else None
        if name in [it.name for it in packages]:
            name = None
        packages.append(new_package(source, packages, name, interfaces, worlds))
        lines += packages[-1].lines + (["push"] if source.random() < 0.8 else [])
        if lines[-1] == "push" and source.random() < 0.4:
            lines += transformation(source, packages)
    return packages, lines + ([] if lines[-1] == "push" else ["push"])


def two_graphs(source):
    """A script of which the second graph may have packages of the first one's names, and other items in them."""
    apart = source.random() < 0.7
    packages, lines = graph(source, [], *(["ij", "v"] if apart else []))
    if source.random() < 0.7:
        names = [it.name for it in packages]
        others, more = graph(source, names[::-1], *(["kl", "w"] if apart else []))
        lines += ["other", *more, "merge"]
        packages += [it for it in others if it.name not in names]
    return lines + transformation(source, packages)


def same_twice(source):
    """A script of which both graphs have one package, either the first with more uses, or both with uses of their own in
    other orders; the second has a world that is renamed."""
    names = "ijkl"[: source.randint(2, 4)]
    first = [it for it in pairs(names) if source.random() < 0.6]
    second = [it for it in first if source.random() < 0.5]
    order = names
    if source.random() < 0.2:
        order = names[::-1]
        second = [it for it in pairs(order) if source.random() < 0.3]
    lines = [*twice_lines(names, first), "other", *twice_lines(order, second)]
    below = Package(source, "a:b", [])
    below.interfaces = {name: [f"t{name}"] for name in names}
    package = Package(source, "c:d", [below])
    package.add_interface("k", 2)
    package.add_world("w")
    lines += [*package.lines, "push", *transformation(source, [below, package])]
    return [*lines, "merge"]


def pairs(names):
    return [(user, used) for at, user in enumerate(names) for used in names[:at]]


def twice_lines(names, uses):
    lines = ["package a:b"]
    for name in names:
        lines.append(f"interface {name}")
        lines += [f"use {used} t{used} u{used}" for user, used in uses if user == name]
        lines.append(f"type t{name} u32")
    return [*lines, "push"]


def way_fault(number, text, way, lines):
    """What is wrong with the way of a refusal and the lines of its steps, if anything is."""
    if not way:
        return "no way"
    named, begin, end = NAMED.search(text).group(1), way[0], way[-1]
    labels = [it for it in way if LABEL.search(it)]
    if number in ["4", "22"] and len([it for it in lines if not it.startswith("use ")]) > len(labels):
        return "goes by a line of a world"
    if number == "4":
        return None if begin == named or begin.partition("@")[0].endswith(f".{named}") else "begins elsewhere"
    if begin != end or (number != "23" and begin != named):
        return "doesn't lead back"
    return None


def faults(told):
    """Of the refusals that are told, how many have a way, by number, and what is wrong with one."""
    counts, wrong, case, text, way, lines = collections.Counter(), [], "", "", [], []
    for line in told.splitlines():
        if line.startswith("=== "):
            case = line[4:]
        elif line.startswith("refused "):
            text, way, lines = line, [], []
        elif line.startswith("      = way: "):
            way, lines = line[len("      = way: ") :].split(" -> "), []
        elif match := re.fullmatch(r" *\d+ \| (.*)", line):
            lines.append(match[1])
        elif match := re.fullmatch(r"      = (4|6|22|23) in docs/REFUSALS.md", line):
            counts[match[1]] += 1
            fault = way_fault(match[1], text, way, lines)
            wrong += [f"{case}: {fault}: {text}"] if fault else []
    return counts, wrong


def refused_in(value):
    """What a document tells of each refusal, in order."""
    if isinstance(value, dict):
        return [value] if "rendered" in value else [it for part in value.values() for it in refused_in(part)]
    return [it for part in value for it in refused_in(part)] if isinstance(value, list) else []


def ways_in(text):
    """The ways of a text with the lines of their steps, without the numbers that these have in a script."""
    ways = re.findall(r"^ +(= way: .*(?:\n +--> .*\n +\|\n.*\n +\|.*)*)", text, flags=re.M)
    steps = [re.sub(r"--> line \d+ \((.*)\)", r"--> \1", way) for way in ways]
    return [re.sub(r"^ *\d* \|", "|", way, flags=re.M) for way in steps]


def differing(program, cases, told):
    """Of how many cases a document tells ways, and the cases of which it tells others than these."""
    told = dict(it.split("\n", 1) for it in told.split("=== ")[1:])
    count, differ = 0, []
    for case, lines in cases:
        document = document_of("\n".join(lines))
        if case not in told or document is None or "= way: " not in told[case]:
            continue
        run = subprocess.run([program], input=json.dumps(document), text=True, capture_output=True, check=False)
        refused = refused_in(json.loads(run.stdout)["replies"])
        ways = ways_in("\n".join(it["rendered"] for it in refused))
        count += 1
        differ += [f"{case}: {fault}" for it in refused for fault in refusals.faults(it)]
        differ += [f"{case}: a document tells other ways"] if ways != ways_in(told[case]) else []
    return count, differ


def main():
    parser = argparse.ArgumentParser()
    parser.add_argument("program", nargs="?", default=PROGRAM)
    parser.add_argument("--json", default=JSON)
    parser.add_argument("--many", type=int, default=10000)
    parser.add_argument("--documents", type=int, default=2000)
    parser.add_argument("--first", type=int, default=0)
    asked = parser.parse_args()
    cases = []
    for seed in range(asked.first, asked.first + asked.many):
        source = random.Random(seed)
        cases.append((str(seed), source.choice([two_graphs, same_twice])(source)))
    scripts = "".join("\n".join([f"=== {case}", *lines, "---", ""]) for case, lines in cases)
    told = subprocess.run([asked.program], input=scripts, text=True, capture_output=True, check=False).stdout
    counts, wrong = faults(told)
    documents, differ = differing(asked.json, cases[: asked.documents], told)
    wrong += differ
    print("\n".join(wrong[:20] + [f"{sum(counts.values())} ways of {dict(counts)}, {documents} documents, {len(wrong)} wrong"]))
    return 1 if wrong or not documents or not all(counts[it] for it in ["4", "6", "22"]) else 0


if __name__ == "__main__":
    sys.exit(main())

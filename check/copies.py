#!/usr/bin/env python3
"""Merges graphs of random scripts with copies of themselves, in the model of the rules.

    python3 check/copies.py [--first N] [--many N] [--jobs N]

After each command of a script that changes its graph a copy of the graph goes into it. Where a cause holds against that,
or a world is printed otherwise then, the script is printed, and the status is 1. Scripts have no interface without a
name, so this says nothing of graphs with such ones (docs/DECISIONS.md).
"""
import argparse
import multiprocessing
import sys

from compare import KINDS, written
from model.merging import merge
from model.scripts import Rules, Session, commands_of, shown

# `broken` scripts aren't understood for the most part
WRITTEN = [kind for kind in KINDS if kind != "broken"]
CHANGING = {"push", "importize", "exportize", "semver", "merge"}


def worlds_of(graph):
    return {shown(package, world) for package in graph.packages for world in package.worlds.values()}


def copied(number):
    """How many copies were merged on the way of a script, and what is wrong with them."""
    script = written(number, WRITTEN)
    commands, session, count, wrong = commands_of(script), Session(Rules()), 0, []
    for words, packages in [] if isinstance(commands, int) else commands:
        session.answer(words, packages)
        graph = session.graphs[-1]
        if words[0] in CHANGING and graph.packages:
            made, causes = merge(graph, graph, True)
            count += 1
            if causes or worlds_of(made) != worlds_of(graph):
                wrong.append(f"{number}, after {words}: {causes}\n{script}")
    return count, wrong


def main():
    parser = argparse.ArgumentParser()
    parser.add_argument("--first", type=int, default=1)
    parser.add_argument("--many", type=int, default=1000)
    parser.add_argument("--jobs", type=int, default=1)
    asked = parser.parse_args()
    total, wrong = 0, []
    with multiprocessing.Pool(asked.jobs) as pool:
        for count, found in pool.imap(copied, range(asked.first, asked.first + asked.many), chunksize=20):
            total, wrong = total + count, wrong + found
    print(*wrong[:5], sep="\n", end="")
    print(f"{asked.many} scripts, {total} merges with a copy, {len(wrong)} refused or with other worlds")
    return 1 if wrong else 0


if __name__ == "__main__":
    sys.exit(main())

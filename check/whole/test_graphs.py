#!/usr/bin/env python3
"""Tests that a comparison of graphs sees every datum: of a graph that `witgraph_json` writes each leaf is changed in
turn, and the order of each table.

    python3 check/whole/test_graphs.py PATH/TO/witgraph_json [--many N]

What may stay unseen is told: the span, docs and gate of an `own` that a value needs, numbers of copies, and the rule of
tracks.
"""
import argparse
import copy
import json
import sys

from random_documents import document
from graphs import Differ, is_own, paired
from whole import run


def leaves(value, path=()):
    """The paths of all values that have no parts."""
    parts = value.items() if isinstance(value, dict) else enumerate(value) if isinstance(value, list) else None
    if parts is None:
        yield path
    else:
        for key, it in list(parts):
            yield from leaves(it, (*path, key))


def at_path(value, path):
    for key in path:
        value = value[key]
    return value


def is_change_seen(graph, other, path):
    """Whether a change of a leaf of the other graph, which is the same, is seen."""
    at, key = at_path(other, path[:-1]), path[-1]
    old = at[key]
    at[key] = old + 1 if isinstance(old, int) and not isinstance(old, bool) else [old]
    told = is_seen(graph, other)
    at[key] = old
    return told


def is_order_seen(graph, other, path):
    """Whether it is seen that the first two members of an object stand in another order."""
    at = at_path(other, path)
    members = list(at.items())
    put(at, [members[1], members[0], *members[2:]])
    told = is_seen(graph, other)
    put(at, members)
    return told


def put(at, members):
    at.clear()
    at.update(members)


def is_seen(one, other):
    try:
        paired(one, other)
        return False
    except (Differ, KeyError, IndexError, TypeError, ValueError, AttributeError):
        return True


def unseen(resolve, other):
    """The paths of leaves whose change isn't seen, but for those of `own`s."""
    owns = {at for at, it in enumerate(resolve["graph"]["types"]) if is_own(it)}
    for path in leaves(resolve):
        is_free = path[0] == "track-rule" or path[1] == "types" and path[2] in owns
        if not is_free and not is_change_seen(resolve, other, path):
            yield path


def tables(resolve):
    """The paths of what has an order, with two members at least."""
    return [path for path in listed(resolve) if len(at_path(resolve, path)) > 1]


def listed(resolve):
    for side in ("imports", "exports"):
        yield from (("graph", "worlds", at, side) for at in range(len(resolve["graph"]["worlds"])))
    for name in ("types", "functions"):
        yield from (("graph", "interfaces", at, name) for at in range(len(resolve["graph"]["interfaces"])))
    for name in ("interfaces", "worlds"):
        yield from (("graph", "packages", at, name) for at in range(len(resolve["graph"]["packages"])))


def main():
    parser = argparse.ArgumentParser()
    parser.add_argument("program")
    parser.add_argument("--many", type=int, default=10)
    asked = parser.parse_args()
    counts = [0, 0, 0]
    for number in range(1, asked.many + 1):
        resolve = run(asked.program, document(number)["commands"])[0].resolve
        other = copy.deepcopy(resolve)
        assert not is_seen(resolve, other)
        orders = tables(resolve)
        found = [*unseen(resolve, other), *(it for it in orders if not is_order_seen(resolve, other, it))]
        counts = [counts[0] + len(list(leaves(resolve))), counts[1] + len(orders), counts[2] + len(found)]
        if found:
            print(number, json.dumps(found[:6]))
    print("{} leaves and {} orders changed, {} unseen".format(*counts))
    return 1 if counts[2] else 0


if __name__ == "__main__":
    sys.exit(main())

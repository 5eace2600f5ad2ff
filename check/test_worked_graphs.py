#!/usr/bin/env python3
"""Tests of worked_graphs.py: `python3 check/test_worked_graphs.py`. The graphs here are worked by hand."""
import copy
import os
import sys
import unittest

sys.dont_write_bytecode = True
sys.path.insert(0, os.path.dirname(os.path.abspath(__file__)))

import worked_graphs  # noqa: E402

SCRIPT = """package a:b
interface a
resource t
interface b
use a t s
record p x:s @unstable=f
world w
import b
feature f
"""
# docs/DEFINITIONS.md has its types: the field `x` gets an `own` of its own
RESOLVE = {
    "graph": {
        "worlds": [
            {
                "name": "w",
                "imports": {"interface-0": {"interface": {"id": 0}}, "interface-1": {"interface": {"id": 1}}},
                "exports": {},
                "package": 0,
            }
        ],
        "interfaces": [
            {"name": "a", "types": {"t": 0}, "functions": {}, "package": 0},
            {"name": "b", "types": {"s": 1, "p": 2}, "functions": {}, "package": 0},
        ],
        "types": [
            {"name": "t", "kind": "resource", "owner": {"interface": 0}},
            {"name": "s", "kind": {"type": 0}, "owner": {"interface": 1}},
            {
                "name": "p",
                "kind": {"record": {"fields": [{"name": "x", "type": 3}]}},
                "owner": {"interface": 1},
                "stability": {"unstable": {"feature": "f"}},
            },
            {"name": None, "kind": {"handle": {"own": 1}}, "owner": None},
        ],
        "packages": [{"name": "a:b", "interfaces": {"a": 0, "b": 1}, "worlds": {"w": 0}}],
    },
    "details": {
        "worlds": [{"span": [82, 89], "imports": {"interface-0": {}, "interface-1": {}}, "exports": {}}],
        "interfaces": [{"span": [12, 23], "functions": {}}, {"span": [35, 46], "functions": {}}],
        "types": [{"span": [24, 34]}, {"span": [47, 56]}, {"span": [57, 81], "parts": [[57, 81]]}, {}],
    },
    "features": {"all": False, "names": ["f"]},
    "track-rule": "published",
    "sources": [{"path": "a:b", "text": SCRIPT.removesuffix("feature f\n")}],
}
PUSHED = "feature f\n" + SCRIPT.replace("feature f", "push")
# (a merge into what has two more imports than the world that comes is refused)
REFUSED = "other\npackage a:b\nworld w\npush\nmerge\n"
# What is changed, and to what
CHANGES = {
    "resolve.details.types[1].span[0]": 46,
    "resolve.details.types[2].parts[0][1]": 80,
    "resolve.graph.types[2].stability.unstable.feature": "g",
    "resolve.graph.types[2].kind.record.fields[0].type": 1,
    "resolve.graph.types[3].kind.handle.own": 0,
    "resolve.graph.interfaces[1].types": {"p": 2, "s": 1},
    "resolve.graph.worlds[0].imports": {"interface-1": {"interface": {"id": 1}}, "interface-0": {"interface": {"id": 0}}},
    "resolve.features.names[0]": "g",
    "resolve.sources[0].path": "a:c",
}


def changed(path, value):
    """The graph with another value at a path."""
    made = {"resolve": copy.deepcopy(RESOLVE)}
    *way, last = [int(it) if it.isdigit() else it for it in path.replace("[", ".").replace("]", "").split(".")]
    place = made
    for it in way:
        place = place[it]
    place[last] = value
    return made["resolve"]


class WorkedGraphs(unittest.TestCase):
    def test_by_hand(self):
        self.assertEqual(worked_graphs.text_of(RESOLVE), worked_graphs.text_of(worked_graphs.graph_of(PUSHED)))

    def test_each_change_is_told(self):
        self.assertIsNone(worked_graphs.first_difference(RESOLVE, changed("resolve.track-rule", "published")))
        for path, value in CHANGES.items():
            told = worked_graphs.first_difference(RESOLVE, changed(path, value))
            self.assertTrue((told or "").startswith(f"{path} is "), f"{path}: {told}")

    def test_stored_otherwise(self):
        made = worked_graphs.stored_text({"one": RESOLVE, "two": RESOLVE})
        self.assertEqual([], worked_graphs.stored_faults(made, made))
        for path, value in list(CHANGES.items())[:-1]:
            stored = worked_graphs.stored_text({"one": RESOLVE, "two": changed(path, value)})
            self.assertIn("first line 5", worked_graphs.stored_faults(made, stored)[0])
        self.assertIn("first line 4", worked_graphs.stored_faults(made, worked_graphs.stored_text({"one": RESOLVE}))[0])

    def test_files_stay_after_a_refusal(self):
        wanted = changed("resolve.sources", [*RESOLVE["sources"], {"path": "a:b", "text": "package a:b\nworld w\n"}])
        self.assertIsNone(worked_graphs.first_difference(wanted, worked_graphs.graph_of(PUSHED + REFUSED)))

    def test_merged_files_are_behind(self):
        end = len(RESOLVE["sources"][0]["text"]) + 1
        made = worked_graphs.graph_of(PUSHED + "other\npackage a:c\ninterface d\npush\nmerge\n")
        self.assertEqual([end + 12, end + 23], made["details"]["interfaces"][2]["span"])

    def test_not_understood(self):
        self.assertIsNone(worked_graphs.graph_of("package a:b\npush\ntype\n"))


if __name__ == "__main__":
    unittest.main()

#!/usr/bin/env python3
"""Tests of entered_names.py: `python3 check/test_entered_names.py`."""
import os
import sys
import tempfile
import unittest

sys.dont_write_bytecode = True
sys.path.insert(0, os.path.dirname(os.path.abspath(__file__)))

import entered_names  # noqa: E402

SOURCES = {
    "wit_a/src/lib.rt": "pub fn first() {\n}\n",
    "wit_a/src/graph.rt": "#[derive(Debug, PartialEq)]\npub struct Graph {\n}\n",
    "wit_a/src/graph/names.rt": "impl Graph {\n    pub(crate) fn id_of(&self) -> u8 {\n    }\n}\n",
    "wit_b/src/parts.rt": "impl<'a> fmt::Display for Part<'a> {\n    fn fmt(&self) {\n    }\n}\n\nfn is_part() {\n}\n",
    "wit_b/src/tables.rt": "impl ReadJson for Table<WorldKey, WorldItem> {\n    fn read_json() {\n    }\n}\n",
}
THERE = [
    "wit_a::first",
    "wit_a::graph::Graph::id_of",
    "wit_a::graph::GraphPartialEq::eq",
    "wit_b::parts::PartDisplay::fmt",
    "wit_b::parts::fn::is_part::any+FnMut::call_mut",
    "wit_b::tables::TableWorldKeyWorldItemReadJson::read_json",
]
GONE = ["wit_a::second", "wit_a::graph::Graph::name_of", "wit_a::graph::GraphHash::hash", "wit_b::is_part", "wit_a::parts::is_part"]
MOVED = {
    "wit_c::graph::Graph::id_of": "wit_a::graph::Graph::id_of",
    "wit_a::parts::is_part": "wit_b::parts::is_part",
    "wit_a::bits::fn::is_part::any+FnMut::call_mut": "wit_b::parts::fn::is_part::any+FnMut::call_mut",
    "wit_a::graph::Graph::name_of": None,
}


class Names(unittest.TestCase):
    def setUp(self):
        folder = self.enterContext(tempfile.TemporaryDirectory())
        for path, text in SOURCES.items():
            os.makedirs(os.path.dirname(f"{folder}/crates/{path}"), exist_ok=True)
            with open(f"{folder}/crates/{path}", "w", encoding="utf-8") as file:
                file.write(text)
        self.sources = entered_names.Sources(folder)

    def test_functions_stand_in_their_modules(self):
        self.assertEqual(THERE, [it for it in THERE + GONE if self.sources.stands(it)])

    def test_functions_that_moved_have_their_names(self):
        self.assertEqual(MOVED, {it: self.sources.moved(it) for it in MOVED})

    def test_lines_without_a_function_or_a_reason_are_told(self):
        entries = entered_names.entries
        self.addCleanup(setattr, entered_names, "entries", entries)
        told = [("", "wit_a::first start", "README.md", "A reason."), ("", "wit_a::second start", "README.md", "A reason."),
                ("", "wit_a::first start", "README.md", entered_names.NO_REASON), ("", "wit_a::first a", "README.md: no line", "A reason.")]
        entered_names.entries = lambda: told
        found = [it.partition(":")[0] for it in entered_names.faults(self.sources)]
        self.assertEqual(["no such function", "no reason", "twice", "no such line"], found)


if __name__ == "__main__":
    unittest.main()

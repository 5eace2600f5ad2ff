#!/usr/bin/env python3
"""Tests of edits.py: `python3 tools/test_edits.py`.

The crates are made here: what is asked of the repository's own is `tools/edits.py --check` and `--odds`.
"""
import contextlib
import io
import os
import sys
import tempfile
import unittest

sys.dont_write_bytecode = True
sys.path.insert(0, os.path.dirname(os.path.abspath(__file__)))

import edits  # noqa: E402

PASSED = """\
rt: wit_a proved
rt: wit_a: trying its must-fail edits (2)
rt: must-fail wit_a/add-drops-last.edit: refused, as it must be: src/lib.rt:7:1: error: `add`: BAD EDIT: is no word of rt
"""
BAD = [
    "rt: must-fail wit_a/add-drops-last.edit: BAD EDIT: it did not reach the prover; the first lines of what it said:",
    "rt: must-fail wit_a/in-turn.add-drops-first.edit: BAD EDIT: an 'old:' text is in src/lib.rt 0 times, and not once",
    "rt: crates/wit_a/must-fail/notes.txt: BAD EDIT: an edit stands right in must-fail/, and its name is of letters",
]
AFTER = "error[no-method]: no method `ad`\nrt: note: bad must-fail edits, as told above: 3.\nrt: ok; handles allowed: none\n"


class Told(unittest.TestCase):
    """What a log of `rt ci` tells."""

    def told(self, log):
        with tempfile.NamedTemporaryFile("w", suffix=".log") as file, contextlib.redirect_stdout(io.StringIO()) as out:
            file.write(log)
            file.flush()
            return edits.main("--told", file.name), out.getvalue().splitlines()

    def test_none(self):
        self.assertEqual((0, ["no edit is bad"]), self.told(PASSED + "7 passed, 0 failed\n"))

    def test_each_sort(self):
        log = PASSED + "\n".join(BAD) + "\n" + AFTER + "7 passed, 0 failed\n"
        self.assertEqual((1, BAD), self.told(log))


class Turns(unittest.TestCase):
    """Which edits come in which turn."""

    def setUp(self):
        folder, top = tempfile.TemporaryDirectory(), edits.TOP
        self.addCleanup(folder.cleanup)
        self.addCleanup(setattr, edits, "TOP", top)
        edits.TOP = folder.name
        self.add("wit_small", 3)
        self.add("wit_large", 70, lines=1000)
        self.add("wit_named", 40, named=1)
        self.add("wit_named_alone", 0, named=2)

    def add(self, crate, in_turn, named=0, lines=10):
        for part in ("src", "must-fail", "must-fail-in-turn"):
            os.makedirs(f"{edits.TOP}/crates/{crate}/{part}")
        self.write(f"crates/{crate}/src/lib.rt", "\n" * lines)
        for folder, count in ("must-fail", named), ("must-fail-in-turn", in_turn):
            for number in range(count):
                self.write(f"crates/{crate}/{folder}/f-is-wrong-{number:02}.edit", f"edit {number}")

    def write(self, path, text):
        with open(f"{edits.TOP}/{path}", "w", encoding="utf-8") as file:
            file.write(text)

    def run_tool(self, *words):
        with contextlib.redirect_stdout(io.StringIO()) as out:
            return edits.main(*words), out.getvalue()

    def laid(self):
        found = []
        for crate in edits.crates():
            folder = f"{edits.TOP}/crates/{crate}/must-fail"
            names = os.listdir(folder) if os.path.isdir(folder) else []
            found += [f"{crate}/{it}" for it in names if it.startswith(edits.COPY)]
        return sorted(found)

    def test_each_edit_has_one_turn(self):
        dealt = [it for _, some in edits.turns() for it in some]
        self.assertEqual(sorted(dealt), sorted(it for crate in edits.crates() for it in edits.edits_in_turn(crate)))
        self.assertEqual(113, len(set(dealt)))

    def test_what_a_turn_costs(self):
        proofs = {"wit_small": 27, "wit_large": 225, "wit_named": 0}
        for cost, some in edits.turns():
            crates = {edits.crate_of(it) for it in some}
            self.assertEqual(cost, 30 * len(some) + sum(proofs[it] for it in crates))

    def test_who_stays_together(self):
        turns_of = {crate: [sum(edits.crate_of(it) == crate for it in some) for _, some in edits.turns()] for crate in edits.crates()}
        self.assertEqual([3], [it for it in turns_of["wit_small"] if it])
        self.assertEqual([35, 35], [it for it in turns_of["wit_large"] if it])
        # with wit_small's 117 seconds as even as edits of 30 seconds can be, beside the turns of wit_large
        self.assertEqual([1, 4, 5, 5, 5, 5, 5, 5, 5], sorted(it for it in turns_of["wit_named"] if it))

    def test_each_comes(self):
        status, out = self.run_tool("--odds")
        self.assertEqual(0, status, out)
        self.addCleanup(setattr, edits, "TURNS", edits.TURNS)
        edits.TURNS = 14
        self.assertEqual(1, self.run_tool("--odds")[0])

    def test_copies(self):
        before = sorted(os.walk(edits.TOP))
        wanted = edits.turns()[edits.turn_of("abc")][1]
        for _ in range(2):
            status, out = self.run_tool("--lay", "abc")
            self.assertEqual((0, f"edits in turn for abc: {len(wanted)} of 113"), (status, out.splitlines()[-1].split(",")[0]))
            self.assertEqual(sorted(f"{edits.crate_of(it)}/in-turn.{os.path.basename(it)}" for it in wanted), self.laid())
        self.assertEqual(self.run_tool("--choose", "abc"), (status, out))
        self.assertEqual(0, self.run_tool("--clear")[0])
        self.assertEqual([], self.laid())
        for crate in ("wit_small", "wit_large"):
            os.makedirs(f"{edits.TOP}/crates/{crate}/must-fail", exist_ok=True)
        self.assertEqual(before, sorted(os.walk(edits.TOP)))


if __name__ == "__main__":
    unittest.main()

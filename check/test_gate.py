#!/usr/bin/env python3
"""Tests of gate.py: `python3 check/test_gate.py`."""
import os
import subprocess
import sys
import unittest

sys.dont_write_bytecode = True
sys.path.insert(0, os.path.dirname(os.path.abspath(__file__)))

import gate  # noqa: E402

# What has steps of its own runs each of them, also behind one that fails.
STEPS = """
import sys
sys.path.insert(0, "check")
import gate
gate.STEPS = {"good": "true", "bad": "exit 3", "lacking": "exit 77", "seed": "echo {seed} {library} {witgraph}"}
sys.argv = ["gate", "HEAD", *sys.argv[1:]]
sys.exit(gate.main())
"""


class Steps(unittest.TestCase):
    def run_steps(self, *words):
        ran = subprocess.run([sys.executable, "-B", "-c", STEPS, *words], cwd=gate.TOP, stdout=subprocess.PIPE, text=True, check=False)
        return ran.returncode, ran.stdout.splitlines()

    def test_all_pass(self):
        status, told = self.run_steps("good", "lacking")
        self.assertEqual((0, ["gate: SKIPPED: lacking", "gate: FAILED: none"]), (status, told[-3:-1]))

    def test_one_fails(self):
        status, told = self.run_steps("bad", "good")
        self.assertEqual((1, ["gate: SKIPPED: none", "gate: FAILED: bad"]), (status, told[-3:-1]))
        self.assertIn("== good: true", told)

    def test_what_stands_in_braces(self):
        commit = subprocess.run(["git", "rev-parse", "HEAD"], cwd=gate.TOP, stdout=subprocess.PIPE, text=True, check=True).stdout
        out = f"{gate.TOP}/crates"
        self.assertIn(f"{int(commit[:8], 16)} {out}/witgraph_c/out {out}/witgraph/out/witgraph", self.run_steps("seed")[1])
        self.assertIn(f"{int(commit[:8], 16)} /tmp/x /tmp/x/witgraph", self.run_steps("seed", "--programs", "/tmp/x")[1])

    def test_no_such_step(self):
        self.assertEqual(1, self.run_steps("none")[0])

    def test_programs_are_of_crates(self):
        places = gate.Places("HEAD", None)
        for command in gate.STEPS.values():
            for word in command.format_map(places).replace("=", " ").split():
                if word.startswith(f"{gate.TOP}/crates/"):
                    self.assertTrue(os.path.isdir(word.partition("/out")[0]), word)


if __name__ == "__main__":
    unittest.main()

#!/usr/bin/env python3
"""Tests of limits.py and of what definitions.py and offered.py read: `python3 tools/test_limits.py`."""
import os
import pathlib
import sys
import tempfile
import unittest

sys.dont_write_bytecode = True
sys.path.insert(0, os.path.dirname(os.path.abspath(__file__)))

import definitions  # noqa: E402
import limits  # noqa: E402
import offered  # noqa: E402

TWICE = """\
/// It says what it does.
pub fn is_one(n: u32) -> bool
    ensures { IsTrue result ↔ n ≡ 1 }
{
    n == 1
}
"""
SAME = TWICE.replace("pub fn", "pub(crate) fn").replace("    n == 1", "    // why\n    n == 1")
OTHER = TWICE.replace("n == 1", "1 == n")
METHOD = "impl One {\n" + "".join(f"    {line}\n" for line in TWICE.splitlines()) + "}\n"
LIBRARY = """\
mod told;
pub use crate::told::{Told, tell};
pub mod open;
"""
SOURCE = """\
pub struct Told {
    pub of: Inner,
    kept: Hidden,
}

impl Told {
    ghost view = { λ t. t };

    pub fn new() -> Told
        ensures made { IsMade result }
    {
        private()
    }

    fn hidden(&self)
        ensures { IsHidden self.now }
    {
    }
}

impl fmt::Display for Told {
    fn fmt(&self) -> fmt::Result
        ensures { IsShown self.now }
    {
        Ok(())
    }
}

fn private()
    ensures { IsPrivate }
{
}

pub fn tell(told: &Told)
    ensures { IsTold told.now }
{
}

pub fn untold()
    ensures { IsUntold }
{
}
"""


class Crates(unittest.TestCase):
    """Some crates in a folder of their own."""

    def setUp(self):
        folder = tempfile.TemporaryDirectory()
        self.addCleanup(folder.cleanup)
        self.crates = pathlib.Path(folder.name) / "crates"

    def write(self, path, text):
        file = self.crates / path
        file.parent.mkdir(parents=True, exist_ok=True)
        file.write_text(text, encoding="utf-8")
        return file


class Twice(Crates):
    def test_what_stands_twice(self):
        self.write("a/src/lib.rt", TWICE + METHOD)
        self.write("b/src/lib.rt", OTHER)
        self.assertEqual([], limits.functions_twice(self.crates))
        second = self.write("b/src/more.rt", "\n" + SAME)
        self.assertEqual([(second, 3)], limits.functions_twice(self.crates))

    def test_tests_are_not_asked(self):
        self.write("a/src/lib.rt", TWICE)
        self.write("test_a/src/lib.rt", TWICE)
        self.assertEqual([], limits.functions_twice(self.crates))


class Offered(Crates):
    def clauses(self, path):
        for name, value in ("CRATES", self.crates), ("users", lambda: ["wit_a"]):
            self.addCleanup(setattr, offered, name, getattr(offered, name))
            setattr(offered, name, value)
        return [line.strip() for _, line, _ in offered.Offer().clauses(self.crates / path)]

    def test_what_users_have(self):
        self.write("wit_a/src/lib.rt", LIBRARY)
        self.write("wit_a/src/open.rt", "pub fn seen()\n    ensures { IsSeen }\n{\n}\nfn unseen()\n    ensures { IsUnseen }\n{\n}\n")
        self.write("wit_a/src/told.rt", SOURCE)
        wanted = ["ghost view = { λ t. t };", "ensures made { IsMade result }", "ensures { IsShown self.now }", "ensures { IsTold told.now }"]
        self.assertEqual(wanted, self.clauses("wit_a/src/told.rt"))
        self.assertEqual(["ensures { IsSeen }"], self.clauses("wit_a/src/open.rt"))

    def test_what_is_handed_on(self):
        self.write("wit_a/src/lib.rt", "pub use wit_b::{Told as Other};\n")
        self.write("wit_b/src/lib.rt", "mod inner;\n" + LIBRARY + "pub use crate::inner::Inner;\n")
        self.write("wit_b/src/told.rt", SOURCE.replace("pub struct", "use wit_c::Hidden;\npub struct"))
        self.write("wit_b/src/inner.rt", "pub struct Inner {}\nimpl Model for Inner {\n    ghost view = { λ i. 0 };\n}\n")
        self.write("wit_c/src/lib.rt", "pub struct Hidden {}\nimpl Model for Hidden {\n    ghost view = { λ i. 1 };\n}\n")
        self.assertNotIn("ensures { IsTold told.now }", self.clauses("wit_b/src/told.rt"))
        self.assertIn("ensures { IsShown self.now }", self.clauses("wit_b/src/told.rt"))
        self.assertEqual(["ghost view = { λ i. 0 };"], self.clauses("wit_b/src/inner.rt"))
        self.assertEqual([], self.clauses("wit_c/src/lib.rt"))


class Cited(Crates):
    def test_names_of_fields_and_operators(self):
        self.addCleanup(setattr, definitions, "CRATES", definitions.CRATES)
        definitions.CRATES = self.crates
        self.write("a/specs/A.antt", "abbrev pub ◌>>=◌ : ℕ → ℕ\n◌>>=◌ a b = a\n\nabbrev pub told : ℕ\ntold = 1\n\nabbrev pub alone : ℕ\nalone = 2\n")
        uses = "use Rattle.a.specs.A.{◌>>=◌, told, alone}\n\nabbrev pub made : R\nmade = record { told = told; alone = 1 >>= 2 }\n"
        self.write("b/specs/B.antt", uses)
        reached = definitions.Specs().behind(["b/B/made"])
        self.assertEqual({"b/B/made", "a/A/◌>>=◌", "a/A/told"}, reached)

    def test_names_of_several(self):
        self.addCleanup(setattr, definitions, "CRATES", definitions.CRATES)
        definitions.CRATES = self.crates
        for path in "a/specs/A", "b/specs/B", "c/specs/steps/C", "examples_d/specs/D":
            self.write(f"{path}.antt", "abbrev pub told : ℕ\ntold = 1\n")
        self.write("b/specs/More.antt", "abbrev pub alone : ℕ\nalone = 1\n")
        self.assertEqual(["a/A/told b/B/told"], limits.names_of_several(definitions.Specs()))


if __name__ == "__main__":
    unittest.main()

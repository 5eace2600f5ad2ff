#!/usr/bin/env python3
"""Tests of check/documents: each sort of stale text is told, and what is there isn't.

    python3 check/test_documents.py

PLANTED has false claims: a copy of the document with the claim changed has to be told, in more than what is told of the
document as it stands.
"""
import importlib.machinery
import importlib.util
import os
import sys
import unittest

sys.dont_write_bytecode = True
PATH = os.path.join(os.path.dirname(os.path.abspath(__file__)), "documents")
LOADER = importlib.machinery.SourceFileLoader("documents", PATH)
documents = importlib.util.module_from_spec(importlib.util.spec_from_loader("documents", LOADER))
LOADER.exec_module(documents)
from claims import commands, comments, contracts, layouts, names, numbers, plain, reading, refusals, scripts
from claims.repository import crates, read

# Names that are nowhere: put together here, since a word of this file is there.
NAME, TYPE = "gone".join(("push_", "_group")), "Gone".join(("Such", "Thing"))

# What is planted: the document, a claim as it stands, and as it would be false.
PLANTED = {
    # those that once passed
    "an output of README": ("README.md", "selected foo:bar/w", "selected foo:bar/v"),
    "a line of README's output": ("README.md", "use b t t2\nworld", "use b t t3\nworld"),
    "a crate in a command of README": ("README.md", "trial-build witgraph /tmp", "trial-build witgraph_cli /tmp"),
    "a file in a command of README": ("README.md", "< crates/witgraph/stdin", "< crates/witgraph/script"),
    "an answer in JSON's example": ("docs/JSON.md", '{"pushed":0},{"text":"foo:bar/a"}', '{"pushed":1},{"text":"foo:bar/a"}'),
    "a member of a package in JSON": ("docs/JSON.md", '"foreign-dep-spans": [SPAN, ..]', '"foreign-spans": [SPAN, ..]'),
    "a line of SCRIPT's table": ("docs/SCRIPT.md", "`use PATH NAME [NEW]`", "`use PATH.NAME [NEW]`"),
    "a text of REFUSALS": ("docs/REFUSALS.md", "`type used in a handle must be", "`type in a handle must be"),
    "a cause of REFUSALS": ("docs/REFUSALS.md", "| 19 | `LabelClash`", "| 19 | `NameTaken`"),
    "a signature": ("docs/FROM_WIT_PARSER.md", "UnresolvedPackage, u32) -> PackageId`;", "UnresolvedPackage, u32) -> Remap`;"),
    "an old name of a call": ("docs/ARCHITECTURE.md", "`semver_merged` (wit_semver)", "`semver_united` (wit_semver)"),
    "a call at another file of WALK": ("docs/WALK.md", "`sort.rt`: `sort_groups`", "`several.rt`: `sort_groups`"),
    "a line of choice of PICTURES": ("docs/PICTURES.md", "`# only-added`", "`# just-added`"),
    "a clause of another function": ("docs/GUARANTEES.md", "`merge`: `ok`, `cause`, `refuses`", "`merge`: `ok`, `unchanged`, `refuses`"),
    "a law that is none": ("docs/GUARANTEES.md", "laws `labels_stay`, `export_keys_stay`", "laws `labels_stay`, `is_elaborable`"),
    "a figure of PERFORMANCE": ("docs/PERFORMANCE.md", "| 0.095, 0.135 |", "| 0.015, 0.135 |"),
    # others
    "an option of a tool": ("CONTRIBUTING.md", "`tools/edits.py CRATE`; `--check`", "`tools/edits.py CRATE`; `--look`"),
    "a command of the toolchain": ("CONTRIBUTING.md", "`rt lemma WORD..`", "`rt lemmata WORD..`"),
    "an answer in SCRIPT": ("docs/SCRIPT.md", "or `no world` |\n| `select", "or `no such world` |\n| `select"),
    "where a line stands in SCRIPT": ("docs/SCRIPT.md", "| `resource NAME` | in an interface or a world", "| `resource NAME` | in an interface"),
    "a line of SCRIPT that is no more": ("docs/SCRIPT.md", "`feature NAME`, `all-features`", "`feature NAME`, `every-feature`"),
    "a field of a kind in REFUSALS": ("docs/REFUSALS.md", "`ItemShadowing { span, item_type, name }`", "`ItemShadowing { span, name }`"),
    "a link of the text of 24": ("docs/REFUSALS.md", "`different names or number of parts`", "`different names of parts`"),
    "a question in JSON": ("docs/JSON.md", '{"canonical-id": {"package"', '{"canonical-name": {"package"'),
    "what may be left out in JSON": ("docs/JSON.md", '"world": TEXT, "out"?: TEXT}}` | `{"done"', '"world": TEXT, "out": TEXT}}` | `{"done"'),
    "a kind of a function in JSON": ("docs/JSON.md", '`"static-getter"`', '`"getter-static"`'),
    "the order of causes in JSON": ("docs/JSON.md", '`"label-clash"`, `"name-taken"`', '`"name-taken"`, `"label-clash"`'),
    "a fault in JSON": ("docs/JSON.md", '"expected":"a text"', '"expected":"some text"'),
    "parameters of a call": ("docs/FROM_WIT_PARSER.md", "rename(&str, &IncludeName)", "rename(&str, &str)"),
    "a file of a walk's step": ("docs/WALK.md", "`find_matches` finds", "`find_ids` finds"),
    "a crate of a clause": ("docs/GUARANTEES.md", "`append`, `append_all`: `ok`, `valid`", "`append`, `merge_by_track`: `ok`, `valid`"),
    "a sum of DIFFERENCES": ("docs/DIFFERENCES.md", "54,903 are the same", "54,930 are the same"),
    "a figure that another document has": ("docs/GUARANTEES.md", "## What is trusted", "`bench/side.py`: 54,903\n\n## What is trusted"),
    "a variable of a command": ("bindings/python/README.md", "WITGRAPH_SHARED=bindings", "WITGRAPH_SHARE=bindings"),
    "a quoted contract": ("crates/wit_resolve_graph/CALLING.md", "ensures valid { IsValid self.now.graph }", "ensures valid { IsValid self.old.graph }"),
    "a number of refusals": ("crates/wit_resolve_graph/CALLING.md", "[28 numbers]", "[27 numbers]"),
    "a case of DIFFERENCES": ("docs/DIFFERENCES.md", "(`groups-package-cycle`)", "(`groups-package-circle`)"),
    "a definition at another file": ("docs/DEFINITIONS.md", "`crates/wit_data/specs/Foreign.antt`: `AreFirst`", "`crates/wit_data/specs/Foreign.antt`: `IsShaped`"),
    "a file that no step has": ("docs/DEFINITIONS.md", "`crates/wit_elaboration/specs/Imported.antt`", "`crates/wit_elaboration/specs/Sound.antt`"),
    "a lemma of PROOFS": ("docs/PROOFS.md", "(`proofs/PassMarks`)", "(`proofs/PassMarksOf`)"),
    "a definition in DECISIONS": ("docs/DECISIONS.md", "`maps_with_owns`)", "`maps_and_owns`)"),
    "a crate of ARCHITECTURE": ("docs/ARCHITECTURE.md", "- wit_labels: renamed", "- wit_label: renamed"),
    "a file of examples/wasi": ("examples/wasi/README.md", "examples/wasi/walk.sh tool", "examples/wasi/walk_all.sh tool"),
    "a tool that has no word": ("tools/README.md", "| `given.py` | gives", "| | gives"),
    "a check that has no word": ("check/README.md", "`script_documents.py` | the same", "| the same"),
    "a crate for users without its page": ("docs/ARCHITECTURE.md", "- wit_labels: renamed", "- **wit_labels**: renamed"),
    "a tool of check": ("check/README.md", "`check/whole/test_graphs.py` changes", "`check/whole/test_graph.py` changes"),
    "a mean of PERFORMANCE": ("docs/PERFORMANCE.md", "| 0.75 | 0.73 | 0.85 |", "| 0.65 | 0.73 | 1.01 |"),
    "whether a call takes memory": ("docs/FROM_WIT_PARSER.md", "`all_bits_valid(Type_)`, no memory", "`all_bits_valid(Type_)`"),
    "a case that shows a refusal": ("docs/REFUSALS.md", "`a_place_that_passes_the_end_is_told`", "`a_place_past_the_end_is_told`"),
    "a call in plain Rust": ("docs/FROM_WIT_PARSER.md", "`push_str(&str, impl Into<String>) -> Result<(), MapFault>`", "`push_str(&str, impl Into<String>) -> u32`"),
    "a form in plain Rust": ("docs/FROM_WIT_PARSER.md", "`external_id_value(&WorldItem)` | ✓", "`external_id_value(&WorldItem)` | ←"),
    "a name in plain Rust": ("docs/FROM_WIT_PARSER.md", "`into_parser::resolve`", "`into_parser::all_groups`"),
    "a call that plain Rust has, too": ("docs/FROM_WIT_PARSER.md", "New in Rattle alone: `is_shaped", "New in both: `is_shaped"),
    "a field of a type": ("docs/FROM_WIT_PARSER.md", "`Param { name, ty, span }`", "`Param { name, kind, span }`"),
    "a lemma at another file": ("docs/PROOFS.md", "`flags_stay` of `wit_queries/ValidBitsFacts`", "`flags_stay` of `wit_data/EachFacts`"),
    "a version of the toolchain": ("README.md", "logic dac8208d650f15bf", "logic dac8208d650f15be"),
    "an answer of a walk-through": ("examples/wasi/README.md", "      export wasi:cli/run@0.2.0", "      export wasi:cli/ran@0.2.0"),
    "a name of the bindings in a document of crates": ("docs/GUARANTEES.md", "`way_of` of wit_ways", "`replies_of` of wit_ways"),
}


class Planted(unittest.TestCase):
    def test_planted(self):
        standing = {}
        for what, (path, there, false) in PLANTED.items():
            with self.subTest(what):
                text = read(path)
                self.assertTrue(there in text, f"{path} hasn't {there}")
                if path not in standing:
                    standing[path] = set(documents.stale(path, text))
                told = set(documents.stale(path, text.replace(there, false, 1)))
                self.assertTrue(told - standing[path], f"{path}: {false} isn't told")


class Stale(unittest.TestCase):
    def told(self, check, text, path="README.md"):
        return len(list(check(path, text)))

    def test_names(self):
        said = f"`{NAME}` `crates/{NAME}/src/lib.rt` `specs/{TYPE}` `{TYPE} {{ span }}` `Resolve::{NAME}`"
        self.assertEqual(5, self.told(names.stale_names, said))
        there = "`push_groups` `wit_link_spec/Cause` `PackageNotFound { span }` `crates/NAME/must-fail` `wit_link`, `several.rt`"
        self.assertEqual(0, self.told(names.stale_names, there))
        self.assertEqual(2, self.told(names.stale_names, f"`wit_link`, `{NAME}.rt`"))

    def test_names_of_the_original(self):
        table = f"| wit-parser | Here |\n|---|---|\n| `{NAME}` | `{NAME}` |"
        self.assertEqual(1, self.told(names.stale_names, table))

    def test_names_of_tests_and_bindings(self):
        self.assertEqual(1, self.told(names.stale_names, "`elaborate_worlds`"))
        self.assertEqual(0, self.told(names.stale_names, "`replies_of`"))
        self.assertEqual(1, self.told(names.stale_names, "`replies_of`", "docs/WALK.md"))

    def test_crates_and_commands(self):
        self.assertEqual(1, self.told(names.stale_crates, "wit_" + NAME + " and wit_link"))
        self.assertEqual(1, self.told(commands.stale_paths, "x\n\n    tools/nope a\n    tools/trial-build a\n"))
        self.assertEqual(1, self.told(commands.stale_builds, "\n    tools/trial-build witgraph_dot /tmp/witgraph\n"))
        self.assertEqual(1, self.told(commands.stale_options, "`check/documents --words` `check/documents --wards`"))

    def test_links(self):
        said = "[a](NOPE.md) [b](REFUSALS.md#nope) [c](REFUSALS.md#the-table)"
        self.assertEqual(2, self.told(names.stale_links, said, "docs/SCRIPT.md"))

    def test_numbers(self):
        there = f"{len(crates())} crates, 28 refusals"
        self.assertEqual(0, self.told(numbers.stale_counts, there))
        self.assertEqual(2, self.told(numbers.stale_counts, "1 crates, 27 listed reasons"))
        self.assertEqual(1, self.told(numbers.stale_sums, "of 10, 4 are so, 5 differ by it", numbers.DIFFERENCES))

    def test_figures(self):
        check, path = numbers.stale_figures, "docs/GUARANTEES.md"
        self.assertEqual(1, self.told(check, "123,457 scripts", path))
        self.assertEqual(0, self.told(check, "123,457 scripts by `check/compare.py`, a chain of 100,000", path))

    def test_reading(self):
        text = read("README.md")
        self.assertEqual(0, self.told(reading.stale_reading, text))
        self.assertEqual(5, self.told(reading.stale_reading, "word " * 800 + text))
        self.assertEqual(1, self.told(reading.stale_reading, text.replace("## License", "## Licence")))

    def test_sentences(self):
        self.assertEqual(0, self.told(reading.stale_sentences, f"{'word ' * reading.LONGEST}. Another one is there."))
        self.assertEqual(1, self.told(reading.stale_sentences, f"{'word ' * (reading.LONGEST + 1)}. Another one is there."))

    def test_rows(self):
        for path in numbers.DIFFERENCES, numbers.ARCHITECTURE:
            self.assertEqual(0, self.told(numbers.stale_rows, read(path), path))
        text = read(numbers.DIFFERENCES).replace("| a labelled export |", "| another |")
        self.assertEqual(1, self.told(numbers.stale_rows, text, numbers.DIFFERENCES))

    def test_plain(self):
        table = "| wit-parser | Rattle | Plain Rust |\n|---|---|---|\n| `Docs::default()` | `Docs::none()` | {} |"
        for cell, count in ("✓", 0), ("←", 0), ("–", 1), ("`Docs::none() -> Docs`", 0), ("`Docs::none(u32)`", 1), (f"`{NAME}`", 1):
            self.assertEqual(count, self.told(plain.stale_plain, table.format(cell), contracts.ORIGINAL_NAMES), cell)
        self.assertEqual(1, self.told(plain.stale_plain, f"Only plain Rust has `{TYPE}`.", contracts.ORIGINAL_NAMES))

    def test_clauses_and_laws(self):
        heading, path = "### Adding: wit_link\n", contracts.GUARANTEES
        self.assertEqual(0, self.told(contracts.stale_clauses, f"{heading}`append`: `ok`, `refuses`", path))
        self.assertEqual(1, self.told(contracts.stale_clauses, f"{heading}`append`: `ok`, `nope`", path))
        self.assertEqual(1, self.told(contracts.stale_clauses, f"{heading}`importize`: `ok`", path))
        self.assertEqual(1, self.told(contracts.stale_laws, "the law `append`; the law `imports_are_exact`"))

    def test_forms(self):
        self.assertRegex("a b=c d=e", f"^{scripts.pattern('a [OLD=NEW ..]')}$")
        self.assertNotRegex("record r", f"^{scripts.pattern('record NAME F:TYPE ..')}$")
        self.assertRegex("package a:b@1.0.0", f"^{scripts.pattern('package NS:NAME[@VERSION]')}$")

    def test_objects(self):
        said = '`{"semver": {"package": NAME, "world": TEXT}}` `{"semver": {"package": NAME}}`'
        self.assertEqual(1, self.told(layouts.stale_objects, said, layouts.LAYOUT))

    def test_kinds(self):
        table = "| No. | Kind | Text |\n|---|---|---|\n| 27 | `OffsetOverflow` | `x` |\n| 28 | `OffsetOverflow` | `x` |\n"
        self.assertEqual(1, self.told(refusals.stale_kinds, table, refusals.REFUSALS))

    def test_comments(self):
        path = "crates/wit_link/src/sort.rt"
        self.assertEqual([], list(comments.stale_links(path, "[`sort_groups`] and [`UnresolvedPackage`]")))
        self.assertEqual(1, len(list(comments.stale_links(path, f"[`{NAME}`]"))))


if __name__ == "__main__":
    unittest.main()

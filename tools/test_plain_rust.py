#!/usr/bin/env python3
"""Tests of the rules of tools/plain-rust: a text of Rattle, and what it is in Rust.

    python3 tools/test_plain_rust.py
"""
import pathlib
import sys
import unittest

sys.dont_write_bytecode = True
sys.path.insert(0, str(pathlib.Path(__file__).resolve().parent))

from plain_rust import conversion, crates, layout, parser_names  # noqa: E402


def rust(text, crate="wit_a"):
    return conversion.rust_of(text, crate, ["wit_a", "wit_b"], "crate::made")


class Ghost(unittest.TestCase):
    def test_clauses_go(self):
        text = "fn f(n: u32) -> u32\n    requires small { n < 2 ^ 31 }\n    ensures { result ≡ n }\n{\n    n\n}\n"
        self.assertEqual(rust(text), "fn f(n: u32) -> u32\n\n{\n    n\n}\n")

    def test_braces_and_texts_within_a_clause_go_too(self):
        text = 'fn f()\n    ensures { g (record r { n = 1 }) "}" }\n{\n}\n'
        self.assertEqual(rust(text), "fn f()\n\n{\n}\n")

    def test_ghost_items_go_with_their_documents(self):
        text = "ghost use Rattle.std.specs.Prelude.{◌≡◌};\n\n/// A trait.\npub trait T {\n    /// The value.\n    ghost json: { Self → Json };\n\n    /// A call.\n    fn f(&self);\n}\n"
        self.assertEqual(rust(text).strip(), "/// A trait.\npub trait T: Sized {\n\n    /// A call.\n    fn f(&self);\n}")

    def test_a_ghost_value_goes(self):
        self.assertEqual(rust("impl T for A {\n    ghost reading = { text_of };\n    fn f() {}\n}\n"), "impl T for A {\n\n    fn f() {}\n}\n")

    def test_attributes_of_the_prover_go(self):
        text = "#![tactic(auto)]\n\n#[tactic(auto, unfolding(a::b))]\n#[test]\nfn f() {}\n"
        self.assertEqual(rust(text), "#[test]\nfn f() {}\n")


class Drop(unittest.TestCase):
    def test_derives(self):
        self.assertEqual(rust("#[derive(Debug, Drop)]\nstruct A;\n"), "#[derive(Debug)]\nstruct A;\n")
        self.assertEqual(rust("#[derive(Drop)]\nstruct A;\n"), "struct A;\n")

    def test_bounds(self):
        self.assertEqual(rust("fn f<T: Drop, U: Eq + Drop>(t: T, u: U) { g(t, u) }"), "fn f<T, U: Eq>(t: T, u: U) { g(t, u) }")
        self.assertEqual(rust("fn f<T>(t: T)\nwhere\n    T: Drop,\n{ g(t) }").split(), "fn f<T>(t: T) { g(t) }".split())

    def test_an_impl_that_takes_apart_goes(self):
        text = "/// A.\nstruct A {}\n\nimpl Drop for A {\n    fn drop(self) {\n        let A { b, c } = self;\n        drop(b);\n    }\n}\n"
        self.assertEqual(rust(text).strip(), "/// A.\nstruct A {}")

    def test_an_impl_that_does_more_is_refused(self):
        with self.assertRaises(ValueError):
            rust("impl Drop for A {\n    fn drop(self) {\n        close(self);\n    }\n}\n")

    def test_models_go(self):
        text = "use std::marker::Model;\nstruct A;\n/// What contracts see.\nimpl<T> Model for A<T> {\n    ghost view = { λ a. a };\n}\n"
        self.assertEqual(rust(text).strip(), "struct A;")


class Handles(unittest.TestCase):
    def test_allocators_go(self):
        text = "fn f(alloc: Global, n: u32) -> String { let a = g(alloc, n); h(n, a, *n.allocator()) }"
        self.assertIn("fn f(n: u32) -> String { let a = g(n); h(n, a) }", rust(text))

    def test_allocators_that_nothing_reads_go(self):
        self.assertEqual(rust("fn f(_alloc: Global, n: u32) { g(n) }"), "fn f(n: u32) { g(n) }")

    def test_what_only_gives_an_allocator_goes(self):
        text = "impl A {\n    /// The allocator.\n    pub fn allocator(&self) -> Global {\n        self.alloc\n    }\n\n    fn f(&self) {\n        let alloc = *self.allocator();\n        g(alloc);\n    }\n}\n"
        self.assertEqual(rust(text).split(), "impl A { fn f(&self) { g(); } }".split())

    def test_a_pair_of_which_the_allocator_is_gone(self):
        self.assertEqual(rust("let (alloc, index) = (out.allocator(), id.index());"), "let index = id.index();")

    def test_handles_of_tests_go(self):
        text = '#[test]\nfn f(rt: HostRuntime) {\n    assert!(&rt; a.g(&rt).expect(&rt, "memory") == 1);\n    assert_eq!(rt; 1, 1);\n}\n'
        self.assertEqual(rust(text), '#[test]\nfn f() {\n    assert!(a.g().expect("memory") == 1);\n    assert_eq!(1, 1);\n}\n')

    def test_unread_parameters_are_marked(self):
        self.assertEqual(rust("fn f(a: u32, b: u32, c: u32) { g(a, \"{c}\") }"), "fn f(a: u32, _b: u32, c: u32) { g(a, \"{c}\") }")


class Spelling(unittest.TestCase):
    def test_formats_and_lists(self):
        text = 'fn f(alloc: Global) { g(format!(in alloc; "{n}"), vec![in alloc; 1, 2]) }'
        self.assertTrue(rust(text).endswith('fn f() { g(try_format!("{n}"), try_vec![1, 2]) }'))

    def test_methods_with_an_allocator(self):
        text = "fn f(alloc: Global) { a.to_string(alloc); a.to_string(); b.iter().collect(alloc) }"
        self.assertTrue(rust(text).endswith("fn f() { a.try_to_string(); a.to_string(); b.iter().try_collect() }"))

    def test_formatters(self):
        text = "fn fmt<W: fmt::Write>(&self, f: &mut fmt::Formatter<W>) -> fmt::Result { self.0.fmt(f) }"
        self.assertEqual(rust(text), "fn fmt(&self, f: &mut fmt::Formatter<'_>) -> fmt::Result { self.0.fmt(f) }")

    def test_lines(self):
        self.assertEqual(rust('write!(out, "a {n}\\n")'), 'writeln!(out, "a {n}")')
        self.assertEqual(rust('write!(out, "a\\n b")'), 'write!(out, "a\\n b")')

    def test_what_a_file_names_is_imported(self):
        self.assertEqual(rust("use std::fmt;\nstruct A(String);\n"), "use crate::shim::{String};\nuse std::fmt;\nstruct A(String);\n")

    def test_paths(self):
        text = "use crate::x::A;\nuse wit_b::y;\nuse json::Value;\nfn f() { wit_b::g(semver::h(), crate::i()) }\n"
        wanted = (
            "use crate::made::wit_a::x::A;\nuse crate::made::wit_b::y;\nuse crate::shim::json::Value;\n"
            "fn f() { crate::made::wit_b::g(crate::shim::semver::h(), crate::made::wit_a::i()) }\n"
        )
        self.assertEqual(rust(text), wanted)

    def test_texts_stay(self):
        text = 'const A: &str = "a  \n\n\n\nensures { wit_b::x } std::alloc rt.alloc()";\nconst B: u8 = b\'"\';\n'
        self.assertEqual(rust(text), text)


class Crates(unittest.TestCase):
    def test_each_crate_stands_behind_what_it_names(self):
        graph, found = crates.graph(), crates.in_order(["witgraph"])
        for place, crate in enumerate(found):
            self.assertLessEqual(set(graph[crate]), set(found[:place]))

    def test_all_crates_of_tests_are_taken(self):
        named = {crate for crate in crates.graph() if "#[test]" in "".join(path.read_text() for path, _ in crates.sources(crate))}
        self.assertEqual(named, set(crates.TESTS))

    def test_all_programs_are_taken(self):
        named = {crate for crate in crates.graph() if crates.is_program(crate)}
        self.assertEqual(named, set(crates.PROGRAMS + crates.STORED))

    def test_carriage_returns_are_kept(self):
        self.assertIn("\r\n", layout.stored_of("test_explanations", "stdin"))


class ParserNames(unittest.TestCase):
    """wit-parser's names and forms."""

    def named(self, text):
        return parser_names.respelled(text, "crate::made", set()).removeprefix("use crate::values::calls::*;\n")

    def test_names_that_contracts_can_not_spell(self):
        self.assertEqual(self.named("f(a.result_, Type_::U8, WorldItem::Type_ { id })"), "f(a.result, Type::U8, WorldItem::Type { id })")

    def test_struct_variants_become_structs(self):
        text = "match kind {\n    TypeDefKind::Record { fields } => TypeDefKind::Result_ { ok: f(|| { fields }), err },\n}\n"
        home = "crate::made::wit_data::kinds"
        wanted = f"match kind {{\n    TypeDefKind::Record({home}::Record {{ fields }}) => TypeDefKind::Result({home}::Result_ {{ ok: f(|| {{ fields }}), err }}),\n}}\n"
        self.assertEqual(self.named(text), wanted)

    def test_calls_of_std_keep_their_names(self):
        self.assertEqual(self.named("a.retain(f); b.reserve(1)?; retain(c)"), "a.keep_where(f); b.make_room(1)?; retain(c)")

    def test_files_are_pushed_and_texts_stay(self):
        self.assertEqual(self.named('map.push_str("m.wit", text)?; out.push_str(", files")?;'), 'map.try_push_str("m.wit", text)?; out.push_str(", files")?;')

    def test_data_is_derived_once(self):
        self.assertEqual(self.named("#[derive(Clone, Copy)]\npub enum Handle {}\n"), "#[derive(Clone, Copy, Debug, PartialEq, Eq, Hash)]\npub enum Handle {}\n")
        self.assertEqual(parser_names.respelled("pub struct Span {}", "m", {("Debug", "Span")}).splitlines()[-2], "#[derive(Clone, PartialEq, Eq, Hash)]")

    def test_lists_with_ids_are_walked_without(self):
        self.assertEqual(self.named("for world in graph.worlds.iter() {}"), "for world in graph.worlds.as_slice() {}")
        self.assertEqual(self.named("for (name, id) in package.worlds.iter() {}"), "for (name, id) in package.worlds.iter() {}")

    def test_kinds_of_errors_lie_on_the_heap(self):
        text = "    ResolveError {\n        kind: f(K::A { span }),\n    }\n"
        self.assertEqual(parser_names.boxed_kind(text), "    ResolveError::from(f(K::A { span }))\n")


if __name__ == "__main__":
    unittest.main()

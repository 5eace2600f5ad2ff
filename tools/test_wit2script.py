#!/usr/bin/env python3
"""Tests of wit2script.py: `python3 tools/test_wit2script.py`.

Each script that is written here is read by the model of the rules (check/model), too.
"""
import contextlib
import io
import os
import re
import subprocess
import sys
import tempfile
import unittest

TOP = os.path.dirname(os.path.dirname(os.path.abspath(__file__)))
WASI = os.path.join(TOP, "examples", "wasi")
sys.path[:0] = [os.path.join(TOP, "tools"), os.path.join(TOP, "check")]

import model  # noqa: E402
import wit2script  # noqa: E402

PACKAGES = ["cli", "clocks", "filesystem", "http", "io", "random", "sockets"]


def faults_in(told):
    """The faults that are told, as FILE:LINE:COLUMN: WHAT."""
    return [f"{place}: {what}" for what, place in re.findall(r"(?m)^(\S.*)\n     --> (\S+)$", told)]


class Case(unittest.TestCase):
    """What the tests share: files in a folder of their own, and what the tool makes of them."""

    def setUp(self):
        folder = tempfile.TemporaryDirectory()
        self.addCleanup(folder.cleanup)
        self.addCleanup(os.chdir, os.getcwd())
        os.chdir(folder.name)

    def write(self, path, text):
        if os.path.dirname(path):
            os.makedirs(os.path.dirname(path), exist_ok=True)
        with open(path, "w", encoding="utf-8") as file:
            file.write(text)

    def run_tool(self, *arguments):
        """The status, the standard output and the standard error."""
        out, err = io.StringIO(), io.StringIO()
        with contextlib.redirect_stdout(out), contextlib.redirect_stderr(err):
            status = wit2script.main(list(arguments))
        return status, out.getvalue(), err.getvalue()

    def written(self, body, package="a:b"):
        """The lines of a package with this body, without its first and without the push, and what is told."""
        self.write("p.wit", f"package {package};\n{body}")
        status, script, told = self.run_tool("p.wit")
        self.assertEqual((status, told if status else ""), (0, ""))
        self.assertIsInstance(model.answers(script), list, script)
        lines = [it for it in script.split("\n") if it]
        self.assertEqual((lines[0], lines[-1]), (f"package {package}", "push"))
        return lines[1:-1], told.splitlines()

    def same(self, body, lines, told=(), package="a:b"):
        """Asks that a body becomes these lines, and that this is told."""
        written, notes = self.written(body, package)
        self.assertEqual(written, [it.strip() for it in lines.strip().split("\n")])
        self.assertEqual(notes, [f"p.wit:{it}" for it in told])

    def refused(self, text, *told):
        """Asks that a file can't be written, and that this is told of it, as LINE:COLUMN: WHAT."""
        self.write("p.wit", text)
        status, script, faults = self.run_tool("p.wit")
        self.assertEqual((status, script), (1, ""))
        self.assertEqual(faults_in(faults), [f"p.wit:{it}" for it in told])


class Words(Case):
    def test_comments_say_nothing(self):
        body = """
            // interface a {}
            /* interface /* b */ {} **/ interface c { /// f: func();
            /**/ g: func(); }"""
        self.same(body, "interface c\nfunc g()")

    def test_names_may_be_words_of_the_language(self):
        body = "interface %use { %type: func(%record: u8); record r { %func: u8 } resource %static { %use: func(); } }"
        lines = """
            interface use
            record r func:u8
            resource static
            func type(record:u8)
            func [method]static.use(self:borrow<static>)"""
        self.same(body, lines)

    def test_capital_words(self):
        self.same("interface A-b-C2 { type DNS-x = u8; }", "interface A-b-C2\ntype DNS-x u8")

    def test_versions(self):
        body = """
            interface i {
              use c:d/e@0.2.0.{t};
              use c:d/e@1.2.3-rc.1+build-7.x.{u};
            }"""
        self.same(body, "interface i\nuse c:d/e@0.2.0 t\nuse c:d/e@1.2.3-rc.1+build-7.x u", package="a:b@1.0.0-rc.2")

    def test_what_is_no_word(self):
        self.refused("package a:b;\n\n$", "3:1: unexpected character '$'")
        self.refused("package a:b;\ninterface aB {}", "2:11: invalid character in identifier 'B'")
        self.refused("package a:b;\n\n/* /* */\n", "3:1: unterminated block comment")


class Statements(Case):
    def test_interface(self):
        body = """
            interface i {
              use j.{t, u as v,};
              type a = list<option<t>>;
              record r { x: a, y: v, }
              resource s;
              f: func();
              g: func(x: r, y: borrow<s>,) -> own<s>;
              h: func(x: stream<u8>, y: stream, z: future) -> future<string>;
              k: func(e: error-context) -> f32;
            }
            interface j { type t = u8; type u = u16; }"""
        lines = """
            interface j
            type t u8
            type u u16
            interface i
            use j t
            use j u v
            type a list<option<t>>
            record r x:a y:v
            resource s
            func f()
            func g(x:r,y:borrow<s>)->own<s>
            func h(x:stream<u8>,y:stream,z:future)->future<string>
            func k(e:error-context)->f32"""
        self.same(body, lines, ["3: interface `i` comes behind `j`, which it names"])

    def test_resource(self):
        body = """
            interface i {
              resource r {
                constructor(x: u8);
                m: func() -> r;
                s: static func(x: r);
              }
              f: func();
            }"""
        lines = """
            interface i
            resource r
            func [constructor]r(x:u8)->r
            func [method]r.m(self:borrow<r>)->r
            func [static]r.s(x:r)
            func f()"""
        self.same(body, lines)

    def test_world(self):
        body = """
            interface i { type t = u8; }
            world v { import f: func(x: u8); export f: func(); }
            world w {
              use i.{t as u};
              type n = u;
              resource r { m: func(x: n); }
              import i;
              import c:d/e@1.0.0;
              import l: i;
              import m: c:d/e@1.0.0;
              export i;
              import g: func() -> u;
              include v with { f as h }
              include c:d/x;
            }"""
        lines = """
            interface i
            type t u8
            world v
            import-func f(x:u8)
            export-func f()
            world w
            use i t u
            type n u
            resource r
            import-func [method]r.m(self:borrow<r>,x:n)
            import i
            import c:d/e@1.0.0
            import l=i
            import m=c:d/e@1.0.0
            export i
            import-func g()->u
            include v f=h
            include c:d/x"""
        self.same(body, lines)

    def test_gates(self):
        body = """
            @since(version = 1.0.0)
            interface i {
              @since(version = 1.1.0)
              use c:d/e.{t, u};
              @unstable(feature = x-y)
              type a = u8;
              @since(version = 1.0.0)
              resource r {
                @unstable(feature = m)
                m: func();
              }
            }
            @unstable(feature = w)
            world w {
              @since(version = 1.0.0)
              import i;
              @unstable(feature = f)
              export f: func();
            }"""
        lines = """
            interface i @since=1.0.0
            use c:d/e t @since=1.1.0
            use c:d/e u @since=1.1.0
            type a u8 @unstable=x-y
            resource r @since=1.0.0
            func [method]r.m(self:borrow<r>) @unstable=m
            world w @unstable=w
            import i @since=1.0.0
            export-func f() @unstable=f"""
        self.same(body, lines, package="a:b@1.2.0")

    def test_names_of_a_file(self):
        body = """
            use c:d/e@1.0.0;
            use c:d/e@2.0.0 as e2;
            use i as j;
            interface i { use e.{t}; use e2.{t as u}; }
            interface k { use j.{t}; }"""
        lines = """
            interface i
            use c:d/e@1.0.0 t
            use c:d/e@2.0.0 t u
            interface k
            use i t"""
        self.same(body, lines)


class Order(Case):
    def test_each_comes_as_early_as_it_can(self):
        body = """
            interface i {
              f: func(x: c);
              record a { x: d }
              type b = u8;
              type c = u8;
              type d = b;
              use j.{t};
            }
            interface j { type t = u8; }
            world w { include v; }
            world v { import i; }"""
        lines = """
            interface j
            type t u8
            interface i
            use j t
            type b u8
            type c u8
            type d b
            record a x:d
            func f(x:c)
            world v
            import i
            world w
            include v"""
        told = [
            "3: interface `i` comes behind `j`, which it names",
            "5: record `a` comes behind `d`, which it names",
            "12: world `w` comes behind `v`, which it names",
        ]
        self.same(body, lines, told)

    def test_cycles(self):
        types = "package a:b; interface i {\ntype a = b;\nrecord b { x: list<a> }\ntype c = u8; }"
        self.refused(types, "2:10: type `b` depends on itself")
        scopes = "package a:b;\ninterface i { use j.{t}; }\ninterface j { use i.{t}; }"
        self.refused(scopes, "3:11: interface or world `j` depends on itself")
        behind = "package a:b; interface i {\ntype a = b;\ntype b = c;\ntype c = list<b>; }"
        self.refused(behind, "2:10: type `b` depends on itself")
        self.refused("package a:b;\nworld w { include w; }", "2:7: interface or world `w` depends on itself")
        names = "package a:b;\nuse i as j; use j as i;\ninterface k {\nuse i.{t}; }"
        self.refused(names, "2:17: interface or world `j` does not exist")


class Substitutions(Case):
    def test_sums(self):
        body = """
            interface i {
              enum e { a, b }
              flags f { c, d, }
              variant v { g, h(e), k(option<u8>) }
            }"""
        lines = """
            interface i
            record e a:bool b:bool
            record f c:bool d:bool
            record v g:bool h:e k:option<u8>"""
        told = [
            "4: enum `e` becomes a record, with a field of `bool` for each name",
            "5: flags `f` becomes a record, with a field of `bool` for each name",
            "6: variant `v` becomes a record, with a field for each case",
        ]
        self.same(body, lines, told)

    def test_results_and_tuples(self):
        body = """
            interface i {
              resource r;
              type t = tuple<u8, r>;
              type u = result<t>;
              f: func(x: list<tuple<u8, list<t>>>) -> result<tuple<u8, list<t>>, string>;
              g: func() -> result;
              h: func() -> result<_, u8>;
              k: func() -> result<_, u8>;
            }"""
        lines = """
            interface i
            resource r
            record t f0:u8 f1:r
            record u ok:t err:bool
            record tuple<u8;list<t>> f0:u8 f1:list<t>
            record result<tuple<u8;list<t>>;string> ok:tuple<u8;list<t>> err:string
            func f(x:list<tuple<u8;list<t>>>)->result<tuple<u8;list<t>>;string>
            record result ok:bool err:bool
            func g()->result
            record result<_;u8> ok:bool err:u8
            func h()->result<_;u8>
            func k()->result<_;u8>"""
        told = [
            "5: `tuple<u8, r>` becomes a record, named `t`",
            "6: `result<t>` becomes a record, named `u`",
            "7: `tuple<u8, list<t>>` becomes a record, named `tuple<u8;list<t>>`",
            "7: `result<tuple<u8, list<t>>, string>` becomes a record, named `result<tuple<u8;list<t>>;string>`",
            "8: `result` becomes a record, named `result`",
            "9: `result<_, u8>` becomes a record, named `result<_;u8>`",
        ]
        self.same(body, lines, told)

    def test_records_in_worlds(self):
        body = "world w { import f: func() -> result<u8>; }\nworld v { import g: func() -> result<u8>; include w; }"
        lines = """
            world w
            record result<u8>@w ok:u8 err:bool
            import-func f()->result<u8>@w
            world v
            record result<u8>@v ok:u8 err:bool
            import-func g()->result<u8>@v
            include w"""
        told = [f"{n}: `result<u8>` becomes a record, named `result<u8>@{w}`" for n, w in ((2, "w"), (3, "v"))]
        self.same(body, lines, told)

    def test_records_beside_features(self):
        body = """
            interface i {
              @unstable(feature = x)
              enum e { a }
              f: func() -> result;
              @unstable(feature = x)
              g: func(p: result<_, result<e>>) -> result;
            }
            @unstable(feature = x)
            interface j {
              f: func() -> result;
              @unstable(feature = y)
              g: func() -> tuple<u8>;
            }"""
        lines = """
            interface i
            record e a:bool @unstable=x
            record result ok:bool err:bool
            func f()->result
            record result<e> ok:e err:bool @unstable=x
            record result<_;result<e>> ok:bool err:result<e> @unstable=x
            func g(p:result<_;result<e>>)->result @unstable=x
            interface j @unstable=x
            record result ok:bool err:bool @unstable=x
            func f()->result
            record tuple<u8> f0:u8 @unstable=x
            func g()->tuple<u8> @unstable=y"""
        written, _ = self.written(body)
        self.assertEqual(written, [it.strip() for it in lines.strip().split("\n")])
        # it is accepted, whatever features are on
        for features in ("", "feature x\n", "feature y\n", "all-features\n"):
            answers = model.answers(features + "\n".join(["package a:b", *written, "push", ""]))
            self.assertEqual(answers[-1], {"pushed a:b"})

    def test_records_have_one_gate(self):
        text = """package a:b; interface i {
            @unstable(feature = x)
            enum e { a }
            @unstable(feature = y)
            enum f { a }
            g: func(p: result<e, f>);
        }"""
        self.refused(text, "6:24: a record in place of `result<e, f>` would be gated by two features")

    def test_other_forms(self):
        body = """
            interface i {
              f: async func(x: list<u8, 4>) -> map<string, f64>;
              @since(version = 1.0.0)
              @deprecated(version = 1.1.0)
              g: func();
            }"""
        lines = """
            interface i
            record tuple<string;f64> f0:string f1:f64
            func f(x:list<u8>)->list<tuple<string;f64>>
            func g() @since=1.0.0"""
        told = [
            "4: `f` is async in WIT, not in the script",
            "4: `list<u8, 4>` becomes a list of any length",
            "4: `map<string, f64>` becomes a list of tuples",
            "4: `tuple<string, f64>` becomes a record, named `tuple<string;f64>`",
            "6: `@deprecated(version = 1.1.0)` is left out",
        ]
        self.same(body, lines, told, package="a:b@1.2.0")

    def test_external_ids(self):
        body = """
            interface i {
              @external-id("x")
              resource r;
              @external-id("y")
              f: func();
            }
            world w {
              @external-id("z")
              import i;
            }"""
        lines = """
            interface i
            resource r
            func f()
            world w
            import i"""
        told = [f"{n}: the external id of `{it}` is left out" for n, it in ((5, "r"), (7, "f"), (11, "i"))]
        self.same(body, lines, told)

    def test_interfaces_in_worlds(self):
        body = """
            world w {
              @since(version = 1.0.0)
              import l: interface { use i.{t}; f: func() -> t; }
              export l: interface { f: func(); }
            }
            interface i { type t = u8; }"""
        lines = """
            interface w-export-l
            func f()
            interface i
            type t u8
            interface w-import-l @since=1.0.0
            use i t
            func f()->t
            world w
            import l=w-import-l @since=1.0.0
            export l=w-export-l"""
        told = [
            "3: world `w` comes behind `w-import-l`, which it names",
            "5: the interface under `l` becomes the interface `w-import-l`",
            "5: interface `w-import-l` comes behind `i`, which it names",
            "6: the interface under `l` becomes the interface `w-export-l`",
        ]
        self.same(body, lines, told, package="a:b@1.0.0")


    def test_interfaces_in_worlds_have_names_of_their_own(self):
        text = "package a:b; interface w-import-l {}\nworld w { import l: interface {} }"
        self.refused(text, "2:18: the interface here would be called `w-import-l`, which the package has already")


class Problems(Case):
    def within(self, text, told):
        """Asks that this can't be written in an interface."""
        self.refused(f"package a:b;\ninterface i {{\n{text}\n}}", told)

    def test_grammar(self):
        self.refused("package a:b", "1:12: expected '{', found eof")
        end = "2:14: expected `type`, `resource` or `func`, found eof"
        self.refused("package a:b;\ninterface i {", end)
        world = "2:11: expected `import`, `export`, `include`, `use`, or type definition, found an identifier"
        self.refused("package a:b;\nworld w { f: func(); }", world)
        package = "2:1: expected `world`, `interface` or `use`, found keyword `record`"
        self.refused("package a:b;\nrecord r { x: u8 }", package)
        self.within("f: func(x u8);", "3:11: expected ':', found keyword `u8`")
        self.within("f: func() -> (a: u8);", "3:14: expected a type, found '('")
        self.within("@later(version = 1.0.0) f: func();", "3:2: unknown attribute `later`")
        self.within("@since(version = 1.0) f: func();", "3:21: expected '.', found ')'")
        self.within("@since(version = 01.0.0) f: func();", "3:18: invalid leading zero in major version number")
        self.within("type t = list;", "3:14: expected '<', found ';'")
        self.within("type t = result<u8, _>;", "3:21: expected a type, found keyword `_`")
        self.within("type t = own<list<u8>>;", "3:14: expected an identifier or string, found keyword `list`")

    def test_what_is_not_there(self):
        self.within("f: func(x: t);", "3:12: name `t` does not exist")
        self.within("use j.{t};", "3:5: interface or world `j` does not exist")
        text = "package a:b; interface i {}\nworld w { import w2; }\nworld w2 {}\ninterface j { use i.{t}; }"
        self.refused(text, "2:18: name `w2` is defined as a world, not an interface", "4:22: name `t` does not exist")

    def test_handles(self):
        body = """
            interface i { resource r; type s = r; type t = u8; }
            interface j { use i.{s as u}; use c:d/e.{v}; type w = v; f: func(x: own<u>, y: borrow<w>); }"""
        lines = """
            interface i
            resource r
            type s r
            type t u8
            interface j
            use i s u
            use c:d/e v
            type w v
            func f(x:own<u>,y:borrow<w>)"""
        self.same(body, lines)
        self.within("record r { x: u8 }\nf: func(x: own<r>);", "4:16: type `r` used in a handle must be a resource")
        text = "package a:b; interface i { type t = u8; }\ninterface j { use i.{t};\nf: func(x: list<borrow<t>>); }"
        self.refused(text, "3:24: type `t` used in a handle must be a resource")

    def test_what_is_there_twice(self):
        self.within("type t = u8;\nf: func();\ntype t = u16;", "5:6: name `t` is defined more than once")
        self.within("f: func();\nf: func();", "4:1: name `f` is defined more than once")
        self.refused("package a:b; interface i {}\nworld i {}", "2:7: duplicate item named `i`")
        text = "package a:b; interface i {}\nworld w { import i; export i;\nimport i; }"
        self.refused(text, "3:8: interface cannot be imported more than once")
        text = "package a:b; interface i {}\nworld w { import l: i; export l: i;\nimport l: func(); }"
        self.refused(text, "3:8: import `l` conflicts with prior interface of same name")

    def test_parts_that_are_there_twice(self):
        self.within("f: func(a: u8,\na: u8);", "4:1: param `a` is defined more than once")
        self.within("resource r { m: func(\nself: u8); }", "4:1: param `self` is defined more than once")
        # (these are read, as by wit-parser, but told)
        body = """interface i {
            record r { self: u8, %self: u16 }
            enum e { a,
              a }
        }
        world v { import f: func(); } world w { include v with { f as b, f as c } }"""
        lines = """
            interface i
            record r self:u8 self:u16
            record e a:bool a:bool
            world v
            import-func f()
            world w
            include v f=b f=c"""
        told = [
            "3: field `self` is there already",
            "4: enum `e` becomes a record, with a field of `bool` for each name",
            "5: case `a` is there already",
            "7: label `f` is there already",
        ]
        self.same(body, lines, told)

    def test_gates_that_do_not_go_together(self):
        one = "3:26: unsupported combination of attributes"
        self.within("@since(version = 1.0.0) @unstable(feature = x) f: func();", one)
        self.within("@since(version = 1.0.0) @since(version = 1.0.0) f: func();", one)
        alone = "3:2: must pair @deprecated with either @since or @unstable"
        self.within("@deprecated(version = 1.0.0) f: func();", alone)

    def test_what_a_script_lacks(self):
        self.refused("package a:b:c;", "1:12: expected '{', found ':'")
        self.refused("package a:b;\ninterface i { use c:d/e/f.{t}; }", "2:24: expected '.', found `/`")
        taken = "3:6: a type of a script can't have the name `string`, which is that of one of its own"
        self.within("type %string = u8;", taken)
        self.within("record r {}", "3:8: a record of a script has parts, and `r` has none")

    def test_all_are_told(self):
        text = """package a:b; interface i {
            f: func(x: t);
            g: func();
            h: func() -> u;
            enum e { a }
        }
        interface j { use i.{v}; }"""
        told = [f"{it} does not exist" for it in ("2:24: name `t`", "4:26: name `u`", "7:30: name `v`")]
        self.refused(text, *told)


class Files(Case):
    def test_a_folder_is_a_package(self):
        self.write("p/b.wit", "interface b { type t = u8; }")
        self.write("p/a.wit", "package a:b;\nuse b as c;\ninterface a { use c.{t}; }")
        status, script, told = self.run_tool("p")
        self.assertEqual(status, 0)
        self.assertEqual(script, "package a:b\n\ninterface b\ntype t u8\n\ninterface a\nuse b t\npush\n")
        self.assertEqual(told, "p/a.wit:3: interface `a` comes behind `b`, which it names\n")

    def test_dependencies_are_read(self):
        self.write("p/a.wit", "package a:b;\nworld w { import c:d/i; import e:f/j; }")
        self.write("p/deps/x.wit", "package c:d;\ninterface i {}")
        self.write("p/deps/y/j.wit", "package e:f;\ninterface j {}")
        self.write("p/deps/y/deps/z.wit", "package no:t;")
        self.write("p/deps/README.md", "no file of WIT")
        lines = "package a:b world w import c:d/i import e:f/j package c:d interface i package e:f interface j push"
        self.assertEqual(self.run_tool("p")[1].split(), lines.split())
        # the same package twice is one
        self.assertEqual(self.run_tool("p", "p/deps/x.wit")[1].split().count("c:d"), 1)
        self.write("p/deps/z.wasm", "")
        self.assertEqual(faults_in(self.run_tool("p")[2]), ["p/deps/z.wasm: a package in binary form isn't read"])

    def test_faults_are_told_of_their_files(self):
        self.write("p/a.wit", "package a:b;\ninterface a { use b.{t}; }")
        self.write("p/b.wit", "package a:b;\n\n\ninterface b { use a.{t}; }")
        self.write("p/c.wit", "package a:c;")
        told = "p/c.wit:1:9: package identifier `a:c` does not match previous package name of `a:b`"
        self.assertEqual(faults_in(self.run_tool("p")[2]), [told])
        self.write("p/c.wit", "package a:b;\n\ninterface a {}")
        self.assertEqual(faults_in(self.run_tool("p")[2]), ["p/c.wit:3:11: duplicate item named `a`"])
        self.write("p/c.wit", "use a as d;\npackage a:b;")
        self.assertEqual(faults_in(self.run_tool("p")[2]), ["p/c.wit:2:12: expected '{', found ';'"])

    def test_several_packages(self):
        self.write("p.wit", "package a:b;\nworld w { import c:d/i; }")
        self.write("q.wit", "package c:d; interface i {}\npackage e:f@1.0.0 { world v {} }")
        script = self.run_tool("p.wit", "q.wit")[1]
        lines = "package a:b world w import c:d/i package c:d interface i package e:f@1.0.0 world v push".split()
        self.assertEqual(script.split(), lines)
        self.assertEqual(model.answers(script), [{"pushed a:b"}])

    def test_a_package_has_a_name(self):
        none = " no `package` header was found in any WIT file for this package"
        for text in ("interface i {}", "", "package a:b { interface i {} }"):
            self.refused(text, none)

    def test_output(self):
        self.write("p.wit", "package a:b; interface i { enum e { a } }")
        self.assertEqual(self.run_tool("-o", "out", "p.wit")[:2], (0, ""))
        with open("out", encoding="utf-8") as file:
            self.assertEqual(file.read(), "package a:b\n\ninterface i\nrecord e a:bool\npush\n")
        self.write("p.wit", "package a:b; interface i { use j.{t}; }")
        self.assertEqual(self.run_tool("-o", "other", "p.wit")[0], 1)
        self.assertFalse(os.path.exists("other"))

    def test_files_that_cannot_be_read(self):
        status, out, err = self.run_tool("nowhere.wit")
        self.assertEqual((status, out), (1, ""))
        self.assertIn("nowhere.wit", err)
        os.mkdir("empty")
        self.assertEqual(self.run_tool("empty"), (1, "", "wit2script.py: empty: no file of WIT\n"))
        with open("p.wit", "wb") as file:
            file.write(b"package a:b; // \xff")
        self.assertEqual(self.run_tool("p.wit"), (1, "", "wit2script.py: p.wit: this isn't UTF-8\n"))

    def test_deep_types(self):
        deep = "list<" * 20_000 + "u8" + ">" * 20_000
        self.write("p.wit", f"package a:b; interface i {{ type t = {deep}; }}")
        self.assertEqual(self.run_tool("p.wit"), (1, "", "wit2script.py: a type nests too deep for a script\n"))

    def test_help(self):
        tool = os.path.join(TOP, "tools", "wit2script.py")
        ran = subprocess.run([sys.executable, tool, "--help"], stdout=subprocess.PIPE, encoding="utf-8", check=True)
        self.assertIn("result<A, B>", ran.stdout)


class Wasi(Case):
    """The packages of examples/wasi, as they are stored there."""

    def read(self, *path):
        with open(os.path.join(WASI, *path), encoding="utf-8") as file:
            return file.read()

    def test_stored_scripts(self):
        os.chdir(WASI)
        for version in ("0.2.0", "0.2.3"):
            told = ""
            for package in PACKAGES:
                status, script, notes = self.run_tool(f"wit/{version}/{package}.wit")
                self.assertEqual((status, script), (0, self.read(version, f"{package}.script")))
                told += notes
            self.assertEqual(told, self.read(version, "notes.txt"))

    def test_all_at_once(self):
        """The packages of a version as one script, whatever their order, with the first as the main one."""
        os.chdir(WASI)
        for version in ("0.2.0", "0.2.3"):
            status, script, _ = self.run_tool(*(f"wit/{version}/{it}.wit" for it in PACKAGES))
            self.assertEqual(status, 0)
            self.assertEqual(model.answers(script), [{f"pushed wasi:cli@{version}"}])

    def test_each_statement_is_kept(self):
        """Counts of what the texts have and of what the scripts have."""
        for version in ("0.2.0", "0.2.3"):
            for package in PACKAGES:
                wit, script = self.read("wit", version, f"{package}.wit"), self.read(version, f"{package}.script")
                lines = script.split("\n")
                functions = wit.count("func(") + wit.count("constructor(")
                self.assertEqual(functions, sum(it.startswith("func ") for it in lines))
                for word in ("interface", "world", "resource", "import", "export", "include"):
                    begun = [it for it in wit.split("\n") if it.strip().startswith(f"{word} ")]
                    self.assertEqual(len(begun), sum(it.startswith(f"{word} ") for it in lines), (package, word))


if __name__ == "__main__":
    unittest.main()

#!/usr/bin/env python3
"""Tests of wit2json.py: `python3 tools/test_wit2json.py`.

WITGRAPH_JSON, the path of a build of `witgraph_json`, has it carry out each document that is written here, too.
"""
import contextlib
import io
import json
import os
import re
import subprocess
import sys
import tempfile
import unittest

TOP = os.path.dirname(os.path.dirname(os.path.abspath(__file__)))
WASI = os.path.join(TOP, "examples", "wasi", "wit")
sys.path.insert(0, os.path.join(TOP, "tools"))

import wit2json  # noqa: E402

PACKAGES = ["cli", "clocks", "filesystem", "http", "io", "random", "sockets"]
PROGRAM = os.environ.get("WITGRAPH_JSON")


def without_spans(value):
    """A value without the members that say where something stands."""
    if isinstance(value, dict):
        hidden = ("span", "foreign-dep-spans", "unknown-type-spans", "sources")
        return {name: without_spans(it) for name, it in value.items() if name not in hidden}
    return [without_spans(it) for it in value] if isinstance(value, list) else value


def texts_at(value, text):
    """The name of each thing that has a span, and the text that stands there."""
    if isinstance(value, dict):
        if "span" in value:
            start, end = value["span"]
            yield value.get("name") or "", text.encode()[start:end].decode()
        for it in value.values():
            yield from texts_at(it, text)
    elif isinstance(value, list):
        for it in value:
            yield from texts_at(it, text)


def faults_in(told):
    """The faults that are told, as FILE:LINE:COLUMN: WHAT."""
    return [f"{place}: {what}" for what, place in re.findall(r"(?m)^(\S.*)\n     --> (\S+)$", told)]


def replies_to(document):
    """What the program answers."""
    ran = subprocess.run([PROGRAM], input=document.encode(), stdout=subprocess.PIPE, check=False)
    return json.loads(ran.stdout)


class Case(unittest.TestCase):
    """What the tests share: files in a folder of their own, and what the tool makes of them."""

    def setUp(self):
        folder = tempfile.TemporaryDirectory()
        self.addCleanup(folder.cleanup)
        self.addCleanup(os.chdir, os.getcwd())
        os.chdir(folder.name)

    def write(self, path, text):
        if os.path.dirname(path):
            os.makedirs(os.path.dirname(path), exist_ok=True)
        with open(path, "w", encoding="utf-8") as file:
            file.write(text)

    def run_tool(self, *arguments):
        """The status, the standard output and the standard error."""
        out, err = io.StringIO(), io.StringIO()
        with contextlib.redirect_stdout(out), contextlib.redirect_stderr(err):
            status = wit2json.main(list(arguments))
        return status, out.getvalue(), err.getvalue()

    def pushed(self, *paths):
        """The command of these packages."""
        status, document, told = self.run_tool(*paths)
        self.assertEqual((status, told), (0, ""))
        (command,) = json.loads(document)["commands"]
        if PROGRAM:
            self.assertTrue("replies" in replies_to(document), replies_to(document))
        return command["push-groups"]

    def read(self, body, package="a:b"):
        """The package with this body, without spans."""
        self.write("p.wit", f"package {package};\n{body}")
        return without_spans(self.pushed("p.wit")["main"]["main"])

    def refused(self, text, *told):
        """Asks that a file can't be written, and that this is told of it, as LINE:COLUMN: WHAT."""
        self.write("p.wit", text)
        status, document, faults = self.run_tool("p.wit")
        self.assertEqual((status, document), (1, ""))
        self.assertEqual(faults_in(faults), [f"p.wit:{it}" for it in told])


class Types(Case):
    def kinds(self, body, more=""):
        """The kinds of the types of an interface, each with its name."""
        made = self.read(f"{more}\ninterface i {{ {body} }}")
        return [(it["name"], it["kind"]) for it in made["types"]]

    def test_definitions(self):
        body = """
            record r { x: u8, y: string }
            flags f { a, b }
            variant v { a, b(r) }
            enum e { a }
            resource s;
            type t = v;"""
        fields = [{"name": "x", "type": "u8"}, {"name": "y", "type": "string"}]
        expected = [
            ("r", {"record": {"fields": fields}}),
            ("f", {"flags": {"flags": [{"name": "a"}, {"name": "b"}]}}),
            ("v", {"variant": {"cases": [{"name": "a", "type": None}, {"name": "b", "type": 0}]}}),
            ("e", {"enum": {"cases": [{"name": "a"}]}}),
            ("s", "resource"),
            ("t", {"type": 2}),
        ]
        self.assertEqual(self.kinds(body), expected)

    def test_forms(self):
        forms = {
            "list<u8>": {"list": "u8"},
            "list<u8, 4>": {"fixed-length-list": ["u8", 4]},
            "option<char>": {"option": "char"},
            "result": {"result": {"ok": None, "err": None}},
            "result<u8>": {"result": {"ok": "u8", "err": None}},
            "result<_, u8>": {"result": {"ok": None, "err": "u8"}},
            "result<u8, bool>": {"result": {"ok": "u8", "err": "bool"}},
            "tuple<u8, s64>": {"tuple": {"types": ["u8", "s64"]}},
            "map<string, f32>": {"map": ["string", "f32"]},
            "future": {"future": None},
            "future<u8>": {"future": "u8"},
            "stream<u8>": {"stream": "u8"},
            "error-context": {"type": "error-context"},
        }
        body = " ".join(f"type t{n} = {text};" for n, text in enumerate(forms))
        self.assertEqual(self.kinds(body), [(f"t{n}", kind) for n, kind in enumerate(forms.values())])

    def test_handles(self):
        body = "resource r; type a = r; type b = own<a>; type c = borrow<r>;"
        handles = [("a", {"type": 0}), ("b", {"handle": {"own": 1}}), ("c", {"handle": {"borrow": 0}})]
        self.assertEqual(self.kinds(body), [("r", "resource"), *handles])
        self.refused("package a:b; interface i { type t = u8;\ntype h = own<t>; }", "2:14: type `t` used in a handle must be a resource")

    def test_a_type_without_a_name_is_there_once(self):
        body = "type a = list<option<u8>>; f: func(x: option<u8>, y: list<option<u8>>) -> list<option<u8>>;"
        expected = [(None, {"option": "u8"}), ("a", {"list": 0}), (None, {"list": 0})]
        self.assertEqual(self.kinds(body), expected)

    def test_a_type_comes_behind_what_it_names(self):
        body = "record a { x: d } type b = u8; type d = b;"
        self.assertEqual([name for name, _ in self.kinds(body)], ["b", "d", "a"])
        cycle = "2:10: type `b` depends on itself"
        self.refused("package a:b; interface i {\ntype a = b; type b = list<a>; }", cycle)
        self.refused("package a:b; interface i {\nf: func(x: t); }", "2:12: name `t` does not exist")

    def test_names_may_be_words(self):
        kinds = self.kinds("type %string = u8; type a = %string;")
        self.assertEqual(kinds, [("string", {"type": "u8"}), ("a", {"type": 0})])


class Functions(Case):
    def functions(self, body):
        return self.read(f"interface i {{ {body} }}")["interfaces"][0]["functions"]

    def test_kinds(self):
        body = """
            resource r {
              constructor(x: u8);
              m: func();
              n: async func();
              s: static func() -> r;
              t: static async func();
            }
            f: func();
            g: async func(x: r) -> u8;"""
        kinds = {name: it["kind"] for name, it in self.functions(body).items()}
        expected = {
            "[constructor]r": {"constructor": 0},
            "[method]r.m": {"method": 0},
            "[method]r.n": {"async-method": 0},
            "[static]r.s": {"static": 0},
            "[static]r.t": {"async-static": 0},
            "f": "freestanding",
            "g": "async-freestanding",
        }
        self.assertEqual(kinds, expected)

    def test_parameters_and_results(self):
        made = self.functions("resource r { constructor(); m: func(x: u8); } f: func() -> r;")
        self.assertEqual(made["[constructor]r"]["result"], 0)
        self.assertEqual(made["[method]r.m"]["params"], [{"name": "self", "type": 1}, {"name": "x", "type": "u8"}])
        self.assertNotIn("result", made["[method]r.m"])
        self.assertEqual(made["f"]["result"], 0)

    def test_a_constructor_that_may_fail(self):
        made = self.functions("resource r { constructor() -> result<r, u8>; }")
        self.assertEqual(made["[constructor]r"]["result"], 1)
        told = "2:1: if a constructor return type is declared it must be a `result`"
        self.refused("package a:b; interface i { resource r { constructor() ->\nu8; } }", told)
        told = "2:8: the `ok` type must be the resource being constructed"
        self.refused("package a:b; interface i { resource r { constructor() ->\nresult<u8>; } }", told)


class Notes(Case):
    def test_documentation(self):
        text = """
            /// The package.
            /// Its second line.
            package a:b;
            // no documentation
            /// An interface.
            interface i {
              /** A record
                  of two lines */
              record r {
                /// A field.
                x: u8,
              }
              /// A function.
              @since(version = 1.0.0)
              f: func();
            }"""
        self.write("p.wit", text)
        made = without_spans(self.pushed("p.wit")["main"]["main"])
        docs = lambda it: it["docs"]["contents"]  # noqa: E731
        self.assertEqual(docs(made), "The package.\nIts second line.")
        self.assertEqual(docs(made["interfaces"][0]), "An interface.")
        self.assertEqual(docs(made["types"][0]), "A record\nof two lines")
        self.assertEqual(docs(made["types"][0]["kind"]["record"]["fields"][0]), "A field.")
        self.assertEqual(docs(made["interfaces"][0]["functions"]["f"]), "A function.")

    def test_gates(self):
        body = """
            @since(version = 1.0.0)
            interface i {
              @unstable(feature = x)
              @deprecated(version = 1.2.0)
              type a = u8;
              @deprecated(version = 1.1.0)
              @since(version = 1.0.0)
              f: func();
              g: func(x: list<a>);
            }"""
        made = self.read(body, "a:b@1.2.0")
        self.assertEqual(made["interfaces"][0]["stability"], {"stable": {"since": "1.0.0"}})
        gate = {"unstable": {"feature": "x", "deprecated": "1.2.0"}}
        # a type without a name has the gate of what it is made of
        self.assertEqual([it["stability"] for it in made["types"]], [gate, gate])
        function = made["interfaces"][0]["functions"]["f"]
        self.assertEqual(function["stability"], {"stable": {"since": "1.0.0", "deprecated": "1.1.0"}})

    def test_external_ids(self):
        body = """
            interface i { @external-id("r") resource r { @external-id("m") m: func(); } }
            world w { @external-id("i") import i; @external-id("f") export f: func(); }"""
        made = self.read(body)
        self.assertEqual(made["types"][0]["external-id"], "r")
        self.assertEqual(made["interfaces"][0]["functions"]["[method]r.m"]["external-id"], "m")
        self.assertEqual(made["worlds"][0]["imports"]["interface-0"]["interface"]["external-id"], "i")
        self.assertEqual(made["worlds"][0]["exports"]["f"]["function"]["external-id"], "f")
        told = "2:2: `@external-id` not allowed here"
        self.refused('package a:b;\n@external-id("x") interface i {}', told)

    def test_places(self):
        """Each thing with a name stands where its span says, in a file that isn't ASCII, behind others, too."""
        text = "// é\npackage c:d;\ninterface i { use a:b/j.{t}; record r { x: t } f: func(p: r); }\n"
        text += "world w { import i; }\n"
        self.write("p/b.wit", text)
        self.write("p/a.wit", "// ü\n")
        group = self.pushed("p")["main"]
        sources = "".join(f"{it['text']}\0" for it in group["sources"])
        for name, at in texts_at(group["main"], sources):
            self.assertEqual(at, name or at)
        self.assertEqual([it["path"] for it in group["sources"]], ["p/a.wit", "p/b.wit"])
        places = [sources.encode()[a:b].decode() for a, b in group["main"]["foreign-dep-spans"]]
        self.assertEqual(places, ["a:b"])


class Worlds(Case):
    def test_entries(self):
        body = """
            interface i { type t = u8; }
            world v { import f: func(); }
            world w {
              export i;
              use i.{t};
              import l: i;
              import c:d/e@1.0.0;
              import m: interface { type u = u8; }
              import interface-0: i;
              import interface-7: func();
              export g: func(x: t);
              include v with { f as h }
            }"""
        made = self.read(body)
        world = made["worlds"][1]
        imports = {
            "t": {"type": {"id": 1}},
            "l": {"interface": {"id": 1}},
            "interface-0": {"interface": {"id": 0}},
            "m": {"interface": {"id": 2}},
            "%interface-0": {"interface": {"id": 1}},
            "%interface-7": {"function": {"name": "interface-7", "kind": "freestanding", "params": []}},
        }
        self.assertEqual(world["imports"], imports)
        self.assertEqual(list(world["exports"]), ["interface-1", "g"])
        self.assertEqual(world["includes"], [{"id": 0, "names": [{"name": "f", "as": "h"}]}])
        self.assertEqual(made["interfaces"][2], {"name": None, "types": {"u": 2}, "functions": {}})
        self.assertEqual(made["foreign-deps"], {"c:d@1.0.0": {"e": [{"interface": 0}, [None]]}})

    def test_functions_of_resources(self):
        world = self.read("world w { resource r { constructor(); } import f: func(x: borrow<r>); }")["worlds"][0]
        self.assertEqual(list(world["imports"]), ["r", "[constructor]r", "f"])

    def test_what_is_named_of_other_packages(self):
        body = """
            use c:d/e as x;
            interface i {
              @unstable(feature = a)
              use c:d/f.{t, u as v};
              use x.{t};
              g: func(x: own<v>);
            }
            world w { @since(version = 1.0.0) import c:d/f; include g:h/w; }"""
        made = self.read(body.replace("use x.{t}", "use x.{t as s}"), "a:b@1.0.0")
        deps = {
            "c:d": {
                "e": [{"interface": 0}, [None]],
                "f": [{"interface": 1}, [{"unstable": {"feature": "a"}}, {"stable": {"since": "1.0.0"}}]],
            },
            "g:h": {"w": [{"world": 0}, [None]]},
        }
        self.assertEqual(made["foreign-deps"], deps)
        named = [(it["name"], it["kind"], it["owner"]) for it in made["types"][:3]]
        self.assertEqual(named, [(it, "unknown", {"interface": of}) for it, of in (("t", 1), ("u", 1), ("t", 0))])
        self.assertEqual([id for id, _ in made["required-resources"]], [1])
        self.assertEqual(made["interfaces"][0], {"name": "e", "types": {"t": 2}, "functions": {}})

    def test_what_is_there_twice(self):
        text = "package a:b; interface i {}\nworld w { import i; import\ni; }"
        self.refused(text, "3:1: interface cannot be imported more than once")
        text = "package a:b;\nworld w { import l: func();\nimport l: interface {} }"
        self.refused(text, "3:8: import `l` conflicts with prior func of same name")
        text = "package a:b; interface i { type t = u8;\nf: func();\nt: func(); }"
        self.refused(text, "3:1: name `t` is defined more than once")
        self.refused("package a:b; interface i {}\nworld i {}", "2:7: duplicate item named `i`")

    def test_what_is_not_there(self):
        self.refused("package a:b;\nworld w { import i; }", "2:18: interface or world `i` does not exist")
        self.refused("package a:b; interface i {}\ninterface j { use i.{t}; }", "2:22: name `t` does not exist")
        sort = "package a:b;\nworld w { import c:d/e;\ninclude c:d/e; }"
        self.refused(sort, "2:22: name `e` is defined as a world, not an interface")


class Files(Case):
    def test_groups(self):
        self.write("p/a.wit", "package a:b;\nworld w { import c:d/i; }")
        self.write("p/deps/x.wit", "package c:d;\ninterface i {}")
        self.write("p/deps/y/j.wit", "package e:f;\ninterface j {}")
        self.write("q.wit", "package g:h; interface i {}\npackage k:l { interface i {} }")
        push = self.pushed("p", "q.wit", "p/deps/x.wit")
        self.assertEqual(push["main"]["main"]["name"], "a:b")
        self.assertEqual([it["main"]["name"] for it in push["deps"]], ["g:h", "c:d", "e:f"])
        self.assertEqual([it["name"] for it in push["deps"][0]["nested"]], ["k:l"])

    def test_each_nested_package_has_its_own_names(self):
        text = """
            package e:f;
            package a:b { use x:y/i as z; interface j { use z.{t}; } }
            package c:d { use x:y/k as z; interface j { use z.{t}; } }"""
        self.write("p.wit", text)
        group = self.pushed("p.wit")["main"]
        named = [list(it["foreign-deps"]["x:y"]) for it in group["nested"]]
        self.assertEqual(named, [["i"], ["k"]])

    def test_commands_behind_the_push(self):
        self.write("p.wit", "package a:b; world w {}")
        self.write("then.json", '[{"select": {"packages": ["a:b"]}}]')
        self.assertEqual(self.run_tool("-o", "out", "--then", "then.json", "p.wit"), (0, "", ""))
        with open("out", encoding="utf-8") as file:
            commands = json.load(file)["commands"]
        self.assertEqual(list(commands[0]), ["push-groups"])
        self.assertEqual(commands[1:], [{"select": {"packages": ["a:b"]}}])

    def test_a_graph_to_begin_with(self):
        resolve = {"graph": {"worlds": [], "interfaces": [], "types": [], "packages": []}, "track-rule": "published"}
        self.write("out.json", json.dumps({"replies": [], "resolve": resolve}))
        self.write("p.wit", "package a:b; world w {}")
        status, document, _ = self.run_tool("--on", "out.json", "p.wit")
        self.assertEqual((status, list(json.loads(document))), (0, ["resolve", "commands"]))
        self.assertEqual(json.loads(document)["resolve"], resolve)
        if PROGRAM:
            with open("out.json", "w", encoding="utf-8") as file:
                json.dump(replies_to(document), file)
            self.write("q.wit", "package c:d; world v { include a:b/w; }")
            output = replies_to(self.run_tool("--on", "out.json", "q.wit")[1])
            self.assertEqual(output["replies"], [{"pushed": 1}])
            self.assertEqual([it["path"] for it in output["resolve"]["sources"]], ["p.wit", "q.wit"])

    def test_no_graph_to_begin_with(self):
        self.write("p.wit", "package a:b;")
        twice = '{"resolve": {"graph": {"interface-1": 0, "interface-1": 0}}}'
        told = {'{"fault": {}}': "out.json: no graph came out", twice: "two members of an object have one name"}
        for text, what in told.items():
            self.write("out.json", text)
            self.assertEqual(self.run_tool("--on", "out.json", "p.wit"), (1, "", f"wit2json.py: {what}\n"))

    def test_what_cannot_be_read(self):
        self.assertEqual(self.run_tool("nowhere.wit")[:2], (1, ""))
        self.refused("interface i {}", " no `package` header was found in any WIT file for this package")

    def test_deep_types(self):
        deep = "list<" * 20_000 + "u8" + ">" * 20_000
        self.write("p.wit", f"package a:b; interface i {{ type t = {deep}; }}")
        status, document, told = self.run_tool("p.wit")
        self.assertEqual((status, told), (0, ""))
        types = json.loads(document)["commands"][0]["push-groups"]["main"]["main"]["types"]
        self.assertEqual([it["kind"] for it in types], [{"list": "u8"}] + [{"list": n} for n in range(19_999)])


class Wasi(Case):
    """The packages of examples/wasi."""

    def test_all_at_once(self):
        for version in ("0.2.0", "0.2.3"):
            push = self.pushed(*(os.path.join(WASI, version, f"{it}.wit") for it in PACKAGES))
            groups = [push["main"], *push["deps"]]
            self.assertEqual([it["main"]["name"] for it in groups], [f"wasi:{it}@{version}" for it in PACKAGES])
            for group in groups:
                text, made = group["sources"][0]["text"], group["main"]
                functions = sum(len(it["functions"]) for it in made["interfaces"])
                self.assertEqual(text.count("func(") + text.count("constructor("), functions)
                for word in ("enum", "flags", "variant", "record", "resource"):
                    kinds = [it for it in made["types"] if it["kind"] == word or word in it["kind"]]
                    begun = [it for it in text.split("\n") if it.strip().startswith(f"{word} ")]
                    self.assertEqual(len(begun), len(kinds), (version, made["name"], word))


if __name__ == "__main__":
    unittest.main()

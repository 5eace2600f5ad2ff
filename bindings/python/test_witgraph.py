#!/usr/bin/env python3
"""Tests of the package witgraph: `python3 bindings/python/test_witgraph.py`.

What needs no library is always tested, over the stored documents of examples/kinds. WITGRAPH_SHARED, the path of a
libwitgraph.so, adds scripts and commands; WITGRAPH_JSON, the path of a build of the program `witgraph_json`, adds commands
carried out by that. With WITGRAPH_INSTALLED the package that is installed is tested, with its own library, and not the one
beside this file. Where mypy is installed, the types of the package and of the examples are checked.
"""
import concurrent.futures
import ctypes
import doctest
import importlib.util
import json
import multiprocessing
import os
import pickle
import random
import subprocess
import sys
import tempfile
import time
import unittest

HERE = os.path.dirname(os.path.abspath(__file__))
TOP = os.path.dirname(os.path.dirname(HERE))
INSTALLED = bool(os.environ.get("WITGRAPH_INSTALLED"))
sys.dont_write_bytecode = True
sys.path = [it for it in sys.path if os.path.abspath(it) != HERE] if INSTALLED else [HERE, *sys.path]

import witgraph as wg  # noqa: E402

PROGRAM = os.environ.get("WITGRAPH_JSON")
SHARED = INSTALLED or os.environ.get("WITGRAPH_SHARED")


def stored(name):
    with open(os.path.join(TOP, "examples", "kinds", name), encoding="utf-8") as file:
        return file.read()


def runners():
    """All that carries out commands here."""
    return [wg.run] * bool(SHARED) + [lambda *asked: wg.run_by(PROGRAM, *asked)] * bool(PROGRAM)


def push(package, *deps):
    """The command that pushes packages, each a group of its own."""
    return wg.PushGroups(wg.UnresolvedPackageGroup(package), [wg.UnresolvedPackageGroup(it) for it in deps])


def a_refusal():
    way = [wg.WayStep("a:b", "c:d"), wg.WayStep("c:d", "a:b", wg.Place("c.wit", 2, 5))]
    return wg.Refusal(6, "package-cycle", "no", (1, 2), wg.PackageCycle("a:b"), [wg.Place("a.wit", 1, 3)], way, "no at 1")


def one_of_each_error():
    """An error of each class, and its text."""
    return [
        (wg.Fault(["commands", 0], 14, 2, 3, "a command"), "expected a command at line 2, column 3, at commands[0]"),
        (wg.Fault(["resolve"], 1, 1, 2, "it", "a.b", "it isn't"), "expected it at line 1, column 2, at resolve: it isn't"),
        (wg.NotUnderstood(2, "line 2: not understood"), "line 2: not understood"),
        (wg.ProgramFailed("./p", 1, "no memory\n"), "./p ended with status 1: no memory"),
        (wg.ProgramFailed("./p", -9, ""), "./p was ended by signal 9: nothing on standard error"),
        (a_refusal(), "no at 1"),
        (wg.ShapeFault(["main"], "lengths", "types", "so many"), "main: types breaks lengths: so many"),
        (wg.Unreadable("expected str, found 1"), "expected str, found 1"),
    ]


def raise_the(number):
    """What a process of a pool does."""
    raise one_of_each_error()[number][0]


class Errors(unittest.TestCase):
    def test_texts(self):
        for error, text in one_of_each_error():
            self.assertEqual(str(error), text)
            self.assertIsInstance(error, wg.Error)

    def test_each_is_pickled(self):
        for error, text in one_of_each_error():
            again = pickle.loads(pickle.dumps(error))
            self.assertEqual((type(again), str(again), vars(again)), (type(error), text, vars(error)))

    def test_each_comes_out_of_a_pool(self):
        with concurrent.futures.ProcessPoolExecutor(1, multiprocessing.get_context("spawn")) as pool:
            for number, (error, text) in enumerate(one_of_each_error()):
                with self.assertRaises(type(error)) as raised:
                    pool.submit(raise_the, number).result()
                self.assertEqual(str(raised.exception), text)


class Documents(unittest.TestCase):
    def test_a_document_is_the_same_again(self):
        for command in json.loads(stored("kinds.json"))["commands"]:
            push = wg.from_json(wg.PushGroups, command)
            self.assertEqual(wg.to_json(push), command)
            self.assertEqual(json.loads(wg.document_of([push])), {"commands": [command]})

    def test_commands(self):
        expected = {
            '{"add-feature": "f"}': wg.AddFeature("f"),
            '{"set-all-features": false}': wg.SetAllFeatures(False),
            '{"set-track-rule": "published"}': wg.SetTrackRule("published"),
            '{"merge": ["package-order"]}': wg.MergeGraph([wg.PackageOrder()]),
            '{"importize": {"package": "a:b", "world": "w"}}': wg.Importize("a:b", "w"),
            '{"exportize": {"package": "a:b", "world": "w", "out": "v", "keys": ["k"]}}': wg.Exportize(
                "a:b", "w", "v", ["k"]
            ),
            '{"semver": {"package": "a:b", "world": "w"}}': wg.Semver("a:b", "w"),
            '{"select": {"packages": ["a:b"]}}': wg.Select(["a:b"]),
            '{"select": {"packages": ["a:b"], "world": "w"}}': wg.Select(["a:b"], "w"),
            '{"package-dependencies": {"package": "a:b"}}': wg.PackageDependencies("a:b"),
            '{"interface-dependencies": {"package": "a:b", "interface": "i"}}': wg.InterfaceDependencies("a:b", "i"),
            '{"canonical-id": {"package": "a:b", "name": "i"}}': wg.CanonicalId("a:b", "i"),
            '{"core-names": {"package": "a:b", "world": "w", "mangling": "standard32"}}': wg.CoreNamesOf(
                "a:b", "w", "standard32"
            ),
        }
        for text, command in expected.items():
            self.assertEqual(wg.to_json(command), json.loads(text))

    def test_replies(self):
        expected = {
            '"done"': wg.Done(),
            '{"done": {"world": 2}}': wg.Done(2),
            '{"done": {"world": 2, "unmatched": ["a:b/i"]}}': wg.Done(2, ["a:b/i"]),
            '"no-package"': wg.NoPackage(),
            '"no-world"': wg.NoWorld(),
            '{"pushed": 3}': wg.Pushed(3),
            '{"world": 0}': wg.WorldReply(0),
            '{"packages": [1, 0]}': wg.Packages([1, 0]),
            '{"text": "a:b/i"}': wg.Text("a:b/i"),
            '{"merge": {"replies": ["done"], "reply": {"merged": {"types": [null, 2], "interfaces": [], "worlds": [],'
            ' "packages": [0]}}}}': wg.Merge([wg.Done()], wg.Merged([None, 2], [], [], [0])),
        }
        for text, reply in expected.items():
            self.assertEqual(wg.from_json(wg.Reply, json.loads(text)), reply)
            self.assertEqual(wg.to_json(reply), json.loads(text))
            self.assertEqual(wg.accepted(reply), reply.reply if isinstance(reply, wg.Merge) else reply)

    def test_a_refusal_is_raised(self):
        place = {"path": "a.wit", "line": 1, "column": 3}
        way = [{"from": "a:b", "to": "c:d"}, {"from": "c:d", "to": "a:b", "place": {"path": "c.wit", "line": 2, "column": 5}}]
        refused = {
            "error": {"number": 6, "cause": "package-cycle", "text": "no", "span": [1, 2]},
            "fields": {"package": "a:b"},
            "places": [place],
            "way": way,
            "rendered": "no at 1",
        }
        reply = wg.from_json(wg.Reply, {"refused": refused})
        with self.assertRaises(wg.Refusal) as raised:
            wg.accepted(reply)
        self.assertEqual((str(raised.exception), vars(raised.exception)), ("no at 1", vars(a_refusal())))
        self.assertEqual(str(raised.exception.places[0]), "a.wit:1:3")
        self.assertEqual(wg.to_json(reply)["refused"]["way"], way)

    def test_the_fields_of_each_error(self):
        gate = {"unstable": {"feature": "f"}}
        expected = {
            1: ({"requested": "a:b", "known": ["c:d"]}, wg.PackageNotFound("a:b", ["c:d"])),
            2: ({"requested": "w", "package": "a:b"}, wg.WorldNotFound("w", "a:b")),
            3: ({"requested": "i", "package": "a:b"}, wg.InterfaceNotFound("i", "a:b")),
            4: ({"name": "a:b/i"}, wg.InvalidTransitiveDependency("a:b/i")),
            5: ({"name": "a:b", "span1": [1, 2], "span2": None}, wg.DuplicatePackage("a:b", (1, 2), None)),
            6: ({"package": "a:b"}, wg.PackageCycle("a:b")),
            7: ({"item-type": "import", "name": "f"}, wg.ItemShadowing("import", "f")),
            8: ({"from": None, "into": gate}, wg.StabilityMismatch(None, wg.Unstable("f"))),
            9: ({"message": "no"}, wg.Semantic("no")),
            26: ({"message": "no"}, wg.Semantic("no")),
            27: ({}, wg.OffsetOverflow()),
            28: ({}, wg.OutOfMemory()),
        }
        for number, (members, fields) in expected.items():
            error = {"number": number, "cause": "other", "text": "no"}
            refused = {"error": error, "fields": members, "places": [], "way": [], "rendered": "no"}
            nearest = {"nearest": "a:c"} if number == 1 else {}
            reply = wg.from_json(wg.Reply, {"refused": {**refused, **nearest}})
            self.assertEqual((reply.nearest, reply.refusal.nearest), (nearest.get("nearest"),) * 2)
            self.assertEqual((reply.fields, reply.refusal.fields), (fields, fields))
            self.assertEqual(json.loads(json.dumps(wg.to_json(reply)))["refused"]["fields"], members)

    def test_a_reply_of_another_kind(self):
        merged = wg.Merge([wg.Done()], wg.Merged([], [], [], []))
        self.assertEqual(wg.accepted(wg.Pushed(3), wg.Pushed).id, 3)
        self.assertEqual(wg.accepted(merged, wg.Merged).packages, [])
        with self.assertRaises(TypeError) as raised:
            wg.accepted(wg.NoWorld(), wg.WorldReply)
        self.assertEqual(str(raised.exception), "expected WorldReply, found NoWorld()")

    def test_a_fault_is_raised(self):
        with self.assertRaises(wg.Fault) as raised:
            wg.run_of('{"fault": {"path": [], "offset": 14, "line": 2, "column": 3, "expected": "`:`"}}')
        fault = raised.exception
        self.assertEqual((fault.path, fault.offset, fault.line, fault.column, fault.expected), ([], 14, 2, 3, "`:`"))
        self.assertEqual(str(fault), "expected `:` at line 2, column 3")

    def test_a_package_without_its_shape_is_raised(self):
        parts = {"path": ["deps", 0, "nested", 1], "clause": "lengths", "place": "unknown_type_spans", "text": "so many"}
        reply = wg.from_json(wg.Reply, {"not-shaped": parts})
        self.assertEqual(reply, wg.NotShaped(["deps", 0, "nested", 1], "lengths", "unknown_type_spans", "so many"))
        with self.assertRaises(wg.ShapeFault) as raised:
            wg.accepted(reply)
        fault = raised.exception
        self.assertEqual(str(fault), "deps[0].nested[1]: unknown_type_spans breaks lengths: so many")
        self.assertEqual((fault.path, fault.clause, fault.place, fault.text), tuple(parts.values()))

    def test_other_forms_are_told(self):
        for hint, value in ((wg.TypeDefKind, {"no": 1}), (wg.Type, None), (wg.Field, {"name": "x"}), (wg.Type, True)):
            with self.assertRaises(wg.Unreadable):
                wg.from_json(hint, value)

    def test_a_graph_is_the_same_again(self):
        value = json.loads(stored("kinds.out.json"))["resolve"]
        graph = wg.graph_of(value)
        self.assertEqual(wg.whole_of(graph), value)
        self.assertEqual(wg.graph_of(wg.whole_of(graph)), graph)
        alone = wg.graph_of({"graph": value["graph"]})
        self.assertEqual([it.name for it in alone.types], [it.name for it in graph.types])
        self.assertEqual((alone.track_rule, alone.sources), ("published", []))
        value["track-rule"] = "with-prereleases"
        graph = wg.graph_of(value)
        self.assertEqual((graph.track_rule, wg.whole_of(graph)), ("with-prereleases", value))
        self.assertEqual(json.loads(wg.document_of(["package-order"], graph)), {"resolve": value, "commands": ["package-order"]})

    def test_two_members_of_one_name_are_told(self):
        with self.assertRaises(wg.Unreadable):
            wg.run_of('{"replies": [], "resolve": {"graph": {"interface-1": {}, "interface-1": {}}}}')


class Graphs(unittest.TestCase):
    def setUp(self):
        self.run_ = wg.run_of(stored("kinds.out.json"))
        self.graph = self.run_.graph

    def interface(self, name):
        package = self.graph.packages[self.run_.replies[0].id]
        return self.graph.interfaces[package.interfaces[name]]

    def test_packages(self):
        package = self.graph.packages[self.run_.replies[0].id]
        self.assertEqual((package.name, package.docs[:22]), ("example:kinds@1.2.0", "Every kind of type, fu"))
        self.assertEqual(self.graph.package_names["other:things@0.1.0"], 0)
        self.assertEqual(self.graph.id_of(package.interfaces["all"]), "example:kinds/all@1.2.0")

    def test_names_of_packages_are_kept(self):
        names = self.graph.package_names
        self.assertEqual(list(names), [it.name for it in self.graph.packages])
        self.assertIs(self.graph.package_names, names)
        self.graph.packages.append(wg.Package("a:b"))
        del self.graph.package_names
        self.assertEqual(self.graph.package_names["a:b"], len(names))

    def test_places(self):
        files = [wg.Source("a.wit", "é: x\nb\n"), wg.Source("b.wit", "c")]
        graph = wg.Graph(sources=files)
        # of `é` the two bytes are positions 0 and 1; the end of a file is its own
        expected = {0: "a.wit:1:1", 2: "a.wit:1:2", 4: "a.wit:1:4", 6: "a.wit:2:1", 8: "a.wit:3:1", 9: "b.wit:1:1", 10: "b.wit:1:2"}
        self.assertEqual({it: str(graph.place_of((it, it + 1))) for it in expected}, expected)
        self.assertIsNone(graph.place_of((11, 12)))

    def test_types(self):
        types = {name: self.graph.types[id] for name, id in self.interface("all").types.items()}
        self.assertEqual(types["item"].kind.fields[0].docs, "Its name.")
        self.assertEqual(types["key"].kind, wg.FixedLengthList("u8", 32))
        self.assertEqual(types["table"].kind, wg.Map("string", "u32"))
        self.assertEqual(types["failure"].kind, wg.Result(None, "error-context"))
        self.assertEqual(types["signal"].kind, wg.Future(None))
        self.assertEqual([it.name for it in types["color"].kind.cases], ["red", "green", "blue"])
        cursor = types["cursor"]
        self.assertEqual((cursor.kind, cursor.external_id), (wg.Resource(), "kinds/cursor"))
        self.assertEqual(cursor.stability, wg.Stable("1.0.0", "1.1.0"))

    def test_what_stands_beside_is_put_where_it_belongs(self):
        text = json.loads(stored("kinds.json"))["commands"][0]["push-groups"]["main"]["sources"][0]["text"]
        base = len(json.loads(stored("kinds.json"))["commands"][0]["push-groups"]["deps"][0]["sources"][0]["text"]) + 1
        item = self.graph.types[self.interface("all").types["item"]]
        places = [(item.span, "item"), *((it.span, it.name) for it in item.kind.fields)]
        count = self.interface("all").functions["count"]
        places += [(count.span, "count"), *((it.span, it.name) for it in count.params)]
        found = [(text[a:b], text[a - base : b - base]) for (a, b), _ in places]
        self.assertIn([name for _, name in places], [[it for it, _ in found], [it for _, it in found]])

    def test_worlds(self):
        (world,) = [it for it in self.graph.worlds if it.name == "whole"]
        names = [self.graph.entry_name(key, item) for key, item in world.imports.items()]
        self.assertIn("example:kinds/all@1.2.0", names)
        second = world.imports["second"]
        self.assertEqual((second.external_id, second.docs), ("kinds/second", "An interface under a label."))
        self.assertEqual(world.exports["start"].function.kind, "async-freestanding")
        self.assertIsInstance(world.imports["session"], wg.TypeItem)


# What graph.py tells of the interface `all` of examples/kinds/wit/kinds.wit, whose function `read` is gated, and of `small`.
SHOWN = """\
interface example:kinds/all@1.2.0
  type file: file
  type length: size
  type part: part
  type tool-of: tool
  type item: record { name: string, parts: list<part> }
  type shape: variant { none, circle(f64), polygon(list<tuple<f32, f32>>) }
  type color: enum { red, green, blue }
  type rights: flags { read, write }
  type pair: tuple<u8, s16>
  type maybe: option<color>
  type outcome: result<item, string>
  type failure: result<_, error-context>
  type table: map<string, u32>
  type key: list<u8, 32>
  type later: future<item>
  type bytes: stream<u8>
  type signal: future<_>
  type opened: file
  type cursor: resource
  [constructor]cursor: func(of: borrow<file>) -> cursor
  [method]cursor.next: func(self: borrow<cursor>) -> option<item>
  [method]cursor.wait: func(self: borrow<cursor>, last: later)
  [static]cursor.open: func(name: string) -> result<cursor, shape>
  [static]cursor.close: func(it: cursor)
  count: func(of: borrow<tool-of>, rights: rights) -> length
  same: func(a: bool, b: s8, c: u16, d: s32, e: u32, f: s64, g: pair, h: key, i: table) -> bool
interface""", """\
world example:kinds/small@1.2.0
  import log
  export run
world"""


def example(name):
    """An example beside this file, as a module."""
    loader = importlib.util.spec_from_file_location(name, os.path.join(HERE, f"{name}.py"))
    module = importlib.util.module_from_spec(loader)
    loader.loader.exec_module(module)
    return module


class Example(unittest.TestCase):
    def test_what_graph_tells(self):
        graph = example("graph")
        shown = "\n".join(graph.Shown(wg.run_of(stored("kinds.out.json")).graph).lines())
        for part in SHOWN:
            self.assertIn(part, shown)


def pushes(count):
    """A script that adds packages, and its answers."""
    names = [f"a:b{number}" for number in range(count)]
    return "".join(f"package {it}\npush\n" for it in names), "".join(f"pushed {it}\n" for it in names)


@unittest.skipUnless(SHARED, "no libwitgraph.so")
class Scripts(unittest.TestCase):
    def test_scripts(self):
        self.assertEqual(wg.execute("package a:b\npush\n"), "pushed a:b\n")
        self.assertEqual(wg.explain("package a:b\npush\n"), "")
        told = wg.explain("package a:b\npush\n\npackage a:b\npush\n")
        self.assertTrue(told.startswith("refused 5 "))
        self.assertIn("--> line 4 (a:b:1:1)\n", told)
        self.assertIn("--> line 1 (a:b:1:1)\n", told)
        with self.assertRaises(wg.NotUnderstood) as raised:
            wg.explain("package a:b\ninterface i_i\npush\n")
        self.assertEqual(raised.exception.line, 2)
        self.assertTrue(raised.exception.text.startswith("line 2: i_i is no kebab name\n"))
        with self.assertRaises(wg.NotUnderstood) as raised:
            wg.execute("package a:b\npush\nhello\n")
        self.assertEqual(raised.exception.line, 3)
        script, answers = pushes(2000)
        self.assertEqual(wg.execute(script), answers)

    def test_calls_in_eight_threads(self):
        scripts = [pushes(100 + number) for number in range(8)]

        def work(script, answers):
            return all(wg.execute(script) == answers and wg.explain(script) == "" for _ in range(20))

        with concurrent.futures.ThreadPoolExecutor(8) as pool:
            self.assertEqual(list(pool.map(work, *zip(*scripts))), [True] * 8)

    def test_a_script_that_is_not_understood_comes_out_of_a_pool(self):
        with concurrent.futures.ProcessPoolExecutor(1, multiprocessing.get_context("spawn")) as pool:
            with self.assertRaises(wg.NotUnderstood) as raised:
                pool.submit(wg.execute, "package a:b\npush\nhello\n").result()
            self.assertEqual(raised.exception.line, 3)
            self.assertEqual(pool.submit(wg.execute, "package a:b\npush\n").result(), "pushed a:b\n")

    def test_the_room_for_an_output_is_kept(self):
        labels = "".join(f"import-func label-{number}()\n" for number in range(200))
        script = f"package a:b\nworld w\n{labels}push\n" + 200 * "print a:b w\n"
        library, lengths = wg.Library(), []
        execute = library._library.witgraph_execute

        def counted(*arguments):
            lengths.append(arguments[3])
            return execute(*arguments)

        library._library.witgraph_execute = counted
        answers = library.execute(script)
        self.assertGreater(len(answers), max(4 * len(script), 1 << 16))
        self.assertEqual(len(lengths), 2)
        self.assertEqual(library.execute(script), answers)
        self.assertEqual(len(lengths), 3)


@unittest.skipUnless(runners(), "nothing that carries out commands")
class Calls(unittest.TestCase):
    def test_the_stored_graph_is_what_comes_out(self):
        for run in runners():
            self.assertEqual(run(json.loads(stored("kinds.json"))["commands"]), wg.run_of(stored("kinds.out.json")))

    def test_what_is_made_here_is_pushed(self):
        interface = wg.Interface("i", {"t": 0}, {"f": wg.Function("f", "freestanding", [wg.Param("x", 0)], "bool")})
        record = wg.TypeDef("t", wg.Record([wg.Field("a", "u8")]), wg.InterfaceOwner(0))
        world = wg.World("w", {"interface-0": wg.InterfaceItem(0)}, includes=[])
        package = wg.UnresolvedPackage("a:b", worlds=[world], interfaces=[interface], types=[record])
        for run in runners():
            made = run([push(package), push(package), wg.Select(["a:b"]), wg.AddFeature("f")])
            self.assertEqual([type(it) for it in made.replies], [wg.Pushed, wg.Refused, wg.WorldReply, wg.Done])
            self.assertEqual(made.replies[1].error.number, 5)
            self.assertEqual(made.graph.features, ["f"])
            self.assertEqual(made.graph.types, [record])

    def test_keys_that_no_import_has_are_told(self):
        world = wg.World("w", {"interface-0": wg.InterfaceItem(0)}, includes=[])
        package = wg.UnresolvedPackage("a:b", worlds=[world], interfaces=[wg.Interface("i")])
        commands = [wg.Exportize("a:b", "w", None, ["a:b/i", "a:b/j"]), wg.Importize("a:b", "v"), wg.Importize("a:c", "v")]
        for run in runners():
            replies = run([push(package), *commands]).replies
            self.assertEqual(replies, [wg.Pushed(0), wg.Done(0, ["a:b/j"]), wg.NoWorld(), wg.NoPackage()])

    def test_faults(self):
        for run in runners():
            with self.assertRaises(wg.Fault):
                run([{"no": "command"}])

    def test_commands_go_on_where_others_ended(self):
        def package(name):
            record = wg.TypeDef("t", wg.Record([wg.Field("a", "u8")]), wg.InterfaceOwner(0))
            return wg.UnresolvedPackage(name, interfaces=[wg.Interface("i", {"t": 0})], types=[record])

        begun = push(package("a:b"))
        begun.main.sources = [wg.Source("a.wit", "interface i {}\n")]
        one = [wg.SetTrackRule("with-prereleases"), wg.AddFeature("f"), begun]
        two = [begun, push(package("a:c@1.0.0"), package("d:e")), wg.PackageOrder()]
        for run in runners():
            whole, first = run(one + two), run(one)
            last = run(two, first.graph)
            self.assertEqual(wg.Run(first.replies + last.replies, last.graph), whole)
            self.assertEqual([type(it) for it in last.replies], [wg.Refused, wg.Pushed, wg.Packages])
            # each push brings its files, one that is refused too
            self.assertEqual((last.graph.track_rule, len(last.graph.sources)), ("with-prereleases", 2))

    def test_a_graph_that_is_not_valid_is_a_fault(self):
        graph = wg.Graph(packages=[wg.Package("a:b", interfaces={"i": 0})])
        for run in runners():
            with self.assertRaises(wg.Fault) as raised:
                run([], graph)
            fault = raised.exception
            self.assertEqual((fault.path, fault.clause), (["resolve", "graph", "packages", 0, "interfaces"], "tables.interface_tables"))
            self.assertEqual(fault.message, "entry 0 among the interfaces of package 0 is no interface of that name in that package")

    def test_a_package_that_lacks_its_shape_is_told(self):
        functions = {"f": wg.Function("g", "freestanding", [])}
        other = wg.UnresolvedPackage("a:b", interfaces=[wg.Interface("first"), wg.Interface("second", {}, functions)])
        expected = (["deps", 0, "main"], "owners.functions", "interfaces[1].functions[0]", "a function stands under its name")
        for run in runners():
            made = run([push(wg.UnresolvedPackage("a:c"), other)])
            self.assertEqual(made, wg.Run([wg.NotShaped(*expected)], wg.Graph()))


@unittest.skipUnless(SHARED, "no libwitgraph.so")
class Resolves(unittest.TestCase):
    """Graphs that stay."""

    def test_one_by_one_as_in_one_document(self):
        commands = [wg.AddFeature("é"), *json.loads(stored("kinds.json"))["commands"]]
        commands += [push(wg.UnresolvedPackage("a:b", worlds=[wg.World("w")])), push(wg.UnresolvedPackage("a:b")), wg.Select(["a:b"])]
        resolve, whole = wg.Resolve(), wg.run(commands)
        replies = [reply for command in commands for reply in resolve.apply([command])]
        self.assertEqual(wg.Run(replies, resolve.graph), whole)
        self.assertEqual([type(it) for it in replies[-3:]], [wg.Pushed, wg.Refused, wg.WorldReply])
        self.assertEqual(wg.Resolve(whole.graph).graph, whole.graph)

    def test_data_are_kept_until_something_changes(self):
        resolve = wg.Resolve()
        self.assertEqual(resolve.graph, wg.Graph())
        resolve.apply([push(wg.UnresolvedPackage("a:b"))])
        graph = resolve.graph
        self.assertEqual(resolve.apply([wg.PackageOrder()]), [wg.Packages([0])])
        self.assertIs(resolve.graph, graph)
        graph.packages.clear()
        resolve.apply([push(wg.UnresolvedPackage("c:d"))])
        self.assertEqual([it.name for it in resolve.graph.packages], ["a:b", "c:d"])

    def test_a_fault_leaves_it(self):
        resolve = wg.Resolve()
        resolve.apply([push(wg.UnresolvedPackage("a:b"))])
        graph = resolve.graph
        with self.assertRaises(wg.Fault) as raised:
            resolve.apply([wg.AddFeature("f"), {"no": "command"}])
        self.assertEqual(raised.exception.path[:2], ["commands", 1])
        self.assertIs(resolve.graph, graph)
        self.assertEqual(resolve.apply([]), [])
        self.assertEqual(resolve.graph.features, [])

    def test_a_graph_that_is_not_valid_is_a_fault(self):
        with self.assertRaises(wg.Fault) as raised:
            wg.Resolve(wg.Graph(packages=[wg.Package("a:b", interfaces={"i": 0})]))
        fault = raised.exception
        self.assertEqual((fault.path, fault.clause), (["resolve", "graph", "packages", 0, "interfaces"], "tables.interface_tables"))

    def test_two_are_two(self):
        one, other = wg.Resolve(), wg.Resolve()
        one.apply([push(wg.UnresolvedPackage("a:b"))])
        self.assertEqual((len(one.graph.packages), other.graph), (1, wg.Graph()))
        self.assertEqual(json.loads(one.text), wg.whole_of(one.graph))

    def test_threads_that_use_one_wait_for_each_other(self):
        resolve = wg.Resolve()
        with concurrent.futures.ThreadPoolExecutor(8) as pool:
            replies = pool.map(lambda number: resolve.apply([push(wg.UnresolvedPackage(f"a:b{number}"))]), range(200))
        self.assertEqual(sorted(reply.id for (reply,) in replies), list(range(200)))
        self.assertEqual(len(resolve.graph.packages), 200)

    def test_200_packages_one_by_one_as_in_one_document(self):
        linking = example("two_hundred")

        def at_once():
            return wg.run([linking.push(number) for number in range(linking.PACKAGES)]).graph

        def one_by_one():
            return linking.linked().graph

        def looked_at():
            """The same, where each graph on the way is looked at."""
            resolve = wg.Resolve()
            for number in range(linking.PACKAGES):
                resolve.apply([linking.push(number)])
                self.assertEqual(len(resolve.graph.packages), number + 1)
            return resolve.graph

        self.assertEqual(one_by_one(), at_once())
        self.assertEqual(looked_at(), at_once())
        last = list(linking.lines(one_by_one()))[-1]
        self.assertEqual(last, "chain:p199/types turn: func(it: t) -> t; w imports 200")
        one, looked, other = least_times(one_by_one, looked_at, at_once)
        self.assertLessEqual(one, 1.5 * other)
        self.assertLessEqual(looked, 2 * other)

    def test_what_is_new_makes_the_whole(self):
        for seed in range(60):
            chosen = random.Random(seed)
            commands, resolve = Commands(chosen), wg.Resolve()
            for _ in range(12):
                before = resolve.graph if chosen.random() < 0.3 else None
                for _ in range(chosen.randint(1, 3)):
                    resolve.apply(commands.some())
                whole = wg.graph_of(json.loads(resolve.text))
                self.assertEqual(resolve.graph, whole, seed)
                if before is not None and before == whole:
                    self.assertIs(resolve.graph, before)

    def test_what_was_not_read_is_read_again(self):
        resolve = wg.Resolve()
        resolve.apply([push(wg.UnresolvedPackage("a:b"))])
        written = resolve._open.write_new
        for stop in range(2):
            resolve.apply([push(wg.UnresolvedPackage(f"c:d{stop}"))])
            resolve._open.write_new = lambda: written() and None
            with self.assertRaises(TypeError):
                resolve.graph
            resolve._open.write_new = written
            resolve.apply([push(wg.UnresolvedPackage(f"e:f{stop}"))])
            self.assertEqual(len(resolve.graph.packages), 2 * stop + 3)
            self.assertEqual(resolve.graph, wg.graph_of(json.loads(resolve.text)))


class Commands:
    """Commands at random, of which many change what is there."""

    def __init__(self, chosen):
        self.chosen, self.names = chosen, []

    def package(self):
        """A package of interfaces, and of worlds that import and export them, with a file."""
        chosen = self.chosen
        name = f"a:p{chosen.randrange(4)}@1.{chosen.randrange(3)}.0"
        self.names.append(name)
        interfaces, types, worlds = [], [], []
        for number in range(chosen.randint(1, 3)):
            it = wg.TypeId(len(types))
            fields = [wg.Field("a", "u8", None, (2, 3))] if chosen.random() < 0.7 else [wg.Field("b", "u16")]
            types.append(wg.TypeDef("t", wg.Record(fields), wg.InterfaceOwner(wg.InterfaceId(number)), span=(0, 1)))
            call = wg.Function("f", "freestanding", [wg.Param("x", it)], it)
            interfaces.append(wg.Interface(f"i{number}", {"t": it}, {"f": call} if chosen.random() < 0.8 else {}))
        for number in range(chosen.randint(0, 2)):
            keys = [f"interface-{it}" for it in range(len(interfaces))]
            sides = [{it: wg.InterfaceItem(wg.InterfaceId(n)) for n, it in enumerate(keys) if chosen.random() < 0.5} for _ in range(2)]
            worlds.append(wg.World(f"w{number}", *sides))
        made = wg.UnresolvedPackage(name, worlds=worlds, interfaces=interfaces, types=types)
        return wg.UnresolvedPackageGroup(made, [], [wg.Source(f"{name}.wit", "a file\n")])

    def change(self):
        chosen = self.chosen
        name = chosen.choice([*self.names, "no:package"])
        world = f"w{chosen.randrange(2)}"
        pushed = wg.PushGroups(self.package())
        return chosen.choice([
            pushed, pushed, pushed, pushed,
            wg.Importize(name, world, chosen.choice([None, "v", "w1"])),
            wg.Exportize(name, world, chosen.choice([None, "v"]), chosen.choice([None, [], [f"{name.split('@')[0]}/i0@1.0.0"]])),
            wg.Semver(name, world), wg.PackageOrder(), wg.Select([name]),
            wg.AddFeature(f"f{chosen.randrange(3)}"), wg.SetAllFeatures(chosen.random() < 0.5), wg.SetTrackRule("with-prereleases"),
        ])  # fmt: skip

    def some(self):
        chosen = self.chosen
        made = [self.change() for _ in range(chosen.randint(1, 4))]
        if chosen.random() < 0.3:
            made.insert(chosen.randint(0, len(made)), wg.MergeGraph([self.change() for _ in range(chosen.randint(0, 3))]))
        return made


def least_times(*runs):
    """How long each run takes of the processor, in seconds: the least of nine. They take turns, so that what slows the
    machine for a while slows each of them."""
    times = [[] for _ in runs]
    for _ in range(9):
        for run, taken in zip(runs, times):
            begun = time.process_time()
            run()
            taken.append(time.process_time() - begun)
    return [min(taken) for taken in times]


EMPTY = (
    b'{"graph":{"worlds":[],"interfaces":[],"types":[],"packages":[]},"details":{"worlds":[],"interfaces":[],"types":[]},'
    b'"features":{"all":false,"names":[]},"track-rule":"published","sources":[]}'
)


LISTS = "worlds", "interfaces", "types", "packages", "sources"


@unittest.skipUnless(SHARED, "no libwitgraph.so")
class Statuses(unittest.TestCase):
    """What each call with a graph that stays tells: its status, and what it needs."""

    def setUp(self):
        self.library, self.graph = wg.Library()._library, wg.calls.GraphHandle()

    def told(self, name, *between):
        needed = ctypes.c_size_t(77)
        return getattr(self.library, f"witgraph_{name}")(self.graph, *between, needed), needed.value

    def apply(self, document):
        return self.told("apply", document, len(document))

    def reply(self, room):
        """Also the output, which was dots."""
        output = ctypes.create_string_buffer(b"." * room, room + 1)
        return *self.told("reply", output, room), output.value

    def is_closed(self):
        closed = self.apply(b'{"commands":[]}'), self.told("write"), self.told("write_new"), self.reply(3)
        self.assertEqual(closed, ((5, 0), (5, 0), (5, 0), (5, 0, b"...")))
        self.assertEqual(self.library.witgraph_close(self.graph), 5)

    def has(self, text):
        self.assertEqual((self.told("write"), self.reply(len(text))), ((0, len(text)), (0, len(text), text)))

    def has_new(self, begin, text):
        """What is new, which the next call doesn't tell again."""
        numbers = ",".join(f'"{name}":{it}' for name, it in zip(LISTS, begin))
        new = b'{"from":{' + numbers.encode() + b"}," + text[1:]
        self.assertEqual((self.told("write_new"), self.reply(len(new))), ((0, len(new)), (0, len(new), new)))

    def test_what_is_new(self):
        a = push(wg.UnresolvedPackage("a:b", worlds=[wg.World("w")]))
        a.main.sources = [wg.Source("a.wit", "")]
        world, detail = b'{"name":"w","imports":{},"exports":{},"package":0}', b'{"imports":{},"exports":{}}'
        package, file = b'{"name":"a:b","interfaces":{},"worlds":{"w":0}}', b'{"path":"a.wit","text":""}'
        alone = EMPTY.replace(b'"worlds":[]', b'"worlds":[%s]' % world, 1).replace(b'"packages":[]', b'"packages":[%s]' % package)
        alone = alone.replace(b'"details":{"worlds":[]', b'"details":{"worlds":[%s]' % detail)
        whole = alone.replace(b'"sources":[]', b'"sources":[%s]' % file)
        self.library.witgraph_open(self.graph)
        self.apply(wg.document_of([a]))
        self.has_new((0, 0, 0, 0, 0), whole)
        self.has(whole)
        self.has_new((1, 0, 0, 1, 1), EMPTY)
        self.apply(b'{"commands":1}')
        self.apply(wg.document_of([wg.AddFeature("f"), wg.PackageOrder(), wg.Select(["a:b"])]))
        named = EMPTY.replace(b'"names":[]', b'"names":["f"]')
        self.has_new((1, 0, 0, 1, 1), named)
        # a world that is turned is told again, with its list and that of packages; after a merge all but the files
        self.apply(wg.document_of([wg.Importize("a:b", "w", "w")]))
        self.has_new((0, 0, 0, 0, 1), alone.replace(b'"names":[]', b'"names":["f"]'))
        self.apply(wg.document_of([wg.Semver("a:b", "w"), wg.MergeGraph([])]))
        self.has_new((0, 0, 0, 0, 1), alone.replace(b'"names":[]', b'"names":["f"]'))
        self.apply(b'{"commands":[],"resolve":' + EMPTY + b"}")
        self.has_new((0, 0, 0, 0, 0), EMPTY)
        self.library.witgraph_close(self.graph)

    def test_opened_and_closed(self):
        self.is_closed()
        self.assertEqual((self.library.witgraph_open(self.graph), self.reply(3)), (0, (0, 0, b"...")))
        self.has(EMPTY)
        self.apply(b'{"commands":[{"add-feature":"f"}]}')
        self.assertEqual(self.library.witgraph_open(self.graph), 0)
        self.has(EMPTY)
        self.assertEqual(self.library.witgraph_close(self.graph), 0)
        self.is_closed()

    def test_commands(self):
        self.library.witgraph_open(self.graph)
        self.assertEqual(self.apply(b'{"commands":[{"add-feature":"f"}]}'), (0, 20))
        for room, told in ((19, (2, 20, 19 * b".")), (20, (0, 20, b'{"replies":["done"]}')), (21, (0, 20, b'{"replies":["done"]}.'))):
            self.assertEqual(self.reply(room), told)
        named = EMPTY.replace(b'"names":[]', b'"names":["f"]')
        fault = b'{"fault":{"path":["commands"],"offset":12,"line":1,"column":13,"expected":"a list"}}'
        self.assertEqual((self.apply(b'{"commands":1}'), self.reply(len(fault))), ((1, len(fault)), (0, len(fault), fault)))
        self.assertEqual((self.apply(b"push\xff"), self.reply(1)), ((3, 0), (0, 0, b".")))
        unnamed = EMPTY.replace(b'"packages":[]', b'"packages":[{"name":"a:b","interfaces":{"i":0},"worlds":{}}]')
        self.assertEqual(self.apply(b'{"commands":[],"resolve":' + unnamed + b"}")[0], 1)
        self.has(named)
        self.assertEqual(self.apply(b'{"commands":["package-order"]}'), (0, 29))
        self.assertEqual(self.reply(29), (0, 29, b'{"replies":[{"packages":[]}]}'))
        self.has(named)
        self.assertEqual(self.apply(b'{"commands":[],"resolve":' + EMPTY + b"}"), (0, 14))
        self.has(EMPTY)
        self.library.witgraph_close(self.graph)


class Programs(unittest.TestCase):
    """Programs in the place of `witgraph_json` that don't write a document."""

    def failed(self, ending):
        """What is told of a program that reads all and then does so."""
        with tempfile.TemporaryDirectory() as folder:
            program = os.path.join(folder, "program")
            with open(program, "w", encoding="utf-8") as file:
                file.write(f"#!/bin/sh\ncat > {folder}/document\n{ending}\n")
            os.chmod(program, 0o700)
            with self.assertRaises(wg.ProgramFailed) as raised:
                wg.run_by(program, [])
            with open(f"{folder}/document", encoding="utf-8") as file:
                self.assertEqual(json.load(file), {"commands": []})
            return raised.exception.status, raised.exception.stderr

    def test_status_and_standard_error_are_told(self):
        self.assertEqual(self.failed("echo no memory >&2; exit 1"), (1, "no memory\n"))
        self.assertEqual(self.failed("kill -9 $$"), (-9, ""))

    def test_a_part_of_a_document_is_none(self):
        self.assertEqual(self.failed("printf '{\"replies\":[],'; exit 1"), (1, ""))
        self.assertEqual(self.failed("printf '{\"replies\":[\"\\303'; exit 0"), (0, ""))


class Checked(unittest.TestCase):
    @unittest.skipUnless(importlib.util.find_spec("mypy"), "no mypy")
    def test_types(self):
        with tempfile.TemporaryDirectory() as cache:
            words = [sys.executable, "-m", "mypy", "--strict", "--cache-dir", cache, *([] if INSTALLED else ["witgraph"]), "graph.py", "two_hundred.py"]
            ran = subprocess.run(words, cwd=HERE, capture_output=True, text=True, check=False)
        self.assertEqual((ran.returncode, ran.stderr), (0, ""), ran.stdout)


class Walk(unittest.TestCase):
    @unittest.skipUnless(SHARED, "no libwitgraph.so")
    def test_readme(self):
        """The walk through in README.md prints what stands there."""
        at = os.getcwd()
        os.chdir(TOP)
        self.addCleanup(os.chdir, at)
        failed, count = doctest.testfile(os.path.join(HERE, "README.md"), module_relative=False)
        self.assertTrue(count > 5 and not failed)


if __name__ == "__main__":
    unittest.main()

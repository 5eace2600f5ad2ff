#!/usr/bin/env python3
"""Tests of tools/wit: `python3 tools/test_wit.py`. Words and places of faults are those of wit-parser."""
import os
import sys
import unittest

sys.path.insert(0, os.path.dirname(os.path.abspath(__file__)))

import wit  # noqa: E402
from wit import faults  # noqa: E402

# of each class of faults a text behind `package a:b;` and a new line, or a whole text, and where it is told
CASES = {
    "UnexpectedCharacter": [
        ("world w { $", "2:11", "unexpected character '$'"),
        ("\rworld w {}", "2:1", "unexpected character '\\r'"),
    ],
    "UnterminatedComment": [("world w {} /* /* */", "2:12", "unterminated block comment")],
    "ControlCode": [("// \x7f", "2:4", "Control code '\\u{7f}'"), ("/* é */ \0", "2:10", "Control code '\\u{0}'")],
    "BidirectionalOverride": [("// \u202a", "2:4", "Input contains bidirectional override codepoint '\\u{202a}'")],
    "DiscouragedCodepoint": [("// \u0149", "2:4", "Codepoint '\\u{149}' is discouraged by Unicode")],
    "CharacterInIdentifier": [
        ("world a_b {}", "2:7", "invalid character in identifier '_'"),
        ("world aB {}", "2:7", "invalid character in identifier 'B'"),
        ("world é {}", "2:7", "invalid character in identifier 'é'"),
    ],
    "EmptyPart": [
        ("world a--b {}", "2:7", "identifiers must have characters between '-'s"),
        ("world %1 {}", "2:7", "identifiers must have characters between '-'s"),
    ],
    "Expected": [
        ("interface interface {}", "2:11", "expected an identifier or string, found keyword `interface`"),
        ("world w { type t = u8 ->", "2:23", "expected ';', found `->`"),
        ("world w { type t = u8 %a", "2:23", "expected ';', found an '%' identifier"),
        ("world w {\n\n", "4:1", "expected `import`, `export`, `include`, `use`, or type definition, found eof"),
        ("world w { include v with { a as b }; }", "2:36",
         "expected `import`, `export`, `include`, `use`, or type definition, found ';'"),
        ("world w { type t = list<u8,>; }", "2:28", "expected fixed-length, found '>'"),
        ("@since(ver = 1.0.0) world w {}", "2:8", "expected `version`, found `ver`"),
        ("interface i { f: static func(); }", "2:18", "expected keyword `func`, found keyword `static`"),
        ("interface i { resource r { func: func(); } }",
         "2:28", "expected `constructor` or identifier, found keyword `func`"),
    ],
    "NoVersion": [
        ("world w { include c:d/e@1 .0.0; }", "2:25", "unexpected character ' ' after major version number"),
        ("world w { include c:d/e@01.0.0; }", "2:25", "invalid leading zero in major version number"),
        ("world w { include c:d/e@1.0.99999999999999999999; }",
         "2:25", "value of patch version number exceeds u64::MAX"),
    ],
    "ListSize": [
        ("world w { type t = list<u8, 5000000000>; }",
         "2:29", "invalid list size: number too large to fit in target type"),
    ],
    "EmptyList": [
        ("world w { type t = list<u8, 0>; }", "2:29", "a fixed-length list must have more than zero elements"),
    ],
    "UnknownAttribute": [("@foo world w {}", "2:2", "unknown attribute `foo`")],
    "AttributesOnPackage": [
        ("@since(version = 1.0.0) package x:y { }", "2:25", "cannot place attributes on nested packages"),
    ],
    "AttributesOnUse": [("@since(version = 1.0.0) use c:d/e;", "2:25", "attributes not allowed on top-level use")],
    "DeprecatedAlone": [
        ("@deprecated(version = 1.0.0) world w {}", "2:2", "must pair @deprecated with either @since or @unstable"),
    ],
    "UnsupportedAttributes": [
        ("@since(version = 1.0.0) @since(version=1.0.0) world w {}", "2:26", "unsupported combination of attributes"),
    ],
    "MisplacedExternalId": [('@external-id("x") world w {}', "2:2", "`@external-id` not allowed here")],
    "NestedTooDeep": [("package c:d { package e:f { } }", "2:23", "nested packages must be placed at the top-level")],
    "DuplicateItem": [("interface i {} world i {}", "2:22", "duplicate item named `i`")],
    "DuplicateInFile": [("use i; interface i {}", "2:18", "duplicate name `i` in this file")],
    "NotThere": [
        ("use i as j; use j as k; interface i {}", "2:17", "interface or world `j` does not exist"),
        ("world w { include v; }", "2:19", "interface or world `v` does not exist"),
        ("interface i { record r { a: x } }", "2:29", "type `x` does not exist"),
        ("interface i { g: func(x: f); f: func(); }", "2:26", "name `f` does not exist"),
        ("interface i { use j.{t}; } interface j { }", "2:22", "name `t` does not exist"),
        ("world w { import f: func(); import g: func(x: f); }", "2:47", "name `f` does not exist"),
    ],
    "FormerFloat": [
        ("interface i { type t = float32; }", "2:24",
         "type `float32` does not exist: the `float32` type has been renamed to `f32` and is no longer accepted"),
    ],
    "DependsOnItself": [
        ("interface i { type t = t; }", "2:24", "type `t` depends on itself"),
        ("interface i { use i.{t}; }", "2:11", "interface or world `i` depends on itself"),
        ("interface i { use x.{t}; } use i as x;", "2:32", "interface or world `i` depends on itself"),
    ],
    "NotAnInterface": [("world w { use w.{t}; }", "2:15", "name `w` is defined as a world, not an interface")],
    "NotAWorld": [
        ("interface i {} world w { include i; }", "2:34", "name `i` is defined as an interface, not a world"),
        ("use c:d/w as x; world v { include x; }", "2:35", "name `x` is defined as an interface, not a world"),
    ],
    "DefinedTwice": [
        ("interface i { type t = u8; type t = u8; }", "2:33", "name `t` is defined more than once"),
        ("interface i { t: func(); type t = u8; }", "2:15", "name `t` is defined more than once"),
    ],
    "DefinedAbove": [
        ("interface j { type t = u8; } interface i { type t = u16; use j.{t}; }",
         "2:65", "name `t` is defined more than once; a type above has it"),
    ],
    "ParameterTwice": [("interface i { f: func(a: u8, a: u8); }", "2:30", "param `a` is defined more than once")],
    "FunctionTwice": [
        ("interface i { resource r { m: func(); m: static func(); } }", "2:39", "duplicate function name `m`"),
    ],
    "SecondConstructor": [
        ("interface i { resource r { constructor(); constructor(); } }", "2:43", "duplicate constructors"),
    ],
    "EntryConflict": [
        ("world w { import l: interface {} import l: func(); }",
         "2:41", "import `l` conflicts with prior interface of same name"),
        ("world w { import l: func(); type l = u8; }", "2:18", "import `l` conflicts with prior type of same name"),
        ("world w { export l: func(); export l: interface {} }",
         "2:36", "export `l` conflicts with prior func of same name"),
    ],
    "EntryTwice": [
        ("interface i {} world w { export i; export i; }", "2:43", "interface cannot be exported more than once"),
    ],
    "UsedFunction": [("interface i { use j.{t}; } interface j { t: func(); }", "2:22", "cannot import function `t`")],
    "FunctionAsType": [("interface i { f: func(); g: func(x: f); }", "2:37", "cannot use function `f` as a type")],
    "NoCase": [
        ("interface i { enum e {} }", "2:20", "empty enum"),
        ("interface i { variant e {} }", "2:23", "empty variant"),
        ("interface i { flags e {} }", "2:21", "empty flags"),
    ],
    "MapKey": [
        ("world w { type t = map<list<u8>, u8>; }", "2:20",
         "invalid map key type: map keys must be bool, u8, u16, u32, u64, s8, s16, s32, s64, char, or string"),
    ],
    "NoResource": [
        ("interface i { type t = own<u>; type u = u8; }", "2:28", "type `u` used in a handle must be a resource"),
    ],
    "ConstructorResult": [
        ("interface i { resource r { constructor() -> t; } type t = u; type u = result<r>; }", "2:45",
         "if a constructor return type is declared it must be a `result`"),
    ],
    "ConstructorOk": [
        ("interface i { resource r { constructor() -> result<_, u8>; } }", "2:45",
         "the `ok` type must be the resource being constructed"),
    ],
}
# those that take several files, or none; they are met below and by the tests of wit2script.py
ELSEWHERE = {"NoPackage", "OtherPackage", "SecondDocs", "BinaryPackage"}


def read(*texts):
    """The group of these files, and the faults."""
    report = wit.Report()
    files = [wit.File(f"{n}.wit", text) for n, text in enumerate(texts)]
    return wit.group_in(files, "folder", report), report.problems


def data(body, package="a:b"):
    """What a package with this body is."""
    group, problems = read(f"package {package};\n{body}")
    if problems:
        raise problems[0]
    return group.main.data


class Faults(unittest.TestCase):
    def test_each(self):
        for name, cases in CASES.items():
            for text, place, words in cases:
                with self.subTest(text):
                    group, problems = read(f"package a:b;\n{text}")
                    self.assertIsNone(group)
                    told = [(type(it).__name__, it.place(), str(it)) for it in problems]
                    self.assertEqual(told[0], (name, f"0.wit:{place}", words))

    def test_each_class_has_a_case(self):
        classes = {name for name, it in vars(faults).items() if isinstance(it, type) and issubclass(it, wit.Fault)}
        self.assertEqual(classes - {"Fault"}, set(CASES) | ELSEWHERE)

    def test_shown(self):
        (fault,) = read("package a:b;\n\tinterface interface {}\r\n")[1]
        shown = [
            "expected an identifier or string, found keyword `interface`",
            "     --> 0.wit:2:12",
            "      |",
            "    2 | \tinterface interface {}",
            "      | \t          ^--------",
        ]
        self.assertEqual(fault.shown().split("\n"), shown)

    def test_of_several_files(self):
        other = "package identifier `a:c` does not match previous package name of `a:b`"
        docs = "found doc comments on multiple 'package' items"
        for texts, place, words in (
            (("package a:b;", "package a:c;"), "1.wit:1:9", other),
            (("///\npackage a:b;", "\n/// y\npackage a:b;"), "1.wit:2:1", docs),
            (("/** */ package a:b;", "/***/\npackage a:b;"), "1.wit:1:1", docs),
            (("// x\npackage a:b;", "package a:b;", "/* */ package a:b;"), "2.wit:1:1", docs),
            (("package a:b; use i as j;", "interface i {} interface k { use j.{t}; }"), "1.wit:1:34",
             "interface or world `j` does not exist"),
            (("interface i {}", "package a:b { }"), "0.wit",
             "no `package` header was found in any WIT file for this package"),
        ):
            self.assertEqual([(it.place(), str(it)) for it in read(*texts)[1]], [(place, words)])


class Read(unittest.TestCase):
    def test_what_is_read(self):
        """Texts at the edge of the grammar that wit-parser reads."""
        self.assertEqual(read("package a:b;", "/// y\npackage a:b;", "/// z\ninterface i {}")[1], [])
        for text in (
            "\ufeffpackage a:b;\r\nworld w {}\r\n",
            "package a:b@1.0.0-; package a:c@1.0.0-- { }",
            "package a:b@1.0.0-a.1-b+c-.0; world w { use c:d/e@1.2.3-rc.1.{t,}; include c:d/w@0.0.0; }",
            "package a:b; interface i { record r { } type t = tuple<>; type u = list<u8, 0004>; use c:d/e.{}; }",
            "package a:b; interface i { type since = u8; type float32 = u8; type self = u8; type %use = since; }",
            "package a:b; interface i { resource r { constructor() -> t; } type t = result<r>; }",
            "package a:b; world w { import a: func(); export a: func(); resource r { a: func(); } }",
            "package a:b; world w { import i; export i; } interface i {}",
            "package a:b; world v { include w with { a as b, } } world w { import a: func(); }",
            "package a:b; package a:b { } package c:d { use e:f/g as h; } use e:f/g as h;",
            "package a:b; /* /* */ // */ world w {} /**/ //",
            "package a:b; interface i { @deprecated(version = 1.0.0) @unstable(feature = x) type t = u8; }",
        ):
            with self.subTest(text):
                group, problems = read(text)
                self.assertEqual(problems, [])
                self.assertEqual(group.main.name.partition("@")[0], "a:b")

    def test_long(self):
        """Single tokens, and lists, of a hundred thousand characters or parts."""
        count = 100_000
        sized = data(f"interface i {{ type t = list<u8, {'0' * count}7>; }}")["types"][0]["kind"]
        self.assertEqual(sized, {"fixed-length-list": ["u8", 7]})
        self.assertEqual(data(f"interface {'a' * count} {{ }}")["interfaces"][0]["name"], "a" * count)
        cases = ",".join(f"c{n}" for n in range(count))
        enum = data(f"interface i {{ enum e {{ {cases} }} }}")["types"][0]["kind"]["enum"]
        self.assertEqual(len(enum["cases"]), count)
        for text in ("{" * count, "/" * 3 + "x" * count, "9" * count, "@" * count, "-" * count):
            self.assertEqual(len(read(f"package a:b {text}")[1]), 1)

    def test_deep(self):
        count = 20_000
        package = data(f"interface i {{ type t = {'option<' * count}u8{'>' * count}; }}")
        self.assertEqual(len(package["types"]), count)
        comment = "/*" * count + "*/" * count
        self.assertEqual(data(f"{comment} interface i {{}}")["interfaces"][0]["name"], "i")


class Numbers(unittest.TestCase):
    """In which order things come, and what types without a name have."""

    def test_worlds_wait_for_worlds_that_they_include(self):
        body = "world w1 { include w3; } world w2 { import i; } world w3 { use i.{t}; } interface i { type t = u8; }"
        self.assertEqual([it["name"] for it in data(body)["worlds"]], ["w2", "w3", "w1"])

    def test_a_use_has_its_place_among_the_types(self):
        types = data("interface j { type u = u8; } interface i { type a = u; type b = u8; use j.{u}; }")["types"]
        self.assertEqual([it["name"] for it in types], ["u", "u", "b", "a"])

    def test_types_without_a_name(self):
        text = "interface i { @unstable(feature = x) record r { a: list<u8> } f: func(x: list<u8>, y: option<u8>); }"
        package, gate = data(text), {"unstable": {"feature": "x"}}
        self.assertEqual([it.get("stability") for it in package["types"]], [gate, gate, None])
        # (the line before has 13 bytes; the span is that of the word alone)
        start = 13 + text.index("list")
        self.assertEqual(package["types"][0]["span"], [start, start + 4])

    def test_a_used_type_stands_where_its_first_name_does(self):
        text = "interface j { type t = u8; } interface i { use j.{t as u}; }"
        start = 13 + text.index("t as u")
        self.assertEqual([it["span"] for it in data(text)["types"]][1:], [[start, start + 1]])

    def test_self_comes_first(self):
        kinds = [it["kind"] for it in data("interface i { resource r { m: func(x: list<u8>); } }")["types"]]
        self.assertEqual(kinds, ["resource", {"handle": {"borrow": 0}}, {"list": "u8"}])


if __name__ == "__main__":
    unittest.main()

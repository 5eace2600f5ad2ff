//! What is told of texts of WIT that aren't read as packages: each thing that can be wrong, with its words and its place.
use wit_resolve_graph::*;

/// What is told of a text, less what is told of the line.
fn told(text: &str) -> String {
    let fault = UnresolvedPackageGroup::parse("a.wit", text).expect_err(text).to_string();
    let mut lines = fault.lines();
    let words = lines.next().unwrap_or("");
    let place = lines.next().and_then(|it| it.trim_start().strip_prefix("--> a.wit:")).unwrap_or("nowhere");
    format!("{place} {words}")
}

/// Asks what is told of each text behind the line of a package.
fn assert_told(cases: &[(&str, &str)]) {
    for (text, wanted) in cases {
        assert_eq!(told(&format!("package a:b;\n{text}")), *wanted, "{text}");
    }
}

#[test]
fn names_that_are_missing() {
    assert_told(&[
        ("use i as j; use j as k; interface i {}", "2:17 interface or world `j` does not exist"),
        ("world w { include v; }", "2:19 interface or world `v` does not exist"),
        ("interface i { use j.{t}; }", "2:19 interface or world `j` does not exist"),
        ("world w { import j; }", "2:18 interface or world `j` does not exist"),
        ("interface i { record r { a: x } }", "2:29 type `x` does not exist"),
        ("interface i { g: func(x: f); f: func(); }", "2:26 name `f` does not exist"),
        ("interface i { use j.{t}; } interface j { }", "2:22 name `t` does not exist"),
        (
            "interface i { type t = float32; }",
            "2:24 type `float32` does not exist: the `float32` type has been renamed to `f32` and is no longer accepted",
        ),
        (
            "interface i { type t = float64; }",
            "2:24 type `float64` does not exist: the `float64` type has been renamed to `f64` and is no longer accepted",
        ),
    ]);
}

#[test]
fn names_of_other_things() {
    assert_told(&[
        ("world w { use w.{t}; }", "2:15 name `w` is defined as a world, not an interface"),
        ("interface i {} world w { include i; }", "2:34 name `i` is defined as an interface, not a world"),
        ("interface i { use j.{t}; } interface j { t: func(); }", "2:22 cannot import function `t`"),
        ("interface i { f: func(); g: func(x: f); }", "2:37 cannot use function `f` as a type"),
        ("interface i { type t = own<u>; type u = u8; }", "2:28 type `u` used in a handle must be a resource"),
        ("interface i { type u = u8; type t = borrow<u>; }", "2:44 type `u` used in a handle must be a resource"),
    ]);
}

#[test]
fn names_that_are_taken() {
    assert_told(&[
        ("interface i {} world i {}", "2:22 duplicate item named `i`"),
        ("use i; interface i {}", "2:18 duplicate name `i` in this file"),
        ("interface i { type t = u8; type t = u8; }", "2:33 name `t` is defined more than once"),
        ("interface i { t: func(); type t = u8; }", "2:15 name `t` is defined more than once"),
        (
            "interface j { type t = u8; } interface i { type t = u16; use j.{t}; }",
            "2:65 name `t` is defined more than once; a type above has it",
        ),
        ("interface i { f: func(a: u8, a: u8); }", "2:30 param `a` is defined more than once"),
        ("interface i { resource r { m: func(); m: static func(); } }", "2:39 duplicate function name `m`"),
        ("interface i { resource r { constructor(); constructor(); } }", "2:43 duplicate constructors"),
    ]);
}

#[test]
fn entries_of_worlds_that_are_taken() {
    assert_told(&[
        (
            "world w { import l: interface {} import l: func(); }",
            "2:41 import `l` conflicts with prior interface of same name",
        ),
        ("world w { import l: func(); type l = u8; }", "2:18 import `l` conflicts with prior type of same name"),
        (
            "world w { export l: func(); export l: interface {} }",
            "2:36 export `l` conflicts with prior func of same name",
        ),
        ("interface i {} world w { import i; import i; }", "2:43 interface cannot be imported more than once"),
        ("interface i {} world w { export i; export i; }", "2:43 interface cannot be exported more than once"),
    ]);
}

#[test]
fn what_depends_on_itself() {
    assert_told(&[
        ("interface i { type t = t; }", "2:24 type `t` depends on itself"),
        ("interface i { record r { a: s } record s { a: list<r> } }", "2:29 type `s` depends on itself"),
        ("interface i { use i.{t}; }", "2:11 interface or world `i` depends on itself"),
        ("world v { include w; } world w { include v; }", "2:30 interface or world `w` depends on itself"),
    ]);
}

#[test]
fn attributes_that_have_no_place() {
    assert_told(&[
        ("@since(version = 1.0.0) use c:d/e;", "2:25 attributes not allowed on top-level use"),
        (
            "@deprecated(version = 1.0.0) world w {}",
            "2:2 must pair @deprecated with either @since or @unstable",
        ),
        (
            "@since(version = 1.0.0) @since(version = 1.0.0) world w {}",
            "2:26 unsupported combination of attributes",
        ),
        ("@external-id(\"x\") world w {}", "2:2 `@external-id` not allowed here"),
    ]);
}

#[test]
fn types_that_break_a_rule() {
    assert_told(&[
        ("interface i { enum e {} }", "2:20 empty enum"),
        ("interface i { variant v {} }", "2:23 empty variant"),
        ("interface i { flags f {} }", "2:21 empty flags"),
        (
            "world w { type t = map<list<u8>, u8>; }",
            "2:20 invalid map key type: map keys must be bool, u8, u16, u32, u64, s8, s16, s32, s64, char, or string",
        ),
        (
            "interface i { resource r { constructor() -> u8; } }",
            "2:45 if a constructor return type is declared it must be a `result`",
        ),
        (
            "interface i { resource r { constructor() -> result<u8>; } }",
            "2:52 the `ok` type must be the resource being constructed",
        ),
    ]);
}

#[test]
fn packages_that_are_missing_or_too_many() {
    let missing = "nowhere no `package` header was found in any WIT file for this package";
    assert_eq!(told("interface i {}"), missing);
    assert_eq!(told(""), missing);
    assert_told(&[("package c:d { package e:f { } }", "2:23 nested packages must be placed at the top-level")]);
}

/// What is told of files.
fn told_of_files(files: &[(&str, &str)]) -> String {
    let home = std::env::temp_dir().join(format!("wit-resolve-graph-{}-faults", std::process::id()));
    std::fs::create_dir_all(&home).expect("a folder");
    for (name, text) in files {
        std::fs::write(home.join(name), text).expect("a file");
    }
    let told = UnresolvedPackageGroup::parse_dir(&home).expect_err("a fault").to_string();
    std::fs::remove_dir_all(&home).expect("a folder");
    told.replace(home.to_str().expect("UTF-8"), "")
}

#[test]
fn files_of_one_package_that_differ() {
    let other = told_of_files(&[("a.wit", "package a:b@1.0.0;"), ("b.wit", "package a:b;")]);
    let words = "package identifier `a:b` does not match previous package name of `a:b@1.0.0`\n     --> /b.wit:1:9\n";
    assert!(other.starts_with(words), "{other}");
    let docs = told_of_files(&[("a.wit", "/// x\npackage a:b;"), ("b.wit", "\n/// y\npackage a:b;")]);
    let words = "found doc comments on multiple 'package' items\n     --> /b.wit:2:1\n";
    assert!(docs.starts_with(words), "{docs}");
}

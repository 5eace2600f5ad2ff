"""Where the files of the made crate go.

    OUT/Cargo.toml, README.md, LICENSE-*, src/lib.rs, src/shim, src/face, examples, tests, ..   copied from `plain`
    OUT/src/made/mod.rs                       the modules that are made, one for each crate
    OUT/src/made/CRATE/..                     a crate's files, its root as `mod.rs`
    OUT/src/made/stored_tests.rs              a test for each program of STORED
    OUT/src/bin/PROGRAM.rs                    each program, which calls the library
    OUT/stored/CRATE/stdin, stdout, status    what is stored beside crates, for tests
    OUT/stored/wasi/*.json                    the packages of WASI, as `tools/wit2json.py` writes them, for tests
"""
import shutil
import subprocess
import sys

from . import parser_names
from .conversion import rust_of
from .crates import LIBRARIES, PROGRAMS, STORED, TESTS, TOP, in_order, is_program, sources

MODULE = "crate::made"
BY_HAND = TOP / "plain"
WASI = {"0.2.0": "0.2.0/*.wit", "0.2.3": "0.2.3/*.wit", "both": "0.2.?/*.wit"}
LICENSES = ("LICENSE-APACHE", "LICENSE-Apache-2.0_WITH_LLVM-exception", "LICENSE-MIT", "NOTICE")
ROOT = """//! The modules that `tools/plain-rust` made, one for each crate of the Rattle source.
#![allow(
    dead_code,
    unused_imports,
    unused_labels,
    reason = "crates hand on more than this crate does, import what their contracts alone name, and name loops for proofs"
)]
#![allow(
    clippy::collapsible_match,
    clippy::len_zero,
    clippy::manual_contains,
    clippy::manual_filter,
    clippy::manual_find,
    clippy::manual_map,
    clippy::manual_ok_err,
    clippy::manual_range_contains,
    clippy::manual_unwrap_or_default,
    clippy::match_like_matches_macro,
    clippy::needless_range_loop,
    clippy::redundant_closure,
    clippy::redundant_pattern_matching,
    clippy::single_match,
    clippy::while_let_on_iterator,
    reason = "contracts are proved over a match or an index where Rust would take a closure, an iterator or a call"
)]
#![allow(
    clippy::explicit_auto_deref,
    clippy::needless_lifetimes,
    clippy::needless_question_mark,
    clippy::useless_conversion,
    reason = "Rattle infers less, and wraps errors that are one type here"
)]
#![allow(
    clippy::large_enum_variant,
    clippy::result_large_err,
    reason = "commands and what stops them are values: the source puts none into a box"
)]
#![cfg_attr(
    test,
    allow(
        clippy::bool_assert_comparison,
        clippy::get_first,
        clippy::manual_is_multiple_of,
        reason = "tests name the call that they are about, and the value that is wanted of it"
    )
)]
"""
PROGRAM = """//! {what}
use std::process::ExitCode;

fn main() -> ExitCode {{
    wit_resolve_graph::programs::{name}()
}}
"""
STORED_TESTS = """//! Programs of tests, each run on the input that is stored for it.
use crate::shim::streams::run_on;
use std::process::ExitCode;

/// Runs a program; it is to write a text and to end with a status.
fn check(program: fn() -> ExitCode, input: &str, wanted: &str, status: u8) {{
    let (answer, output) = run_on(input.as_bytes(), program);
    let written = String::from_utf8(output).expect("a text");
    for (number, (line, wanted)) in written.lines().zip(wanted.lines()).enumerate() {{
        assert_eq!(line, wanted, "line {{}}", number + 1);
    }}
    let (more, lacking) = (written.get(wanted.len()..), wanted.get(written.len()..));
    assert_eq!((more, lacking), (Some(""), Some("")));
    assert_eq!(format!("{{answer:?}}"), format!("{{:?}}", ExitCode::from(status)));
}}
"""
STORED_TEST = """
#[test]
fn {name}() {{
    let (input, wanted) = (include_str!("{folder}/stdin"), include_str!("{folder}/stdout"));
    check(super::{name}::main, input, wanted, {status});
}}
"""


def write(path, text):
    path.parent.mkdir(parents=True, exist_ok=True)
    path.write_bytes(text.encode())


def read(path):
    """The text of a file, with its carriage returns."""
    return path.read_bytes().decode()


def module_file(path):
    """Where a file of a crate goes: its root is the module's."""
    return path.with_name("mod.rs") if str(path) in ("lib.rt", "main.rt") else path.with_suffix(".rs")


def write_crate(out, crate, crates):
    """The module of a crate."""
    for file, path in sources(crate):
        text = rust_of(read(file), crate, crates, MODULE)
        if str(path) == "main.rt":
            text = text.replace("\nfn main()", "\npub fn main()")
        write(out / "src" / "made" / crate / module_file(path), text)


def write_root(out, crates, tested):
    """The module of all crates; of those that only tests need in tests alone."""
    crates = [it for it in crates if it != parser_names.VALUES]
    lines = [f"#[cfg(test)]\nmod {it};" if it in tested else f"pub mod {it};" for it in crates]
    lines.append("#[cfg(test)]\nmod stored_tests;")
    write(out / "src" / "made" / "mod.rs", ROOT + "\n" + "\n".join(lines) + "\n")


def first_line(crate):
    """The first document of a program."""
    return read(TOP / "crates" / crate / "src" / "main.rt").splitlines()[0].removeprefix("//! ")


def stored_of(crate, name):
    path = TOP / "crates" / crate / name
    return read(path) if path.exists() else ""


def write_stored(out):
    """What is stored for programs, and the tests that run those of STORED on it."""
    tests = STORED_TESTS.format()
    for crate in (*PROGRAMS, *STORED):
        for name in ("stdin", "stdout"):
            write(out / "stored" / crate / name, stored_of(crate, name))
    for crate in STORED:
        status = stored_of(crate, "status").strip() or "0"
        tests += STORED_TEST.format(name=crate, folder=f"../../stored/{crate}", status=status)
    write(out / "src" / "made" / "stored_tests.rs", tests)


def write_documents(out):
    """The packages of WASI at each version, and at both, as documents of JSON."""
    folder = out / "stored" / "wasi"
    folder.mkdir(parents=True, exist_ok=True)
    for name, pattern in WASI.items():
        texts = sorted((TOP / "examples" / "wasi" / "wit").glob(pattern))
        words = [sys.executable, TOP / "tools" / "wit2json.py", "-o", folder / f"{name}.json", *texts]
        subprocess.run(words, check=True)


def copy_by_hand(out):
    for path in BY_HAND.iterdir():
        if path.is_dir():
            shutil.copytree(path, out / path.name, dirs_exist_ok=True)
        else:
            shutil.copy(path, out / path.name)
    for name in LICENSES:
        shutil.copy(TOP / name, out / name)


def lay_out(files):
    """As rustfmt lays files out, where it is there."""
    if shutil.which("rustfmt"):
        words = ["rustfmt", "--edition", "2024", "--config", "max_width=120", *map(str, files)]
        subprocess.run(words, check=True)


def make(out):
    """Makes the crate in a folder; answers the crates that it is made from."""
    if (out / "src").exists():
        shutil.rmtree(out / "src")
    crates = in_order([*LIBRARIES, *PROGRAMS, *TESTS, *STORED])
    published = set(in_order([*LIBRARIES, *PROGRAMS]))
    copy_by_hand(out)
    for crate in crates:
        write_crate(out, crate, crates)
    parser_names.respell_folder(out / "src" / "made", MODULE)
    write_root(out, crates, [it for it in crates if it not in published])
    for program in PROGRAMS:
        write(out / "src" / "bin" / f"{program}.rs", PROGRAM.format(what=first_line(program), name=program))
    write_stored(out)
    write_documents(out)
    lay_out(sorted((out / "src").rglob("*.rs")))
    return crates

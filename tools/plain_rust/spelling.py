"""What is called otherwise in Rust: rules over the text of a file, few and fixed forms; then imports of the shim.

The shim (`plain/src/shim`) has what Rattle's standard library has and Rust's lacks: collections and texts whose growth
answers a `Result`, and the streams of a program. Everything else of `std` is Rust's own.
"""
import re

from .tokens import after, text_at

SHIM = "crate::shim"
# a method that takes an allocator in Rattle, and that Rust's own type has without one, which can't refuse
METHODS = {
    "to_string": "TryToString",
    "to_vec": "TryToVec",
    "to_ascii_lowercase": "TryToLowercase",
    "collect": "TryCollect",
}
# what a file of Rattle names without a `use`
NAMES = ("Vec", "String", "Box", "try_format", "try_vec", "try_print", "try_println", "try_eprintln", "AllocFailed")

RULES = [
    # the clauses of a `where` are gone
    (r"\bwhere\s*(?=\{|;)", ""),
    # what only contracts and the runtime name
    (r"use std::marker::Model;\n", ""),
    (r"use std::marker::\{Model, PhantomData\};", "use std::marker::PhantomData;"),
    (r"use std::(?:process::Abort|rt::HostRuntime);\n", ""),
    (r"use std::alloc::Global;\n", ""),
    (r"use std::alloc::\{AllocError, Global\};", "use std::alloc::AllocError;"),
    # where the shim is in the place of std or of a crate of the kit
    (r"use std::\{slice, vec\};", f"use {SHIM}::vec;\nuse std::slice;"),
    (r"use std::env::\{Env, FillError\};", f"use {SHIM}::env::FillError;"),
    (r"\bstd::(alloc|collections|vec|simd)\b", rf"{SHIM}::\1"),
    (r"(?<![:\w])(indexmap|semver|json|strsim)::", rf"{SHIM}::\1::"),
    # forms that Rust writes otherwise
    (r"<W: fmt::Write>\((&self, )?f: &mut fmt::Formatter<W>", r"(\1f: &mut fmt::Formatter<'_>"),
    (r"\bformat!\(in\s+[\w.()]+;\s*", "try_format!("),
    (r"\bvec!\[in\s+[\w.()]+;\s*", "try_vec!["),
    (r"#\[derive_where\(skip\)\]\s*", ""),
    (
        r"#\[derive_where\([^)]*\)\]\s*(pub struct (\w+)<S> \{[^}]*\})",
        rf"\1\n\n{SHIM}::derive_index!(\2);",
    ),
    (r"(\btrait \w+(?:<[^>{]*>)?) \{", r"\1: Sized {"),
    (r"\bprove!\(", "debug_assert!("),
    # the streams of a program
    (r"\bio::read_to_string\(rt\.reader\(\)\)", f"{SHIM}::streams::read_to_string()"),
    (r"\brt\.reader\(\)", f"{SHIM}::streams::reader()"),
    (r"\bio::writer\(\)", f"{SHIM}::streams::writer()"),
    (r"\brt\.arg\(", f"{SHIM}::env::arg("),
    (r"\b(print|println|eprintln)!\(", r"try_\1!("),
    # a pair of which the allocator is gone
    (r"\blet \((\w+)\) = \(([\w.]+(?:\(\w*\))?)\);", r"let \1 = \2;"),
    # modules of a crate, which what is written by hand names
    (r"(?m)^mod (\w+);", r"pub(crate) mod \1;"),
    # documents of calls that take an allocator
    (r"(?m)^(\s*//[/!] .*)\b(?:alloc: Global|Global|alloc), ", r"\1"),
    # lines that are left empty
    (r"[ \t]+\n", "\n"),
    (r"\n{3,}", "\n\n"),
]
NEWLINE = '\\n"'
COMPILED = [(re.compile(pattern), replacement) for pattern, replacement in RULES]
FIRST_USE = re.compile(r"^(pub(?:\(crate\))? )?(use|mod) ", re.M)
FIRST_ITEM = re.compile(r"^(?!//!|#!\[)\S", re.M)


def rename_methods(tokens):
    """`try_` before a method of METHODS that got an allocator, which is told by its argument."""
    for index, token in enumerate(tokens):
        is_call = tokens[index - 1].text == "." and tokens[index + 1 : index + 2] and tokens[index + 1].text == "("
        if token.text in METHODS and is_call and tokens[index + 2].text != ")":
            token.text = "try_" + token.text
    return tokens


def end_lines(tokens):
    """`writeln!` in the place of a `write!` whose text ends with a newline."""
    for index, token in enumerate(tokens):
        if token.text != "write" or text_at(tokens, index + 1) != "!":
            continue
        comma = after(tokens, after(tokens, index + 2))
        text = after(tokens, comma)
        if text_at(tokens, comma) == "," and text_at(tokens, text).endswith(NEWLINE):
            token.text = "writeln"
            tokens[text].text = tokens[text].text.removesuffix(NEWLINE) + '"'
    return tokens


def respell(text):
    for pattern, replacement in COMPILED:
        text = pattern.sub(replacement, text)
    return text


def lacking(text):
    """The names of the shim that a file says and doesn't import."""
    code = re.sub(r"//[^\n]*", "", text)
    imported = set(re.findall(r"\w+", " ".join(re.findall(rf"^use {SHIM}::[^;]*;", code, re.M))))
    body = re.sub(r"^(pub )?use [^;]*;", "", code, flags=re.M)
    names = [it for it in NAMES if re.search(rf"(?<!::)\b{it}\b", body) and it not in imported]
    return names + [trait for method, trait in METHODS.items() if f".try_{method}(" in body]


def with_imports(text):
    """A file with a `use` of what it says without one."""
    names = lacking(text)
    if not names:
        return text
    line = f"use {SHIM}::{{{', '.join(names)}}};\n"
    found = FIRST_USE.search(text)
    if found is None:
        found = FIRST_ITEM.search(text)
        line += "\n"
    return text[: found.start()] + line + text[found.start() :]

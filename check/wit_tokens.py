#!/usr/bin/env python3
"""Compares the tokens of `wit_text` with those of tools/wit, the strict model, on texts made at random.

    check/wit_tokens.py [--many N] [--first N] [--out FOLDER] [FILE..]

`tools/plain_rust` makes Rust of `wit_text`, and cargo a program of it in FOLDER, which prints the tokens of texts. The texts
are FILEs or those of examples/, texts of WIT by check/wit_writer.py, the same and those of examples/ changed in a few places,
and strings of pieces that tokens are made of. Of each text all tokens are compared, white space and comments among them, with
their bytes, and the fault with its words, its line and its column. A difference is printed, and the status is 1 then.
"""
import argparse
import collections
import glob
import itertools
import os
import pathlib
import random
import shutil
import subprocess
import sys
import tempfile

TOP = pathlib.Path(__file__).resolve().parent.parent
sys.path[:0] = [str(TOP / "tools"), str(TOP / "check")]

import wit  # noqa: E402
import wit_writer  # noqa: E402
from plain_rust import layout, packages  # noqa: E402
from wit import tokens as model  # noqa: E402

CARGO = """[package]
name = "wit-tokens"
version = "0.1.0"
edition = "2024"

[dependencies]
indexmap = ">=1.9, <3"
semver = "1"
unicode-ident = "1"
"""
MAIN = r"""//! Prints the tokens of texts, each of which stands behind the number of its bytes and a newline.
#![allow(dead_code, unused_imports, unused_macros)]
mod made;
mod shim;

use made::wit_text::{TokenKind, Tokenizer, TokensFault, tokens};
use std::io::{Read, Write};

fn called(kind: TokenKind) -> String {
    match kind {
        TokenKind::Keyword(keyword) => format!("keyword {}", keyword.text()),
        TokenKind::Sign(sign) => format!("{sign:?}"),
        other => format!("{other:?}"),
    }
}

fn show(text: &str, out: &mut String) {
    let mut read = match Tokenizer::new(text) {
        Ok(read) => read,
        Err(fault) => {
            out.push_str(&format!("fault {} {fault}\n", fault.at));
            return;
        }
    };
    loop {
        match read.next_token() {
            Ok(None) => return,
            Ok(Some(it)) => out.push_str(&format!("{} {} {}\n", called(it.kind), it.start, it.end)),
            Err(fault) => {
                out.push_str(&format!("fault {} {fault}\n", fault.at));
                return;
            }
        }
    }
}

/// Whether `tokens` answers what the tokenizer does.
fn same_in_one(text: &str) -> bool {
    let (mut all, mut fault) = (std::vec::Vec::new(), None);
    match Tokenizer::new(text) {
        Err(it) => fault = Some(it),
        Ok(mut read) => loop {
            match read.next_token() {
                Ok(None) => break,
                Ok(Some(it)) => all.push(it),
                Err(it) => {
                    fault = Some(it);
                    break;
                }
            }
        },
    }
    match tokens(text) {
        Ok(read) => fault.is_none() && read.iter().eq(all.iter()),
        Err(TokensFault::Fault(it)) => fault == Some(it),
        Err(TokensFault::OutOfMemory) => false,
    }
}

fn main() {
    let mut input = std::vec::Vec::new();
    std::io::stdin().read_to_end(&mut input).unwrap();
    let (mut rest, mut out) = (&input[..], String::new());
    while let Some(at) = rest.iter().position(|it| *it == b'\n') {
        let len: usize = std::str::from_utf8(&rest[..at]).unwrap().parse().unwrap();
        let text = std::str::from_utf8(&rest[at + 1..at + 1 + len]).unwrap();
        show(text, &mut out);
        assert!(same_in_one(text));
        out.push_str(".\n");
        rest = &rest[at + 1 + len..];
    }
    std::io::stdout().write_all(out.as_bytes()).unwrap();
}
"""
SIGNS = {
    "=": "Equals", ",": "Comma", ":": "Colon", ";": "Semicolon", ".": "Period", "(": "LeftParen", ")": "RightParen",
    "{": "LeftBrace", "}": "RightBrace", "<": "LessThan", ">": "GreaterThan", "*": "Star", "@": "At", "/": "Slash",
    "+": "Plus", "-": "Minus", "->": "Arrow",
}  # fmt: skip
KINDS = {"blank": "Whitespace", "line": "LineComment", "comment": "BlockComment", "integer": "Integer", "text": "Text"}
# what tokens begin with, end with and are made of, and what comes near
PIECES = [
    *"-->/*%\"\\\r\n\t @.:;,+=<>(){}_0123456789azAZé·ͺ٠ªℓⅧ〱️‍￾\u0300\u0149\u0673\u202a\u2066\u2069\x00\x07\x0b\x7f\x80\x9f\xa0",
    "//", "/*", "*/", "/**/", "/*/", "->", "-->", "\r\n", "\r\r\n", "\ufeff", "%use", "%-a", "%", "use", "used", "us", "_", "__", "a-b",
    "a--b", "error-context", "error", "-context", "constructor", "1.2.3", "01", "\"a\"", "\"\"", "\"a\n\"", "\"a\\\"", "///", "/** */",
    "🦀", "中", "ﬁ", "\u17a3", "\u17a4", "\u17b4", "\u17b5", "\u0f77", "\u0f79", "\u202f", "\u2028", "\u200e",
]  # fmt: skip


def program(out):
    """The program in a folder."""
    src = out / "src"
    shutil.rmtree(src, ignore_errors=True)
    shutil.copytree(layout.BY_HAND / "src" / "shim", src / "shim")
    layout.write_crate(out, "wit_text", ["wit_text"])
    layout.write(src / "made" / "mod.rs", "pub mod wit_text;\n")
    layout.write(src / "main.rs", MAIN)
    layout.write(out / "Cargo.toml", CARGO)
    packages.take(out)
    subprocess.run(["cargo", "build", "--quiet", "--release"], cwd=out, check=True)
    return out / "target" / "release" / "wit-tokens"


def called(kind, text):
    """What the program calls a piece of the model's kind."""
    if kind == "sign":
        return SIGNS[text]
    if kind == "word":
        return f"keyword {text}" if text in model.KEYWORDS else "ExplicitId" if text[0] == "%" else "Id"
    return KINDS[kind]


def wanted(text):
    """What the model says of a text, as the program prints it."""
    file = wit.File("p.wit", text)
    sums = [0, *itertools.accumulate(len(it.encode()) for it in text)]
    lines = []
    try:
        refused = model.REFUSED.search(text)
        if refused:
            list(model.tokens_of(file))
        at = int(text.startswith("\ufeff"))
        while at < len(text):
            kind, end = model.token_at(file, at)
            lines.append(f"{called(kind, text[at:end])} {sums[at]} {sums[end]}")
            at = end
    except wit.Fault as fault:
        start = fault.span[0]
        column = start - text.rfind("\n", 0, start)
        lines.append(f"fault {sums[start]} {fault.line}:{column}: {fault}")
    return lines


def texts(asked):
    known = [wit.opened(it).text for it in sorted(glob.glob(f"{TOP}/examples/**/*.wit", recursive=True))]
    yield from ((path, wit.opened(path).text) for path in asked.files)
    if asked.files:
        return
    yield from ((f"example {n}", text) for n, text in enumerate(known))
    for n in range(asked.first, asked.first + asked.many):
        yield f"written {n}", wit_writer.written(n)
        yield f"changed {n}", wit_writer.changed(n, known)
        dice = random.Random(n)
        yield f"pieces {n}", "".join(dice.choice(PIECES) for _ in range(dice.randrange(1, 12)))


def main():
    usage = argparse.ArgumentParser(description=__doc__, formatter_class=argparse.RawDescriptionHelpFormatter)
    usage.add_argument("files", metavar="FILE", nargs="*")
    usage.add_argument("--many", type=int, default=5000)
    usage.add_argument("--first", type=int, default=0)
    usage.add_argument("--out", type=pathlib.Path)
    asked = usage.parse_args()
    with tempfile.TemporaryDirectory(prefix="wit-tokens-") as folder:
        read = program((asked.out or pathlib.Path(folder)).resolve())
        named = list(texts(asked))
        given = b"".join(b"%d\n%s" % (len(text.encode()), text.encode()) for _, text in named)
        told = subprocess.run([read], input=given, stdout=subprocess.PIPE, check=True).stdout.decode().split("\n")
    found, counts, differences = iter(told), collections.Counter(), 0
    for name, text in named:
        here = list(itertools.takewhile(lambda it: it != ".", found))
        there = wanted(text)
        counts["tokens"] += len(here)
        counts[" ".join(here[-1].split(": ")[1].split()[:2]) if here and here[-1].startswith("fault") else "read"] += 1
        if here != there:
            differences += 1
            at = next((n for n, pair in enumerate(itertools.zip_longest(here, there)) if pair[0] != pair[1]))
            print(f"{name}\n  program: {here[at:at + 2]}\n  model: {there[at:at + 2]}\n{text!r}\n"[:2000])
    for what, count in counts.most_common():
        print(f"{count:9} {what}")
    return 1 if differences else 0


if __name__ == "__main__":
    sys.exit(main())

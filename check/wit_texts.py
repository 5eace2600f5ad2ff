#!/usr/bin/env python3
"""Compares tools/wit with wit-parser on texts made at random: what is read, and what is refused by which words where.

    nice check/wit_texts.py ORIGINAL [--many N] [--first N] [--changed | --folders | --functions | --pushed WITGRAPH_JSON]
    check/wit_texts.py ORIGINAL FILE..

ORIGINAL is `wasm-component-ld`, which each Rust toolchain has beside its linkers (`rustlib/*/bin`): it reads WIT by the
wit-parser that it is built with, and `strings` tells its version. A text is read as a file whose package is pushed to an
empty graph. Texts are written by check/wit_writer.py; with `--changed` they are those of examples/ and of that writer,
changed in a few places; with `--folders` the files of a folder.

Of a text that wit-parser refuses the first fault here has its words, its line and its column. With `--functions` the
texts have none: a world imports interfaces, a core module asks for each of their functions by the type that
check/wit_shapes.py takes from what tools/wit reads, and the component that comes out has the same functions, in all names
and types. With `--pushed` `witgraph_json` pushes what tools/wit read: it refuses what wit-parser then refuses, at the
same place where both name one reason, and has the same worlds in the same order.

A difference that is known has a row in DIFFERENCES, by which it is counted; any other one is printed with its text, and
the status is 1 then.
"""
import argparse
import collections
import functools
import glob
import json
import os
import re
import shutil
import subprocess
import sys
import tempfile

TOP = os.path.dirname(os.path.dirname(os.path.abspath(__file__)))
sys.path[:0] = [os.path.join(TOP, "tools"), os.path.join(TOP, "check")]

import wit  # noqa: E402
import wit2json  # noqa: E402
import wit_shapes  # noqa: E402
import wit_writer  # noqa: E402

NAME, FOLDER = "p.wit", "p"
# stands for the linker: what it links is there
LINKER = """#!/bin/sh
while [ $# -gt 1 ]; do
  if [ "$1" = -o ]; then cp module "$2"; exit; fi
  shift
done
"""
EMPTY = b"\0asm\1\0\0\0"
# what wit-parser tells once it has read a text
AFTER_READING = re.compile(
    "|".join(
        (
            "package ('.*' )?not found",
            "(interface|world) '.*' not found in package",
            "type `.*` not defined in interface",
            "package depends on itself",
            "package .* is defined in two different locations",
            "found a reference to a",
            "this type is not gated by a feature",
            "failed to update (function|field|variant|type|case)",
            "failed to process (feature gate|world item)",
            "type used in a handle must be a resource",
            "function returns a type which contains",
            "no import or export kebab-name",
            "mismatch in stability",
            "(import|export) of .* shadows",
            "(import|export) `.*` in world",
            "failed to validate (imports|exports) in world",
            "interface `.*` transitively depends",
        )
    )
)

# Differences that are meant, as rows of docs/DIFFERENCES.md, and what 0.246 lacks: by the words of both sides, where `read`
# stands for no words and `*` for any.
LACKS = "what wit-parser 0.246 lacks"
DIFFERENCES = [
    ("flags without a name", "*", "empty flags"),
    ("a list of length 0", "*", "a fixed-length list must have more than zero elements"),
    ("a type before a `use` of its name", "*", "name `.*` is defined more than once; a type above has it"),
    ("a comment `/**/` of a thing", ".*on a `None` value.*", "*"),
    ("attributes at a foreign path", ".*ParseError.*", "must pair .*|unsupported .*"),
    (LACKS, "unknown attribute `external-id`", "*"),
    (LACKS, "*", "`@external-id` not allowed here"),
    (LACKS, "unexpected character '\"'", "*"),
    (LACKS, "expected `/`, found .*", "*"),
]


# where something is told, and how long the mark beneath its line is
PLACE = re.compile(r"--> (\S+:\d+:\d+)\n[^\n]*\n[^\n]*\n *\| [ \t]*(\^-*)")


def place_in(told):
    """The first place of what is told, as FILE:LINE:COLUMN+LENGTH."""
    found = PLACE.search(told)
    return f"{found[1]}+{len(found[2])}" if found else None


class Told(collections.namedtuple("Told", "what words place")):
    """What a side tells of a text: `read`, or `refused` or `panic` with its words and its place."""

    def __str__(self):
        return self.what if self.what == "read" else f"{self.what} at {self.place}: {self.words}"

    def fits(self, words):
        """Whether these are its words; `*` fits all."""
        return words in ("*", self.what) or (self.what != "read" and bool(re.fullmatch(f"(?s){words}", self.words)))


READ = Told("read", None, None)


class Original:
    """wit-parser, in the program that has it."""

    def __init__(self, program, folder):
        self.program, self.folder = os.path.abspath(program), folder
        with open(self.path("linker"), "w", encoding="utf-8") as file:
            file.write(LINKER)
        os.chmod(self.path("linker"), 0o755)

    def path(self, name):
        return os.path.join(self.folder, name)

    def write(self, name, data):
        with open(self.path(name), "wb") as file:
            file.write(data)

    def read(self, files, module=EMPTY):
        """What it tells of files, and what it tells behind the reading, linked with a module."""
        shutil.rmtree(self.path(FOLDER), ignore_errors=True)
        os.mkdir(self.path(FOLDER))
        for path, text in files.items():
            self.write(path, text.encode())
        self.write("module", module)
        read = FOLDER if len(files) > 1 else next(iter(files))
        words = [self.program, "--wasm-ld-path", self.path("linker"), "--component-type", read, "-o", self.path("out")]
        ran = subprocess.run(words, cwd=self.folder, stdout=subprocess.DEVNULL, stderr=subprocess.PIPE, check=False)
        told = ran.stderr.decode(errors="replace")
        if ran.returncode not in (0, 1):
            return Told("panic", told[-300:], None), None
        if not told.startswith("error: unable to add component type"):
            return READ, told
        return self.told(told)

    def component(self):
        """What it made of the text that it read last."""
        with open(self.path("out"), "rb") as file:
            return file.read()

    def told(self, told):
        message = re.search(r"(?s) 0: (.*?)(?:\n +--> |\Z)", told)[1].strip()
        message = re.sub(r"\A(failed to (resolve directory|parse package)[^\n]*\n +\d: )*", "", message)
        message = re.sub(r"EscapeUnicode\(EscapeIterInner\(('.*')\)\)", r"\1", message)
        refused = Told("refused", message, place_in(told))
        return (READ, told) if AFTER_READING.match(message) else (refused, None)


def ours(files):
    """What tools/wit tells of files, and the group where they are read."""
    report = wit.Report()
    group = wit.group_in([wit.File(path, text) for path, text in sorted(files.items())], FOLDER, report)
    if group:
        return READ, group
    first = report.problems[0]
    return Told("refused", str(first), place_in(first.shown())), None


def same_place(theirs, here):
    """Whether two places are the same. Of a token wit-parser may mark the beginning alone."""
    return theirs == here or bool(theirs and here and theirs.endswith("+1") and here.startswith(theirs[:-1]))


def same(theirs, here):
    """Whether both tell the same. The words on former names go on in another way."""
    if theirs.what != here.what or not same_place(theirs.place, here.place):
        return False
    return theirs.words == here.words or (here.words.startswith("type `float") and "does not exist" in theirs.words)


def row_of(theirs, here, files):
    """The row of a difference, None where it has none."""
    for row, their_words, our_words in DIFFERENCES:
        if theirs.fits(their_words) and here.fits(our_words):
            if "/**/" not in row or any("/**/" in text for text in files.values()):
                return row
    return None


def functions_differ(original, files):
    """How wit-parser's functions differ from those that tools/wit reads, None where they don't."""
    here, group = ours(files)
    if not group:
        return f"here: {here}"
    wanted = wit_shapes.interfaces_of(group)
    theirs, told = original.read(files, wit_shapes.module_of(wanted))
    if theirs != READ or told:
        return f"wit-parser: {theirs}\n{told}"
    found = wit_shapes.imports_of(original.component())
    for name, functions in wanted.items():
        if functions and found.get(name) != functions:
            return f"{name}\n  wit-parser: {found.get(name)}\n  here: {functions}"
    return None


def pushed_differ(original, program, files):
    """How the push of a group differs, None where it doesn't or isn't read by both."""
    (theirs, told), (here, group) = original.read(files), ours(files)
    if theirs != READ or here != READ:
        return None
    document = wit2json.group_of(group)
    commands = [{"push-groups": {"main": document, "deps": []}}, {"select": {"packages": [document["main"]["name"]]}}]
    given = json.dumps({"commands": commands}).encode()
    replies = json.loads(subprocess.run([program], input=given, stdout=subprocess.PIPE, check=True).stdout)["replies"]
    refused = next((it["refused"] for it in replies if "refused" in it), None)
    ours_told = (refused["error"]["text"], place_in(refused["rendered"])) if refused else ("", None)
    theirs_told = told_behind(told)
    if "failed to update field" in theirs_told[0] and refused:
        return None  # (of a field this version tells the record, this project the field)
    if same_place(theirs_told[1], ours_told[1]) and (ours_told[1] or ours_told[0] == theirs_told[0]):
        return None
    if ours_told[0] and theirs_told[0] and ours_told[0] not in theirs_told[0]:
        return None  # (another of several reasons, or the same in other words: rows of docs/DIFFERENCES.md)
    return f"wit-parser: {theirs_told}\n  here: {ours_told}"


def told_behind(told):
    """What wit-parser tells behind the reading: its words, where they have no place, and its place."""
    if told.startswith("error: unable to add component type"):
        return told, place_in(told)
    chosen = told.startswith(("error: There are multiple worlds", "error: The main package"))
    return told.removeprefix("error: ").strip() if chosen else "", None


def texts(asked):
    """The files to compare, each list with its name."""
    if asked.files:
        for path in asked.files:
            yield path, {NAME: wit.opened(path).text}
        return
    known = [wit.opened(it).text for it in sorted(glob.glob(f"{TOP}/examples/*/wit/**/*.wit", recursive=True))]
    for n in range(asked.first, asked.first + asked.many):
        if asked.folders:
            yield f"folder {n}", {f"{FOLDER}/{name}": text for name, text in wit_writer.folder(n).items()}
        elif asked.changed:
            yield f"text {n}", {NAME: wit_writer.changed(n, known)}
        else:
            write = wit_writer.plain if asked.functions else wit_writer.gentle if asked.pushed else wit_writer.written
            yield f"text {n}", {NAME: write(n)}


def shown(files):
    return "\n".join(text if path == NAME else f"// {path}\n{text}" for path, text in files.items())


def compare(original, name, files):
    """What is counted of files, and whether it is a difference, which is then printed."""
    theirs, _ = original.read(files)
    here, _ = ours(files)
    if same(theirs, here):
        return f"both: {theirs.what}", False
    row = row_of(theirs, here, files)
    if row is None:
        print(f"{name}\n  wit-parser: {theirs}\n  here: {here}\n{shown(files)}\n", flush=True)
    return row or "a difference", row is None


def compare_functions(original, name, files):
    """The same of files whose functions are compared."""
    differ = functions_differ(original, files)
    if differ:
        print(f"{name}\n  {differ}\n{shown(files)}\n", flush=True)
    return "functions differ" if differ else "the same functions", bool(differ)


def compare_pushed(original, program, name, files):
    """The same of files whose package is pushed."""
    differ = pushed_differ(original, program, files)
    if differ:
        print(f"{name}\n  {differ}\n{shown(files)}\n", flush=True)
    return "pushes differ" if differ else "the same pushes", bool(differ)


def main():
    usage = argparse.ArgumentParser(description=__doc__, formatter_class=argparse.RawDescriptionHelpFormatter)
    usage.add_argument("original", metavar="ORIGINAL")
    usage.add_argument("files", metavar="FILE", nargs="*")
    usage.add_argument("--many", type=int, default=1000)
    usage.add_argument("--first", type=int, default=0)
    usage.add_argument("--changed", action="store_true")
    usage.add_argument("--folders", action="store_true")
    usage.add_argument("--functions", action="store_true")
    usage.add_argument("--pushed", metavar="WITGRAPH_JSON")
    asked = usage.parse_args()
    counts, differences = collections.Counter(), 0
    compared = compare_functions if asked.functions else compare
    if asked.pushed:
        compared = functools.partial(compare_pushed, program=os.path.abspath(asked.pushed))
    with tempfile.TemporaryDirectory() as folder:
        original = Original(asked.original, folder)
        for name, files in texts(asked):
            what, differs = compared(original, name=name, files=files)
            counts[what] += 1
            differences += differs
    for what, count in counts.most_common():
        print(f"{count:7} {what}")
    return 1 if differences else 0


if __name__ == "__main__":
    sys.exit(main())

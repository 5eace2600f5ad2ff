#!/usr/bin/env python3
"""Compares the program with an independent model of the rules (`check/model`) on random scripts, or with the original.

    python3 check/compare.py PATH/TO/test_cases [--first N] [--many N] [--kind KIND]..
    python3 check/compare.py --stored crates/test_cases/stdin
    python3 check/compare.py PATH/TO/witgraph --original PROGRAM [--first N] [--many N] [--kind KIND].. [--jobs N]

With the model the program is that of the stored cases, which runs many scripts at once. Scripts are told by their
numbers, so that one that differs can be made again (`--first N --many 1`). Kinds, by turns where none is named:
`mixed`, `chains` of uses, `exports` of such chains, `notes` with packages that all have versions, `tracks` with several
versions of the same packages that are merged by tracks, `broken`, where some lines of a script are changed at random,
and `merges`, where other graphs with much in common go into the first. Ends with status 1 where a script is answered
otherwise than the model says.

With `--original` both programs run each script, `--many` of each kind, and a table shows for each kind in how many
scripts the first difference is of which row of docs/DIFFERENCES.md; `check/differences.py` tells the rows, and what
the original is. Where the two differ the program is compared with the model, too. A script with a difference of no row,
or with an answer that the model doesn't give, is printed with what both print, and the status is 1 then.
"""
import argparse
import collections
import multiprocessing
import pathlib
import subprocess
import sys

import differences
import model
from merges import Merger
from writer import Writer

KINDS = ["mixed", "chains", "notes", "exports", "tracks", "broken", "merges"]
EQUAL, NO_ROW = "equal", "of no row"
DIFFERENCES = pathlib.Path(__file__).parent.parent / "docs" / "DIFFERENCES.md"


def written(number, kinds):
    """The script of a number."""
    kind = kinds[number % len(kinds)]
    return (Merger if kind == "merges" else Writer)(number, kind).script()


def cases_of(text):
    """The cases of a text by their names."""
    return {it.partition("\n")[0]: it.partition("\n")[2] for it in text.split("=== ")[1:]}


def stored(text):
    """The scripts and the answers of cases that have both, by their names."""
    parts = {name: case.partition("---\n") for name, case in cases_of(text).items()}
    return {name: it[0] for name, it in parts.items()}, {name: it[2] for name, it in parts.items()}


def compared(scripts, printed, rules):
    """Shows which scripts are answered otherwise, the first of them with what they print."""
    differ = [name for name, script in scripts.items() if not model.is_right(script, printed.get(name, ""), rules)]
    for name in differ[:5]:
        print(f"{name} differs\n{scripts[name]}--- may print\n{model.answers(scripts[name], rules)}")
        print(f"--- prints\n{printed.get(name, '')}")
    print(f"{len(scripts)} scripts, {len(differ)} differ")
    return 1 if differ else 0


class Both:
    """Runs the program and the original on scripts."""

    def __init__(self, program, other, rules):
        self.program, self.other, self.rules = program, other, rules

    def compared(self, job):
        """The kind of a script, the row of its first difference, and what is to be shown of one that has none."""
        kind, number = job
        script = written(number, [kind])
        ours, theirs = differences.run([self.program], script), differences.run_original(self.other, script)
        if differences.are_same(ours, theirs):
            return kind, EQUAL, None
        is_right = model.is_right(script, ours or "", self.rules)
        rows = differences.rows_of(script, ours, theirs, self.rules) if is_right else [None]
        if None not in rows:
            return kind, rows[0], None
        return kind, NO_ROW, f"{kind} {number} differs\n{script}--- prints\n{ours}--- the original prints\n{theirs}"


def compared_with_original(both, kinds, numbers, jobs):
    """Shows how often the two answer scripts otherwise, and by which rows."""
    counts = {kind: collections.Counter() for kind in kinds}
    with multiprocessing.Pool(jobs) as pool:
        tasks = ((kind, number) for kind in kinds for number in numbers)
        for kind, row, shown in pool.imap(both.compared, tasks, chunksize=10):
            counts[kind][row] += 1
            if shown:
                print(shown, flush=True)
    show(counts)
    return 1 if any(of[NO_ROW] for of in counts.values()) else 0


def show(counts):
    """Shows a table of the scripts of each kind: how many are equal, and how many differ first by which row."""
    print("| | " + " | ".join(counts) + " |\n" + "|---" * (len(counts) + 1) + "|")
    figures = {"scripts": [of.total() for of in counts.values()]}
    figures |= {row: [of[row] for of in counts.values()] for row in (EQUAL, *differences.ROWS, NO_ROW)}
    for row, of_kinds in figures.items():
        print(f"| {row} | " + " | ".join(f"{it:,}" for it in of_kinds) + " |")


def read(path):
    with open(path, encoding="utf-8") as file:
        return file.read()


def main():
    parser = argparse.ArgumentParser()
    parser.add_argument("files", nargs="+")
    parser.add_argument("--stored", action="store_true")
    parser.add_argument("--first", type=int, default=1)
    parser.add_argument("--many", type=int, default=1000)
    parser.add_argument("--kind", action="append", choices=KINDS)
    parser.add_argument("--original")
    parser.add_argument("--jobs", type=int, default=1)
    asked = parser.parse_args()
    rules = model.Rules()
    if asked.stored:
        return compared(*stored(read(asked.files[0])), rules)
    numbers = range(asked.first, asked.first + asked.many)
    if asked.original:
        missing = [row for row in differences.ROWS if f"\n| {row} |" not in read(DIFFERENCES)]
        if missing:
            sys.exit(f"no row in {DIFFERENCES}: {missing}")
        both = Both(asked.files[0], asked.original, rules)
        return compared_with_original(both, asked.kind or KINDS, numbers, asked.jobs)
    scripts = {str(it): written(it, asked.kind or KINDS) for it in numbers}
    given = "".join(f"=== {name}\n{script}" for name, script in scripts.items())
    ran = subprocess.run(asked.files, input=given, stdout=subprocess.PIPE, encoding="utf-8", check=True)
    return compared(scripts, cases_of(ran.stdout), rules)


if __name__ == "__main__":
    sys.exit(main())

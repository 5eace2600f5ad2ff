#!/usr/bin/env python3
"""Looks for scripts and documents that break what always holds, in the crate of plain Rust (tools/plain-rust).

    python3 check/fuzz.py [--out OUT] [--seed N] [--seconds N] [--keep FOLDER]
    python3 check/fuzz.py --planted [NAME..]

The crate is made in OUT (a folder of its own is the default) and its program `fuzz` (plain/fuzz) built, with checks of sums
and counters of the places that are entered. It changes inputs at random, goes on from those that enter a new place, and asks
of each, as a script and as a document, what plain/fuzz/src/checks.rs lists: that nothing panics, that a refused command leaves
the graph, that a graph which comes out goes in again, and more. The first inputs are those of check/corpus.txt, a JSON string
each, the worked cases and the worked documents. With `--keep` the inputs that entered a new place are put into FOLDER.

Ends with status 1 where an input breaks something or ends or holds up the process, and prints that input. Where cargo isn't
there, or neither Debian's crates nor a registry, it says SKIPPED and ends with 77.

`--planted` plants each fault of check/planted-faults in the crate in turn, and ends with status 1 where no input is found that
shows it.
"""
import argparse
import json
import os
import pathlib
import re
import shutil
import subprocess
import sys
import tempfile

CHECK = pathlib.Path(__file__).resolve().parent
sys.dont_write_bytecode = True
sys.path.insert(0, str(CHECK))

import json_documents  # noqa: E402
import plain  # noqa: E402
from plain import Fault  # noqa: E402

# The compiler counts how often each edge between blocks is taken.
COUNTED = "-C passes=sancov-module -C llvm-args=-sanitizer-coverage-level=3 -C llvm-args=-sanitizer-coverage-inline-8bit-counters"
PLANTED = CHECK / "planted-faults"
# how long an input may hold up the program, in seconds
PATIENCE = 60
TOLD = re.compile(r"^(\d+) inputs, (\d+) kept, (\d+) of (\d+) places entered$", re.M)
# with fewer inputs than these it was no search
LEAST = 1000


# ---- the program


def host():
    """The machine for which rustc compiles by itself."""
    told = subprocess.run(["rustc", "-vV"], capture_output=True, text=True, check=True).stdout
    return re.search(r"^host: (.*)$", told, re.M)[1]


def build(out, flags, **environment):
    """Builds the program, and answers its path. As a target is named, the flags aren't for what runs while it is built."""
    folder, target = f"{out}/fuzz", host()
    env = {**os.environ, "RUSTFLAGS": flags, "CARGO_TARGET_DIR": f"{folder}/target", **environment}
    words = ["cargo", "build", "--release", "--quiet", "-j2", "--target", target]
    done = subprocess.run(words, cwd=folder, env=env, capture_output=True, text=True)
    if done.returncode:
        raise Fault(f"{' '.join(words)}\n{plain.tail(done.stderr)}")
    return f"{folder}/target/{target}/release/fuzz"


def is_counting():
    """Whether this compiler takes the flags that count."""
    with tempfile.TemporaryDirectory() as folder:
        words = ["rustc", *COUNTED.split(), "--crate-type=lib", "--out-dir", folder, "-"]
        return subprocess.run(words, input="", capture_output=True, text=True).returncode == 0


def write_seeds(folder):
    """Writes the first inputs, a file each."""
    with open(CHECK / "corpus.txt", encoding="utf-8") as file:
        corpus = [json.loads(line).encode() for line in file]
    cases = [case.text for case in plain.stored_cases() if case.program != "witgraph_dot"]
    faulty = [json_documents.faults_of(*case)[0].encode() for _, *case in json_documents.cases_of(json_documents.FAULTS)]
    good = [document.encode() for _, document, _ in json_documents.cases_of(json_documents.ANSWERS)]
    folder.mkdir()
    for number, text in enumerate([*corpus, *cases, *faulty, *good]):
        (folder / f"{number:04}").write_bytes(text)


def search(program, folder, asked):
    """Runs the program, and answers what it tells of its search."""
    last = pathlib.Path(folder) / "last"
    words = [program, "--seed", str(asked.seed), "--seconds", str(asked.seconds), "--last", last, f"{folder}/seeds"]
    words += ["--keep", os.path.abspath(asked.keep)] if asked.keep else []
    try:
        done = subprocess.run(words, capture_output=True, text=True, errors="replace", timeout=asked.seconds + PATIENCE)
    except subprocess.TimeoutExpired:
        raise Fault(f"it is held up by {last.read_bytes()}") from None
    if done.returncode == 1:
        raise Fault(done.stdout)
    if done.returncode:
        raise Fault(f"it ends with {done.returncode} of {last.read_bytes()}\n{plain.tail(done.stderr)}")
    return done.stdout.strip()


# ---- all of it


def check(out, folder, asked, flags):
    told = search(build(out, f"-D warnings {flags}"), folder, asked)
    inputs, _, entered, _ = map(int, TOLD.search(told).groups())
    if inputs < LEAST or flags and not entered:
        raise Fault(f"that is no search: {told}")
    print(f"fuzz: seed {asked.seed}, {told}{'' if flags else '. SKIPPED: this rustc counts no places'}")


def built_with(path, out, flags):
    """Builds the program with a planted fault."""
    file, text = plain.planted_text(path, out)
    place, whole = out / file, (out / file).read_text(encoding="utf-8")
    place.write_text(text, encoding="utf-8")
    try:
        return build(out, flags, CARGO_INCREMENTAL="1")
    finally:
        place.write_text(whole, encoding="utf-8")


def told_of(path, out, folder, asked, flags):
    """Whether the search finds a planted fault, and what it tells."""
    program = built_with(path, out, flags)
    try:
        return False, search(program, folder, asked)
    except Fault as fault:
        return True, str(fault)


def check_planted(out, folder, asked, flags):
    missed = []
    for name in asked.planted or sorted(os.listdir(PLANTED)):
        is_found, told = told_of(PLANTED / name, out, folder, asked, flags)
        print(f"{name}: {'found' if is_found else 'NOT FOUND'}: {' | '.join(told.splitlines())[:400]}", flush=True)
        missed += [] if is_found else [name]
    if missed:
        raise Fault(f"not found: {' '.join(missed)}")


def main():
    parser = argparse.ArgumentParser()
    parser.add_argument("--planted", nargs="*")
    parser.add_argument("--out", type=pathlib.Path)
    parser.add_argument("--seed", type=int, default=1)
    parser.add_argument("--seconds", type=int, default=60)
    parser.add_argument("--keep")
    asked = parser.parse_args()
    options = plain.options_of_tool() if shutil.which("cargo") else None
    if options is None:
        print("SKIPPED: no cargo, or no crates indexmap, semver and serde: no input is looked for")
        return plain.SKIPPED
    run_checks = check if asked.planted is None else check_planted
    with tempfile.TemporaryDirectory(prefix="fuzz-") as folder:
        out = asked.out or pathlib.Path(folder) / "crate"
        try:
            write_seeds(pathlib.Path(folder) / "seeds")
            plain.make(plain.TOP, out, options)
            run_checks(out, folder, asked, COUNTED if is_counting() else "")
        except Fault as fault:
            print(f"fuzz: {fault}")
            return 1
    return 0


if __name__ == "__main__":
    sys.exit(main())

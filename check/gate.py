#!/usr/bin/env python3
"""The steps of the gate beside `rt ci`, and what runs them.

    check/gate.py                          prints the steps
    check/gate.py COMMIT before            runs the steps that need no program: before `rt ci`
    check/gate.py COMMIT after             runs those that need the programs which `rt ci` leaves in the folders `out`
    check/gate.py COMMIT STEP..            runs some by their names
        [--programs FOLDER]                takes FOLDER/NAME for the program NAME, and FOLDER for the folder of
                                           libwitgraph_c.a, as tools/trial-build makes them

All steps are run, each by a shell at the top of the repository, and its time is printed, that of the clock and that of the
processor. Ends with status 1 where one of them failed. One that lacks a program which may not be there ends with status 77:
it is named as skipped. `{seed}` is a number made of the hash of the commit: other random inputs for each.
"""
import argparse
import os
import resource
import subprocess
import sys
import time

TOP = os.path.dirname(os.path.dirname(os.path.abspath(__file__)))
CASES = "crates/test_cases/stdin"
SKIPPED = 77

# What needs no program. The model is check/model: what it makes is compared with what is stored.
BEFORE = {
    "edits": "tools/edits.py --check",
    "turns": "tools/edits.py --odds",
    "tests-of-gate": "python3 check/test_gate.py",
    "tests-of-edits": "python3 tools/test_edits.py",
    "documents": "check/documents",
    "tests-of-documents": "python3 check/test_documents.py",
    "examples": "python3 check/examples.py",
    "texts": "python3 check/texts.py",
    "limits": "tools/limits.py",
    "tests-of-limits": "python3 tools/test_limits.py",
    "stored-cases": f"python3 check/compare.py --stored {CASES}",
    "stored-pictures": "python3 check/pictures.py --stored docs/pictures",
    "stored-outputs": "python3 check/stored.py",
    "stored-graphs": "python3 check/worked_graphs.py",
    "tests-of-graphs": "python3 check/test_worked_graphs.py",
    "not-entered": "python3 check/entered_names.py",
    "tests-of-not-entered": "python3 check/test_entered_names.py",
    "copies": "python3 check/copies.py --first {seed} --many 200",
    "tests-of-wit": "python3 tools/test_wit.py",
    "wit2script": "python3 tools/test_wit2script.py",
    "version": "python3 check/version.py",
    "tests-of-names": "python3 check/test_colliding_names.py",
    "tests-of-plain-rust": "python3 tools/test_plain_rust.py",
    "tests": "tools/plain-tests",
    "wit-print": "python3 check/wit_print.py wasi stored texts --first {seed} --many 40",
    "fuzz": "python3 check/fuzz.py --seed {seed}",
}
# What the proved programs are asked, and the library for C.
AFTER = {
    "random-scripts": "python3 check/compare.py {test_cases} --first {seed} --many 300",
    "stored-as-documents": f"python3 check/script_documents.py --program {{witgraph_json}} --stored {CASES}",
    "random-documents": "python3 check/script_documents.py --program {witgraph_json} --first {seed} --many 300",
    "worked-graphs": "python3 check/worked_graphs.py --program {witgraph_json}",
    "random-graphs": "python3 check/worked_graphs.py --program {witgraph_json} --random --first {seed} --many 300",
    "worked-documents": "python3 check/json_documents.py {witgraph_json}",
    "statuses": "python3 check/statuses.py --witgraph {witgraph} --json {witgraph_json} --dot {witgraph_dot}",
    "pictures": "docs/pictures/make.sh --check {witgraph_dot}",
    "wasi": "WITGRAPH_JSON={witgraph_json} examples/wasi/check.sh {witgraph}",
    "wit2json": "WITGRAPH_JSON={witgraph_json} python3 tools/test_wit2json.py",
    "whole-graphs": "python3 check/whole/test_graphs.py {witgraph_json}",
    "ways": "python3 check/ways.py {test_explanations} --json {witgraph_json}",
    "c": "WITGRAPH_SHARED={library}/libwitgraph.so check/c_example.sh",
    "threads": "WITGRAPH_LIBRARY={library} check/threads.sh",
    "release": "check/release.sh --of {library}",
    "plain-rust": "python3 check/plain.py {witgraph} {witgraph_json} {witgraph_dot} --seed {seed}",
    "changed-documents": "python3 check/mutated_documents.py {library}/libwitgraph.so --first {seed} --many 20000",
    "growth": "python3 bench/growth.py --rows {witgraph} {witgraph_json} {witgraph_dot}",
    "sweep": "python3 check/sweep.py --calls {test_sweep} --scripts {witgraph} --documents {witgraph_json} --pictures {witgraph_dot}",
}
STEPS = BEFORE | AFTER


class Places(dict):
    """What the words in braces of a command stand for; of any other word it is the program of this name."""

    def __init__(self, commit, programs):
        self.folder = programs and os.path.abspath(programs)
        parsed = subprocess.run(["git", "rev-parse", "--verify", commit], cwd=TOP, stdout=subprocess.PIPE, check=True)
        super().__init__(seed=int(parsed.stdout[:8], 16), library=self.folder or f"{TOP}/crates/witgraph_c/out")

    def __missing__(self, name):
        return f"{self.folder}/{name}" if self.folder else f"{TOP}/crates/{name}/out/{name}"


def processor():
    used = resource.getrusage(resource.RUSAGE_CHILDREN)
    return used.ru_utime + used.ru_stime


def run(name, places):
    """Runs a step, prints what it says and its time, and returns how it ended."""
    command = STEPS[name].format_map(places)
    print(f"== {name}: {command}", flush=True)
    clock, used = time.time(), processor()
    status = subprocess.run(command, shell=True, cwd=TOP, check=False).returncode
    how = {0: "passed", SKIPPED: "SKIPPED"}.get(status, "FAILED")
    print(f"{name}: {how}, {time.time() - clock:.1f} s, {processor() - used:.1f} s of the processor", flush=True)
    return how


def chosen(words):
    """The names of the steps that some words ask for."""
    groups = {"before": BEFORE, "after": AFTER}
    names = [name for word in words for name in groups.get(word, [word])]
    lacking = [name for name in names if name not in STEPS]
    if lacking:
        sys.exit(f"gate: no step is called {', '.join(lacking)}")
    return names


def main():
    parser = argparse.ArgumentParser()
    parser.add_argument("commit", nargs="?")
    parser.add_argument("steps", nargs="*")
    parser.add_argument("--programs")
    asked = parser.parse_args()
    if not asked.steps:
        print("\n".join(f"{name}: {command}" for name, command in STEPS.items()))
        return 0
    places = Places(asked.commit, asked.programs)
    if asked.programs:
        os.environ["WITGRAPH_LIBRARY"] = places["library"]
    names, clock = chosen(asked.steps), time.time()
    ended = {name: run(name, places) for name in names}
    for how in ("SKIPPED", "FAILED"):
        print(f"gate: {how}: {' '.join(name for name in names if ended[name] == how) or 'none'}")
    print(f"gate: {len(names)} steps, {time.time() - clock:.0f} s, {processor():.0f} s of the processor")
    return 1 if "FAILED" in ended.values() else 0


if __name__ == "__main__":
    sys.exit(main())

#!/usr/bin/env python3
"""Makes the crate of plain Rust (tools/plain-rust), and asks whether it does what the proved programs do.

    python3 check/plain.py [PROGRAM..] [--out OUT] [--seed N] [--scripts N] [--documents N] [--jobs N]
    python3 check/plain.py --planted [NAME..]

The crate is made in OUT (a folder of its own is the default), built with overflow checks and as a release; its tests and
examples are run, and clippy where it is there; each without a warning. Then both builds of `witgraph`, `witgraph_json` and
`witgraph_dot` get all worked cases, random scripts (check/compare.py) and random documents, most of them faulty
(check/mutated_documents.py), by a seed: each has to write the same bytes and end with the same status as the proved program.
Those are what `rt ci` leaves in the folders `out`; a PROGRAM stands for the one of its name.

Ends with status 1 where anything fails. Where cargo isn't there, or neither Debian's crates nor a registry, it says SKIPPED
and ends with 77, which check/gate.py takes for that.

`--planted` makes the crate from copies of the repository with one change each of check/planted-rules, a wrong rule of the
tool or a wrong call of the shim, and ends with status 1 where one of them isn't told by the tests or by other bytes than those
of the programs without it. It needs no proved program.
"""
import argparse
import collections
import concurrent.futures
import functools
import os
import pathlib
import random
import re
import resource
import shutil
import subprocess
import sys
import tempfile

CHECK = pathlib.Path(__file__).resolve().parent
TOP = CHECK.parent
sys.dont_write_bytecode = True
sys.path[:0] = [str(CHECK), str(TOP / "tools")]

import compare  # noqa: E402
import mutated_documents  # noqa: E402
import script_documents  # noqa: E402
from plain_rust import crates, layout, packages  # noqa: E402

SKIPPED = 77
PATIENCE = 60
SHOWN = 5
# the first of so many random scripts is also drawn
DRAWN = 10
SHIM = "plain/src/shim/"
# what examples print, which are programs outside of the crate
EXAMPLES = {
    "worlds": r"app imports one:shop/types\n  record item of 1 fields\nrefused 5: ",
    "imports": r"world command\n  import wasi:",
    "wasi": r"(?s)wasi:cli@0\.2\.0 command: imports \d+, exports 1\n.*wasi:cli@0\.2\.3 command: imports \d+, exports 1\n",
}
# the example that links 200 packages one by one, what it prints, and how long it may take of the processor, in seconds
TWO_HUNDRED, LINKED, LONGEST = "two_hundred", re.compile(r"200 packages in .* s; the last world imports 200 interfaces\n"), 0.1
PASSED = re.compile(r"^test result: ok\. (\d+) passed; 0 failed; 0 ignored", re.M)
TEST = re.compile(r"^\s*#\[test\]$", re.M)

Case = collections.namedtuple("Case", "program name text")


class Fault(Exception):
    """Something that isn't as it has to be."""


# ---- the crate


def cargo(folder, *words):
    """Runs cargo in the crate, where no warning passes; answers what it printed."""
    env = {**os.environ, "RUSTFLAGS": "-D warnings", "CARGO_TARGET_DIR": f"{folder}/target", "CARGO_PROFILE_DEV_DEBUG": "0"}
    done = subprocess.run(["cargo", *words, "--quiet", "-j2"], cwd=folder, env=env, capture_output=True, text=True)
    if done.returncode:
        raise Fault(f"cargo {' '.join(words)}\n{tail(done.stdout)}{tail(done.stderr)}")
    return done.stdout


def tail(text):
    return "\n".join(text.splitlines()[-40:]) + "\n" if text else ""


def make(top, out, options):
    """Makes the crate with the tool of a copy of the repository."""
    done = subprocess.run([f"{top}/tools/plain-rust", *options, out], capture_output=True, text=True)
    if done.returncode:
        raise Fault(f"plain-rust\n{tail(done.stdout)}{tail(done.stderr)}")


def tests_of_source():
    """How many tests cargo has to run of those of the source: its functions, and the programs on what is stored."""
    files = [path for crate in crates.TESTS for path, _ in crates.sources(crate)]
    return sum(len(TEST.findall(path.read_text(encoding="utf-8"))) for path in files) + len(crates.STORED)


def run_tests(out, *kinds):
    printed = cargo(out, "test", *kinds)
    ran = [int(count) for count in PASSED.findall(printed)]
    if not ran or ran[0] < tests_of_source():
        raise Fault(f"cargo ran {ran} tests, and the source has {tests_of_source()}")
    return sum(ran)


def has_clippy():
    return subprocess.run(["cargo", "clippy", "--version"], capture_output=True).returncode == 0


def run_examples(out):
    """Runs the examples; answers how many seconds of the processor the one takes as a release that links packages."""
    for name, pattern in EXAMPLES.items():
        if not re.search(pattern, printed := cargo(out, "run", "--example", name)):
            raise Fault(f"example {name} prints\n{tail(printed)}")
    cargo(out, "build", "--release", "--example", TWO_HUNDRED)
    before = resource.getrusage(resource.RUSAGE_CHILDREN)
    printed = subprocess.run([f"{out}/target/release/examples/{TWO_HUNDRED}"], capture_output=True, text=True).stdout
    after = resource.getrusage(resource.RUSAGE_CHILDREN)
    seconds = after.ru_utime + after.ru_stime - before.ru_utime - before.ru_stime
    if seconds > LONGEST or not LINKED.fullmatch(printed):
        raise Fault(f"example {TWO_HUNDRED} takes {seconds:.3f} s of the processor, and prints\n{tail(printed)}")
    return seconds


# ---- cases


def stored_cases():
    scripts, _ = compare.stored(compare.read(TOP / "crates/test_cases/stdin"))
    for name, script in scripts.items():
        yield Case("witgraph", name, script.encode())
        yield Case("witgraph_dot", name, script.encode())
        document = script_documents.document_of("\n".join(script_documents.compared_lines(script)))
        if document:
            yield Case("witgraph_json", name, mutated_documents.compact(document))


def script_cases(source, many):
    for index in range(many):
        number = source.randrange(10**9)
        text = compare.written(number, compare.KINDS).encode()
        yield Case("witgraph", f"script {number}", text)
        if index % DRAWN == 0:
            yield Case("witgraph_dot", f"script {number}", text)


class Proved:
    """The proved `witgraph_json`, as check/mutated_documents.py calls one."""

    def __init__(self, program):
        self.program = program

    def answer(self, text):
        done = run(self.program, text)
        return done[0], done[1]


def document_cases(source, many, program):
    documents = mutated_documents.first_documents(Proved(program))
    for _ in range(many):
        number = source.randrange(10**9)
        yield Case("witgraph_json", f"document {number}", mutated_documents.document_text(documents, number))


def run(program, text):
    """The status of a program and what it writes."""
    done = subprocess.run([program], input=text, stdout=subprocess.PIPE, stderr=subprocess.DEVNULL, timeout=PATIENCE)
    return done.returncode, done.stdout


def differing(case, proved, builds):
    """Tells where a build answers a case otherwise than the proved program."""
    wanted = run(proved[case.program], case.text)
    for build in builds:
        found = run(f"{build}/{case.program}", case.text)
        if found != wanted:
            return f"{case.program} of {build}: {case.name}: {found[0]} {found[1][:200]}, proved {wanted[0]} {wanted[1][:200]}"
    return None


def compare_programs(cases, proved, builds, jobs):
    with concurrent.futures.ThreadPoolExecutor(jobs) as pool:
        found = [it for it in pool.map(lambda case: differing(case, proved, builds), cases) if it]
    if found:
        raise Fault(f"{len(found)} of {len(cases)} cases differ\n" + "\n".join(found[:SHOWN]))


# ---- all of it


def options_of_tool():
    """How the tool is to be called, or None where there are no crates."""
    if not packages.missing() or packages.can_install():
        return ["--debian"]
    with tempfile.TemporaryDirectory(prefix="plain-") as folder:
        layout.make(pathlib.Path(folder))
        return [] if packages.are_fetched(folder) else None


def all_cases(asked, proved):
    source = random.Random(asked.seed)
    cases = [*stored_cases(), *script_cases(source, asked.scripts)]
    return cases + list(document_cases(source, asked.documents, proved["witgraph_json"]))


def check(out, asked, options, proved):
    test_rules(TOP)
    make(TOP, out, options)
    cargo(out, "build")
    cargo(out, "build", "--release")
    ran = run_tests(out)
    seconds = run_examples(out)
    if has_clippy():
        cargo(out, "clippy", "--all-targets")
    cases = all_cases(asked, proved)
    compare_programs(cases, proved, [f"{out}/target/debug", f"{out}/target/release"], asked.jobs)
    clippy = "" if has_clippy() else " SKIPPED: no clippy."
    print(f"plain Rust: {ran} tests passed, {len(cases)} cases by both builds as by the proved programs.{clippy}")
    print(f"plain Rust: 200 packages are linked one by one in {seconds:.3f} s of the processor.")


# ---- planted changes


class Planted:
    """A copy of the repository and the crate made from it, in which changes are planted, and the programs without any."""

    def __init__(self, out, asked, options):
        self.copy, self.out = pathlib.Path(out) / "copy", pathlib.Path(out) / "crate"
        self.asked, self.options = asked, options
        ignored = shutil.ignore_patterns("out", "target", ".git", "must-fail*", "proofs", "specs")
        shutil.copytree(TOP, self.copy, ignore=ignored, dirs_exist_ok=True)
        self.make()
        cargo(self.out, "build")
        self.right = {it: shutil.copy(f"{self.out}/target/debug/{it}", out) for it in crates.PROGRAMS}

    def make(self, is_wrong=False):
        self.is_wrong = True
        make(self.copy, self.out, self.options)
        self.is_wrong = is_wrong

    @functools.cached_property
    def cases(self):
        return all_cases(self.asked, self.right)

    def check(self):
        """The tests, then all cases by the build with overflow checks."""
        run_tests(self.out, "--lib", "--bins", "--tests")
        compare_programs(self.cases, self.right, [f"{self.out}/target/debug"], self.asked.jobs)

    def test_shim(self):
        """The tests of the shim as a crate of its own, which is built in seconds."""
        (self.out / "shim").mkdir(exist_ok=True)
        for name in ("Cargo.toml", ".cargo", "src/shim"):
            source, target = self.out / name, self.out / "shim" / name
            if source.is_dir():
                shutil.copytree(source, target, dirs_exist_ok=True)
            elif source.exists():
                shutil.copy(source, target)
        (self.out / "shim" / "src" / "lib.rs").write_text("mod shim;\n", encoding="utf-8")
        cargo(self.out / "shim", "test", "--lib")

    def told(self, name):
        """What tells of a planted change, or None. What is written by hand stands in the crate as it does in the repository."""
        if self.is_wrong:
            self.make()
        file, text = planted_text(CHECK / "planted-rules" / name, TOP)
        by_hand = file.removeprefix("plain/") if file.startswith("plain/") else None
        place = self.out / by_hand if by_hand else self.copy / file
        place.write_text(text, encoding="utf-8")
        try:
            if file.startswith(SHIM):
                self.test_shim()
            if not by_hand:
                test_rules(self.copy)
                self.make(is_wrong=True)
            self.check()
        except Fault as fault:
            return str(fault)
        finally:
            shutil.copy(TOP / file, place)
        return None


def planted_text(path, top):
    """A planted change: its file below a folder, and the text of that with it."""
    words = dict(it.split(": ", 1) for it in path.read_text(encoding="utf-8").splitlines())
    text = (top / words["file"]).read_text(encoding="utf-8")
    if text.count(words["old"]) != 1:
        raise Fault(f"{path.name}: stands {text.count(words['old'])} times in {words['file']}: {words['old']}")
    return words["file"], text.replace(words["old"], words["new"])


def test_rules(top):
    """Runs the tests of the tool's rules, of a copy of the repository."""
    done = subprocess.run([sys.executable, f"{top}/tools/test_plain_rust.py"], capture_output=True, text=True)
    if done.returncode:
        raise Fault(f"tools/test_plain_rust.py\n{tail(done.stderr)}")


def check_planted(out, asked, options):
    planted, missed = Planted(out, asked, options), []
    planted.check()
    for name in asked.planted or sorted(os.listdir(CHECK / "planted-rules")):
        told = planted.told(name)
        print(f"{name}: {'NOT TOLD' if told is None else first_lines(told)}", flush=True)
        missed += [name] if told is None else []
    if missed:
        raise Fault(f"not told: {' '.join(missed)}")


def first_lines(told):
    """What told, and its first error."""
    lines = told.splitlines()
    errors = [line for line in lines[1:] if re.search(r"error|Error|panicked|FAIL|witgraph", line)]
    return " | ".join([lines[0], *errors[:1]])[:200]


def skipped(why):
    print(f"SKIPPED: {why}: the crate of plain Rust is neither built nor tried")
    return SKIPPED


def programs(given):
    """The proved programs by their names."""
    proved = {it: f"{TOP}/crates/{it}/out/{it}" for it in crates.PROGRAMS}
    proved |= {os.path.basename(path): os.path.abspath(path) for path in given}
    if missing := [path for path in proved.values() if not os.access(path, os.X_OK)]:
        sys.exit(f"plain.py: no program {' '.join(missing)}")
    return proved


def main():
    parser = argparse.ArgumentParser()
    parser.add_argument("programs", nargs="*")
    parser.add_argument("--planted", nargs="*")
    parser.add_argument("--out")
    parser.add_argument("--seed", type=int, default=1)
    parser.add_argument("--scripts", type=int, default=1000)
    parser.add_argument("--documents", type=int, default=500)
    parser.add_argument("--jobs", type=int, default=2)
    asked = parser.parse_args()
    if shutil.which("cargo") is None:
        return skipped("no cargo")
    options = options_of_tool()
    if options is None:
        return skipped("no crates indexmap, semver and serde")
    proved = programs(asked.programs) if asked.planted is None else None
    with tempfile.TemporaryDirectory() as folder:
        try:
            if proved:
                check(asked.out or folder, asked, options, proved)
            else:
                check_planted(asked.out or folder, asked, options)
        except Fault as fault:
            print(f"plain Rust: {fault}")
            return 1
    return 0


if __name__ == "__main__":
    sys.exit(main())

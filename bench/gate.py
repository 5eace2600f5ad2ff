#!/usr/bin/env python3
"""Runs the gate and tells what its parts took.

    bench/gate.py RECORD ci
    bench/gate.py RECORD must-fail CRATE..

run `rt ci`, or `rt must-fail`, at the top of this repository as the command does, and add to the file RECORD a line of
JSON for each process that it started: of which crate, for its proof, its tests or which edit, with the processor time.

    bench/gate.py RECORD [--edits]

prints from such a record a row for each crate, the sums and the longest chain of proofs, and with
--edits the seconds of each edit.

Seconds are of user and system together; a busy machine shows up to twice what a quiet one does.
"""
import collections
import json
import os
import re
import resource
import shutil
import subprocess
import sys
import threading
import time

sys.path.insert(0, os.path.join(os.path.dirname(os.path.dirname(os.path.abspath(__file__))), "tools"))
from toolchain import TOP, lines, loaded  # noqa: E402


class Record:
    """What the gate's processes took, written as they end."""

    def __init__(self, path):
        self.out = open(path, "a", encoding="utf-8")
        self.lock, self.here = threading.Lock(), threading.local()

    def note(self, **what):
        with self.lock:
            self.out.write(json.dumps(what) + "\n")
            self.out.flush()

    def part(self, words):
        """Of what a process is: an edit that its thread tries, or the crate that its words name."""
        edit = getattr(self.here, "edit", None)
        if edit:
            return edit
        if "--crate-name" not in words:
            return "other", "", ""
        return "tests" if "--test" in words else "proof", words[words.index("--crate-name") + 1], ""

    def watched(self, must_fail):
        """The call that tries an edit, whose processes are noted as the edit's."""

        def watching(crate, edit, *more):
            self.here.edit = "edit", crate.name, os.path.basename(edit)
            try:
                return must_fail(crate, edit, *more)
            finally:
                self.here.edit = None

        return watching

    def over(self, checked):
        """The call that checks a crate with some texts in place of its own. With none it is the check that its edits begin with, or the last one over it."""

        def watching(crate, texts, *more):
            if texts:
                return checked(crate, texts, *more)
            self.here.edit = "edit", crate.name, "(seed)"
            try:
                return checked(crate, texts, *more)
            finally:
                self.here.edit = None

        return watching

    def proving(self, ci):
        """The call that proves a crate, or its tests, with how many functions were proved."""

        def watching(crate, flags, tests):
            self.here.edit = None
            status = ci(crate, flags, tests)
            crate.out.seek(0)
            found = re.findall(r"^logic=proved .*?functions=(\d+)", crate.out.read(), re.M)
            if found and not tests:
                self.note(kind="functions", crate=crate.name, edit="", seconds=0, count=int(found[0]))
            return status

        return watching

    def wait(self, process, flags):
        """In place of Popen's own: waits for a process and notes what it took."""
        try:
            ended, status, usage = os.wait4(process.pid, flags)
        except ChildProcessError:
            return process.pid, 0
        if ended == process.pid:
            kind, crate, edit = self.part(process.args if isinstance(process.args, list) else [])
            self.note(kind=kind, crate=crate, edit=edit, seconds=usage.ru_utime + usage.ru_stime)
        return ended, status


def run(path, words):
    rt, record = loaded(), Record(path)
    os.chdir(TOP)
    subprocess.Popen._try_wait = lambda process, flags: record.wait(process, flags)
    rt.must_fail, rt.checked = record.watched(rt.must_fail), record.over(rt.checked)
    rt.Crate.ci = record.proving(rt.Crate.ci)
    began = time.time()
    status = rt.main(words)
    usage = resource.getrusage(resource.RUSAGE_SELF)
    record.note(kind="rt", crate="", edit="", seconds=usage.ru_utime + usage.ru_stime, clock=time.time() - began)
    return status


def crates():
    """Each crate of crates.txt with those of the repository that it uses, lowest first."""
    found = {}
    with open(os.path.join(TOP, "crates.txt"), encoding="utf-8") as text:
        for line in text:
            name, colon, uses = line.partition("#")[0].partition(":")
            if colon:
                found[name.split()[0]] = [use for use in uses.split() if use in found]
    return found


def row(crate, took, functions, edits):
    folder = os.path.join(TOP, "crates", crate)
    other = sum(lines(os.path.join(folder, part), ".antt") for part in ("specs", "proofs"))
    tried = f"{edits}, {took['edit']:,.0f}" if edits else ""
    return f"| {crate} | {lines(os.path.join(folder, 'src'), '.rt'):,}, {other:,} | {functions} | {took['proof'] + took['tests']:,.0f} | {tried} |"


def show(path, with_edits):
    took, edits = collections.defaultdict(collections.Counter), collections.defaultdict(collections.Counter)
    functions, sums = collections.Counter(), collections.Counter()
    with open(path, encoding="utf-8") as text:
        for note in map(json.loads, text):
            took[note["crate"]][note["kind"]] += note["seconds"]
            sums[note["kind"]] += note["seconds"]
            functions[note["crate"]] += note.get("count", 0)
            if note["kind"] == "edit":
                edits[note["crate"]][note["edit"]] += note["seconds"]
    chains = {}
    for crate, uses in crates().items():
        print(row(crate, took[crate], functions[crate], len([it for it in edits[crate] if it != "(seed)"])))
        for edit, seconds in edits[crate].items() if with_edits else ():
            print(f"    {seconds:6.1f}  {edit}")
        longest = max((chains[use] for use in uses), default=(0, []))
        chains[crate] = longest[0] + took[crate]["proof"], [*longest[1], crate]
    longest = max(chains.values())
    print("minutes:", ", ".join(f"{kind} {seconds / 60:.1f}" for kind, seconds in sums.items() if seconds), f"in all {sum(sums.values()) / 60:.1f}")
    print(f"longest chain of proofs: {longest[0] / 60:.1f} minutes, {', '.join(longest[1])}")
    return 0


if __name__ == "__main__":
    if len(sys.argv) < 2:
        sys.exit(__doc__)
    rest = sys.argv[2:]
    sys.exit(show(sys.argv[1], "--edits" in rest) if not rest or rest == ["--edits"] else run(sys.argv[1], rest))

#!/usr/bin/env python3
"""Tries edits that must be refused, and chooses those that a run of the gate tries.

    tools/edits.py CRATE..        tries all edits of these crates: the prover must refuse each
    tools/edits.py --all          the same of all crates
    tools/edits.py --check        tells which edits can't be applied, which named wrong bodies are missing, and whether a
                                  turn takes too long
    tools/edits.py --choose HASH  prints how many edits of each crate have their turn at the commit of this hash
    tools/edits.py --lay HASH     puts copies of these edits where `rt ci` reads them, prints what they are
    tools/edits.py --clear        removes these copies
    tools/edits.py --odds         counts over 5,000 commits how often each edit has its turn, prints the rarest; status 1
                                  where one comes less than once in twelve runs
    tools/edits.py --told LOG     prints the edits that say nothing by what `rt ci` printed; status 1 where there is one

`rt ci` reads the edits in crates/NAME/must-fail: the wrong bodies that have a name (CONTRIBUTING.md), tried in each run.
All others lie in crates/NAME/must-fail-in-turn. They are dealt to TURNS turns of MINUTES at the most, and the hash of a
commit says whose turn it is, so each edit comes once in TURNS runs in the mean. A crate is proved a second time for its
edits, however many they are: so they stay together, but for those of a crate of more than PART minutes, and for those of
a crate that is proved again for a named wrong body anyway.

What edits cost is reckoned, in seconds of the processor (as `bench/gate.py` measures it): an edit EDIT; a second proof, where
no edit in must-fail asks for one already, PROOF, and LINE for each line of src.

`rt ci` passes where an edit can't be applied or doesn't compile. It says BAD EDIT, and says so again where it keeps that
from an earlier run: hence --told.

What was tried by hand and refused on this machine is not tried again; the libraries below are built as `rt lib` does.
"""
import collections
import glob
import hashlib
import math
import os
import re
import shutil
import sys

from toolchain import TOP, lines, loaded

MINUTES, TURNS, PART = 44, 11, 30
EDIT, PROOF, LINE = 30, 25, 0.2
COMMITS, RARELY = 5000, 12
# What .gitignore names.
COPY = "in-turn."


def edits(crate, folder):
    """The edits of a crate in one of its two folders, without copies."""
    found = glob.glob(f"{TOP}/crates/{crate}/{folder}/*.edit")
    return sorted(it for it in found if not os.path.basename(it).startswith(COPY))


def edits_in_turn(crate):
    return edits(crate, "must-fail-in-turn")


def crates():
    """The crates that have edits in either folder."""
    return sorted({os.path.basename(os.path.dirname(it)) for it in glob.glob(f"{TOP}/crates/*/must-fail*")})


def second_proof(crate):
    """What a second proof of a crate costs, where no named wrong body asks for it anyway."""
    return 0 if edits(crate, "must-fail") else PROOF + LINE * lines(f"{TOP}/crates/{crate}/src", ".rt")


def parts(crate):
    """The edits in turn of a crate in the parts in which they are dealt, each with what it costs a run."""
    some, proof = edits_in_turn(crate), second_proof(crate)
    count = math.ceil(EDIT * len(some) / (60 * PART - proof)) if proof else len(some)
    return [(proof + EDIT * len(part), part) for part in (some[at::count] for at in range(count))]


def turns():
    """What each turn costs, and its edits: of all parts the dearest is dealt first, each to the turn that has least."""
    dealt = [(0, []) for _ in range(TURNS)]
    of_all = [part for crate in crates() for part in parts(crate)]
    for cost, part in sorted(of_all, key=lambda it: it[0], reverse=True):
        at = min(range(TURNS), key=lambda it: dealt[it][0])
        dealt[at] = dealt[at][0] + cost, dealt[at][1] + part
    return dealt


def turn_of(commit):
    """Which turn a commit has."""
    return int(hashlib.sha256(commit.encode()).hexdigest(), 16) % TURNS


def crate_of(edit):
    return os.path.basename(os.path.dirname(os.path.dirname(edit)))


def choose(commit):
    dealt = turns()
    cost, some = dealt[turn_of(commit)]
    for crate, count in sorted(collections.Counter(map(crate_of, some)).items()):
        print(f"{crate}: {count} of {len(edits_in_turn(crate))} edits")
    of_all = sum(len(it) for _, it in dealt)
    print(f"edits in turn for {commit}: {len(some)} of {of_all}, about {cost / 60:.0f} minutes of the processor")
    return 0


def clear():
    for copy in glob.glob(f"{TOP}/crates/*/must-fail/{COPY}*"):
        os.remove(copy)
        if not os.listdir(os.path.dirname(copy)):
            os.rmdir(os.path.dirname(copy))
    return 0


def lay(commit):
    clear()
    for edit in turns()[turn_of(commit)][1]:
        to = f"{TOP}/crates/{crate_of(edit)}/must-fail"
        os.makedirs(to, exist_ok=True)
        shutil.copyfile(edit, f"{to}/{COPY}{os.path.basename(edit)}")
    return choose(commit)


def odds():
    dealt, counts = turns(), collections.Counter()
    for number in range(COMMITS):
        counts.update(dealt[turn_of(hashlib.sha1(str(number).encode()).hexdigest())][1])
    rarest = min((it for _, some in dealt for it in some), key=lambda it: counts[it])
    once = f"once in {COMMITS / counts[rarest]:.1f} runs" if counts[rarest] else "never"
    costs = sorted(cost / 60 for cost, _ in dealt)
    print(f"{sum(len(some) for _, some in dealt)} edits in {TURNS} turns of {costs[0]:.1f} to {costs[-1]:.1f} minutes")
    print(f"over {COMMITS:,} commits the rarest comes {once}: {os.path.relpath(rarest, TOP)}")
    return 1 if counts[rarest] * RARELY < COMMITS else 0


def bad_edits(log):
    """The lines of a log of `rt ci` that tell of an edit which says nothing."""
    return [line for line in log.splitlines() if re.match(r"rt: (must-fail )?\S+: BAD EDIT: ", line)]


def told(path):
    with open(path, encoding="utf-8", errors="replace") as log:
        found = bad_edits(log.read())
    print("\n".join(found or ["no edit is bad"]))
    return 1 if found else 0


def names():
    """The names of the wrong bodies that are tried in each run, from CONTRIBUTING.md."""
    with open(f"{TOP}/CONTRIBUTING.md", encoding="utf-8") as text:
        line = next(it for it in text if it.startswith("- The wrong bodies that have a name"))
    return re.findall(r"`([a-z-]+)`", line.partition(": ")[2].partition(". ")[0])


def faults():
    """What is wrong with the edits as far as it shows without a proof, a line for each fault."""
    rt, named, there = loaded(), names(), set()
    for crate in crates():
        for edit in edits(crate, "must-fail") + edits_in_turn(crate):
            path, stem = os.path.relpath(edit, TOP), os.path.basename(edit)[: -len(".edit")]
            why = rt.read_edit(edit, f"{TOP}/crates/{crate}")[1]
            if why:
                yield f"{path}: {why}"
            is_of = {it for it in named if f"-{stem}".endswith(f"-{it}")}
            if bool(is_of) != (os.path.basename(os.path.dirname(edit)) == "must-fail"):
                yield f"{path}: {'a named wrong body lies in must-fail' if is_of else 'one without a name lies in must-fail-in-turn'}"
            there |= is_of
    yield from (f"no edit in must-fail is called by {it}" for it in named if it not in there)
    most = max(cost for cost, _ in turns()) / 60
    if most > MINUTES:
        yield f"a turn takes {most:.1f} minutes, and a run has {MINUTES} for it: fewer edits in turn, or cheaper ones"


def check():
    found = list(faults())
    print("\n".join(found or ["each edit can be applied"]))
    return 1 if found else 0


def attempt(some):
    """Tries all edits of some crates as `rt must-fail` does those in must-fail."""
    os.chdir(TOP)
    rt = loaded()
    rt.edits_of = lambda crate: (edits(crate.name, "must-fail") + edits_in_turn(crate.name), [])
    return rt.main(["must-fail", *some])


def main(*words):
    alone = {"--all": lambda: attempt(crates()), "--check": check, "--clear": clear, "--odds": odds}
    with_one = {"--choose": choose, "--lay": lay, "--told": told}
    if len(words) == 1 and words[0] in alone:
        return alone[words[0]]()
    if len(words) == 2 and words[0] in with_one:
        return with_one[words[0]](words[1])
    if not words or words[0].startswith("--"):
        sys.exit(__doc__)
    return attempt(words)


if __name__ == "__main__":
    sys.exit(main(*sys.argv[1:]))

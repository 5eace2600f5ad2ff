#!/usr/bin/env python3
"""Runs the program and the original on the scripts of `bench/kinds.py`, side by side.

    python3 bench/side.py PROGRAM ORIGINAL [--kind KIND].. [SIZE ..]

PROGRAM is `witgraph`, ORIGINAL the program that `check/differences.py` describes; its argument `--fast` says that it runs
each command at once, without a trial and without a copy of its graphs. Each kind of script (all, where none is named) is
run at each size (10,000, where none is given) by turns, three times by each program (once where one takes more than
ten seconds); of each the run of the least time counts, and the least peak. The time is that of the processor, for the
program and for what the system does for it; the peak is that of memory, in MiB. The table ends with the geometric mean
of the ratios of time over the kinds in which the original is linear, the arithmetic mean of those of memory over all,
and the greatest ratios; the kinds of many commands (`ONE_BY_ONE`) have no part in these. The last column says whether
both print the same bytes; where they don't the status is 1.

It runs on Linux alone.
"""
import itertools
import math
import os
import sys
import tempfile

from growth import adopt_children, run, write_script
from kinds import KINDS, ONE_BY_ONE

# in these the original takes more than linear time
NOT_LINEAR = {"renames", "handed_on", "alias_pushes"}
# these have no part in the means
APART = {it.__name__ for it in ONE_BY_ONE}


def difference(one, other):
    """How the bytes of two files differ."""
    with open(one, "rb") as ours, open(other, "rb") as theirs:
        for number, (line, also) in enumerate(itertools.zip_longest(ours, theirs), 1):
            if line != also:
                return f"line {number}: {(line or b'')[:60]!r} {(also or b'')[:60]!r}"
    return "same"


def measure(ours, original, script, folder):
    """The least time and peak of each of the two programs, and how what they print differs."""
    outs = [os.path.join(folder, it) for it in ("ours", "original")]
    runs = [], []
    while len(runs[0]) < 3 and all(it[0] < 10 for of in runs for it in of):
        for of, command, out in zip(runs, ([ours], [original, "--fast"]), outs):
            of.append(run(command, script, out))
    return [[min(it[n] for it in of) for of in runs] for n in (0, 1)], difference(*outs)


def main():
    words, kinds, sizes = sys.argv[1:], [], []
    if len(words) < 2:
        sys.exit(__doc__)
    ours, original = (os.path.abspath(it) for it in words[:2])
    rest = iter(words[2:])
    for word in rest:
        if word == "--kind":
            kinds.append(next(rest))
        else:
            sizes.append(int(word))
    adopt_children()
    print("| script | size | seconds | of the original | ratio | MiB | of the original | ratio | bytes |")
    print("|---|---|---|---|---|---|---|---|---|")
    times, peaks, differ = [], [], 0
    with tempfile.TemporaryDirectory() as folder:
        for kind, size in itertools.product(kinds or KINDS, sizes or [10000]):
            script = write_script(folder, kind, size)
            ((time, of_time), (peak, of_peak)), told = measure(ours, original, script, folder)
            if kind not in NOT_LINEAR | APART:
                times.append(time / of_time)
            if kind not in APART:
                peaks.append(peak / of_peak)
            differ += told != "same"
            row = [kind, f"{size:,}", f"{time:.3f}", f"{of_time:.3f}", f"{time / of_time:.2f}"]
            row += [f"{peak:.1f}", f"{of_peak:.1f}", f"{peak / of_peak:.2f}", told]
            print("| " + " | ".join(row) + " |", flush=True)
    if times:
        mean = math.exp(sum(map(math.log, times)) / len(times))
        print(f"| mean | | | | {mean:.2f} | | | {sum(peaks) / len(peaks):.2f} | |")
        print(f"| greatest | | | | {max(times):.2f} | | | {max(peaks):.2f} | |")
    return 1 if differ else 0


if __name__ == "__main__":
    sys.exit(main())

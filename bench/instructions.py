#!/usr/bin/env python3
"""Counts the instructions of the program, and of the original beside it, on the scripts of `bench/kinds.py`.

    python3 bench/instructions.py PROGRAM [ORIGINAL] [--kind KIND].. [SIZE ..]

PROGRAM and ORIGINAL are those of `bench/side.py`. `perf` or `valgrind` counts them, so other work on the machine changes
nothing. Each kind of script (all, where none is named) is run once at each size (1,000, where none is given). The table has
millions, and ends with the geometric mean of the ratios over the kinds that count in `bench/side.py`.
"""
import itertools
import math
import os
import sys

from counting import counted
from kinds import KINDS
from side import APART, NOT_LINEAR


def row_of(kind, size, counts):
    told = [f"{it / 1e6:.1f}" for it in counts]
    ratio = [f"{counts[0] / counts[1]:.2f}"] if len(counts) > 1 else []
    return "| " + " | ".join([kind, f"{size:,}", *told, *ratio]) + " |"


def main(words):
    kinds, programs, sizes, rest = [], [], [], iter(words)
    for word in rest:
        if word == "--kind":
            kinds.append(next(rest))
        else:
            (sizes.append(int(word)) if word.isdigit() else programs.append(word))
    if not 1 <= len(programs) <= 2:
        sys.exit(__doc__)
    commands = [[os.path.abspath(it), *words] for it, words in zip(programs, ([], ["--fast"]))]
    print("| script | size | millions |" + (" of the original | ratio |" if len(commands) > 1 else ""), flush=True)
    ratios = []
    for kind, size in itertools.product(kinds or KINDS, sizes or [1000]):
        script = "".join(f"{line}\n" for line in KINDS[kind](size)).encode()
        counts = [counted(it, script)[1] for it in commands]
        print(row_of(kind, size, counts), flush=True)
        if len(counts) > 1 and kind not in NOT_LINEAR | APART:
            ratios.append(counts[0] / counts[1])
    if ratios:
        print(f"mean of ratios: {math.exp(sum(map(math.log, ratios)) / len(ratios)):.2f}")
    return 0


if __name__ == "__main__":
    sys.exit(main(sys.argv[1:]))

#!/usr/bin/env python3
"""Runs programs on generated inputs of growing sizes, and shows how their cost grows.

    python3 bench/growth.py PATH/TO/witgraph [--kind KIND].. [SIZE ..]
    python3 bench/growth.py --rows PROGRAM.. [--kind ROW].. [SIZE ..]

Each kind of script (all, where none is named) is run at each size, three times (once where a run takes more
than ten seconds); the fastest run counts. The table shows the seconds of the processor and the peak of memory of
each size, in MiB, also as ratios to those of the size before: for linear growth they are the ratio of the bytes.

With --rows the inputs are those of bench/rows.py, which were found to cost too much, each for the PROGRAM of its name.
Cost is counted in instructions, by `perf` or `valgrind`, so other work on the machine changes nothing. The exponent of a row
says how its cost grows between its two sizes, or the two largest SIZEs: 1 is linear, 2 the square. Without a SIZE it is held
to the limit of the row: the status is 1 where one is over it, and 77 where nothing counts instructions.

It runs on Linux alone.
"""
import argparse
import ctypes
import math
import os
import shutil
import subprocess
import sys
import tempfile

from counting import counted, counter
from kinds import KINDS
from rows import ROWS

PR_SET_CHILD_SUBREAPER = 36
SKIPPED = 77

# starts a program that waits for a line before it begins, tells its number, and ends
LAUNCH = 'exec 3<&0; { read -r line <&3; exec "$@" < "$0" 3<&- 2> /dev/null; } & echo $! >&2'


def adopt_children():
    """What a shell leaves becomes a child of this process."""
    ctypes.CDLL(None).prctl(PR_SET_CHILD_SUBREAPER, 1)


def write_script(folder, kind, size):
    """The path of the script of that kind and size, written to the folder."""
    script = os.path.join(folder, "script")
    with open(script, "w", encoding="ascii") as file:
        file.writelines(f"{line}\n" for line in KINDS[kind](size))
    return script


def run(command, script, out):
    """The seconds and the peak, in MiB, of one run, which has to end well.

    A process begins with the peak of what starts it. So a shell does, which is small, and the program waits until that
    is gone, and the program is a child of this one.
    """
    with open(out, "wb") as file:
        shell = subprocess.Popen(["sh", "-c", LAUNCH, script, *command], stdin=subprocess.PIPE, stdout=file, stderr=subprocess.PIPE)
    number = int(shell.stderr.readline())
    shell.wait()
    shell.communicate(b"\n")
    _, status, used = os.wait4(number, 0)
    if status != 0:
        sys.exit(f"{command[0]} ends with status {status} on {script}")
    # (a run of no time that can be told counts as a millisecond)
    return max(used.ru_utime + used.ru_stime, 0.001), used.ru_maxrss / 1024


def measure(program, script, out):
    """The bytes of the script, and the least time and peak of its runs."""
    runs = [run([program], script, out)]
    while len(runs) < 3 and runs[0][0] < 10:
        runs.append(run([program], script, out))
    return os.path.getsize(script), min(it[0] for it in runs), min(it[1] for it in runs)


def show_kinds(program, kinds, sizes):
    adopt_children()
    print("| script | size | bytes | seconds | MiB | ratio of bytes | of times | of memory |")
    print("|---|---|---|---|---|---|---|---|")
    with tempfile.TemporaryDirectory() as folder:
        for kind in kinds or KINDS:
            before = None
            for size in sizes or [1000, 10000, 100000]:
                now = measure(os.path.abspath(program), write_script(folder, kind, size), os.path.join(folder, "out"))
                ratios = [f"{a / b:.1f}" for a, b in zip(now, before)] if before else ["", "", ""]
                length, seconds, peak = now
                row = [kind, f"{size:,}", f"{length:,}", f"{seconds:.3f}", f"{peak:.1f}", *ratios]
                print("| " + " | ".join(row) + " |", flush=True)
                before = now


def runnable(programs, folder):
    """Copies of programs in a folder, by their names: `rt ci` leaves programs without leave to run."""
    copies = {os.path.basename(it): shutil.copyfile(it, os.path.join(folder, os.path.basename(it))) for it in programs}
    for copy in copies.values():
        os.chmod(copy, 0o755)
    return copies


def exponent(row, program, sizes):
    """The millions of instructions of a row at each size, and how they grow between the last two."""
    counts = [counted([program], row.text(it).encode())[1] for it in sizes]
    return [it / 1e6 for it in counts], math.log(counts[-1] / counts[-2]) / math.log(sizes[-1] / sizes[-2])


def show_rows(paths, names, sizes):
    """Prints the rows of programs; how many of them are over their limits."""
    over = 0
    print("| row | sizes | million instructions | exponent | limit |\n|---|---|---|---|---|")
    for row in ROWS:
        if row.program not in paths or names and row.name not in names:
            continue
        at = sizes or row.sizes
        counts, grows = exponent(row, paths[row.program], at)
        is_over = not sizes and grows > row.limit
        over += is_over
        shown = [", ".join(f"{it:,}" for it in at), ", ".join(f"{it:.1f}" for it in counts), f"{grows:.2f}"]
        print("| " + " | ".join([row.name, *shown, f"{row.limit:.2f}" + " is passed" * is_over]) + " |", flush=True)
    return over


def main():
    parser = argparse.ArgumentParser(usage=__doc__)
    parser.add_argument("words", nargs="+")
    parser.add_argument("--rows", action="store_true")
    parser.add_argument("--kind", action="append", default=[])
    asked = parser.parse_intermixed_args()
    sizes = [int(it) for it in asked.words if it.isdigit()]
    programs = [it for it in asked.words if not it.isdigit()]
    if not asked.rows:
        show_kinds(programs[0], asked.kind, sizes)
        return 0
    if counter() is None:
        print("growth: neither perf nor valgrind counts instructions here")
        return SKIPPED
    with tempfile.TemporaryDirectory() as folder:
        return 1 if show_rows(runnable(programs, folder), asked.kind, sizes) else 0


if __name__ == "__main__":
    sys.exit(main())

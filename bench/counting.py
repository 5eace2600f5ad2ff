"""Counts the instructions of a program, which other work on the machine doesn't change."""
import functools
import re
import shutil
import subprocess
import sys

# what runs a program, and where it tells the count: the processor's own where it has one, else valgrind's
COUNTERS = (
    ("perf", ["perf", "stat", "-x,", "-e", "instructions:u"], re.compile(rb"^(\d+),[^\n]*instructions", re.M)),
    ("valgrind", ["valgrind", "--tool=cachegrind", "--cache-sim=no", "--cachegrind-out-file=/dev/null"], re.compile(rb"I +refs: +([\d,]+)")),
)


def told(counter, command, given):
    """What a program writes, how it ends, and its instructions, None where the counter tells none."""
    _, words, pattern = counter
    ran = subprocess.run([*words, *command], input=given, capture_output=True, check=False)
    found = pattern.search(ran.stderr)
    return ran.stdout, ran.returncode, int(found[1].replace(b",", b"")) if found else None


@functools.lru_cache(maxsize=None)
def counter():
    """The first counter that is there and counts, None where there is none."""
    there = (it for it in COUNTERS if shutil.which(it[0]))
    return next((it for it in there if told(it, ["true"], b"")[2]), None)


def counted(command, given, statuses=(0,)):
    """What a program writes for bytes that it is given, and how many instructions it takes; it has to end in one of these ways."""
    by = counter() or sys.exit("neither perf nor valgrind counts instructions here")
    written, status, count = told(by, command, given)
    if status not in statuses or count is None:
        sys.exit(f"{' '.join(command)} ends with status {status}, {count} instructions")
    return written, count

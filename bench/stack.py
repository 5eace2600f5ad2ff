#!/usr/bin/env python3
"""Tells how much stack a program needs: the least with which it ends as it does with the usual one.

    bench/stack.py PROGRAM FILE..        # a line for each input: KiB, and the file

PROGRAM reads standard input: `witgraph` a script, `witgraph_json` a document. It is run with an empty environment, since
the system keeps that on the stack, and always at the same addresses. It runs on Linux alone.
"""
import ctypes
import resource
import subprocess
import sys

MOST = 8192
ADDR_NO_RANDOMIZE = 0x0040000


def run(program, path, kib):
    """What the program answers with so many KiB of stack; None where it can't be begun."""

    def limit():
        ctypes.CDLL(None).personality(ADDR_NO_RANDOMIZE)
        resource.setrlimit(resource.RLIMIT_STACK, (kib * 1024, kib * 1024))

    with open(path, "rb") as file:
        try:
            done = subprocess.run([program], stdin=file, capture_output=True, env={}, preexec_fn=limit)
        except (OSError, subprocess.SubprocessError):
            return None
    return done.returncode, done.stdout


def least(program, path):
    """The least stack with which the answer is the usual one, found by halves."""
    wanted = run(program, path, MOST)
    low, high = 0, MOST
    while high - low > 1:
        middle = (low + high) // 2
        if run(program, path, middle) == wanted:
            high = middle
        else:
            low = middle
    return high


def main(words):
    if len(words) < 2:
        raise SystemExit(__doc__)
    for path in words[1:]:
        print(f"{least(words[0], path):6}  {path}", flush=True)


if __name__ == "__main__":
    main(sys.argv[1:])

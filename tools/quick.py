#!/usr/bin/env python3
"""Runs `rt` as it is, but with what it computes of each library remembered within the run.

    tools/quick.py check --only FUNCTION        in a crate's folder, as `rt check --only FUNCTION`

`rt` computes the sum of a library anew for each way that leads to it, which takes minutes in a crate high in the tree.
For checks by hand: nothing may change while it runs. With --apart in front it waits for no other run, which is only
right where all libraries below are built and no other run works in the same crate. `rt ci` is the judge.
"""
import functools
import sys

from toolchain import loaded


def main(words):
    rt = loaded()
    crate = rt.rtlib.Crate
    below = functools.cache(crate.below)
    crate.below = lambda self: list(below(self))
    crate.stamp = functools.cache(crate.stamp)
    if words[:1] == ["--apart"]:
        words = words[1:]
        rt.rtlib.lock = lambda crates: []
    return rt.main(words)


if __name__ == "__main__":
    sys.exit(main(sys.argv[1:]))

#!/usr/bin/env python3
"""Gives each crate the library that `rt ci` has kept of the same text on this machine, for checks by hand.

    python3 tools/given.py

prints the crates that have theirs. `rt check` and `tools/quick.py` then build what else they need, and `tools/unbuilt.py`
reads it as sources. A library stays until the text of its crate or of one below it changes.
"""
import functools
import os
import shutil
import sys

from toolchain import TOP, loaded


def main():
    os.chdir(TOP)
    rt = loaded()
    rt.rtlib.Crate = crate = rt.Crate
    below = functools.cache(crate.below)
    crate.below = lambda self: list(below(self))
    crate.stamp = functools.cache(crate.stamp)
    crate.allowed = rt.handles_of(TOP)
    kept, given = rt.Kept([]), set()
    for it in rt.rtlib.crates_below(TOP):
        if not it.makes_rlib() or not given.issuperset(dep.name for dep in it.below()):
            continue
        key, stamp = kept.key(it), f"{it.folder}/out/rlib/stamp"
        if rt.rtlib.text_of(f"{stamp}.key") != key or not it.is_built():
            shutil.rmtree(f"{it.folder}/out/rlib", ignore_errors=True)
            if not kept.give(it, False, key):
                continue
            for path, text in (stamp, it.stamp()), (f"{stamp}.key", key):
                with open(path, "w", encoding="utf-8") as file:
                    file.write(text)
        kept.is_built(it)
        given.add(it.name)
    print(*sorted(given))


if __name__ == "__main__":
    sys.exit(main())

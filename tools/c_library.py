#!/usr/bin/env python3
"""Builds the static library over the libraries that `rt ci` has left in the folders `out`.

    python3 tools/c_library.py

leaves crates/witgraph_c/out/libwitgraph_c.a, as `rt lib` there does. But `rt lib` builds first all libraries below, since
it trusts none that another command has left: hours from nothing, and minutes after `rt ci`. Here `witgraph_c` alone is
proved and compiled. Its verdict is that of `rt ci`.
"""
import functools
import os
import sys

from toolchain import TOP, loaded


def main():
    rt = loaded()
    rt.rtlib.Crate.below = functools.cache(rt.rtlib.Crate.below)
    crate = rt.rtlib.Crate(f"{TOP}/crates/witgraph_c", TOP, {})
    lacking = [it.name for it in crate.below() if not os.path.isdir(it.rlib)]
    if lacking:
        sys.exit(f"c_library: nothing is built of {', '.join(lacking)}: run rt ci first")
    os.makedirs(f"{crate.folder}/out", exist_ok=True)
    return crate.build_static(["--jobs", "2"])


if __name__ == "__main__":
    sys.exit(main())

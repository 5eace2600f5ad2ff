#!/usr/bin/env python3
"""Checks functions of a crate before the libraries below it are proved: those that aren't built are read as sources.

    python3 tools/unbuilt.py CRATE FOLDER FUNCTION.. [--allow-holes]

proves the functions, given by name or by module, with all that they call in the crate and in what is read as sources,
and keeps what was proved in FOLDER for the next call; one call at a time uses a folder. The empty name '' proves nothing
and tells in a minute what needs no proof to find. `tools/given.py` first spares what `rt ci` has proved already.
So functions high in the tree can be mended while the crates below are proved; `rt ci` is the judge.
"""
import functools
import os
import subprocess
import sys

from toolchain import TOP, loaded


def is_built(crate):
    return all(os.path.isdir(it.rlib) for it in [crate, *crate.below()])


def passed(crate):
    """How the libraries below a crate are passed on."""
    words = []
    for it in crate.below():
        uses = dict.fromkeys(["core", *it.of_kit, *[dep.name for dep in it.deps]])
        source = f"{it.name}:{','.join(uses)}={it.folder}/src/lib.rt"
        words += ["--extern", f"{it.name}={it.rlib}"] if is_built(it) else ["--lib", source]
    return words


def main(name, kept, *functions):
    rtlib = loaded().rtlib
    below = functools.cache(rtlib.Crate.below)
    rtlib.Crate.below = lambda self: list(below(self))
    rtlib.Crate.sources_below = passed
    folder, kept = f"{TOP}/crates/{name}", os.path.abspath(kept)
    os.makedirs(kept, exist_ok=True)
    os.chdir(folder)
    flags = [word for it in functions for word in ([it] if it.startswith("--") else ["--only", it])]
    words = rtlib.Crate(folder, TOP, {}).words(["--jobs", "1", "--short-goals", *flags], as_source=True)
    return subprocess.run([rtlib.RATTLE, "check", *words, "--incremental", kept, "--progress"]).returncode


if __name__ == "__main__":
    sys.exit(main(*sys.argv[1:]))

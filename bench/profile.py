#!/usr/bin/env python3
"""Shows which functions of a crate take long to check, and at what.

    bench/profile.py FOLDER CRATE [N]

FOLDER is the incremental folder of a check of CRATE from nothing by one job, as `rattle check --jobs 1
--incremental FOLDER` (or `rt lib` in a crate without `out`, whose folder is out/incremental) leaves it. Each
module is written there as it is done, so the time from one file to the next is what the later one took. The
first line has the kinds of modules (`Lts`: the exits of functions, with what they let go; `Proof`: goals that
were searched), then come the N functions (30, where it isn't said) that took longest, in seconds. The first
module of a run also carries its start.
"""
import collections
import os
import sys

# longer gaps are pauses between two checks
PAUSE = 300


def files(folder):
    """The modules of the folder with the times at which they were written, in that order."""
    for at, _, names in os.walk(folder):
        for name in names:
            path = os.path.join(at, name)
            yield os.stat(path).st_mtime, name.removesuffix(".oantt").removesuffix(".decls")


def function_of(name, crate):
    """The function that a module is of, and the module's kind."""
    of, _, path = name.partition(".")
    if of == f"Rattle-{crate}-proofs" and path:
        parts = path.split(".")
        return ".".join(parts[:-1]) or path, parts[-1].split("-")[0]
    return (f"specs: {path}", "specs") if of == f"Rattle-{crate}-specs" else (name, "other")


def main(folder, crate, count="30"):
    seconds, kinds = collections.Counter(), collections.Counter()
    written = sorted(files(folder))
    for (before, _), (after, name) in zip(written, written[1:]):
        if after - before < PAUSE:
            function, kind = function_of(name, crate)
            seconds[function] += after - before
            kinds[kind] += after - before
    print(f"{sum(seconds.values()):.0f}:", ", ".join(f"{kind} {time:.0f}" for kind, time in kinds.most_common(12)))
    for function, time in seconds.most_common(int(count)):
        print(f"{time:8.1f}  {function}")


if __name__ == "__main__":
    main(*sys.argv[1:])

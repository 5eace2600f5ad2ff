#!/usr/bin/env python3
"""Builds the libraries of this repository side by side, for checks by hand.

    tools/libraries.py [LANES [CRATE..]]

builds each library of crates.txt, or those that the named crates stand on, as `rt lib` does with what it kept in
out/, as many at a time as LANES says (4, where it isn't said), those first behind which most waits. Two runs of
`rt lib` wait for each other where they share a library; this is one run. A library that is built already is left.

What `rt ci` builds is the judge; nothing here is a verdict.
"""
import os
import shutil
import sys
import time
from concurrent.futures import FIRST_COMPLETED, ThreadPoolExecutor, wait

from toolchain import TOP, loaded


def build(crate, jobs):
    """Whether a library is built, with what was said of it in its out/library.log."""
    os.makedirs(f"{crate.folder}/out", exist_ok=True)
    if crate.is_built():
        return True
    began = time.time()
    with open(f"{crate.folder}/out/library.log", "w+", encoding="utf-8", errors="replace") as crate.out:
        status = crate.build_rlib(["--jobs", str(jobs)], anew=False)
    print(f"{crate.name}: {'built' if not status else 'NOT BUILT, see its out/library.log'} ({time.time() - began:.0f} seconds)", flush=True)
    return not status


def main(lanes=4, *names):
    os.chdir(TOP)
    rtlib = loaded().rtlib
    rtlib.guarded()
    crates = sorted(rtlib.crates_below(TOP), key=lambda crate: len(crate.below()))
    wanted = {below for crate in crates if crate.name in names for below in crate.below()} if names else {below for crate in crates for below in crate.deps}
    left = [crate for crate in crates if crate in wanted]
    behind = {crate: sum(crate in other.below() for other in crates) for crate in left}
    done, running = {}, {}
    with ThreadPoolExecutor(int(lanes)) as pool:
        while left or running:
            for crate in [it for it in left if any(done.get(below) is False for below in it.below())]:
                done[crate] = False
                left.remove(crate)
            ready = sorted((it for it in left if all(done.get(below) for below in it.below())), key=lambda it: -behind[it])
            idle = int(lanes) - sum(jobs for _, jobs in running.values())
            for count, crate in enumerate(ready):
                if idle > 0:
                    jobs = max(1, min(3, idle // (len(ready) - count)))
                    running[pool.submit(build, crate, jobs)] = crate, jobs
                    left.remove(crate)
                    idle -= jobs
            for it in wait(running, return_when=FIRST_COMPLETED).done:
                done[running.pop(it)[0]] = it.result()
    return 0 if all(done.values()) else 1


if __name__ == "__main__":
    sys.exit(main(*sys.argv[1:]))

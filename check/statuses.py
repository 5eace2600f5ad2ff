#!/usr/bin/env python3
"""Asks with which status programs end, and what they write, where their input or output isn't what it has to be.

    python3 check/statuses.py [--witgraph PROGRAM] [--json PROGRAM] [--dot PROGRAM]

The programs are those that `rt ci` leaves. What docs/SCRIPT.md, docs/JSON.md and docs/PICTURES.md say of each: an input that
isn't UTF-8, a read or a write that fails, a script that isn't understood, arguments. Ends with status 1 where one does
otherwise. With little memory `witgraph_json` refuses a question whose answer is long, and answers the others.
"""
import argparse
import json
import os
import resource
import shutil
import subprocess
import sys
import tempfile

TOP = os.path.dirname(os.path.dirname(os.path.abspath(__file__)))
SCRIPT, NO_SCRIPT, NO_UTF8 = b"package a:b\npush\n", b"package a:b\ninterface i_i\npush\n", b"package a:b\xff\npush\n"
DOCUMENT = b'{"commands":["package-order"]}'
OUT = (b'{"replies":[{"packages":[]}],"resolve":{"graph":{"worlds":[],"interfaces":[],"types":[],"packages":[]},'
       b'"details":{"worlds":[],"interfaces":[],"types":[]},"features":{"all":false,"names":[]},"track-rule":"published","sources":[]}}')
REASON = b"line 2: i_i is no kebab name\n      |\n    2 | interface i_i\n      | ^------------\n"
VERSION, ANY = open(f"{TOP}/VERSION", "rb").read().strip(), b"\xff.."
USAGE, USAGE_DOT = b"usage: witgraph_json < DOCUMENT\n", b"usage: witgraph_dot < SCRIPT\n"
# Of each program: arguments, input (None: one that can't be read), whether it can be written; the status, what is written,
# and what standard error has, where that isn't nothing. ANY is whatever comes there.
RUNS = {
    "witgraph": [
        ([], SCRIPT, True, 0, b"pushed a:b\n"),
        (["--help"], SCRIPT, True, 0, b"pushed a:b\n"),
        ([], NO_SCRIPT, True, 1, b"line 3: not understood\n"),
        ([], NO_UTF8, True, 1, b""),
        ([], None, True, 1, b""),
        ([], SCRIPT, False, 1, b""),
    ],
    "witgraph_json": [
        ([], DOCUMENT, True, 0, OUT),
        ([], b"[]", True, 1, b'{"fault":{"path":[],"offset":0,"line":1,"column":1,"expected":"an object"}}'),
        ([], b'{"commands":["\xff"]}', True, 1, b"", b"witgraph_json: the document isn't UTF-8\n"),
        ([], None, True, 1, b"", b"witgraph_json: the document can't be read\n"),
        ([], DOCUMENT, False, 1, b"", b"witgraph_json: the output can't be written\n"),
        (["--help"], DOCUMENT, True, 0, USAGE + ANY),
        (["--version"], DOCUMENT, True, 0, b"witgraph_json " + VERSION + b"\n"),
        (["--help", "more"], DOCUMENT, True, 2, b"", USAGE + ANY),
        (["--helps"], DOCUMENT, True, 2, b"", USAGE + ANY),
        (["document.json"], DOCUMENT, True, 2, b"", USAGE + ANY),
        (["a name that is longer than any option"], DOCUMENT, True, 2, b"", USAGE + ANY),
    ],
    "witgraph_dot": [
        ([], NO_SCRIPT, True, 1, REASON),
        ([], NO_UTF8, True, 1, b"", b"witgraph_dot: the script isn't UTF-8\n"),
        ([], None, True, 1, b"", b"witgraph_dot: the script can't be read\n"),
        ([], SCRIPT, False, 1, b"", b"witgraph_dot: the picture can't be written\n"),
        (["--help"], SCRIPT, True, 0, USAGE_DOT + ANY),
        (["--help"], SCRIPT, False, 1, b""),
        (["--version"], SCRIPT, True, 0, b"witgraph_dot " + VERSION + b"\n"),
        (["--version", "more"], SCRIPT, True, 2, b"", USAGE_DOT + ANY),
        (["chain.script"], SCRIPT, True, 2, b"", USAGE_DOT + ANY),
    ],
}


def ran(program, words, given, is_written, **environment):
    """The status of a run, what it writes, and what it tells. Of a folder nothing can be read, and /dev/full takes nothing."""
    with tempfile.TemporaryFile() as file:
        file.write(given or b"")
        file.seek(0)
        source = os.open(TOP, os.O_RDONLY) if given is None else os.dup(file.fileno())
        with open("/dev/full", "wb") as full:
            out = subprocess.PIPE if is_written else full
            done = subprocess.run([program, *words], stdin=source, stdout=out, stderr=subprocess.PIPE, timeout=60, **environment)
        os.close(source)
    return done.returncode, done.stdout or b"", done.stderr


def faults(name, program):
    """What a program does otherwise."""
    for words, given, is_written, status, *expected in RUNS[name]:
        ended, written, told = ran(program, words, given, is_written)
        wanted_out, wanted_told = (*expected, b"")[:2]
        if ended != status or not is_same(written, wanted_out) or not is_same(told, wanted_told):
            yield f"{name} {words} of {given}: status {ended}, {written}, {told}; {status}, {expected} are expected"


def doubled(depth):
    """A document that asks which futures the values of a function hold, tuples nested so deep: two to the power of that."""
    types = [{"name": "t0", "kind": {"future": "u8"}, "owner": {"interface": 0}}]
    for it in range(depth):
        types.append({"name": f"t{it + 1}", "kind": {"tuple": {"types": [it, it]}}, "owner": {"interface": 0}})
    function = {"name": "f", "kind": "freestanding", "params": [{"name": "p", "type": depth}]}
    names = {it["name"]: at for at, it in enumerate(types)}
    interface = {"name": "i", "types": names, "functions": {"f": function}}
    main = {"name": "a:b", "types": types, "interfaces": [interface], "worlds": [], "foreign-deps": {},
            "foreign-dep-spans": [], "unknown-type-spans": [], "required-resources": []}
    place = {"package": "a:b", "name": "i", "function": "f"}
    commands = [{"push-groups": {"main": {"main": main, "nested": [], "sources": []}, "deps": []}},
                {"futures-and-streams": {"interface": place}}, "package-order"]
    return json.dumps({"commands": commands}).encode()


def lost(program):
    """Where a long answer takes others with it, whatever memory there is."""
    for depth, sizes in ((22, range(20, 90, 5)), (40, [100])):
        for size in sizes:
            limit = size << 20
            ended, written, told = ran(program, [], doubled(depth), True,
                                       preexec_fn=lambda limit=limit: resource.setrlimit(resource.RLIMIT_AS, (limit, limit)))
            replies = json.loads(written or b"{}").get("replies")
            refused = replies and replies[1].get("refused", {}).get("error", {}).get("number") == 28
            known = depth == 22 and replies and replies[1] == {"types": [0] * 2 ** depth}
            if ended or told or not replies or replies[::2] != [{"pushed": 0}, {"packages": [0]}] or not (refused or known):
                yield f"{depth} pairs in {size} MiB: status {ended}, {written[:200]}, {told}"


def is_same(text, wanted):
    """Whether a text is what is wanted, or begins so where anything may come behind that."""
    return text.startswith(wanted.removesuffix(ANY)) if wanted.endswith(ANY) else text == wanted


def main():
    parser = argparse.ArgumentParser()
    for name, option in zip(RUNS, ("--witgraph", "--json", "--dot")):
        parser.add_argument(option, dest=name, default=f"{TOP}/crates/{name}/out/{name}")
    wrong, asked = [], vars(parser.parse_args())
    with tempfile.TemporaryDirectory() as folder:
        for name, path in asked.items():
            if not os.path.isfile(path):
                sys.exit(f"statuses: {path} isn't there: run rt ci first")
            # `rt ci` leaves programs without leave to run
            copy = shutil.copyfile(path, f"{folder}/{name}")
            os.chmod(copy, 0o755)
            wrong += faults(name, copy)
            if name == "witgraph_json":
                wrong += lost(copy)
    print("\n".join([*wrong, f"statuses: {sum(map(len, RUNS.values()))} runs, {len(wrong)} wrong"]))
    return 1 if wrong else 0


if __name__ == "__main__":
    sys.exit(main())

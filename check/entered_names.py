#!/usr/bin/env python3
"""Tells what in check/not-entered.txt is no longer so by the source alone: in a second, without the programs of check/entered.py.

    python3 check/entered_names.py            names lines without a reason, lines that stand twice, and functions or lines of the
                                              source that aren't there; status 1 where there is one
    python3 check/entered_names.py --moved    gives functions that have moved the names that they have now, where there is just
                                              one of their name; what is left is told

A line is `FUNCTION BLOCK: FILE`, and behind that often `: LINE`. Whether a block is still there, and still isn't entered, only
`check/entered.py` tells: `--made` writes the file anew, and blocks keep their reasons.
"""
import collections
import functools
import glob
import os
import re
import sys

CHECK = os.path.dirname(os.path.abspath(__file__))
TOP = os.path.dirname(CHECK)
NAMED = f"{CHECK}/not-entered.txt"
NO_REASON = "no reason yet"
HEAD = re.compile(r"^(?:unsafe )?(?:impl|(?:pub(?:\(crate\))? )?trait)\b(.*)")
FUNCTION = re.compile(r"^( *)(?:pub(?:\(\w+\))? )?(?:const )?fn (\w+)")
TYPE = re.compile(r"^ *(?:pub(?:\(\w+\))? )?(?:struct|enum) (\w+)")
DERIVE = re.compile(r"#\[derive(?:_where)?\((.*)\)\]")


def read(path):
    with open(path, encoding="utf-8", newline="") as file:
        return file.read()


def owners(head):
    """The type of an impl, and the names that its functions have before theirs: the type, and behind that the trait, both
    with the types that they are made for or without."""
    whole = re.split(r"\{|\bwhere\b", re.sub(r"^\s*<[^<>]*(?:<[^<>]*>[^<>]*)*>", "", head))[0]
    whole = re.sub(r"\w+::|'\w+", "", whole)
    bare = whole
    while re.search(r"<[^<>]*>", bare):
        bare = re.sub(r"<[^<>]*>", "", bare)
    names = set()
    for text in (bare, whole):
        trait, _, of = text.rpartition(" for ")
        names.add("".join(re.findall(r"\w+", of) + re.findall(r"\w+", trait)))
    return (re.findall(r"\w+", bare.rpartition(" for ")[2]) or [""])[0], names


class Sources:
    """The functions of all crates, and where their types are."""

    def __init__(self, top=TOP):
        self.free, self.methods = collections.defaultdict(set), collections.defaultdict(set)
        self.types, self.derived, self.of_impl = collections.defaultdict(set), collections.defaultdict(set), {}
        for path in glob.glob(f"{top}/crates/*/src/**/*.rt", recursive=True):
            crate, _, *parts = os.path.relpath(path, f"{top}/crates").removesuffix(".rt").split(os.sep)
            self.add(crate, [] if parts in (["lib"], ["main"]) else parts, read(path).split("\n"))

    def add(self, crate, module, lines):
        names, derived = set(), []
        for line in lines:
            if head := HEAD.match(line):
                of, names = owners(head[1])
                self.of_impl |= {name: of for name in names}
            elif (function := FUNCTION.match(line)) and function[1]:
                for of in names:
                    self.methods[of, function[2]].add(crate)
            elif function:
                self.free[function[2]].add((crate, *module))
            elif derive := DERIVE.search(line):
                derived = re.findall(r"\w+", derive[1])
            elif declared := TYPE.match(line):
                self.types[declared[1]].add((crate, *module))
                for trait in derived:
                    self.derived[declared[1] + trait].add((crate, *module))
                derived = []

    def parts(self, function):
        """The crate with its modules, the type if there is one, and the function itself, of a closure that which has it."""
        names = re.sub(r"\+.*", "", function).split("::")
        if "fn" in names:
            at = names.index("fn")
            names = names[:at] + [names[at + 1]]
        is_method = len(names) > 2 and names[-2][0].isupper()
        return (tuple(names[:-2]), names[-2], names[-1]) if is_method else (tuple(names[:-1]), "", names[-1])

    def homes(self, of, name):
        """The modules of the functions of this name: of methods those of their types."""
        if not of:
            return self.free[name]
        crates = self.methods[of, name]
        typed = {home for home in self.types[self.of_impl.get(of, of)] if home[0] in crates}
        return typed or {(crate,) for crate in crates} or self.derived[of]

    def stands(self, function):
        module, of, name = self.parts(function)
        return any(home[0] == module[0] if of else home == module for home in self.homes(of, name))

    def moved(self, function):
        """The name that a function has now which isn't where it was, if there is just one."""
        module, of, name = self.parts(function)
        homes = self.homes(of, name)
        alike = {home for home in homes if home[-1] == module[-1]}
        found = sorted(alike or homes)
        if len(found) != 1:
            return None
        rest = re.sub(r"\+.*", "", function).split("::")[len(module):]
        return "::".join([*found[0], *rest]) + "".join(re.findall(r"\+.*", function))


def entries():
    """The lines of the file, each with what it names: a block, where it is, and the reason above it."""
    reason = NO_REASON
    for line in read(NAMED).splitlines():
        if line.startswith("# "):
            reason = line[2:]
        elif line:
            block, _, place = line.partition(": ")
            yield line, block, place, reason


@functools.cache
def lines_of(path):
    return [line.strip() for line in read(f"{TOP}/{path}").split("\n")] if os.path.isfile(f"{TOP}/{path}") else None


def faults(sources):
    """What is wrong with the file, a line each."""
    seen = set()
    for line, block, place, reason in entries():
        function = block.rpartition(" ")[0]
        path, _, text = place.partition(": ")
        if reason.startswith(NO_REASON):
            yield f"no reason: {line}"
        if block in seen:
            yield f"twice: {line}"
        seen.add(block)
        if not sources.stands(function):
            yield f"no such function: {line}"
        elif lines_of(path) is None:
            yield f"no such file: {line}"
        elif text and text not in lines_of(path):
            yield f"no such line: {line}"


def renamed(sources):
    """The file with the names that functions have now."""
    for line in read(NAMED).splitlines():
        function, space, rest = line.partition(" ")
        now = None if not line or line.startswith("#") or sources.stands(function) else sources.moved(function)
        yield f"{now}{space}{rest}" if now else line


def main(*words):
    sources = Sources()
    if words == ("--moved",):
        made = "\n".join(renamed(sources)) + "\n"
        with open(NAMED, "w", encoding="utf-8") as file:
            file.write(made)
    elif words:
        sys.exit(__doc__)
    found = list(faults(sources))
    print("\n".join([*found, f"not-entered: {len(list(entries()))} blocks, {len(found)} wrong"]))
    return 1 if found else 0


if __name__ == "__main__":
    sys.exit(main(*sys.argv[1:]))

#!/usr/bin/env python3
"""Tells where another version stands than in the file VERSION at the top: `python3 check/version.py`.

Looked at are the header, the Python package, the crates of cargo that users take, the programs, the changelog, and what
documents name of a release. Ends with status 1 where one differs, or where a file has no version at all.
"""
import glob
import re
import sys
from pathlib import Path

TOP = Path(__file__).resolve().parent.parent
# In a file, or in each of several, what stands in the place of the version; the files that must have it.
PLACES = {
    "include/witgraph.h": r'#define WITGRAPH_VERSION "(.*)"',
    "bindings/python/witgraph/__init__.py": r'__version__ = "(.*)"',
    "plain/**/Cargo.toml": r'(?m)\A\[package\][^\[]*^version = "(.*)"',
    "CHANGELOG.md": r"\A[^#]*# [^#]*## (\S+)",
}
# The same of what may lack.
OTHERS = {
    "crates/*/src/*.rt": r'(?m)^(?:pub )?const VERSION: &str = "(.*)"',
    "bindings/**/*.md": r"witgraph-(\d+\.\d+\.\d+)",
    "README.md": r"witgraph-(\d+\.\d+\.\d+)",
}
NUMBERS = r"(?s)WITGRAPH_VERSION_MAJOR (\d+)\n.*WITGRAPH_VERSION_MINOR (\d+)\n.*WITGRAPH_VERSION_PATCH (\d+)\n"


def files(pattern):
    return sorted(Path(it) for it in glob.glob(str(TOP / pattern), recursive=True) if "/target/" not in it)


def versions(places):
    """Each file with the versions that it has."""
    for pattern, mark in places.items():
        for path in files(pattern):
            yield path.relative_to(TOP), re.findall(mark, path.read_text(encoding="utf-8"))


def stale(version):
    """What is to be told."""
    for pattern in PLACES:
        if not files(pattern):
            yield f"{pattern} isn't there"
    for path, found in versions(PLACES):
        if len(found) != 1:
            yield f"{path} has {len(found)} versions"
    for path, found in (*versions(PLACES), *versions(OTHERS)):
        yield from (f"{path} has {it}" for it in found if it != version)
    numbers = re.findall(NUMBERS, (TOP / "include/witgraph.h").read_text(encoding="utf-8"))
    if [".".join(it) for it in numbers] != [version]:
        yield f"include/witgraph.h has the numbers {numbers}"


def main():
    version = (TOP / "VERSION").read_text(encoding="utf-8").strip()
    found = list(stale(version))
    print("\n".join([*found, f"version: {version}, {len(found)} stale"]))
    return 1 if found else 0


if __name__ == "__main__":
    sys.exit(main())

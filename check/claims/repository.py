"""The files of the repository, as git tracks them."""
import functools
import glob
import os
import subprocess

TOP = os.path.dirname(os.path.dirname(os.path.dirname(os.path.abspath(__file__))))


@functools.cache
def read(path):
    with open(f"{TOP}/{path}", encoding="utf-8", errors="replace") as file:
        return file.read()


@functools.cache
def tracked():
    listed = subprocess.run(
        ["git", "ls-files", "-co", "--exclude-standard"], cwd=TOP, stdout=subprocess.PIPE, check=True
    )
    return [path for path in listed.stdout.decode().split("\n") if path and os.path.exists(f"{TOP}/{path}")]


def documents():
    return [path for path in tracked() if path.endswith(".md")]


@functools.cache
def crates():
    return sorted(os.path.basename(path) for path in glob.glob(f"{TOP}/crates/*"))


@functools.cache
def edits():
    return [path for path in tracked() if path.endswith(".edit")]


@functools.cache
def sources(crate):
    """The files of code of a crate."""
    return [path for path in tracked() if path.startswith(f"crates/{crate}/src/") and path.endswith(".rt")]


@functools.cache
def specs(crate):
    """The files of definitions at the top of a crate's `specs`."""
    begin = f"crates/{crate}/specs/"
    return [path for path in tracked() if path.startswith(begin) and path.endswith(".antt")]


@functools.cache
def uses():
    """The crates that each crate names, by crates.txt."""
    found = {}
    for line in read("crates.txt").split("\n"):
        name, _, others = line.partition("#")[0].partition(":")
        if name.strip():
            found[name.split()[0]] = others.split()
    return found

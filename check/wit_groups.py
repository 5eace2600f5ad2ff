#!/usr/bin/env python3
"""Compares the groups that `wit_groups` reads of files of WIT with those of tools/wit, the strict model, on texts made at random.

    check/wit_groups.py [--many N] [--first N] [--out FOLDER] [FILE..]

`tools/plain_rust` makes Rust of `wit_groups`, and cargo a program of it in FOLDER, which prints groups as JSON. The files are
FILEs; or those of examples/, the texts of tools/test_wit.py, each of which has a fault, texts of WIT by check/wit_writer.py,
the same and those of examples/ changed in a few places, and folders of files. Of each group all is compared: each member of
the JSON, or the fault with its words and its bytes. A difference is printed, and the status is 1 then.
"""
import argparse
import collections
import json
import pathlib
import shutil
import subprocess
import sys
import tempfile

TOP = pathlib.Path(__file__).resolve().parent.parent
sys.path[:0] = [str(TOP / "tools"), str(TOP / "check")]

import test_wit  # noqa: E402
import wit  # noqa: E402
import wit2json  # noqa: E402
import wit_tokens  # noqa: E402
import wit_writer  # noqa: E402
from plain_rust import layout, packages  # noqa: E402
from plain_rust.crates import in_order  # noqa: E402

CRATES = in_order(["wit_groups", "wit_json"])
MAIN = pathlib.Path(__file__).with_name("wit_groups.rs")


def program(out):
    """The program in a folder."""
    src = out / "src"
    shutil.rmtree(src, ignore_errors=True)
    shutil.copytree(layout.BY_HAND / "src" / "shim", src / "shim")
    for crate in CRATES:
        layout.write_crate(out, crate, CRATES)
    layout.write(src / "made" / "mod.rs", "".join(f"pub mod {it};\n" for it in CRATES))
    shutil.copy(MAIN, src / "main.rs")
    layout.write(out / "Cargo.toml", wit_tokens.CARGO.replace("wit-tokens", "wit-groups"))
    packages.take(out)
    subprocess.run(["cargo", "build", "--quiet", "--release"], cwd=out, check=True)
    return out / "target" / "release" / "wit-groups"


def wanted(files):
    """What the model says of files: a group as JSON, or the first fault with its bytes."""
    report = wit.Report()
    read = [wit.File(path, text) for path, text in sorted(files.items())]
    group = wit.group_in(read, "p", report)
    if group:
        return json.loads(json.dumps(wit2json.group_of(group)))
    fault = report.problems[0]
    span = wit.Places(read).span(fault.file, fault.span) if fault.span else None
    return f"fault {span[0]}-{span[1]} {fault}" if span else f"fault - {fault}"


def found(line):
    """What the program tells: a group as JSON, or a fault."""
    return line if line.startswith("fault ") else json.loads(line)


def groups(asked):
    """The files of each group, with its name."""
    paths = sorted((TOP / "examples").rglob("*.wit"))
    known = [wit.opened(str(it)).text for it in paths]
    for path in asked.files:
        yield path, {"p.wit": wit.opened(path).text}
    if asked.files:
        return
    for path, text in zip(paths, known):
        yield f"{path}", {"p.wit": text}
    for folder in sorted({it.parent for it in paths}):
        yield f"{folder}", {it.name: text for it, text in zip(paths, known) if it.parent == folder}
    for name, cases in test_wit.CASES.items():
        yield from ((name, {"p.wit": f"package a:b;\n{text}"}) for text, _, _ in cases)
    for n in range(asked.first, asked.first + asked.many):
        yield f"written {n}", {"p.wit": wit_writer.written(n)}
        yield f"gentle {n}", {"p.wit": wit_writer.gentle(n)}
        yield f"changed {n}", {"p.wit": wit_writer.changed(n, known)}
        yield f"folder {n}", wit_writer.folder(n)


def given(files):
    parts = [b"%d\n" % len(files)]
    for path, text in sorted(files.items()):
        parts.append(b"%s\n%d\n%s" % (path.encode(), len(text.encode()), text.encode()))
    return b"".join(parts)


def first_difference(here, there, path=""):
    """The first place at which two values differ."""
    if isinstance(here, dict) and isinstance(there, dict):
        if list(here) != list(there) and set(here) != set(there):
            return f"{path}: members {list(here)} / {list(there)}"
        if list(here) != list(there) and path.rpartition(".")[2] in ("types", "functions", "imports", "exports", "foreign-deps"):
            return f"{path}: order {list(here)} / {list(there)}"
        pairs = [(f"{path}.{it}", here[it], there[it]) for it in here]
    elif isinstance(here, list) and isinstance(there, list) and len(here) == len(there):
        pairs = [(f"{path}[{n}]", *pair) for n, pair in enumerate(zip(here, there))]
    else:
        return None if here == there and type(here) is type(there) else f"{path}: {here!r} / {there!r}"
    return next(filter(None, (first_difference(a, b, at) for at, a, b in pairs)), None)


def main():
    usage = argparse.ArgumentParser(description=__doc__, formatter_class=argparse.RawDescriptionHelpFormatter)
    usage.add_argument("files", metavar="FILE", nargs="*")
    usage.add_argument("--many", type=int, default=1000)
    usage.add_argument("--first", type=int, default=0)
    usage.add_argument("--out", type=pathlib.Path)
    asked = usage.parse_args()
    with tempfile.TemporaryDirectory(prefix="wit-groups-") as folder:
        read = program((asked.out or pathlib.Path(folder)).resolve())
        named = list(groups(asked))
        told = subprocess.run([read], input=b"".join(given(it) for _, it in named), stdout=subprocess.PIPE, check=True)
    counts, differences = collections.Counter(), 0
    for (name, files), line in zip(named, told.stdout.decode().split("\n"), strict=False):
        here, there = found(line), wanted(files)
        counts["read" if isinstance(here, dict) else " ".join(here.split("`")[0].split()[2:])] += 1
        differ = first_difference(here, there)
        if differ:
            differences += 1
            print(f"{name}\n  {differ}\n{files!r}\n"[:3000])
    for what, count in counts.most_common():
        print(f"{count:9} {what}")
    return 1 if differences else 0


if __name__ == "__main__":
    sys.exit(main())

"""Commands that documents show: whether what they name is there, made before it is run, and has such an option; and
whether what a program prints stands beside its input as it is stored."""
import functools
import os
import re
import shutil
import subprocess

from claims.markdown import blocks, commands_of, spans, without_blocks
from claims.names import is_path, is_placeholder
from claims.repository import TOP, crates, documents, read, tracked

OPTION = r"(?<![\w-])--[a-z][a-z-]*"
TOOL = r"(?:tools|check|bench|docs|examples)/[\w./-]*\w|\.ci/run"
# What programs of others take that are shown in a command.
CARGO = {"--example", "--bin", "--features", "--release", "--config", "--offline", "--open"}
VARIABLES = {"WITGRAPH_LIBRARY", "WITGRAPH_SHARED", "WITGRAPH_HEAP"}


def said_by(*command):
    return subprocess.run(command, stdout=subprocess.PIPE, stderr=subprocess.STDOUT, text=True).stdout


@functools.cache
def toolchain():
    """What `rt help` and the toolchain's first page say; empty where it isn't on the PATH."""
    if not shutil.which("rt"):
        return ""
    with open(said_by("rt", "doc").strip(), encoding="utf-8") as page:
        return said_by("rt", "help") + page.read()


@functools.cache
def top_folders():
    return {it.split("/")[0] for it in tracked()}


def stale_paths(path, text):
    for line in commands_of(text):
        for token in re.findall(r"[\w.-]+/[\w./?*-]*", line):
            if token.split("/")[0] in top_folders() and not is_placeholder(token) and token not in made():
                if not (is_path(token.rstrip(".")) or is_path(f"{os.path.dirname(path)}/{token}")):
                    yield f"the path {token} of a command"


def made_by(line):
    """The files that a command makes."""
    yield from re.findall(r"(?:trial-build \S+|plain-rust(?: --\S+)*|tools/release|-o|(?<!<)>|build\.sh \S+) ([\w./-]+)", line)


@functools.cache
def made():
    return {it for path in documents() for line in commands_of(read(path)) for it in made_by(line)}


def stale_builds(_, text):
    """A command builds a crate that is there, under its name; what stands in /tmp was made by another command."""
    for line in commands_of(text):
        for crate, out in re.findall(r"trial-build (\w+) (\S+)", line):
            name = re.sub(r"^lib(.*)\.a$", r"\1", os.path.basename(out))
            if crate not in crates() or name != crate:
                yield f"the build of {crate} as {out}"
        used = set(re.findall(r"/tmp/[\w.-]+", line)) - set(made_by(line)) - made()
        yield from (f"{it} of a command, which none makes" for it in sorted(used))
        yield from (f"the variable {it}" for it in re.findall(r"\b([A-Z_]+)=", line) if it not in VARIABLES)


def has_option(program, option):
    """Whether a program takes an option, as far as its text or its help says."""
    if program == "rt":
        return not toolchain() or option in toolchain()
    if program == "cargo":
        return option in CARGO
    there = [it for it in tracked() if it == program]
    if option == "--help" and there:
        return "argparse" in read(program) or option in read(program)
    return not there or bool(re.search(rf"{option}(?![\w-])", read(program)))


def calls_in(line):
    """The programs of a line, each with the part of the line that is its."""
    for part in re.split(r"\||&&|\(|\)", line):
        if program := re.search(rf"(?:^|\s)({TOOL}|rt|cargo)(?=\s|$)", part):
            yield program[1], part


def stale_options(_, text):
    shown = [*commands_of(text), *spans(without_blocks(text))]
    for line in shown:
        for program, part in calls_in(line):
            for option in re.findall(OPTION, part.partition(" -- ")[0]):
                if not has_option(program, option):
                    yield f"the option {option} of {program}"
            if program == "rt" and toolchain():
                if (word := re.search(r"\brt ([a-z-]+)", part)) and not re.search(rf"(?m)\b{word[1]}\b", toolchain()):
                    yield f"the command rt {word[1]}"
    for row in re.findall(r"(?m)^\| .*$", text):
        program = next((it[1] for span in spans(row) if (it := re.match(rf"({TOOL})(?=\s|$)", span))), None)
        for option in [span for span in spans(row) if re.fullmatch(OPTION, span)]:
            if program and not any(has_option(it, option) for it in re.findall(TOOL, row)):
                yield f"the option {option} of {program}"


@functools.cache
def version():
    """What `rt version` says, empty where the toolchain isn't on the PATH."""
    return said_by("rt", "version") if shutil.which("rt") else ""


def stale_version(_, text):
    for logic in re.findall(r"\blogic [0-9a-f]{16}\b", text):
        if version() and logic not in version():
            yield f"{logic}: the toolchain has {version().strip()}"


def stale_examples(path, text):
    """A cargo example is there; a folder that a command goes to has the file that it reads."""
    for line in commands_of(text):
        for name in re.findall(r"--example (\w+)", line):
            if not any(it.endswith(f"/examples/{name}.rs") for it in tracked()):
                yield f"the example {name}"
        for folder, file in re.findall(r"cd (\S+) && rt run < (\w+)", line):
            if f"{folder}/{file}" not in tracked():
                yield f"{file} of {folder}"


def stale_output(_, text):
    """A block in two columns, each headed by the file that it has."""
    for block in blocks(text):
        head, *lines = block.split("\n")
        if not (columns := re.fullmatch(r"(crates/\S+)( +)(crates/\S+)", head)):
            continue
        at = len(columns[1] + columns[2])
        for name, shown in (columns[1], [it[:at].rstrip() for it in lines]), (columns[3], [it[at:] for it in lines]):
            if name not in tracked() or "\n".join(shown).strip("\n") != read(name).strip("\n"):
                yield f"the block of {name} isn't that file"
        if not any(f"< {columns[1]}" in line for line in commands_of(text)):
            yield f"{columns[1]} is read by no command"


CHECKS = [stale_paths, stale_builds, stale_options, stale_version, stale_examples, stale_output]

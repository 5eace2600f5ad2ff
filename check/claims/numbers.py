"""Numbers: what is counted, tables that a tool has too, numbers of definitions, and figures that a run gave."""
import functools
import importlib
import math
import os
import re
import sys

from claims.markdown import rows_of, spans, without_blocks
from claims.refusals import numbers
from claims.repository import TOP, crates, documents, edits, read, tracked
from claims.scripts import cases

ARCHITECTURE, DEFINITIONS, DIFFERENCES = "docs/ARCHITECTURE.md", "docs/DEFINITIONS.md", "docs/DIFFERENCES.md"
PERFORMANCE = "docs/PERFORMANCE.md"
# the folders whose page names each file that lies there
LISTED = ("bench", "check", "tools")
# Sizes that are chosen and not found; all other numbers with a comma are figures.
SIZES = {"1,000", "1,024", "2,000", "4,000", "10,000", "16,000", "20,000", "100,000", "1,000,000"}
# The documents in which a figure stands beside the command that gives it.
WITH_COMMANDS = ("docs/GUARANTEES.md", "docs/DIFFERENCES.md", "docs/DECISIONS.md", "check/README.md")
FIGURE = r"(?<![\d.,])\d{1,3}(?:,\d{3})+(?!\d|,\d)"
MEASURED = r"(?<![\d.,])(\d[\d.,]*) (seconds?|s|ms|minutes|hours|KiB|MiB|GiB|kB|MB|GB)\b"


@functools.cache
def named_edits():
    line = re.search(r"(?m)^- The wrong bodies that have a name.*$", read("CONTRIBUTING.md"))
    return re.findall(r"`([a-z-]+)`", line[0].partition(": ")[2].partition(". ")[0])


# What is counted: the words that stand behind a number, and the count.
COUNTED = {
    "crates": lambda: len(crates()),
    "stored cases": lambda: len(cases()),
    "worked scripts": lambda: len(cases()),
    "edits": lambda: len(edits()),
    "named wrong bodies": lambda: len(named_edits()),
    "refusals": lambda: len(numbers()),
    "listed reasons": lambda: len(numbers()),
    "numbers": lambda: len(numbers()),
}


def stale_counts(_, text):
    for what, count in COUNTED.items():
        for number in re.findall(rf"(?<![\d.,])(\d[\d,]*) {what}\b", without_blocks(text)):
            if int(number.replace(",", "")) != count():
                yield f"{number} {what}: there are {count():,}"


def stale_rows(path, text):
    if path == DIFFERENCES:
        rows = re.search(r"(?ms)^ROWS = \{(.*?)^\}", read("check/differences.py"))[1]
        yield from (f"no row {row}" for row in re.findall(r'(?m)^    "(.*?)"', rows) if f"\n| {row} |" not in text)
    if path == ARCHITECTURE:
        yield from (f"no word of {crate}" for crate in crates() if not re.search(rf"\b{crate}\b", text))
        users = [it for it in re.findall(r"\*\*(wit\w*)\*\*", text) if it in crates()]
        yield from (f"no page of {it}" for it in users if f"crates/{it}/CALLING.md" not in tracked())
    if path == DEFINITIONS and made(text) != text:
        yield "the numbers of the steps: check/documents --make writes them"


def stale_lists(path, text):
    """The page of a folder of programs names each file and folder that lies there."""
    folder, name = os.path.split(path)
    if name == "README.md" and folder in LISTED:
        inside = {it[len(folder) + 1 :].split("/")[0] for it in tracked() if it.startswith(f"{folder}/")}
        yield from (f"no word of {it}" for it in sorted(inside - {name}) if not is_listed(it, text))


def is_listed(name, text):
    """Whether a page names a file, or tests in general where it names no test by itself."""
    return f"`{name}" in text or f"/{name}`" in text or name.startswith("test_") and "`test_NAME.py`" in text


# ---- figures


def figures_of(text):
    """The figures of a text: numbers with a comma that aren't sizes, and numbers with a unit that have a point."""
    prose = without_blocks(text)
    found = {it for it in re.findall(FIGURE, prose) if it not in SIZES}
    return found | {f"{number} {unit}" for number, unit in re.findall(MEASURED, prose) if "." in number or len(number) > 2}


@functools.cache
def places():
    """The documents in which each figure stands; the counts of lines that are made are none."""
    found = {}
    for path in documents():
        if path != DEFINITIONS:
            for it in figures_of(read(path)):
                found.setdefault(it, set()).add(path)
    return found


def stale_figures(path, text):
    """A figure stands in one document, and but for measured ones beside the command that gives it."""
    if path == DEFINITIONS:
        return
    for it in sorted(figures_of(text)):
        others = places().get(it, set()) - {path}
        if others:
            yield f"the figure {it}, which {', '.join(sorted(others))} has too"
    if path in WITH_COMMANDS:
        for line in without_blocks(text).split("\n"):
            for it in re.findall(FIGURE, line):
                if it not in SIZES and not re.search(r"`(?:check|bench|tools|docs)/", line):
                    yield f"the figure {it} without the command that gives it"


def number(text):
    return int(text.replace(",", ""))


def stale_sums(path, text):
    """Where so many `are`, `print` or `differ` of so many, they are all; the rows that worked scripts show are named."""
    for line in without_blocks(text).split("\n"):
        for total, parts in re.findall(r"\bof (\d[\d,]*), ((?:\d[\d,]* (?:are|print|differ|set) [^,|]*(?:, )?){2,})", line):
            found = [number(it) for it in re.findall(r"(\d[\d,]*) (?:are|print|differ|set) ", parts)]
            if sum(found) != number(total):
                yield f"of {total} it says {' + '.join(map(str, found))}"
    if path == DIFFERENCES and (said := re.search(r"(\d+) are named above", text)):
        named = set(spans(text.partition("## Compared")[0])) & set(cases())
        if len(named) != int(said[1]):
            yield f"{said[1]} are named above: there are {len(named)}"


def words(text):
    return re.findall(r"\w+", text)


def mean(ratios, is_geometric):
    return math.prod(ratios) ** (1 / len(ratios)) if is_geometric else sum(ratios) / len(ratios)


def stale_means(path, text):
    """The means of docs/PERFORMANCE.md are those of its rows, as bench/side.py makes them: arithmetic of memory alone."""
    if path != PERFORMANCE:
        return
    rows = [(columns, cells) for _, columns, cells in rows_of(text) if columns[0] == "Script"]
    said = next((cells for _, cells in rows if cells[0].startswith("mean of ratios")), None)
    for at in range(1, len(said or [])):
        is_memory = "MiB" in rows[0][0][at]
        taken = [it for _, it in rows if it is not said and (is_memory or it[0].partition(":")[0] not in words(said[0]))]
        pairs = [[float(it) for it in cells[at].split(", ")] for cells in taken]
        found = mean([ours / theirs for ours, theirs in pairs], not is_memory)
        if abs(found - float(said[at])) > 0.006:
            yield f"the mean {said[at]} of {rows[0][0][at]}: the rows have {found:.2f}"


# ---- what is made


def is_read(line):
    return line.strip() and not line.startswith("use ")


def files_of_step(text, number):
    """The files that the lists of a step have; a name without folders is in the folder before it."""
    part = re.search(rf"(?ms)^## {number}\. .*?(?=^## |^---$|\Z)", text)[0]
    found, folder = [], ""
    rows = "\n".join(line for line in part.split("\n") if line.startswith("- "))
    for name in re.findall(r"`((?:crates/)?[\w/]+\.antt)`", rows):
        folder = os.path.dirname(name) or folder
        found.append(f"{folder}/{os.path.basename(name)}")
    return sorted(set(it for it in found if os.path.exists(f"{TOP}/{it}")))


def made(text):
    """The document of definitions with the numbers of its steps."""
    total = set()

    def row(match):
        files = files_of_step(text, match[2])
        total.update(files)
        lines = sum(len([line for line in read(it).split("\n") if is_read(line)]) for it in files)
        return f"{match[1]}{len(files)} | {lines:,} |"

    text = re.sub(r"(?m)^(\| \[(\d+)\]\(#.*\| )[\d,]+ \| [\d,]+ \|$", row, text)
    lines = sum(len([line for line in read(it).split("\n") if is_read(line)]) for it in total)
    return re.sub(r"(?m)^(\| \| together[^|]*\| )[\d,]+ \| [\d,]+ \|$", rf"\g<1>{len(total)} | {lines:,} |", text)


# ---- definitions


@functools.cache
def definitions_tool():
    """tools/definitions.py, which follows definitions from contract to contract."""
    sys.path.append(f"{TOP}/tools")
    return importlib.import_module("definitions")


@functools.cache
def believed():
    """The files of definitions on which contracts of users' calls rest."""
    tool = definitions_tool()
    specs = tool.Specs()
    return sorted({str(specs.at[place].path.relative_to(TOP)) for place in tool.under_contracts(specs)})


def steps_of(text):
    return re.findall(r"(?m)^\| \[(\d+)\]\(#", text)


# Calls and types of the code of which items speak.
OF_CODE = {"append", "run", "Closure"}


def is_in(name, text):
    """Whether definitions have a name, or an item may speak of it."""
    return name in OF_CODE or re.search(rf"\b{name}\b", re.sub(r"--.*", "", text))


def stale_steps(path, text):
    """Each file on which contracts rest stands in a step, and each item has what its files define."""
    if path != DEFINITIONS:
        return
    shown = {file for step in steps_of(text) for file in files_of_step(text, step)}
    yield from (f"{it} stands in no step" for it in believed() if it not in shown)
    for item in re.findall(r"(?m)^- (`crates/.*)$", text):
        folder, there = "", ""
        for name in spans(item):
            if name.endswith((".antt", ".rt")):
                folder = os.path.dirname(name) if name.startswith("crates/") else folder
                there += read(name if name.startswith("crates/") else f"{folder}/{name}")
            elif re.fullmatch(r"\w+", name) and there and not is_in(name, there):
                yield f"`{name}` isn't in {folder} as it says"


CHECKS = [stale_steps, stale_counts, stale_rows, stale_lists, stale_figures, stale_sums, stale_means]

"""docs/SCRIPT.md and docs/PICTURES.md, compared with the worked scripts and what these print."""
import functools
import re

from claims.markdown import commands_of, rows_of, section, spans
from claims.repository import read, tracked

LANGUAGE, PICTURES, WASI = "docs/SCRIPT.md", "docs/PICTURES.md", "examples/wasi/README.md"
CASES, CHOICE = "crates/test_cases/stdin", "crates/witgraph_dot/specs/Choice.antt"
READER = "crates/wit_script_lines/specs"
# Where a line of a package stands, by the words of the table.
PLACES = {"": [""], "in a package": ["package"]}
KINDS = ["interface", "world"]


@functools.cache
def cases():
    """The scripts under the lines `=== NAME` with their answers, by their names."""
    parts = dict(part.split("\n", 1) for part in re.split(r"(?m)^=== ", read(CASES))[1:])
    return {name: tuple(case.split("---\n", 1)) for name, case in parts.items()}


def pattern(form):
    """The expression of a form of lines: capitals stand for a word, brackets for what may be missing, `..` for more."""
    form = re.sub(r"(?<!\.)\.(?!\.)", r"\.", form)
    form = re.sub(r" \[(\S+) \.\.\]", r"(?: \1)*", form)
    form = re.sub(r" \[(\S+)\]", r"(?: \1)?", form)
    form = re.sub(r"\[(\S+)\]", r"(?:\1)?", form)
    form = re.sub(r" (\S+) \.\.", r"(?: \1)+", form)
    words = {"SIG": r"(?:\\[[a-z]+\\])*[^\\s(]+\\(\\S*\\)(?:->\\S+)?", "PATH": r"[^\\s=]+", "NS": r"[^\\s:]+", "VERSION": r"\\S+"}
    return re.sub(r"\b[A-Z]+\b", lambda it: words.get(it[0], r"\\S+").replace("\\\\", "\\"), form)


def forms(document):
    """The forms of lines of packages with the places where they stand, and those of commands with their answers."""
    lines, commands = [], []
    for _, columns, cells in rows_of(document):
        if columns == ["Line", "Where", "Meaning"]:
            places = PLACES.get(cells[1]) or [place for place in KINDS if re.search(rf"\b{place}\b", cells[1])]
            lines += [(form, pattern(form), places) for form in spans(cells[0])]
        if columns == ["Line", "Answer"]:
            commands += [(form, pattern(form), cells[1]) for form in spans(cells[0])]
    return lines, commands


def gate_of(document):
    """The expression of the gate that may end a line, as the document says it."""
    said = re.search(r"may end with one gate, (.*)\.", document)
    return "(?: (?:" + "|".join(pattern(it) for it in spans(said[1])) + "))?" if said else ""


def places_in(script):
    """The lines of a script that say something, each with the place where it stands; commands stand at `command`."""
    place = "command"
    for line in script.split("\n"):
        words = line.split()
        if not words or words[0].startswith("#"):
            continue
        if words[0] == "package":
            place = ""
        elif words[0] == "push" or place == "command":
            place = "command"
        elif words[0] in ("interface", "world"):
            yield " ".join(words), "package"
            place = words[0]
            continue
        yield " ".join(words), place
        place = "package" if words[0] == "package" else place


def stale_lines(path, text):
    """Each line of a worked script that is understood has a form of the tables where it stands, and each form is met."""
    if path != LANGUAGE:
        return
    (lines, commands), gate, met = forms(text), gate_of(text), set()
    for name, (script, answer) in cases().items():
        if re.match(r"line \d+: not understood", answer):
            continue
        for line, place in places_in(script):
            those = [(form, place) for form, it, _ in commands if place == "command" and re.fullmatch(it, line)]
            for form, it, places in lines:
                end = "" if form.startswith("package") else gate
                those += [(form, place)] if place in places and re.fullmatch(it + end, line) else []
            met.update(those)
            if not those:
                yield f"no form of the line `{line}` {f'in {place}' if place else ''} of {name}".rstrip()
    for form, _, places in lines:
        yield from (f"`{form}` stands in no {place or 'script'}" for place in places if (form, place) not in met)
    yield from (f"`{form}` stands in no worked script" for form, _, _ in commands if (form, "command") not in met)


def replies(answer):
    """What a script prints, reply by reply: a line, and those below it that begin with spaces."""
    return re.findall(r"(?m)^\S.*\n(?:^ .*\n)*", answer)


def stale_answers(path, text):
    """What a command answers in the worked scripts is one of the answers of its row, and each of these is met."""
    if path != LANGUAGE:
        return
    _, commands = forms(text)
    met, wanted = set(), {(form, it) for form, _, said in commands for it in answers_of(said)}
    for name, (script, answer) in cases().items():
        if re.match(r"line \d+: not understood", answer):
            continue
        waiting = replies(answer)
        for line in [line for line, place in places_in(script) if place == "command"]:
            form, said = next(((form, said) for form, it, said in commands if re.fullmatch(it, line)), ("", "nothing"))
            if said.startswith("nothing"):
                continue
            reply = waiting.pop(0).split("\n")[0] if waiting else ""
            those = [it for it in answers_of(said) if re.fullmatch(pattern(it), reply)]
            met.update((form, it) for it in those)
            if not those and not reply.startswith("refused ") and not (line.startswith("print") and reply.startswith("world ")):
                yield f"`{form}` answers `{reply}` in {name}"
        if waiting:
            yield f"`{waiting[0].strip()}` is answered to no command of {name}"
    yield from (f"no worked script answers `{it}` to `{form}`" for form, it in sorted(wanted - met))


def answers_of(said):
    """The answers that a row names: what stands between backquotes and isn't the part of a line."""
    return [] if said.startswith("nothing") else [it for it in spans(said) if re.match(r"[a-z]", it)]


def stale_words(path, text):
    """The tables begin with the words that the definitions know, and with no others."""
    if path == LANGUAGE:
        lines, commands = forms(text)
        said = {form.split()[0] for form, *_ in [*lines, *commands]}
        lines_of, requests = read(f"{READER}/steps/LineWords.antt"), read(f"{READER}/Request.antt")
        known = set(re.findall(r'(?m)^word_text .* = codes "([a-z-]+)"', lines_of))
        known |= set(re.findall(r'bytes_eq word \(codes "([a-z-]+)"\)', requests))
        yield from (f"`{it}` begins no line" for it in sorted(said - known - {"package", "push"}))
        yield from (f"no line that begins with `{it}`" for it in sorted(known - said))


def stale_choices(path, text):
    """The lines of choice are those that the definition knows, and pictures have each."""
    if path != PICTURES:
        return
    said = {form for _, columns, cells in rows_of(text) if columns[0] == "Line" for form in spans(cells[0])}
    words = {re.sub(r" [A-Z].*", " ", form) for form in said}
    known = set(re.findall(r'codes "(# [^"]*)"', read(CHOICE)))
    yield from (f"`{it.strip()}` chooses nothing" for it in sorted(words - known))
    yield from (f"no line of `{it.strip()}`" for it in sorted(known - words))
    scripts = "".join(read(it) for it in tracked() if it.endswith(".script") or it == "crates/witgraph_dot/stdin")
    yield from (f"`{it}` stands in no picture" for it in sorted(said) if not re.search(rf"(?m)^{pattern(it)}$", scripts))


def stale_walkthroughs(path, text):
    """What the walk-throughs of WASI show is a line of one of their scripts or answers."""
    if path != WASI:
        return
    stored = "".join(read(it) for it in tracked() if re.match(r"examples/wasi/\w+\.(?:out|script)$", it))
    there = {line.strip() for line in stored.split("\n")}
    commands = set(commands_of(text))
    for line in map(str.strip, re.findall(r"(?m)^    (\S.*|  .*)$", section(text, "## Walk-throughs"))):
        if line not in there | commands | {"..."}:
            yield f"`{line}` is in no walk-through"


CHECKS = [stale_walkthroughs, stale_lines, stale_answers, stale_words, stale_choices]

#!/usr/bin/env python3
"""Compares stored outputs of programs with what the model of the rules (check/model) makes, or with what they are made of.

    python3 check/stored.py        # at the top of the repository

- The script of `witgraph`: what it is to print.
- Explanations of `test_explanations`: the line that isn't understood; each refusal with its number and text; each line that
  is shown, as the script has it, with its place in the file of its package; ways, as check/ways.py asks.
- The picture of `witgraph_dot`: its frames, boxes and arrows, as check/pictures.py asks.
- Documents that come out of `witgraph_json` and of examples/kinds: the replies to commands and to `select` in one package,
  and all worlds of the graph; of examples/kinds also all types and interfaces (check/stored_kinds.py). Of other questions the
  model knows nothing.
- What `test_sweep` tells of the last command of each script, or of the merge of its graphs: the refusal, or that there is none;
  and what its calls answer (check/stored_calls.py, which says of which the model knows nothing).
- What `calls_to_copy` prints (check/stored_uses.py).
- The commands of `test_json_cases`, which check/script_documents.py writes of the worked scripts, and their number.

Worked scripts, pictures of docs and WASI have checks of their own: check/compare.py, check/pictures.py,
examples/wasi/check.sh. Ends with status 1 where something is stored otherwise.
"""
import json
import os
import re
import sys

CHECK = os.path.dirname(os.path.abspath(__file__))
sys.path[:0] = [CHECK, os.path.join(CHECK, "whole")]

import compare  # noqa: E402
import model  # noqa: E402
import packages  # noqa: E402
import pictures  # noqa: E402
import script_documents as documents  # noqa: E402
import stored_calls  # noqa: E402
import stored_kinds  # noqa: E402
import stored_uses  # noqa: E402
import ways  # noqa: E402
from model.names import PackageName  # noqa: E402
from model.scripts import Rules, Session, shown  # noqa: E402

DOCUMENTS = [("crates/witgraph_json/stdin", "crates/witgraph_json/stdout"), ("examples/kinds/kinds.json", "examples/kinds/kinds.out.json")]
CASES = "crates/test_cases/stdin"
NOT_DONE = ("refused ", "no world", "no package")
NUMBER = re.compile(r"      = (\d+) in docs/REFUSALS\.md")
PLACE = re.compile(r" +--> line (\d+)(?: \((.*):(\d+):(\d+)\))?")


def read(path):
    with open(path, encoding="utf-8", newline="") as file:
        return file.read()


def wrong_scripts():
    if not model.is_right(read("crates/witgraph/stdin"), read("crates/witgraph/stdout")):
        yield "crates/witgraph/stdout: the model answers otherwise"


def wrong_refusals():
    path = "crates/test_sweep/stdout"
    told = compare.cases_of(read(path))
    for name, script in compare.cases_of(read("crates/test_sweep/stdin")).items():
        may = model.answers(f"{script}merge\n" if "other" in script.split("\n") else script)
        ran = re.search(r"^call run\nanswer (.*(?:\n  .*)*)", told[name], re.M)
        said = {ran[1]} if ran and ran[1].startswith("refused ") else set()
        are_refused = bool(may) and all(it.startswith("refused ") for it in may[-1])
        if bool(said) != are_refused or are_refused and not said <= may[-1]:
            yield f"{path}: {name}: {said or 'done'}, and the model's {may[-1:]}"


def wrong_calls():
    path = "crates/test_sweep/stdout"
    told = compare.cases_of(read(path))
    for name, script in compare.cases_of(read("crates/test_sweep/stdin")).items():
        yield from (f"{path}: {name}: {it}" for it in stored_calls.faults(script, told[name]))


def wrong_uses():
    if read("crates/calls_to_copy/stdout") != stored_uses.output():
        yield f"crates/calls_to_copy/stdout: the model's is\n{stored_uses.output()}"


# ---- explanations


def blocks(told, answers):
    """What is told of each answer that isn't done, as its text and the lines below; None where another text is told."""
    for texts in answers:
        text = max((it for it in texts if told.startswith(f"{it}\n")), key=len, default=None)
        if text is None:
            yield None
            return
        lines = re.match(r"(?: {5}.*\n| *\d+ \|.*\n)*", told[len(text) + 1 :]).group()
        told = told[len(text) + 1 + len(lines) :]
        yield text, lines.split("\n")[:-1]
    if told:
        yield None


def place_faults(script, lines):
    """What is wrong with the lines of a script that are shown."""
    of_script = script.split("\n")
    for at, line in enumerate(lines):
        if match := PLACE.fullmatch(line):
            number = int(match[1])
            if lines[at + 2] != f" {number:4} | {cut(of_script[number - 1])}":
                yield f"line {number} is shown otherwise"
            if match[2] and not is_there(of_script, number, match):
                yield f"line {number} is no {match[2]}:{match[3]}"


def cut(line):
    """What is shown of a line."""
    shown = line.encode()[:500].decode(errors="ignore")
    return line if shown == line else f"{shown} .."


def is_there(of_script, number, match):
    """Whether a line is that of the file of the package."""
    begun = max(at for at, line in enumerate(of_script[:number], 1) if line.split()[:1] == ["package"])
    return of_script[begun - 1].split()[1] == match[2] and number - begun + 1 == int(match[3])


def explained_faults(script, told):
    may = model.answers(script)
    if isinstance(may, int):
        yield from misread_faults(script.split("\n"), may, told.split("\n"))
        return
    answers = [texts for texts in may if all(it.startswith(NOT_DONE) for it in texts)]
    for block in blocks(told, answers):
        if block is None:
            yield "the model answers otherwise"
            continue
        text, lines = block
        number = NUMBER.fullmatch(lines[-1]) if lines else None
        if text.startswith("refused ") != bool(number) or number and not text.startswith(f"refused {number[1]} "):
            yield f"another number is told of {text}"
        yield from place_faults(script, lines)


def misread_faults(of_script, number, told):
    """What is wrong with the line that is told of a script in which the model doesn't understand a line. Of a package that
    hasn't its shape that line is the `push`, and what is told is in the package."""
    match = re.match(r"line (\d+): .", told[0])
    line = int(match[1]) if match else 0
    begun = max((at for at, it in enumerate(of_script[:number], 1) if it.split()[:1] == ["package"]), default=1)
    least = begun if of_script[number - 1].split() == ["push"] else number
    if not least <= line <= number:
        yield f"the model doesn't understand line {number}"
    elif told[2] != f" {line:4} | {cut(of_script[line - 1])}":
        yield f"line {line} is shown otherwise"


def wrong_explanations():
    path = "crates/test_explanations/stdin"
    scripts, told = compare.stored(read(path))
    for name, script in scripts.items():
        yield from (f"{path}: {name}: {it}" for it in explained_faults(script, told[name]))
    counts, wrong = ways.faults("".join(f"=== {name}\n{it}" for name, it in told.items()))
    yield from (f"{path}: {it}" for it in wrong)
    if not counts:
        yield f"{path}: no way is told"


# ---- documents


def answers_of(session, commands):
    """What may be told of each command of a document that the model knows, with its place: its number, and within a merge
    a second one."""
    for at, command in enumerate(commands):
        if "select" in command and len(command["select"]["packages"]) == 1:
            yield (at,), session.answer(*selects(command["select"]))
            continue
        for place, made in packages.commands_of([command]):
            told = session.answer(*made)
            if place is not None:
                yield (at, *place[1:]), told


def selects(asked):
    return ["select", PackageName.read(asked["packages"][0]), *([asked["world"]] if "world" in asked else [])], []


def document_faults(document, output):
    graph, session = output["resolve"]["graph"], Session(Rules())
    for (at, *inner), texts in answers_of(session, document["commands"]):
        command, reply = document["commands"][at], output["replies"][at]
        if inner:
            command, reply = command["merge"][inner[0]], reply["merge"]["replies"][inner[0]]
        elif "merge" in command:
            command, reply = {"merge": []}, {"merge": {"replies": [], "reply": reply["merge"]["reply"]}}
        if "pushed" in reply and graph["packages"][reply["pushed"]]["name"] != command["push-groups"]["main"]["main"]["name"]:
            yield f"the reply {at} is the id of another package"
        said = "\n".join(documents.reply_lines(graph, command, reply))
        if said not in (texts or {""}):
            yield f"the reply {at} is `{said}`, and the model's {texts}"
    worlds = ["\n".join(documents.world_lines(graph, it)) for it in graph["worlds"] if it["package"] is not None]
    wanted = [shown(package, world) for package in session.graphs[-1].packages for world in package.worlds.values()]
    if sorted(worlds) != sorted(wanted):
        yield f"the worlds {sorted(set(worlds) ^ set(wanted))} are of one alone"


def wrong_documents():
    for asked, made in DOCUMENTS:
        yield from (f"{made}: {it}" for it in document_faults(json.loads(read(asked)), json.loads(read(made))))
    asked, made = DOCUMENTS[1]
    yield from (f"{made}: {it}" for it in stored_kinds.faults(json.loads(read(asked)), json.loads(read(made))))


def wrong_commands():
    stored, made = read("crates/test_json_cases/stdin"), documents.in_two(compare.stored(read(CASES))[0])
    if stored != made:
        yield "crates/test_json_cases/stdin: check/script_documents.py --in-two writes otherwise"
    if read("crates/test_json_cases/stdout") != f"{made.count('=== ')} cases\n":
        yield "crates/test_json_cases/stdout: there are other cases"


def main():
    wrong = [*wrong_scripts(), *wrong_refusals(), *wrong_calls(), *wrong_uses()]
    wrong += [*wrong_explanations(), *wrong_documents(), *wrong_commands()]
    print("\n".join(wrong), end="\n" if wrong else "", flush=True)
    is_other = pictures.differ("crates/witgraph_dot/stdin", "crates/witgraph_dot/stdout")
    print(f"stored outputs: {len(wrong) + is_other} wrong")
    return 1 if wrong or is_other else 0


if __name__ == "__main__":
    sys.exit(main())

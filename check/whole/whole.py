#!/usr/bin/env python3
"""Compares `witgraph_json` with wit-parser itself (check/original) on random documents, in all that both write.

    python3 check/whole/whole.py PATH/TO/witgraph_json PATH/TO/witgraph-original [--first N] [--many N] [--jobs N]
    python3 check/whole/whole.py PATH/TO/witgraph_json PATH/TO/witgraph-original DOCUMENT..

With `--texts` packages are texts of WIT, read by tools/wit2json.py. With `--scripts` documents are those of random scripts
of check/compare.py, with `--stored` those of a file of cases; files with documents may be named. With `--in-two`
`witgraph_json` carries out each document in two, of which the second begins with the graph that came out of the first.

Replies are compared with texts, spans and how they are shown, graphs in all data (check/whole/graphs.py says what is
free), of the second graphs of merges, too. Where the two differ the tool tells of which row of docs/DIFFERENCES.md that
is, and goes on with the document without that command. One with a difference of no row is printed, and the status
is 1 then.
"""
import argparse
import collections
import copy
import functools
import json
import multiprocessing
import re
import subprocess
import sys

from random_documents import document
from graphs import Differ, paired
from rows import row_of

PATIENCE = 30
EQUAL, NO_ROW, OTHER_RULE = "equal", "of no row", "the second rule of tracks"


class Answers:
    """What a program writes: the replies, and the graph with what stands beside it, as text and read."""

    def __init__(self, text):
        self.text = text.partition(',"resolve":')[2].strip()[:-1]
        read = json.loads(text)
        self.replies, self.resolve = read["replies"], read["resolve"]


@functools.lru_cache(maxsize=64)
def run_text(program, text):
    """What a program writes, None where it ended without, and the place of the command that did so."""
    try:
        done = subprocess.run([program], input=text, capture_output=True, text=True, timeout=PATIENCE)
        if done.returncode == 0:
            return Answers(done.stdout), None
        told = done.stderr
    except subprocess.TimeoutExpired as fault:
        told = (fault.stderr or b"").decode()
    places = re.findall(r"(?m)^[\d.]+$", told)
    return None, tuple(int(it) for it in places[-1].split(".")) if places else ()


class InTwo(str):
    """The path of a program that carries out commands in two documents."""


def run(program, commands):
    if not isinstance(program, InTwo) or not commands:
        return run_text(program, json.dumps({"commands": commands}))
    middle = len(commands) // 2
    first, _ = run_text(program, json.dumps({"commands": commands[:middle]}))
    last, _ = run_text(program, f'{{"resolve":{first.text},"commands":{json.dumps(commands[middle:])}}}')
    last = copy.copy(last)
    last.replies = first.replies + last.replies
    return last, None


class Difference:
    """A command that the two answer otherwise: its place, and what both say. The graphs may differ alone."""

    def __init__(self, commands, place, ours, theirs, graphs=None):
        self.commands, self.place, self.ours, self.theirs = commands, place, ours, theirs
        self.graphs = graphs

    def command(self):
        command = self.commands[self.place[0]]
        return command["merge"][self.place[1]] if len(self.place) > 1 else command


def replies_of(commands, replies):
    """Each reply with the place of its command, those within a merge before that of the merge."""
    for at, (command, reply) in enumerate(zip(commands, replies)):
        if isinstance(command, dict) and "merge" in command:
            for inner, it in enumerate(reply["merge"]["replies"]):
                yield (at, inner), it
            yield (at,), reply["merge"]["reply"]
        else:
            yield (at,), reply


def as_told(reply):
    """A reply without the world that came out, and without which of the two isn't there."""
    if isinstance(reply, dict) and "done" in reply:
        return "done"
    return "no-world" if reply == "no-package" else reply


def are_same(ours, theirs):
    """Whether two replies are the same, but for numbers of types, which are compared with the graphs, and for what the
    original doesn't tell of a command on a world."""
    ours = as_told(ours)
    if not (isinstance(ours, dict) and isinstance(theirs, dict)):
        return ours == theirs
    if "refused" in ours and "refused" in theirs:
        one, other = dict(ours["refused"]["error"]), dict(theirs["refused"]["error"])
        number = other.pop("number")
        is_number = number in (None, one.pop("number"))
        del one["cause"]
        other = {key: it for key, it in other.items() if it is not None}
        return is_number and one == other and are_told_the_same(ours, theirs)
    if "types" in ours and "types" in theirs:
        return len(ours["types"]) == len(theirs["types"])
    if "merged" in ours and "merged" in theirs:
        return ours["merged"]["packages"] == theirs["merged"]["packages"]
    return ours == theirs


def are_told_the_same(ours, theirs):
    """Whether a refusal is shown as wit-parser shows it, but for what was asked and the document that says more. Of a
    package that is defined twice wit-parser tells the places alone, of things that differ (24, 25) none, of a line over 500
    bytes nothing."""
    told, shown = theirs["refused"]["rendered"], ours["refused"]["rendered"].rsplit("\n      = ", 2)[0]
    if "is defined in two different locations:" in told:
        places = [line[len("     --> ") :] for line in shown.split("\n") if line.startswith("     --> ")]
        known = [line[len("  * ") :] for line in told.split("\n") if line.startswith("  * ") and line != "  * <unknown>"]
        return places[: len(known)] == known
    if ours["refused"]["error"]["number"] in (24, 25):
        shown = ours["refused"]["error"]["text"]
    return shown == told or told.endswith(f": {ours['refused']['error']['text']}")


def reply_difference(programs, commands):
    """The first command that the two answer otherwise, None where there is none."""
    ours, _ = run(programs[0], commands)
    theirs, ended = run(programs[1], commands)
    if theirs is None:
        before = reply_difference(programs, commands[: ended[0]]) or inner_difference(programs, commands, ended[0])
        reply = dict(replies_of(commands, ours.replies)).get(ended)
        return before or Difference(commands, ended, reply, "no return")
    pairs = zip(replies_of(commands, ours.replies), replies_of(commands, theirs.replies))
    differ = (Difference(commands, place, one, other) for (place, one), (_, other) in pairs if is_otherwise(one, other))
    return next(differ, None)


def inner_difference(programs, commands, at):
    """The first command within a merge that the two answer otherwise, None where there is none: what the original makes of
    one may be what it can't merge."""
    command = commands[at]
    inner = reply_difference(programs, command["merge"]) if isinstance(command, dict) and "merge" in command else None
    return inner and Difference(commands, (at, *inner.place), inner.ours, inner.theirs)


def is_otherwise(ours, theirs):
    """Whether two replies differ; after a merge with a mismatch the files do."""
    return not are_same(ours, theirs) or number_of(ours) == 24


def number_of(reply):
    """The number of a refusal."""
    return reply["refused"]["error"]["number"] if isinstance(reply, dict) and "refused" in reply else None


def graph_difference(programs, commands):
    """The first command after which the graphs differ, where both answer all of them the same."""
    for at, command in enumerate(commands):
        if isinstance(command, dict) and "merge" in command:
            inner = graph_difference(programs, command["merge"])
            if inner:
                return Difference(commands, (at, *inner.place), inner.ours, inner.theirs, inner.graphs)
    if difference_after(programs, commands) is None:
        return None
    least, most = 0, len(commands)
    while least < most:
        middle = (least + most) // 2
        if difference_after(programs, commands[:middle]):
            most = middle
        else:
            least = middle + 1
    made = [run(it, commands[:least])[0] for it in programs]
    told = {"graph": difference_after(programs, commands[:least])}
    return Difference(commands, (least - 1,), made[0].replies[-1], told, [it.resolve for it in made])


def difference_after(programs, commands):
    """Where the graphs differ after commands that both answer the same, None where they don't."""
    ours, theirs = (run(it, commands)[0] for it in programs)
    if ours.text == theirs.text and ours.replies == theirs.replies:
        return None
    try:
        pairing = paired(ours.resolve, theirs.resolve)
        for command, one, other in zip(commands, ours.replies, theirs.replies):
            check_numbers(programs, pairing, command, one, other)
    except Differ as fault:
        return str(fault)
    return None


def check_numbers(programs, pairing, command, ours, theirs):
    """The numbers of types in replies, and those of a merge."""
    if isinstance(ours, dict) and "types" in ours:
        if not all(map(pairing.is_same_type, ours["types"], theirs["types"])):
            raise Differ(f"types: {ours['types']} is {theirs['types']}")
    if isinstance(ours, dict) and "merge" in ours and "merged" in ours["merge"]["reply"]:
        inner = paired(*(run(it, command["merge"])[0].resolve for it in programs))
        check_remap(pairing, inner, ours["merge"]["reply"]["merged"], theirs["merge"]["reply"]["merged"])


def check_remap(pairing, inner, ours, theirs):
    """Where the things of a second graph went."""
    for one, other in inner.there["type"].items():
        if not pairing.is_same_type(ours["types"][one], theirs["types"][other]):
            raise Differ(f"merged type {one}/{other}: {ours['types'][one]} is {theirs['types'][other]}")
    for sort in ("interface", "world"):
        for one, other in inner.there[sort].items():
            to, also = ours[sort + "s"][one], theirs[sort + "s"][other]
            if to is None or pairing.there[sort][to] != also:
                raise Differ(f"merged {sort} {one}/{other}: {to} is {also}")


def without(commands, place):
    """Commands without the one at a place."""
    at, *inner = place
    if inner:
        command = {"merge": without(commands[at]["merge"], inner)}
        return [*commands[:at], command, *commands[at + 1 :]]
    return commands[:at] + commands[at + 1 :]


def rows_of(programs, commands):
    """The rows of all differences, one after another; the last is a `Difference` where that is of no row.

    Where answers differ graphs are compared before, unless a row tells it: what is left of the document is compared
    whole.
    """
    found = []
    while True:
        difference = reply_difference(programs, commands)
        row = difference and row_of(difference)
        if row is None:
            before = commands[: difference.place[0]] if difference else commands
            difference = graph_difference(programs, before) or difference
            if difference is None:
                return found
            difference.commands = commands
            row = row_of(difference) or (OTHER_RULE if is_other_rule(programs, difference) else None)
        found.append(row or difference)
        if row is None:
            return found
        commands = without(commands, difference.place)


def script_document(number):
    """The document of a random script, an empty one where that isn't understood."""
    import compare
    import script_documents

    return script_documents.document_of(compare.written(number, compare.KINDS)) or {"commands": []}


def case_document(name, path):
    """The document of a case of a file, an empty one where that isn't understood."""
    import compare
    import script_documents

    return script_documents.document_of(compare.stored(compare.read(path))[0][name]) or {"commands": []}


def case_names(path):
    import compare

    return list(compare.stored(compare.read(path))[0])


def file_document(path):
    with open(path, encoding="utf-8") as file:
        return json.load(file)


def is_other_rule(programs, difference):
    """Whether the graphs are the same where no command sets a rule of tracks."""
    commands = difference.commands[: difference.place[0] + 1]
    kept = without_rules(commands)
    return kept != commands and graph_difference(programs, kept) is None


def without_rules(commands):
    kept = [it for it in commands if isinstance(it, str) or "set-track-rule" not in it]
    return [{"merge": without_rules(it["merge"])} if isinstance(it, dict) and "merge" in it else it for it in kept]


def told(number, programs, made):
    """The rows of a document, and what is printed where a difference is of none."""
    found = rows_of(programs, made(number)["commands"])
    if not found or not isinstance(found[-1], Difference):
        return found, None
    it = found.pop()
    shown = {"document": number, "place": it.place, "ours": it.ours, "theirs": it.theirs, "command": it.command()}
    return [*found, NO_ROW], json.dumps(shown)


def main():
    parser = argparse.ArgumentParser()
    parser.add_argument("program")
    parser.add_argument("original")
    parser.add_argument("documents", nargs="*")
    parser.add_argument("--texts", action="store_true")
    parser.add_argument("--scripts", action="store_true")
    parser.add_argument("--stored")
    parser.add_argument("--in-two", action="store_true")
    parser.add_argument("--first", type=int, default=1)
    parser.add_argument("--many", type=int, default=100)
    parser.add_argument("--jobs", type=int, default=1)
    asked = parser.parse_args()
    names = asked.documents or range(asked.first, asked.first + asked.many)
    made = functools.partial(document, are_texts=asked.texts)
    if asked.documents or asked.scripts:
        made = file_document if asked.documents else script_document
    if asked.stored:
        names, made = case_names(asked.stored), functools.partial(case_document, path=asked.stored)
    program = InTwo(asked.program) if asked.in_two else asked.program
    tell = functools.partial(told, programs=(program, asked.original), made=made)
    firsts, differences = collections.Counter(), collections.Counter()
    with multiprocessing.Pool(asked.jobs) as pool:
        for found, text in pool.imap(tell, names, 8):
            firsts[found[0] if found else EQUAL] += 1
            differences.update(found)
            if text:
                print(text, flush=True)
    for row in [EQUAL, *sorted(differences)]:
        print(f"| {row} | {firsts[row]} | {differences[row]} |")
    return 1 if differences[NO_ROW] else 0


if __name__ == "__main__":
    sys.exit(main())

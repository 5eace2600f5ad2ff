#!/usr/bin/env python3
"""Compares what a program answers to JSON documents (docs/JSON.md) with what was worked out by hand.

    python3 check/json_documents.py [PROGRAM]

PROGRAM reads a document from standard input and writes the one that comes out: the `witgraph_json` that `rt ci` leaves, where
none is named. A case is a line `=== NAME`, a document, a line `---` and what is to come out.

In `check/json_faults.txt` that is the path of a fault and what was expected there; of a graph that isn't valid also the clause
that it breaks and the message. The document has a mark `«` where the value begins at which the fault is, or where it stops being
JSON: as many bytes stand before it as the offset tells, and the line and the column are those of the mark. Of a member that isn't
there, docs/JSON.md tells no place: such a document has no mark, and the fault is at one of its characters or its end.

In `check/json_answers.txt` it is a value. What comes out has its members, objects with more than it tells; entries of tables
stand in its order; and where it has texts in place of one, that has each of them. With `"same"` the graph that the document
begins with comes out as it was.

Ends with status 1 where something else comes out, or with a status other than that of a document that is understood or isn't.
"""
import json
import os
import shutil
import subprocess
import sys
import tempfile

CHECK = os.path.dirname(os.path.abspath(__file__))
PROGRAM = f"{os.path.dirname(CHECK)}/crates/witgraph_json/out/witgraph_json"
FAULTS, ANSWERS = f"{CHECK}/json_faults.txt", f"{CHECK}/json_answers.txt"
MARK = "«"
# the members whose objects have a place for each entry
TABLES = {"imports", "exports", "functions", "types", "interfaces", "worlds"}


def cases_of(path):
    """The cases of a file: their names, documents, and what is to come out."""
    with open(path, encoding="utf-8") as file:
        for case in file.read().split("=== ")[1:]:
            name, _, rest = case.partition("\n")
            document, _, expected = rest.partition("\n---\n")
            yield name, document, expected.rstrip("\n")


def compact(value):
    return json.dumps(value, separators=(",", ":"), ensure_ascii=False)


def place_behind(text):
    """The place behind a text as a fault tells it: bytes from 0, a line from 1, its column in characters from 1."""
    line = text.rpartition("\n")[2]
    return {"offset": len(text.encode()), "line": text.count("\n") + 1, "column": len(line) + 1}


def faults_of(document, expected):
    """A document without its mark, and the faults of which one comes out: one alone, but for where it is without a mark."""
    before, mark, after = document.partition(MARK)
    path, at = json.JSONDecoder().raw_decode(expected)
    texts = [before] if mark else [document[:it] for it in range(len(document) + 1)]
    parts = dict(zip(("expected", "clause", "message"), expected[at + 1:].split("; ")))
    faults = [{"path": path, **place_behind(it), **parts} for it in texts]
    return before + after, [compact({"fault": it}) for it in faults]


def is_in(expected, told, is_table=False):
    """Whether a value is told, whose members are in the same order where it is a table."""
    if isinstance(expected, dict) and isinstance(told, dict):
        if not set(expected) <= set(told) or is_table and list(expected) != list(told):
            return False
        return all(is_in(part, told[name], name in TABLES) for name, part in expected.items())
    if isinstance(expected, list) and isinstance(told, str):
        return all(part in told for part in expected)
    if isinstance(expected, list) and isinstance(told, list):
        return len(expected) == len(told) and all(map(is_in, expected, told))
    return type(expected) is type(told) and expected == told


class Program:
    """A program that carries out documents."""

    def __init__(self, path):
        self.path = path

    def run(self, document):
        ran = subprocess.run([self.path], input=document.encode(), stdout=subprocess.PIPE, timeout=60)
        return ran.returncode, ran.stdout.decode()

    def fault_differs(self, document, expected):
        """What comes out of a document with a fault, where it is something else."""
        document, faults = faults_of(document, expected)
        status, told = self.run(document)
        return None if status == 1 and told in faults else f"status {status}: {told}, expected {faults[0]}"

    def answer_differs(self, document, expected):
        """What comes out of a document without one, where it is something else."""
        status, told = self.run(document)
        expected = json.loads(expected)
        if status or compact(json.loads(told)) != told:
            return f"status {status}: {told}"
        told = json.loads(told)
        if expected.pop("same", False):
            expected["resolve"] = json.loads(document)["resolve"]
        wrong = [name for name, part in expected.items() if not is_in(part, told[name])]
        return "\n".join(f"{name}: {compact(told[name])}, expected {compact(expected[name])}" for name in wrong)


def main():
    given = sys.argv[1] if len(sys.argv) > 1 else PROGRAM
    if not os.path.isfile(given):
        sys.exit(f"json_documents: {given} isn't there")
    with tempfile.TemporaryDirectory() as folder:
        # `rt ci` leaves programs without leave to run
        path = shutil.copyfile(given, f"{folder}/program")
        os.chmod(path, 0o755)
        program = Program(path)
        told = [(name, program.fault_differs(*case)) for name, *case in cases_of(FAULTS)]
        told += [(name, program.answer_differs(*case)) for name, *case in cases_of(ANSWERS)]
    wrong = [f"{name}: {differs}" for name, differs in told if differs]
    print("\n".join([*wrong, f"json_documents: {len(told)} documents, {len(wrong)} wrong"]))
    return 1 if wrong else 0


if __name__ == "__main__":
    sys.exit(main())

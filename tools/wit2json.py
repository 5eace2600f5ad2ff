#!/usr/bin/env python3
"""Writes packages of WIT as a document of commands for `witgraph_json` (docs/JSON.md).

    tools/wit2json.py [-o DOCUMENT] [--on OUTPUT] [--then COMMANDS] PACKAGE..

A PACKAGE is a file of WIT, or a folder whose `.wit` files are one package; the folder `deps` of such a folder has files
and folders of further packages. The document has one command, `push-groups`: the first PACKAGE is the main group, all
others and what is in `deps` are its dependencies, in whatever order. What is there twice with the same texts is read
once. COMMANDS is a file with a JSON list of commands, which come behind the push. OUTPUT is a file with what
`witgraph_json` wrote of another document: this one begins with the graph there.

The texts are read as wit-parser reads them (tools/wit). Everything is kept: each kind of type, documentation, `@since`,
`@unstable` and `@deprecated`, interfaces that worlds write in place, `async`, external ids, the place of each name in its
file. Types, interfaces and worlds are numbered as wit-parser numbers them: what is named of other packages first, then
each as early as its order allows behind what it names; a type without a name is there once. The external id of a
function, a type, an import or an export is written `@external-id("TEXT")` before it.

Not read: packages in binary form, nested namespaces and packages (`a:b:c/d/e`), functions that read or write a property
(`[get]`, `[set]`).

Where something can't be read, each such place is told on standard error, with FILE:LINE:COLUMN and its line, there is no
document, and the status is 1.
"""
import argparse
import json
import os
import sys

sys.path.insert(0, os.path.dirname(os.path.abspath(__file__)))

import wit  # noqa: E402


# Documents


def group_of(group):
    """A group of packages as JSON."""
    main, *nested = [it.data for it in group.packages]
    sources = [{"path": it.path, "text": it.text} for it in group.files]
    return {"main": main, "nested": nested, "sources": sources}


def push_of(paths, report):
    """The command that pushes these packages, None where something can't be written; the report then says what."""
    groups = wit.groups_of(paths, report)
    if report.problems:
        return None
    main, *deps = [group_of(it) for it in groups]
    return {"push-groups": {"main": main, "deps": deps}}


def object_of(members):
    """An object, which a dict can hold where its names differ."""
    made = dict(members)
    if len(made) < len(members):
        raise ValueError("two members of an object have one name")
    return made


def graph_of(path):
    """The graph that an output has, as the member with which a document begins."""
    output = json.loads(wit.opened(path).text, object_pairs_hook=object_of)
    if not isinstance(output, dict) or "resolve" not in output:
        raise ValueError(f"{path}: no graph came out")
    return {"resolve": output["resolve"]}


def main(arguments=None):
    usage = argparse.ArgumentParser(description=__doc__, formatter_class=argparse.RawDescriptionHelpFormatter)
    usage.add_argument("packages", metavar="PACKAGE", nargs="+", help="a file of WIT, or a folder of such files")
    usage.add_argument("-o", metavar="DOCUMENT", dest="output", help="the file to write, standard output where it lacks")
    usage.add_argument("--on", metavar="OUTPUT", help="what came out of a document: its graph is the one to begin with")
    usage.add_argument("--then", metavar="COMMANDS", help="a file with a list of commands that come behind the push")
    asked = usage.parse_args(arguments)
    report = wit.Report()
    try:
        push = push_of(asked.packages, report)
        for line in report.lines():
            print(line, file=sys.stderr)
        if push is None:
            return 1
        then = json.loads(wit.opened(asked.then).text) if asked.then else []
        begin = graph_of(asked.on) if asked.on else {}
        document = json.dumps(begin | {"commands": [push, *then]}, ensure_ascii=False, separators=(",", ":"))
        if asked.output:
            with open(asked.output, "w", encoding="utf-8", newline="") as file:
                file.write(f"{document}\n")
        else:
            sys.stdout.write(f"{document}\n")
    except (OSError, ValueError) as fault:
        print(f"wit2json.py: {fault}", file=sys.stderr)
        return 1
    return 0


if __name__ == "__main__":
    sys.exit(main())

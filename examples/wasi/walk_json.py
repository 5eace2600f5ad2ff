#!/usr/bin/env python3
"""The walk-throughs with nothing substituted: as documents of commands for witgraph_json (docs/JSON.md).

    examples/wasi/walk_json.py NAME              writes the document of a walk-through
    examples/wasi/walk_json.py NAME PROGRAM      what PROGRAM, a build of witgraph_json, answers, as NAME.out

The commands are those of NAME.script. Where that names scripts of packages, the texts in wit are pushed by way of
tools/wit2json.py; where it writes its own n-th package, wit/app/NAME-n.wit is. `print` isn't among the commands: what it
prints is read from the graph that comes out of the commands before it.
"""
import json
import pathlib
import subprocess
import sys

WASI = pathlib.Path(__file__).resolve().parent
sys.dont_write_bytecode = True
sys.path.append(str(WASI.parent.parent / "tools"))

import wit  # noqa: E402
import wit2json  # noqa: E402

WORDS = {"done": "done", "no-world": "no world", "no-package": "no world"}


def push_of(path):
    report = wit.Report()
    return wit2json.push_of([str(WASI / path)], report) or sys.exit("\n".join(report.lines()))


def command_of(words):
    """The command of a line that isn't of a package."""
    match words:
        case ["feature", name]:
            return {"add-feature": name}
        case ["select", package, *world]:
            return {"select": {"packages": [package]} | dict(zip(["world"], world))}
        case ["importize", package, world, out]:
            return {"importize": {"package": package, "world": world, "out": out}}
        case ["exportize", package, world, out, *keys]:
            return {"exportize": {"package": package, "world": world, "out": out} | ({"keys": keys} if keys else {})}
        case ["semver", package, world]:
            return {"semver": {"package": package, "world": world}}
    sys.exit(f"no command: {' '.join(words)}")


class Walk:
    """The commands of a walk-through, and what is answered to each."""

    def __init__(self, name, program):
        self.name, self.program, self.own_packages, self.answers = name, program, 0, []
        self.first = self.commands = []  # the second graph's while there is one

    def whole(self):
        is_own_package = False
        for line in (WASI / f"{self.name}.script").read_text().splitlines():
            words = line.split()
            if words and words[0] == "package":
                is_own_package = True
            elif is_own_package and words == ["push"]:
                is_own_package, self.own_packages = False, self.own_packages + 1
                self.add(push_of(f"wit/app/{self.name}-{self.own_packages}.wit"))
            elif words and not is_own_package:
                self.line(words)
        return self

    def line(self, words):
        if words[0] == "#+":
            for package in words[1:]:
                self.add(push_of(f"wit/{package}.wit"))
        elif words == ["other"]:
            self.commands = []
        elif words == ["merge"]:
            other, self.commands = self.commands, self.first
            self.add({"merge": other})
        elif words[0] == "print":
            self.print(*words[1:])
        elif not words[0].startswith("#"):
            self.add(command_of(words))

    def carried_out(self):
        document = json.dumps({"commands": self.commands}).encode()
        ran = subprocess.run([self.program], input=document, stdout=subprocess.PIPE, check=True)
        return json.loads(ran.stdout)

    def add(self, command):
        self.commands.append(command)
        if self.program:
            out = self.carried_out()
            self.answers += answer_of(out["replies"][-1], out["resolve"]["graph"], command)

    def print(self, package, world):
        if self.program:
            graph = self.carried_out()["resolve"]["graph"]
            found = [it["worlds"][world] for it in graph["packages"] if it["name"] == package and world in it["worlds"]]
            self.answers += printed(graph, found[0]) if found else ["no world"]


def answer_of(reply, graph, command):
    """The lines that a script answers."""
    if isinstance(reply, str):
        return [] if "add-feature" in command else [WORDS[reply]]
    ((word, value),) = reply.items()
    if word == "merge":
        return answer_of(value["reply"], graph, command)
    if word == "refused":
        return f"refused {value['error']['number']} {value['error']['text']}".split("\n")
    if word == "pushed":
        return [f"pushed {graph['packages'][value]['name']}"]
    return [f"selected {name_of(graph, graph['worlds'][value])}"] if word == "world" else [word]


def name_of(graph, thing):
    """The full name of an interface or a world."""
    package, at, version = graph["packages"][thing["package"]]["name"].partition("@")
    return f"{package}/{thing['name']}{at}{version}"


def printed(graph, id):
    """A world as `print` writes it. (Those of these packages import and export interfaces under their own names.)"""
    world = graph["worlds"][id]
    lines = [f"world {name_of(graph, world)}"]
    for word, entries in (("import", world["imports"]), ("export", world["exports"])):
        lines += [f"  {word} {name_of(graph, graph['interfaces'][it['interface']['id']])}" for it in entries.values()]
    return lines


def main(name, program=None):
    walk = Walk(name, program).whole()
    print("\n".join(walk.answers) if program else json.dumps({"commands": walk.first}))


if __name__ == "__main__":
    main(*sys.argv[1:]) if len(sys.argv) in (2, 3) else sys.exit(__doc__)

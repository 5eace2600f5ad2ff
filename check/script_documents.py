#!/usr/bin/env python3
"""Turns scripts into JSON documents of the same commands (docs/JSON.md), and compares what is answered with the model.

    python3 check/script_documents.py SCRIPT
    python3 check/script_documents.py --program WITGRAPH_JSON --stored crates/test_cases/stdin
    python3 check/script_documents.py --program WITGRAPH_JSON [--first N] [--many N]
    python3 check/script_documents.py --in-two crates/test_cases/stdin > crates/test_json_cases/stdin

The first form writes the document of a script, the last one the commands of short stored cases in two parts, as the program
`test_json_cases` reads them. The others compare what the program answers, for the stored cases or for random scripts, with
the model of the rules (`check/model`): the replies, and all worlds of the last graph. What a script
prints on its way is left out, and what it selects in another graph. A script that isn't understood has no document. Ends
with status 1 where they differ.
"""
import argparse
import json
import re
import subprocess
import sys

import compare
import model
from model import data, labels, reader, refusals
from model.scripts import Commands, Rules, Session, words_of

PRINTS = {"print"}
ON_WORLDS = {"importize", "exportize", "semver"}
METHODS = {"[method]": "method", "[static]": "static", "[constructor]": "constructor"}
ACCESSORS = {"[get]": "getter", "[set]": "setter"}


class Spans:
    """Gives what is made while a line is read the span of that line."""

    now = None

    @staticmethod
    def follow(sort):
        made = sort.__init__

        def init(self, *parts, **named):
            made(self, *parts, **named)
            if Spans.now:
                self.span = Spans.now

        sort.__init__ = init


for made_of_lines in (data.Type, data.Function, data.Interface, data.World, data.Entry, data.Include, data.Foreign):
    Spans.follow(made_of_lines)


class Reader(reader.Reader):
    """Keeps the file of each package, and of what has to be a resource the line that says so."""

    def read(self, line, words):
        model.names.need(self.package or words[0] == "package")
        at = 0 if words[0] == "package" else len(self.package.file.text)
        Spans.now = [at, at + len(line.encode())]
        self.line(words)
        if words[0] == "package":
            self.package.file, self.package.required_spans = data.File(str(self.package.name)), []
        self.package.file.text += line.encode() + b"\n"
        while len(self.package.required_spans) < len(self.package.required):
            self.package.required_spans.append(Spans.now)
        Spans.now = None


def gate(note):
    """A gate, `null` for none."""
    if note[0] == "unknown":
        return None
    return {note[0]: {"since" if note[0] == "stable" else "feature": note[1]}}


def gated(members, note):
    """Members with the gate of a thing, where it has one."""
    return members | ({"stability": gate(note)} if note[0] != "unknown" else {})


class Written:
    """A package as it is written."""

    def __init__(self, package):
        self.package = package
        foreign = list(package.foreign.values())
        homes = {}
        for it in foreign:
            homes.setdefault(it.package.key, (it.package, [], it.span))[1].append(it)
        self.homes = list(homes.values())
        ordered = [it for _, items, _ in self.homes for it in items]
        self.interfaces = [it for it in ordered if it.table == "interfaces"] + list(package.interfaces.values())
        self.worlds = [it for it in ordered if it.table == "worlds"] + list(package.worlds.values())
        unknown = [it for it in package.types if it.kind[0] == "unknown"]
        self.unknown = unknown
        self.types = unknown + [it for it in package.types if it.kind[0] != "unknown"]
        self.ids = {id(it): n for of in (self.interfaces, self.worlds, self.types) for n, it in enumerate(of)}

    def id(self, thing):
        return self.ids[id(thing)]

    def type(self, reference):
        return reference if isinstance(reference, str) else self.id(reference)

    def kind(self, ty):
        word, *parts = ty.kind
        parts = [self.type(it) for it in parts]
        match word:
            case "unknown" | "resource":
                return word
            case "alias":
                return {"type": parts[0]}
            case "record":
                return {"record": {"fields": [{"name": n, "type": t, "span": ty.span} for n, t in zip(ty.fields, parts)]}}
            case "own" | "borrow":
                return {"handle": {word: parts[0]}}
            case "future" | "stream":
                return {word: parts[0] if parts else None}
        return {word: parts[0]}

    def written_type(self, ty):
        sort = "world" if isinstance(ty.owner, data.World) else "interface"
        owner = None if ty.owner is None else {sort: self.id(ty.owner)}
        return gated({"name": ty.name, "kind": self.kind(ty), "owner": owner, "span": ty.span}, ty.note)

    def function(self, it):
        groups, _ = labels.groups_of(it.name)
        words = [METHODS[g] for g in groups if g in METHODS] + [ACCESSORS[g] for g in groups if g in ACCESSORS]
        kind = "-".join(words) or "freestanding"
        params = [{"name": n, "type": self.type(t), "span": it.span} for n, t in zip(it.names, it.parts)]
        made = {"name": it.name, "kind": {kind: self.id(it.resource)} if it.resource else kind, "params": params}
        made |= {"result": self.type(it.result)} if it.result else {}
        return gated(made | {"span": it.span}, it.note)

    def interface(self, it):
        types = {name: self.id(ty) for name, ty in it.types.items()}
        if isinstance(it, data.Foreign):
            return {"name": it.name, "types": types, "functions": {}, "span": it.span}
        functions = {name: self.function(f) for name, f in it.functions.items()}
        return gated({"name": it.name, "types": types, "functions": functions, "span": it.span}, it.note)

    def entries(self, entries):
        return {self.key(it): self.entry(it) for it in entries}

    def key(self, it):
        return f"interface-{self.id(it.item)}" if it.label is None else marked(it.label)

    def entry(self, it):
        if isinstance(it.item, data.Type):
            return {"type": {"id": self.id(it.item), "span": it.span}}
        if isinstance(it.item, data.Function):
            return {"function": self.function(it.item)}
        return {"interface": gated({"id": self.id(it.item), "span": it.span}, it.note)}

    def world(self, it):
        if isinstance(it, data.Foreign):
            return {"name": it.name, "imports": {}, "exports": {}, "includes": [], "span": it.span}
        made = {"name": it.name, "imports": self.entries(it.imports), "exports": self.entries(it.exports)}
        made["includes"] = [self.include(of) for of in it.includes]
        return gated(made | {"span": it.span}, it.note)

    def include(self, it):
        names = [{"name": old, "as": new} for old, new in it.names]
        return gated({"id": self.id(it.world), "names": names, "span": it.span}, it.note)

    def deps(self):
        sorts = {"interfaces": "interface", "worlds": "world"}
        return {
            str(home): {it.name: [{sorts[it.table]: self.id(it)}, [gate(note) for note in it.notes]] for it in items}
            for home, items, _ in self.homes
        }

    def group(self):
        package = self.package
        main = {
            "name": str(package.name),
            "span": [0, package.file.text.index(b"\n")],
            "worlds": [self.world(it) for it in self.worlds],
            "interfaces": [self.interface(it) for it in self.interfaces],
            "types": [self.written_type(it) for it in self.types],
            "foreign-deps": self.deps(),
            "foreign-dep-spans": [span for _, _, span in self.homes],
            "unknown-type-spans": [it.span for it in self.unknown],
            "required-resources": [[self.id(t), s] for t, s in zip(package.required, package.required_spans)],
        }
        sources = [{"path": package.file.path, "text": package.file.text.decode()}]
        return {"main": main, "nested": [], "sources": sources}


class Document(Commands):
    """The commands of a script as those of a document; `read_commands` has them as the model's session takes them."""

    def __init__(self):
        super().__init__()
        self.reader, self.commands, self.other, self.read_commands = Reader(), [], None, []

    def add(self, line, words):
        command = words[0] in model.scripts.COMMANDS
        if not command:
            self.reader.read(line, words)
            return
        read, packages = self.read(words)
        self.reader = Reader()
        self.read_commands.append((read, packages))
        match read:
            case ["other"]:
                self.other, self.commands = self.commands, []
            case ["merge"]:
                self.commands, self.other = [*self.other, {"merge": self.commands}], None
            case _:
                self.commands.append(written(read, packages))


def written(command, packages):
    """A command as a document has it."""
    match command:
        case ["feature", name]:
            return {"add-feature": name}
        case ["all-features"]:
            return {"set-all-features": True}
        case ["tracks", rule]:
            return {"set-track-rule": rule}
        case ["push"]:
            main, *deps = [Written(it).group() for it in packages]
            return {"push-groups": {"main": main, "deps": deps}}
        case ["select", name, *world]:
            return {"select": {"packages": [str(name)]} | ({"world": world[0]} if world else {})}
        case ["importize", name, world, *out]:
            return {"importize": {"package": str(name), "world": world} | ({"out": out[0]} if out else {})}
        case ["exportize", name, world, out, *keys]:
            made = {"package": str(name), "world": world} | ({"out": out} if out != "-" else {})
            return {"exportize": made | ({"keys": keys} if keys else {})}
        case ["semver", name, world]:
            return {"semver": {"package": str(name), "world": world}}
    raise ValueError(command)


def read_document(script):
    """What a script that is understood says, None for another."""
    document = Document()
    try:
        for line in script.split("\n"):
            words = words_of(line)
            if words and words[0] not in PRINTS:
                document.add(line, words)
    except model.NotUnderstood:
        Spans.now = None
        return None
    return None if document.are_open() else document


def document_of(script):
    """The document of a script that is understood, None for another."""
    document = read_document(script)
    return document and {"commands": document.commands}


# ---- what a document answers, as a script does


def id_text(graph, package, name):
    home, at, version = graph["packages"][package]["name"].partition("@")
    return f"{home}/{name}{at}{version}"


def marked(label):
    """The name of an entry under a label: behind a `%` where it could be taken for a key, or for such a name."""
    return "%" + label if re.match(r"%|interface-[0-9]*\Z", label) else label


def interface_text(graph, number):
    it = graph["interfaces"][number]
    return id_text(graph, it["package"], it["name"]) if it["name"] is not None else None


def entry_text(graph, key, item):
    if "interface" in item:
        text = interface_text(graph, item["interface"]["id"])
        if key == f"interface-{item['interface']['id']}":
            return text
        label = key.removeprefix("%")
        return f"{label} = {text}" if text else label
    return f"{'func' if 'function' in item else 'type'} {key.removeprefix('%')}"


def world_lines(graph, world):
    sides = [(word, entry_text(graph, *it)) for word in ("import", "export") for it in world[word + "s"].items()]
    name = f"world {id_text(graph, world['package'], world['name'])}"
    return [name, *(f"  {word} {text}" for word, text in sides)]


def asked_words(command):
    """What a refusal tells of what was asked."""
    [(word, asked)] = command.items()
    if word == "push-groups":
        return f"{word} {asked['main']['main']['name']}"
    if word in ("importize", "exportize", "semver"):
        return f"{word} {asked['package']} {asked['world']}"
    return word


def is_told(command, reply):
    """Whether a refusal is told with its text first, at the end with what was asked and its number, and by the same data."""
    error, rendered = reply["refused"]["error"], reply["refused"]["rendered"]
    end = f"\n      = {asked_words(command)}\n      = {error['number']} in docs/REFUSALS.md"
    return rendered.startswith(error["text"]) and rendered.endswith(end) and not any(refusals.faults(reply["refused"]))


def reply_lines(graph, command, reply):
    """The lines of a reply, as a script has them."""
    [(word, asked)] = command.items()
    if word == "merge":
        lines = [line for it in zip(asked, reply["merge"]["replies"]) for line in reply_lines(None, *it)]
        last = reply["merge"]["reply"]
        return lines + (["merged"] if "merged" in last else refused_lines(command, last))
    if isinstance(reply, dict) and "refused" in reply:
        return refused_lines(command, reply)
    match reply:
        case "done" if word not in ON_WORLDS:
            return []
        case {"done": _} if word in ON_WORLDS:
            return ["done"]
        case "no-world" | "no-package":
            return ["no world"]
        case "not-found":
            return ["no package"]
        case {"pushed": _}:
            return [f"pushed {asked['main']['main']['name']}"]
        case {"world": number}:
            return [f"selected {id_text(graph, graph['worlds'][number]['package'], graph['worlds'][number]['name'])}"]
    return [str(reply)]


def refused_lines(command, reply):
    error = reply["refused"]["error"]
    told = [] if is_told(command, reply) else [json.dumps(reply["refused"])]
    return f"refused {error['number']} {error['text']}".split("\n") + told


def misplaced(output):
    """The places of refusals at which their spans don't begin in the files that there are at the end."""
    for reply in output["replies"]:
        refused = (reply["merge"]["reply"] if "merge" in reply else reply).get("refused") if isinstance(reply, dict) else None
        if refused and refused["places"] and "span" in refused["error"]:
            place = refusals.place_at(output["resolve"]["sources"], refused["error"]["span"])
            if place != refused["places"][0]:
                yield f"{refused['places'][0]} is {place}"


def in_order(commands, replies):
    """The replies in the order in which the commands are carried out."""
    for command, reply in zip(commands, replies):
        if "merge" in command:
            yield from reply["merge"]["replies"]
            reply = reply["merge"]["reply"]
        yield reply


def wrong_outcomes(document, output):
    """What commands that change a world answer otherwise than the model tells."""
    session, graph = Session(Rules()), output["resolve"]["graph"]
    replies = in_order(document.commands, output["replies"])
    for words, read in document.read_commands:
        reply = None if words[0] == "other" else next(replies)
        if words[0] in ON_WORLDS:
            wanted = session.outcome(words)
            told = reply.get("done") if isinstance(reply, dict) else reply
            if told and (told.get("unmatched", []) if isinstance(told, dict) else told) != wanted:
                yield f"{words} answers {reply}, expected {wanted}"
            if isinstance(told, dict) and len(session.graphs) == 1:
                home = graph["worlds"][told["world"]]["package"]
                if graph["packages"][home]["name"] != str(words[1]):
                    yield f"{words} answers {reply}, a world of another package"
        session.answer(words, read)


def run(program, text):
    done = subprocess.run([program], input=text, capture_output=True, text=True, check=False)
    return done.returncode, done.stdout


def compared_lines(script):
    """The lines of a script without what a document doesn't answer."""
    lines, other = [], False
    for line in script.split("\n"):
        word = (words_of(line) or [""])[0]
        other = word == "other" or other and word != "merge"
        if word != "print" and not (other and word == "select"):
            lines.append(line)
    return lines


def with_former_names(ours, asked):
    """The lines, in which a selected world that has another name at the end has the one that the model gives it."""
    if not any(line.startswith(("importize", "exportize")) for line in asked.split("\n")):
        return ours
    former = iter([text for of in model.answers(asked) for text in of if text.startswith("selected")])
    return [next(former, line) if line.startswith("selected") else line for line in ours]


def differs(program, name, script):
    """What is answered where that isn't as the model says, else None."""
    lines = compared_lines(script)
    document = read_document("\n".join(lines))
    if document is None:
        return None
    status, printed = run(program, json.dumps({"commands": document.commands}))
    try:
        output = json.loads(printed)
        if json.dumps(output, separators=(",", ":"), ensure_ascii=False) != printed:
            return f"{name}: not compact"
        if wrong := [*misplaced(output), *wrong_outcomes(document, output)]:
            return f"{name}: {wrong}"
        graph = output["resolve"]["graph"]
        ours = [line for it in zip(document.commands, output["replies"]) for line in reply_lines(graph, *it)]
    except (ValueError, KeyError) as fault:
        return f"{name}: {fault!r} {status} {printed[:500]}"
    worlds = [it for it in graph["worlds"] if it["package"] is not None]
    ours += [line for world in worlds for line in world_lines(graph, world)]
    prints = [f"print {graph['packages'][it['package']]['name']} {it['name']}" for it in worlds]
    asked = "\n".join([*lines, *prints])
    ours = with_former_names(ours, asked)
    if status == 0 and model.is_right(asked, "".join(f"{it}\n" for it in ours)):
        return None
    told = "\n".join(ours)
    return f"{name} differs\n{asked}\n--- may print\n{model.answers(asked)}\n--- witgraph_json\n{told}"


def in_two(scripts):
    """The commands of scripts in two parts, where there are two and they are short."""
    lines = []
    for name, script in scripts.items():
        document = document_of("\n".join(compared_lines(script)))
        commands = [json.dumps(it, separators=(",", ":"), ensure_ascii=False) for it in document["commands"]] if document else []
        if len(commands) > 1 and sum(map(len, commands)) < 2500:
            at = len(commands) // 2
            lines += [f"=== {name}", ",".join(commands[:at]), ",".join(commands[at:])]
    return "\n".join(["Commands of worked scripts, written by check/script_documents.py --in-two.", *lines, ""])


def main():
    parser = argparse.ArgumentParser()
    parser.add_argument("script", nargs="?")
    parser.add_argument("--program")
    parser.add_argument("--stored")
    parser.add_argument("--in-two")
    parser.add_argument("--first", type=int, default=1)
    parser.add_argument("--many", type=int, default=500)
    asked = parser.parse_args()
    if asked.in_two:
        print(in_two(compare.stored(compare.read(asked.in_two))[0]), end="")
        return 0
    if asked.script:
        made = document_of(compare.read(asked.script))
        print(json.dumps(made, separators=(",", ":"), ensure_ascii=False))
        return 0 if made else 1
    if asked.stored:
        scripts, _ = compare.stored(compare.read(asked.stored))
    else:
        scripts = {str(n): compare.written(n, compare.KINDS) for n in range(asked.first, asked.first + asked.many)}
    found = [it for it in (differs(asked.program, *of) for of in scripts.items()) if it]
    print("\n".join(found[:5]))
    print(f"{len(scripts)} scripts, {sum(document_of(it) is not None for it in scripts.values())} with documents, {len(found)} differ")
    return 1 if found else 0


if __name__ == "__main__":
    sys.exit(main())

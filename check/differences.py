"""Compares the program with the original on a script, and tells of which row of docs/DIFFERENCES.md a difference is.

The original is a program that reads the same scripts, with `src/resolve/mod.rs` and `src/resolve/error.rs` of
wit-parser 0.263.0 behind the language. It answers as `witgraph` does, but `refused ? TEXT` without the number and,
where it has the argument `--explain`, `panic: TEXT` where a call panics, overflows the stack or doesn't end; after
either its graphs are as before. It tries each command in a child process first, with `--no-trial` it doesn't.

`ROWS` has the names of the rows and, of each, the function that tells whether a `Difference` is of it: by what the two
answered, by the model's graph before the command, and by what the model has to say of the command. Where none is told,
one of the two programs is wrong, or a row is missing.
"""
import copy
import re
import subprocess

import model
from model.adding import Addition
from model.causes import excluded
from model.data import Interface, Type
from model.elaboration import WATCHERS, Conflict, refuse_conflict
from model.graph import sort
from model.names import version_key
from model.scripts import Session, commands_of, words_of

# seconds after which the original is taken not to end
PATIENCE = 60
NUMBER = re.compile(r"(?m)^refused (?:\d+|\?) ")
CONFLICT = "interface `{}` transitively depends on an interface in incompatible ways"


# what the two answer


def run(program, script):
    """What a program writes for a script, None where a signal ends it, or nothing does."""
    try:
        ran = subprocess.run(
            program, input=script, stdout=subprocess.PIPE, stderr=subprocess.DEVNULL, encoding="utf-8", timeout=PATIENCE
        )
    except subprocess.TimeoutExpired:
        return None
    return ran.stdout if ran.returncode >= 0 else None


def run_original(program, script):
    """What the original writes for a script. It has one rule of tracks, and no line that sets one."""
    script = without_tracks(script)
    quick = run([program, "--explain", "--no-trial"], script)
    return run([program, "--explain"], script) if quick is None else quick


def without_tracks(script):
    """A script, in which lines that set a rule of tracks are comments, up to the first that isn't understood."""
    if "tracks" not in script:
        return script
    lines, commands = script.split("\n"), commands_of(script)
    end = commands - 1 if isinstance(commands, int) else len(lines)
    is_rule = [words_of(line)[:1] == ["tracks"] for line in lines]
    return "\n".join(f"# {line}" if is_rule[at] and at < end else line for at, line in enumerate(lines))


def answers_of(printed):
    """The answers to commands: a line that begins with a space belongs to the one before."""
    return re.findall(r"(?m)^[^ \n].*\n(?: .*\n)*", printed)


def plain(printed):
    """What is printed without the numbers of refusals, and without the end of its last line."""
    return NUMBER.sub("refused ", printed.removesuffix("\n"))


def are_same(ours, theirs):
    """Whether both print the same but for the numbers of refusals."""
    return None not in (ours, theirs) and plain(ours) == plain(theirs)


class Difference:
    """A command that the two answer otherwise.

    `may` has what the model says of it, `texts` the same without numbers, `lists` the listed imports and exports of each
    world that the command elaborates.
    """

    def __init__(self, commands, at, ours, theirs, rules):
        self.commands, self.at, self.ours, self.theirs = commands, at, plain(ours), plain(theirs)
        self.rules = rules
        self.words, self.packages = commands[at]
        self.lists = []
        session = self.session()
        WATCHERS.append(lambda *lists: self.lists.append([list(it) for it in lists]))
        try:
            self.may = session.answer(self.words, self.packages) or set()
        finally:
            WATCHERS.clear()
        self.texts = {plain(it) for it in self.may}

    def session(self, prepare=None, without=None, rules=None):
        """The session before the command, where the model leaves out commands of a word, or prepares each in some way."""
        session = Session(rules or self.rules)
        for words, packages in self.commands[: self.at]:
            if words[0] != without:
                if prepare:
                    prepare(session, words)
                session.answer(words, packages)
        return session

    def is_of(self, *words):
        return self.words[0] in words

    def has_cause(self, *numbers):
        """Whether the model knows a reason of one of these numbers."""
        return any(re.match(r"refused (\d+)", it) and int(it.split(" ")[1]) in numbers for it in self.may)

    def are_both_refused(self):
        """Whether both graphs are as before."""
        return self.ours.startswith("refused ") and self.theirs.startswith(("refused ", "panic"))


# what tells the rows


def is_other_reason(it):
    return it.ours.startswith("refused ") and it.theirs in it.texts


def note_in_words(found):
    """A stability as the program says it, of its debug form."""
    if found[1] is None:
        return f"unstable {found[2]}"
    parts = dict(re.findall(r'(\w+): (?:\w+\(")?([^,"]*)', found[1]))
    ends = "".join(f"{sign}{parts[it]}" for sign, it in (("-", "pre"), ("+", "build")) if it in parts)
    return "stable {major}.{minor}.{patch}".format_map(parts) + ends


def is_debug_form(it):
    """Whether the texts agree once the debug forms of stabilities are said in words."""
    text = re.sub(
        r'Stable \{ since: Version \{ (.*?) \}, deprecated: None \}|Unstable \{ feature: "(.*?)", deprecated: None \}',
        note_in_words,
        it.theirs,
    )
    return text != it.theirs and text.replace("'Unknown'", "'unknown'") in it.texts


def is_present_name(it):
    return it.is_of("push") and "attempting to re-add package" in it.theirs and it.has_cause(5)


def is_gated_world_type(it):
    """Whether a world of what is pushed lists a type whose feature is off."""
    if not (it.is_of("push") and it.theirs == f"refused {excluded('type')[1]}"):
        return False
    graph = it.session().graphs[-1]
    for package in sort(it.packages)[1]:
        added = Addition(graph, package)
        for world in package.worlds.values():
            if added.active[world] and any(isinstance(e.item, Type) and not added.active[e] for e in world.entries()):
                return True
        graph.packages.append(added.made)
    return False


def refused_export(exports):
    """The key of the first export that the original refuses, None where it refuses none.

    It walks the interfaces in the order of their statements, and refuses one, labelled or not, that what came before
    needs as an import.
    """
    interfaces = [it for it in exports if isinstance(it.item, Interface)]
    listed = {it.key for it in interfaces}
    done, imported = set(), set()

    def adds(key, interface, is_export):
        if key in done:
            return is_export
        if not is_export and id(interface) in imported:
            return True
        uses = interface.direct_uses()
        if not all(adds(id(use), use, is_export and id(use) in listed) for use in uses):
            return False
        if is_export and id(interface) in imported:
            return False
        (done if is_export else imported).add(key if is_export else id(interface))
        return True

    return next((it.key_text() for it in interfaces if not adds(it.key, it.item, True)), None)


def conflicts(it):
    """Of each world in which the original refuses what it says, whether it is refused here as well."""
    for _, exports in it.lists:
        name = refused_export(exports)
        if name and it.theirs == f"refused {CONFLICT.format(name)}":
            exported = {id(e.item) for e in exports if e.label is None}
            try:
                refuse_conflict(exported, [e for e in exports if isinstance(e.item, Interface)])
                yield False
            except Conflict:
                yield True


def is_labelled_export(it):
    return any(not also for also in conflicts(it))


def is_other_export(it):
    return it.ours.startswith("refused ") and any(conflicts(it))


def is_before_include(it):
    """Whether the model tells the original's reason, of a world, once the includes that are refused themselves are gone.

    The original goes from world to world, and in each from include to include.
    """
    if not it.is_of("push"):
        return False
    commands, graph = copy.deepcopy(it.commands), it.session().graphs[-1]
    is_changed = False
    for package in sort(commands[it.at][1])[1]:
        added = Addition(graph, package)
        for world in package.worlds.values():
            kept = [of for of in world.includes if not is_refused_include(added, of)]
            is_changed |= len(kept) < len(world.includes)
            world.includes = kept
        graph.packages.append(added.made)
    without = Difference(commands, it.at, it.ours, it.theirs, it.rules)
    return is_changed and any(tells(without) for tells in (is_other_reason, is_debug_form, is_labelled_export, is_other_export))


def is_refused_include(added, include):
    """Whether an include of a package that is added has a gate that can't be asked, or names a world that is left out."""
    word, *text = include.note
    version = added.package.name.version
    is_unmet = word == "stable" and (version is None or version_key(text[0]) > version_key(version))
    return is_unmet or added.active.get(include) and not added.active[include.world]


def is_taken_name(it):
    is_turn = it.is_of("importize", "exportize") and it.has_cause(20)
    return is_turn and (it.theirs == "done" or bool(re.fullmatch(CONFLICT.format(".*"), it.theirs[len("refused ") :])))


def is_exported_type(it):
    return it.is_of("exportize") and it.has_cause(21) and "entered unreachable code" in it.theirs


def is_missing_type(it):
    is_missing = any(re.search(r": type `[^`]*` is missing$", text) for text in it.texts)
    return it.is_of("semver") and is_missing and it.theirs.startswith("panic")


def is_cycle(it):
    is_refused_later = bool(re.fullmatch(CONFLICT.format(".*"), it.theirs[len("refused ") :]))
    return it.has_cause(6, 22, 23) and (it.theirs in ("done", "merged") or "no return" in it.theirs or is_refused_later)


def is_cycle_of_tracks(it):
    return it.is_of("semver") and is_cycle(it)


def is_cycle_of_merge(it):
    return it.is_of("merge") and is_cycle(it)


def is_later_type(it):
    return it.is_of("merge") and "request to remap a type that has not yet been registered" in it.theirs


def is_dropped_function(it):
    """Whether the model says what the original does where merges leave out functions that are gated off."""
    session = it.session(prepare=drop_functions)
    drop_functions(session, it.words)
    return it.theirs in {plain(text) for text in session.answer(it.words, it.packages)}


def drop_functions(session, words):
    """Takes from the interfaces that a merge brings the functions whose feature is off in the graph that they come to."""
    if words[0] == "merge":
        graph, other = session.graphs
        for package in other.packages:
            there = graph.find(package.name)
            for name, interface in package.interfaces.items():
                if there is None or name not in there.interfaces:
                    kept = [(name, it) for name, it in interface.functions.items() if is_on(graph, it.note)]
                    interface.functions = dict(kept)


def is_on(graph, note):
    return note[0] != "unstable" or graph.all_features or note[1] in graph.features


def is_structure(it):
    """Whether the model says what the original does where merges don't compare the structures of types, or says something
    else there of which another row tells what the original does in its place."""
    if not it.is_of("merge") or "mismatch in type" not in it.ours:
        return False
    rules = model.Rules(by_structure=False)
    texts = it.session(rules=rules).answer(it.words, it.packages)
    others = [is_row for is_row in ROWS.values() if is_row is not is_structure]
    return it.theirs in {plain(text) for text in texts} or any(
        is_row(Difference(it.commands, it.at, text, it.theirs, rules)) for text in texts for is_row in others
    )


def is_other_rule(it):
    """Whether the model says what the original does where no line sets a rule of tracks."""
    return it.theirs in {plain(text) for text in it.session(without="tracks").answer(it.words, it.packages)}


ROWS = {
    "another of several reasons": is_other_reason,
    "the text of stabilities": is_debug_form,
    "a name that is there": is_present_name,
    "a gated type of a world": is_gated_world_type,
    "a labelled export": is_labelled_export,
    "the export of a conflict": is_other_export,
    "a reason before an include": is_before_include,
    "a taken name of a world": is_taken_name,
    "a type that is exported": is_exported_type,
    "a type that is missing": is_missing_type,
    "a cycle of semver merging": is_cycle_of_tracks,
    "a cycle of a merge": is_cycle_of_merge,
    "a later type in a merge": is_later_type,
    "a function that a merge leaves out": is_dropped_function,
    "the structure of types in a merge": is_structure,
    "the second rule of tracks": is_other_rule,
}


def rows_of(script, ours, theirs, rules=model.Rules()):
    """The rows of the differences between what the two print for a script; None of one that is of no row.

    Commands are compared as long as both graphs are the same: up to the first that one of the two carries out otherwise.
    """
    commands = commands_of(script)
    if None in (ours, theirs) or isinstance(commands, int):
        return [None]
    session, answers = Session(rules), list(zip(answers_of(ours), answers_of(theirs)))
    found = []
    for at, command in enumerate(commands):
        if session.answer(*command) is None:
            continue
        if not answers:
            return [*found, None]
        one, other = answers.pop(0)
        if plain(one) != plain(other):
            difference = Difference(commands, at, one, other, rules)
            found.append(next((name for name, is_row in ROWS.items() if is_row(difference)), None))
            if found[-1] is None or not difference.are_both_refused():
                return found
    return found or [None]

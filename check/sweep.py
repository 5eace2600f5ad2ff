#!/usr/bin/env python3
"""Refuses each request for memory in turn, and tells where want of memory isn't what is answered. A request for less than
what a block has, which gives memory back, is none of these.

    python3 check/sweep.py [--calls PROGRAM] [--scripts PROGRAM] [--documents PROGRAM] [--pictures PROGRAM] [--jobs N]
    python3 check/sweep.py --planted BUILD

The programs are those that `rt ci` leaves in the folders `out`: `test_sweep`, which makes each call on the graphs of
worked scripts, `witgraph`, which runs the scripts of `test_cases`, `witgraph_json` and `witgraph_dot`. `check/refuse.c` is compiled and laid over
their allocator. Each round is a process of its own. The script ends with status 1 where a round isn't answered so:

Calls. In the round of number N the Nth request for memory within one call is refused, for N from 1 until none is; then
the same with each request after it refused as well. The call answers want of memory (28) and nothing else, the graph
and the features are as before, and so are the files, or those that came with the call stand at their end. All else
that the program prints is as without refusals. In the last round, in which nothing is refused, the whole output is as
stored, and the call isn't answered by 28. A call that takes no memory asks for none, with each request refused.

Scripts. Without refusals a script prints what is stored, with status 1 where that is the line of one that isn't
understood, else 0. In the round of number N the Nth request of the whole run is refused. One command prints `refused 28
out of memory`, and the others what they print where that command isn't there, with status 0; or nothing is printed, with
status 1.

Documents. Every eighth script that has a document (`check/script_documents.py`) is given to `witgraph_json` as that; of every
sixteenth the second half, too, in a document that begins with the graph of the first. In the round of number N the Nth
request of the whole run is refused. One command is answered by 28, and the others and the graph are as where that command
isn't there; or nothing is written, with status 1, and standard error says why.

Pictures. `witgraph_dot` draws the scripts of PICTURES. Whichever request is refused, nothing is drawn, with status 1, and
standard error says why. Else no program writes anything there.

`--planted` plants the wrong bodies of `check/planted` in a copy of the repository and ends with status 1 where the
sweep of the calls doesn't tell one of them. No proof lets them pass, so `BUILD FOLDER OUT` is a command that builds the
program of a crate's folder unproved.
"""
import argparse
import collections
import concurrent.futures
import dataclasses
import json
import os
import re
import shutil
import subprocess
import sys
import tempfile
import time

import script_documents as documents
from model.scripts import COMMANDS, SILENT

CHECK = os.path.dirname(os.path.abspath(__file__))
TOP = os.path.dirname(CHECK)
WANT = "refused 28 out of memory"
# All that a script prints which isn't understood.
NOT_UNDERSTOOD = re.compile(r"line \d+: not understood\n")
# A parse that says that it has no memory is answered by 28 with ample memory, too.
WITHOUT_MEMORY = "push_source whose parse has no memory"


def read(path):
    with open(path, encoding="utf-8") as file:
        return file.read()


def cases_of(path):
    """The cases of a file by their names."""
    return {name: text for name, _, text in (it.partition("\n") for it in read(path).split("=== ")[1:])}


class Program:
    """A program that is run under `check/refuse.c`, and what it says on standard error where it writes nothing."""

    def __init__(self, path, shim, reason=""):
        self.path, self.shim, self.reason = path, shim, reason

    def run(self, given, **refusing):
        reading, writing = os.pipe()
        env = {"LD_PRELOAD": self.shim, "SWEEP_FD": str(writing)}
        env.update((f"SWEEP_{name.upper()}", str(value)) for name, value in refusing.items())
        try:
            done = subprocess.run([self.path], input=given.encode(), capture_output=True, env=env, pass_fds=[writing],
                                  timeout=60)
        finally:
            os.close(writing)
        with os.fdopen(reading) as told:
            counts = [tuple(map(int, line.split())) for line in told]
        said = done.stderr.decode()
        is_silent = said == (self.reason if (done.returncode, done.stdout) == (1, b"") else "")
        return Ran(done.returncode, done.stdout.decode(), None if is_silent else said, counts)


class Ran:
    """A run: its status, what it printed, what it shouldn't have said on standard error, of each call how many requests it
    made and how many were refused, and the same of the whole with the blocks that weren't freed."""

    def __init__(self, status, out, said, counts):
        self.status, self.out, self.said = status, out, said
        *self.counts, self.whole = counts or [(0, 0, 0)]

    def faults(self):
        """What is wrong whatever is refused."""
        if self.status not in (0, 1):
            yield f"status {self.status}"
        elif self.said is not None:
            yield f"standard error: {self.said!r}"
        elif len(self.whole) != 3 or self.whole[2]:
            yield f"blocks that aren't freed: {self.whole[2:]}"


# ---- calls

STATE = re.compile(r"(?:base|state) (\S+)(?: files (\d+) end (\d+))?(?: (.*))?$")


@dataclasses.dataclass
class State:
    """The number of the graph, the files and where they end, and the features."""

    graph: str
    files: tuple
    features: str


def state_of(line):
    graph, files, end, features = STATE.match(line).groups()
    return State(graph, (int(files), int(end)) if files else (0, 0), features)


@dataclasses.dataclass
class Call:
    """A call as it is told: where its lines stand in the output, what there is before it, which files come with it, its
    answers, and what there is after it."""

    takes_memory: bool
    name: str
    start: int
    end: int
    base: State
    incoming: tuple
    answers: list = dataclasses.field(default_factory=list)
    state: State = None


def calls_of(text):
    calls, base, incoming, at = [], None, (0, 0), 0
    for line in text.splitlines(keepends=True):
        word, _, rest = line.rstrip("\n").partition(" ")
        if word in ("call", "bare"):
            calls.append(Call(word == "call", rest, at, at, base, incoming))
            incoming = (0, 0)
        elif word == "base":
            base = state_of(line)
        elif word == "incoming":
            files, _, end = rest.split()
            incoming = (incoming[0] + int(files), incoming[1] + int(end))
        elif word == "answer":
            calls[-1].answers.append(rest)
        elif word == "state":
            calls[-1].state = state_of(line)
        at += len(line)
        if calls and word not in ("base", "incoming"):
            calls[-1].end = at
    return calls


def faults_of(call, plain):
    """What is wrong with a call of which a request is refused, as it is told then and without refusals."""
    answers, features = [WANT], plain.base and plain.base.features
    if plain.name == "run" and len(call.answers) == 2:
        # After a refused command of `run` the next one runs: it turns all features on.
        answers, features = [WANT, plain.answers[1]], features.replace("all: false", "all: true")
    if call.answers != answers:
        yield f"answers {call.answers}"
    if (call.state is None) != (plain.state is None):
        yield "tells no state"
    elif call.state:
        old, new = plain.base, call.state
        if new.graph != old.graph:
            yield f"graph {old.graph} becomes {new.graph}"
        if new.features not in (None, features):
            yield f"features {features} become {new.features}"
        if new.files not in ((0, 0), old.files, (old.files[0] + plain.incoming[0], old.files[1] + plain.incoming[1])):
            yield f"files {old.files} become {new.files}, {plain.incoming} came"


class Calls:
    """The rounds of the calls of one case."""

    def __init__(self, program, name, script, stored):
        self.program, self.given, self.faults = program, f"=== {name}\n{script}", []
        plain = self.plain = program.run(self.given, call=0)
        self.calls = calls_of(plain.out)
        self.faults += [*plain.faults(), *self.bare_faults(plain)]
        if plain.status or stored is not None and plain.out != f"=== {name}\n{stored}":
            self.faults.append(f"without refusals: status {plain.status}, or not as stored")
        if len(plain.counts) != len(self.calls):
            self.faults.append(f"{len(self.calls)} calls and {len(plain.counts)} counts")
        for call in self.calls:
            if (WANT in call.answers) != (call.name == WITHOUT_MEMORY):
                self.faults.append(f"{call.name}: with ample memory: {call.answers}")

    def bare_faults(self, ran):
        """The calls that take no memory and ask for some."""
        for call, (asked, _) in zip(self.calls, ran.counts):
            if not call.takes_memory and asked:
                yield f"{call.name}: asks for memory {asked} times"

    def rounds(self):
        """Each round: the index of a call, its number among those that take memory, the request, and all from it on."""
        number = 0
        for index, (call, (asked, _)) in enumerate(zip(self.calls, self.plain.counts)):
            if call.takes_memory:
                number += 1
                for at in range(1, asked + 2):
                    yield index, number, at, {}
                    yield index, number, at, {"on": 1}

    def judge(self, index, number, at, on):
        """Whether anything is refused in a round, and what is wrong."""
        ran, plain = self.program.run(self.given, call=number, at=at, **on), self.calls[index]
        faults = [*ran.faults()]
        is_refused = len(ran.counts) <= index or ran.counts[index][1] > 0
        before, after = self.plain.out[:plain.start], self.plain.out[plain.end:]
        if ran.status:
            faults.append(f"ends with status {ran.status}")
        elif not is_refused and ran.out != self.plain.out:
            faults.append("nothing is refused, and yet it prints something else")
        elif not (ran.out.startswith(before) and ran.out.endswith(after)):
            faults.append("other calls are told otherwise")
        elif is_refused:
            for call in calls_of(ran.out[len(before):len(ran.out) - len(after)]):
                faults += faults_of(call, plain)
        where = f"{plain.name}: request {at}{' and on' if on else ''}"
        return is_refused, [f"{where}: {it}" for it in faults] + [*self.bare_faults(ran)]


# ---- scripts

def commands_of(script):
    """The commands of a script, each as its word and its text."""
    commands, text = [], ""
    for line in script.splitlines(keepends=True):
        text += line
        word = (line.split() or [""])[0]
        if word in COMMANDS:
            commands.append((word, text))
            text = ""
    return commands


def answers_of(commands, text):
    """The answer of each command, none of which is refused for memory."""
    told = []
    for line in text.splitlines(keepends=True):
        if line.startswith("  "):
            told[-1] += line
        else:
            told.append(line)
    return ["" if word in SILENT else told.pop(0) for word, _ in commands]


class Script:
    """The rounds of one script."""

    def __init__(self, program, script, stored):
        self.program, self.script = program, script
        self.plain = program.run(script)
        self.faults = list(self.plain.faults())
        if (self.plain.status, self.plain.out) != (1 if NOT_UNDERSTOOD.fullmatch(stored) else 0, stored):
            self.faults.append(f"without refusals: status {self.plain.status}, prints\n{self.plain.out}")
        self.may = {(1, "")}
        if self.plain.status == 0:
            self.may.update((0, it) for it in self.refused(commands_of(script)))

    def refused(self, commands):
        """What may be printed where one command is refused for memory."""
        plain = answers_of(commands, self.plain.out)
        for at, (word, _) in enumerate(commands):
            # What is made of the second graph is gone with its `merge`.
            begin = max(i for i in range(at) if commands[i][0] == "other") if word == "merge" else at
            if word != "other":
                left = commands[:begin] + commands[at + 1:]
                others = answers_of(left, self.program.run("".join(text for _, text in left)).out)
                yield "".join(plain[:at]) + WANT + "\n" + "".join(others[begin:])

    def rounds(self):
        return ((at,) for at in range(1, self.plain.whole[0] + 2))

    def judge(self, at):
        """Whether anything is refused in a round, and what is wrong."""
        ran = self.program.run(self.script, at=at)
        faults, told = [*ran.faults()], (ran.status, ran.out)
        is_plain, is_refused = told == (self.plain.status, self.plain.out), ran.whole[1] > 0
        if is_refused and told not in self.may:
            faults.append("answers as if it weren't refused" if is_plain else f"status {ran.status}, prints\n{ran.out}")
        elif not is_refused and not is_plain:
            faults.append("nothing is refused, and yet it prints something else")
        return is_refused, [f"request {at}: {it}" for it in faults]


# ---- documents


SPANS = {"span", "span1", "span2"}


def without_spans(made):
    """A reply without spans: the files of a push that is refused may stay, and what follows them then stands further on."""
    if isinstance(made, list):
        return [without_spans(it) for it in made]
    return {key: without_spans(it) for key, it in made.items() if key not in SPANS} if isinstance(made, dict) else made


def told_of(out):
    """What of a document that came out has to be as it is without the command that was refused."""
    output = json.loads(out)
    return without_spans(output["replies"]), output["resolve"]["graph"], output["resolve"]["features"]


def is_want(reply):
    return isinstance(reply, dict) and reply.get("refused", {}).get("error", {}).get("number") == 28


def without_each(commands):
    """The commands without one of them, with what is to be answered of a list of replies where that one is refused."""
    for at, command in enumerate(commands):
        left = commands[:at] + commands[at + 1:]
        yield left, lambda replies, told, at=at: replies[:at] + told[at:at + 1] + replies[at:]
        for inner in range(len(command.get("merge", []))):
            of = command["merge"][:inner] + command["merge"][inner + 1:]

            def with_inner(replies, told, at=at, inner=inner):
                made, want = replies[at]["merge"], told[at]["merge"]["replies"]
                each = made["replies"][:inner] + want[inner:inner + 1] + made["replies"][inner:]
                return replies[:at] + [{"merge": {**made, "replies": each}}] + replies[at + 1:]

            yield commands[:at] + [{"merge": of}] + commands[at + 1:], with_inner


def wants(replies):
    """How many of the replies are 28. A merge that is refused tells what made the other graph as it is."""
    inner = [it for reply in replies if "merge" in reply for it in [*reply["merge"]["replies"], reply["merge"]["reply"]]]
    return sum(map(is_want, [*replies, *inner]))


def document_of(commands, resolve):
    """A document of commands, which begins with a graph where there is one, given as a text."""
    return (f'{{"resolve":{resolve},' if resolve else "{") + f'"commands":{json.dumps(commands)}}}'


class Document:
    """The rounds of one document."""

    def __init__(self, program, commands, resolve=None):
        self.program, self.given = program, document_of(commands, resolve)
        self.plain = program.run(self.given)
        self.faults = list(self.plain.faults())
        if self.plain.status:
            self.faults.append(f"without refusals: status {self.plain.status}, prints\n{self.plain.out}")
        self.may = []
        for left, with_want in without_each(commands):
            ran = program.run(document_of(left, resolve))
            self.may.append((told_of(ran.out), with_want))

    def is_right(self, out):
        """Whether one command is refused for memory, and all else is as without it."""
        replies, *others = told_of(out)
        if wants(replies) != 1:
            return False
        return any(list(rest) == others and with_want(of, replies) == replies for (of, *rest), with_want in self.may)

    def rounds(self):
        return ((at,) for at in range(1, self.plain.whole[0] + 2))

    def judge(self, at):
        """Whether anything is refused in a round, and what is wrong."""
        ran = self.program.run(self.given, at=at)
        faults, is_refused = list(ran.faults()), ran.whole[1] > 0
        is_plain = (ran.status, ran.out) == (self.plain.status, self.plain.out)
        if not is_refused and not is_plain:
            faults.append("nothing is refused, and yet it prints something else")
        elif is_refused and (ran.status, ran.out) != (1, "") and (ran.status or not self.is_right(ran.out)):
            faults.append("answers as if it weren't refused" if is_plain else f"status {ran.status}, prints\n{ran.out[:2000]}")
        return is_refused, [f"request {at}: {it}" for it in faults]


# ---- pictures

PICTURES = "chain", "conflict", "merge"


class Picture:
    """The rounds of the picture of one script."""

    def __init__(self, program, script):
        self.program, self.script = program, script
        self.plain = program.run(script)
        self.faults = list(self.plain.faults())
        if self.plain.status or not self.plain.out.startswith("digraph"):
            self.faults.append(f"without refusals: status {self.plain.status}, prints\n{self.plain.out}")

    def rounds(self):
        return ((at,) for at in range(1, self.plain.whole[0] + 2))

    def judge(self, at):
        """Whether anything is refused in a round, and what is wrong."""
        ran = self.program.run(self.script, at=at)
        faults, is_refused = list(ran.faults()), ran.whole[1] > 0
        if (ran.status, ran.out) != ((1, "") if is_refused else (0, self.plain.out)):
            faults.append(f"status {ran.status}, prints\n{ran.out[:2000]}")
        return is_refused, [f"request {at}: {it}" for it in faults]


# ---- all of them


class Sweep:
    """The rounds so far, and what is wrong."""

    def __init__(self, jobs, folder):
        self.pool, self.folder, self.shim = concurrent.futures.ThreadPoolExecutor(jobs), folder, f"{folder}/refuse.so"
        self.rounds, self.faults, self.begun = 0, [], time.time()
        # How many requests each call made in all cases.
        self.asked = collections.Counter()
        compiler = next(filter(None, map(shutil.which, ("cc", "gcc", "clang"))), None)
        if not compiler:
            sys.exit("sweep: no cc, gcc or clang is here to compile check/refuse.c")
        subprocess.run([compiler, "-O2", "-shared", "-fPIC", "-o", self.shim, f"{CHECK}/refuse.c"], check=True)

    def program(self, path, reason=""):
        """A copy that may be run: `rt ci` leaves programs without leave."""
        if not os.path.isfile(path):
            sys.exit(f"sweep: {path} isn't there: run rt ci first")
        copy = shutil.copyfile(path, f"{self.folder}/copy-of-{os.path.basename(path)}")
        os.chmod(copy, 0o755)
        return Program(copy, self.shim, reason)

    def add(self, name, made):
        """The rounds of one case or script."""
        told = list(self.pool.map(lambda it: made.judge(*it), made.rounds()))
        self.rounds += sum(is_refused for is_refused, _ in told)
        self.faults += [f"{name}: {it}" for it in made.faults + sum((faults for _, faults in told), [])]

    def calls(self, path, stored):
        program = self.program(path)
        for name, script in cases_of(f"{TOP}/crates/test_sweep/stdin").items():
            made = Calls(program, name, script, stored and stored.get(name, ""))
            self.add(f"calls of {name}", made)
            for call, (asked, _) in zip(made.calls, made.plain.counts):
                self.asked[call.takes_memory, call.name] += asked
        self.faults += [f"{name}: no request is made" for (takes, name), asked in self.asked.items() if takes and not asked]
        self.tell(f"{sum(takes for takes, _ in self.asked)} calls that take memory, {sum(not takes for takes, _ in self.asked)} that take none")

    def scripts(self, path):
        program, scripts = self.program(path), cases_of(f"{TOP}/crates/test_cases/stdin")
        for name, case in scripts.items():
            script, _, stored = case.partition("---\n")
            self.add(f"script {name}", Script(program, script, stored))
        self.tell(f"{len(scripts)} scripts more")

    def documents(self, path):
        program, scripts = self.program(path, "witgraph_json: out of memory\n"), cases_of(f"{TOP}/crates/test_cases/stdin")
        made = {name: documents.document_of(case.partition("---\n")[0]) for name, case in scripts.items()}
        chosen = [name for name, document in made.items() if document][::8]
        for name in chosen:
            self.add(f"document {name}", Document(program, made[name]["commands"]))
        halved = [name for name in chosen[::2] if len(made[name]["commands"]) > 1]
        for name in halved:
            commands = made[name]["commands"]
            middle = len(commands) // 2
            resolve = program.run(document_of(commands[:middle], None)).out.partition(',"resolve":')[2].strip()[:-1]
            self.add(f"second half of {name}", Document(program, commands[middle:], resolve))
        self.tell(f"{len(chosen)} documents and {len(halved)} second halves more")

    def pictures(self, path):
        program = self.program(path, "witgraph_dot: out of memory: nothing is drawn\n")
        for name in PICTURES:
            self.add(f"picture {name}", Picture(program, read(f"{TOP}/docs/pictures/{name}.script")))
        self.tell(f"{len(PICTURES)} pictures more")

    def tell(self, what):
        print(f"sweep: {what}: {self.rounds} rounds with a refusal, {len(self.faults)} wrong, {time.time() - self.begun:.0f} s", flush=True)


def planted(sweep, build):
    """Plants each wrong body in one copy, and tells which of them the sweep doesn't tell."""
    copy = f"{sweep.folder}/copy"
    shutil.copytree(TOP, copy, ignore=shutil.ignore_patterns("out", ".git"))
    calls = {}
    for name in sorted(os.listdir(f"{CHECK}/planted")):
        words = dict(it.split(": ", 1) for it in read(f"{CHECK}/planted/{name}").splitlines())
        text = read(f"{copy}/{words['file']}")
        assert text.count(words["old"]) == 1, name
        with open(f"{copy}/{words['file']}", "w", encoding="utf-8") as file:
            file.write(text.replace(words["old"], words["new"]))
        calls[name] = words["call"]
    subprocess.run([build, f"{copy}/crates/test_sweep", f"{sweep.folder}/planted"], check=True)
    sweep.calls(f"{sweep.folder}/planted", None)
    missed = 0
    for name, call in calls.items():
        told = [it for it in sweep.faults if f": {call}: " in it]
        missed += not told
        print(f"{name}: told in {len(told)} rounds" + "".join(f"\n  {it[:160]}" for it in told[:2]))
    return 1 if missed else 0


def main():
    parser = argparse.ArgumentParser()
    parser.add_argument("--calls", default=f"{TOP}/crates/test_sweep/out/test_sweep")
    parser.add_argument("--scripts", default=f"{TOP}/crates/witgraph/out/witgraph")
    parser.add_argument("--documents", default=f"{TOP}/crates/witgraph_json/out/witgraph_json")
    parser.add_argument("--pictures", default=f"{TOP}/crates/witgraph_dot/out/witgraph_dot")
    parser.add_argument("--jobs", type=int, default=os.cpu_count())
    parser.add_argument("--planted", metavar="BUILD")
    asked = parser.parse_args()
    with tempfile.TemporaryDirectory() as folder:
        sweep = Sweep(asked.jobs, folder)
        if asked.planted:
            return planted(sweep, asked.planted)
        sweep.calls(asked.calls, cases_of(f"{TOP}/crates/test_sweep/stdout"))
        sweep.scripts(asked.scripts)
        sweep.documents(asked.documents)
        sweep.pictures(asked.pictures)
    for it in sweep.faults[:40]:
        print("WRONG", it)
    return 1 if sweep.faults else 0


if __name__ == "__main__":
    sys.exit(main())

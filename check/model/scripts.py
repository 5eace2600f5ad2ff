"""Scripts: their commands, and what each may print."""
from dataclasses import dataclass

from .graph import Graph
from .merging import merge
from .names import NotUnderstood, PackageName, need
from .reader import Reader
from .tracks import merge_by_track

# of each command how many words it takes
COMMANDS = {
    "feature": (1, 1),
    "all-features": (0, 0),
    "push": (0, 0),
    "importize": (2, 3),
    "exportize": (3, 10**9),
    "print": (2, 2),
    "select": (1, 2),
    "tracks": (1, 1),
    "semver": (2, 2),
    "other": (0, 0),
    "merge": (0, 0),
}
# that print nothing where they are carried out
SILENT = {"feature", "all-features", "tracks", "other"}
# whose first word is the name of a package
OF_PACKAGES = {"importize", "exportize", "print", "select", "semver"}


@dataclass(frozen=True)
class Rules:
    """Whether merges compare types that are to be one by their structures."""

    by_structure: bool = True


class Commands:
    """Reads the lines of a script one after another."""

    def __init__(self):
        self.reader, self.is_other = Reader(), False

    def read(self, words):
        """The command of a line with the packages that it ends; None of a line of a package."""
        if words[0] not in COMMANDS:
            self.reader.line(words)
            return None
        if words[0] in ("other", "merge"):
            need(self.is_other == (words[0] == "merge"))
            self.is_other = not self.is_other
        packages = self.reader.packages
        command = read_command(words, COMMANDS[words[0]], packages)
        self.reader = Reader()
        return command, packages

    def are_open(self):
        """Whether a package or another graph has no end yet."""
        return bool(self.reader.packages) or self.is_other


def words_of(line):
    """The words of a line, none of a comment."""
    words = [it for it in line.split(" ") if it]
    return [] if words and words[0].startswith("#") else words


def commands_of(text):
    """The commands with their packages; or the number of the first line that isn't understood."""
    reading, commands, last = Commands(), [], 0
    for number, line in enumerate(text.split("\n"), 1):
        words = words_of(line)
        if words:
            last = number
            try:
                commands.append(reading.read(words))
            except NotUnderstood:
                return number
    return last if reading.are_open() else [it for it in commands if it is not None]


def read_command(words, counts, packages):
    """The words of a command that ends these packages, the name of a package being read."""
    least, most = counts
    need(least <= len(words) - 1 <= most)
    need(bool(packages) == (words[0] == "push") and all(it.is_shaped() for it in packages))
    need(words[0] != "tracks" or words[1] in ("published", "with-prereleases"))
    return [words[0], PackageName.read(words[1]), *words[2:]] if words[0] in OF_PACKAGES else words


def told(causes, done):
    """What may be printed: one of the causes, where there are some."""
    return {f"refused {number} {text}" for number, text in causes} or {done}


class Session:
    """The graphs of a script. A command works on the last of them."""

    def __init__(self, rules):
        self.rules, self.graphs = rules, [Graph()]

    def answer(self, words, packages):
        """The texts that a command may print, None where it prints nothing."""
        graph = self.graphs[-1]
        match words:
            case ["feature", name]:
                graph.features[name] = True
            case ["all-features"]:
                graph.all_features = True
            case ["tracks", rule]:
                graph.tracks = rule
            case ["other"]:
                self.graphs.append(Graph())
            case ["push"]:
                return told(graph.push(packages), f"pushed {packages[0].name}")
            case ["merge"]:
                other = self.graphs.pop()
                # (the files are there after a refusal, too)
                self.graphs[-1].files += other.files
                return self.merged(merge(self.graphs[-1], other, self.rules.by_structure), "merged")
            case ["select", name, *path]:
                package = graph.find(name)
                return {graph.select(package, *path) if package else "no package"}
            case [word, name, world, *rest]:
                package = graph.find(name)
                if package is None or world not in package.worlds:
                    return {"no world"}
                return self.answer_of(word, package, package.worlds[world], rest)
        return None

    def outcome(self, words):
        """What JSON tells of a command that changes a world before it is carried out: the keys that are listed and that no import
        has, or that the world or its package isn't there."""
        word, name, world, *rest = words
        package = self.graphs[-1].find(name)
        if package is None or world not in package.worlds:
            return "no-package" if package is None else "no-world"
        names = {it.key_text() for it in package.worlds[world].imports}
        return [it for it in rest[1:] if it not in names] if word == "exportize" else []

    def answer_of(self, word, package, world, rest):
        """The texts that a command may print that is asked of a world."""
        graph = self.graphs[-1]
        if word == "print":
            return {shown(package, world)}
        if word == "semver":
            return self.merged(merge_by_track(graph, package.name, world.name, graph.tracks), "done")
        exports, new = word == "exportize", f"{world.name}-{word.removesuffix('ize')}ized"
        if rest and not (exports and rest[0] == "-"):
            new = rest[0]
        return told(graph.turn(package, world, new, exports, rest[1:]), "done")

    def merged(self, made, done):
        """Takes the graph that was made, where nothing speaks against it."""
        graph, causes = made
        if not causes:
            self.graphs[-1] = graph
        return told(causes, done)


def shown(package, world):
    """What `print` prints."""
    lines = [f"\n  {side} {it.shown()}" for side, entries in world.lists() for it in entries]
    return f"world {package.name.id_of(world.name)}" + "".join(lines)


class Follower:
    """Follows the lines of a script that is being written; each is read once."""

    def __init__(self, rules=Rules()):
        self.reading, self.session, self.count, self.told = Commands(), Session(rules), 0, None

    def answer(self, lines):
        """What the last command of these lines may print. Up to those that were followed they are as before."""
        for line in lines[self.count :]:
            command = self.reading.read(words_of(line))
            self.told = self.session.answer(*command) if command else self.told
        self.count = len(lines)
        return self.told

    def drop_to(self, lines):
        """Forgets lines behind these, whose commands changed nothing."""
        self.count = len(lines)


def answers(text, rules=Rules()):
    """What each command of a script may print; or the number of the first line that isn't understood."""
    commands = commands_of(text)
    if isinstance(commands, int):
        return commands
    session = Session(rules)
    texts = [session.answer(*it) for it in commands]
    return [it for it in texts if it is not None]


def is_right(text, printed, rules=Rules()):
    """Whether a program may print this for a script."""
    may_print = answers(text, rules)
    if isinstance(may_print, int):
        return printed == f"line {may_print}: not understood\n"
    for texts in may_print:
        # (of two texts of which one begins the other, the longer one was meant)
        said = max((it for it in texts if printed.startswith(it + "\n")), key=len, default=None)
        if said is None:
            return False
        printed = printed[len(said) + 1 :]
    return not printed

"""Tells of which row of docs/DIFFERENCES.md a difference between two answers to a document is.

Most are told by check/differences.py, which asks the model of the rules. What scripts can't show is told here: of texts
with deprecations, of files, of places and of graphs.
"""
import re

import packages
import differences
from graphs import Differ, paired, without_gated
from model import adding
from model.data import Type
from model import Rules
from model.scripts import Session

OTHER_REASON = "another of several reasons"
DEPRECATED = r"(?:None|Some\(Version \{ (.*?) \}\))"
STABLE = rf"Stable \{{ since: Version \{{ (.*?) \}}, deprecated: {DEPRECATED} \}}"
UNSTABLE = rf'Unstable \{{ feature: "(.*?)", deprecated: {DEPRECATED} \}}'


def version(parts):
    """A version, of what its debug form has within."""
    found = dict(re.findall(r'(\w+): (?:\w+\(")?([^,"]*)', parts))
    ends = "".join(f"{sign}{found[it]}" for sign, it in (("-", "pre"), ("+", "build")) if found.get(it))
    return "{major}.{minor}.{patch}".format_map(found) + ends


def gate_in_words(found):
    since, deprecated, feature, also = found.groups()
    said = f"unstable {feature}" if since is None else f"stable {version(since)}"
    deprecated = deprecated or also
    return said + (f" deprecated {version(deprecated)}" if deprecated else "")


def in_words(text):
    """A text, in which gates are told as this project tells them."""
    return re.sub(f"{STABLE}|{UNSTABLE}", gate_in_words, text).replace("'Unknown'", "'unknown'")


def line(difference, reply, command):
    """A reply as a script has it."""
    if reply == "no return" or reply is None:
        return "panic: no return"
    if reply in ("done", "no-world", "no-package"):
        return "done" if reply == "done" else "no world"
    match reply:
        case {"done": _}:
            return "done"
        case {"refused": refused}:
            return f"refused {refused['error']['number'] or '?'} {refused['error']['text']}"
        case {"panic": text}:
            return f"panic: {text}"
        case {"pushed": _}:
            return f"pushed {command['push-groups']['main']['main']['name']}"
        case {"merged": _}:
            return "merged"
    return repr(reply)


class Refused:
    """The two answers to a command, as check/differences.py has them."""

    def __init__(self, difference):
        listed = list(packages.commands_of(difference.commands))
        places = [place for place, _ in listed]
        self.commands, self.at = [it for _, it in listed], places.index(difference.place)
        command = difference.command()
        self.ours, self.theirs = (line(difference, it, command) for it in (difference.ours, difference.theirs))

    def made(self, theirs):
        return differences.Difference(self.commands, self.at, self.ours, theirs, Rules())


def is_question(command):
    return isinstance(command, str) or packages.command_of(command) is None and "merge" not in command


def is_mismatch(difference):
    """Whether a merge is refused by both for the same mismatch; the original has none of its files then."""
    ours, theirs = map(error_of, (difference.ours, difference.theirs))
    return ours.get("number") == 24 and ours["text"] == theirs.get("text")


def error_of(reply):
    return reply["refused"]["error"] if isinstance(reply, dict) and "refused" in reply else {}


def row_of(difference):
    """The row of a difference, None where there is none."""
    if difference.graphs:
        return "a function that a merge leaves out" if is_left_out(difference) else None
    if is_mismatch(difference):
        return "the files of a refused merge"
    if is_question(difference.command()):
        return None
    asked = Refused(difference)
    texts = [asked.theirs, in_words(asked.theirs)]
    for text in texts:
        it = asked.made(text)
        if text != asked.theirs and (it.theirs in it.texts or it.theirs == it.ours):
            return "the text of stabilities"
        found = (row for row, is_row in differences.ROWS.items() if is_row(it))
        row = next((row for row in found if AT_PLACES.get(row, is_anywhere)(difference, it)), None)
        if row:
            return row
    return None


def is_anywhere(difference, it):
    return True


def is_at_gated_type(difference, it):
    """Whether the original tells its reason at the entry of a type in a world."""
    worlds = [world for package in it.packages for world in package.worlds.values()]
    spans = [span for world in worlds for of in world.entries() if isinstance(of.item, Type) for span in of.spans]
    return difference.theirs["refused"]["error"].get("span") in spans


def is_left_out(difference):
    """Whether the graphs are the same but for functions that are gated off, after a merge."""
    if "merge" not in difference.command():
        return False
    try:
        ours, theirs = difference.graphs
        paired(without_gated(ours, theirs), theirs)
        return True
    except Differ:
        return False


def is_told_there(difference, it):
    """Whether the model has the original's reason at the span that the original tells it at, too."""
    ours, theirs = (of["refused"]["error"] for of in (difference.ours, difference.theirs))
    one, other = ((of["text"], of.get("span")) for of in (ours, theirs))
    if one == other:
        return False
    places = places_of(it, theirs["text"])
    # (of sorting, of labels and of merges the model knows no places)
    is_unknown = not places or theirs["number"] in (5, 6) or re.search("strongly unique|corresponding", theirs["text"])
    return is_unknown and one[0] != other[0] or any(theirs.get("span") in spans for spans in places)


# what is asked of the place of a row's reason, too
AT_PLACES = {OTHER_REASON: is_told_there, "a gated type of a world": is_at_gated_type}


def places_of(it, text):
    """The spans of each thing that has a reason with a text."""
    found = []
    adding.WATCHERS.append(lambda _, told, place: found.append((told, getattr(place, "spans", [None]))))
    try:
        it.session().answer(it.words, it.packages)
    finally:
        adding.WATCHERS.clear()
    return [spans for told, spans in found if told == text]

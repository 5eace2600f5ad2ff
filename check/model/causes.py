"""The causes to refuse that are told in more than one place, each with its number and its text."""
from .data import UNKNOWN


def defined_twice(name):
    return 5, f"package `{name}` is defined in two different locations"


def package_cycle(name):
    return 6, f"package `{name}` creates a dependency cycle"


def note_mismatch(there, added):
    return 8, f"mismatch in stability from '{shown_note(added)}' to '{shown_note(there)}'"


def shown_note(note):
    return "unknown" if note == UNKNOWN else " ".join(note)


def excluded(what):
    return 11, f"found a reference to a {what} which is excluded due to its feature not being activated"


def returns_borrow(name):
    return 15, f"function `{name}` returns a type which contains a `borrow<T>` which is not supported"

"""Includes: what a world lists goes into another, which gets copies of the types that the former owns."""
from .causes import note_mismatch
from .data import UNKNOWN, Entry, Function, Interface, Type
from .labels import renamed


class Copier:
    """Copies what a world that is included owns, and the interfaces that are written in it.

    `owners` has, by what owned types, what owns the copies.
    """

    def __init__(self, of, to):
        self.owners = {of: to} | {it: Interface(None, it.note, to.package, span=it.span) for it in of.unnamed()}
        self.copies = {}

    def belongs(self, ty):
        return ty.owner in self.owners or ty.owner is None and any(self.belongs(it) for it in ty.references())

    def type(self, ty):
        if not isinstance(ty, Type) or not self.belongs(ty):
            return ty
        if ty not in self.copies:
            owner = ty.owner and self.owners[ty.owner]
            copy = self.copies[ty] = Type(ty.name, None, owner, ty.note, ty.fields, ty.span)
            copy.kind = ty.kind[0], *(self.type(it) for it in ty.kind[1:])
        return self.copies[ty]

    def item(self, item, label):
        if isinstance(item, Type):
            copy = self.type(item)
            copy.name = label
            return copy
        if item in self.owners:
            copy = self.owners[item]
            copy.types = {name: self.type(it) for name, it in item.types.items()}
            copy.functions = {name: it.moved(name, self.type) for name, it in item.functions.items()}
            return copy
        return item.moved(label, self.type) if isinstance(item, Function) else item


def include(world, of, names, copier):
    """Adds the entries of an included world, and answers the cause that stops it."""
    labels = [it.label for it in of.entries() if it.label is not None]
    for old, new in names:
        if all(renamed(it, old, new) is None for it in labels):
            return 16, f"no import or export kebab-name `{old}`. Note that an ID does not support renaming"
    is_external = of.package.key != world.package.key
    for (word, entries), (_, added) in zip(world.lists(), of.lists()):
        for it in added:
            if it.label is None:
                cause = include_interface(entries, it, is_external)
                if cause:
                    return cause
                continue
            news = (renamed(it.label, old, new) for old, new in names)
            label = next((new for new in news if new is not None), it.label)
            if any(other.label == label for other in entries):
                return 7, f"{word} of `{label}` shadows previously {word}ed items"
            entries.append(Entry(label, copier.item(it.item, label), it.note, it.span))
    return None


def include_interface(entries, added, is_external):
    """Adds an interface under its own key, and answers the cause that stops it."""
    at = next((n for n, it in enumerate(entries) if it.key == added.key), len(entries))
    there = entries[at] if at < len(entries) else added
    note = there.note
    if is_external and added.note[0] == "stable":
        note = UNKNOWN
    elif added.note != UNKNOWN and note == UNKNOWN:
        note = added.note
    elif added.note not in (UNKNOWN, note):
        return note_mismatch(note, added.note)
    entries[at : at + 1] = [Entry(None, added.item, note, there.span)]
    return None

"""Elaboration: the lists of imports and exports that a world has of what it lists."""
from .data import Entry, Function, Interface
from .walks import in_order

# what is called with the listed imports and exports of each world that is elaborated
WATCHERS = []


class Conflict(Exception):
    """An interface that is exported, and imported through another export."""

    def __init__(self, id_text):
        super().__init__(id_text)
        self.cause = 4, f"interface `{id_text}` transitively depends on an interface in incompatible ways"


def walk(interface):
    """What an interface uses, however far, in the order of the walk, and then itself."""
    return in_order([interface], Interface.direct_uses)


def elaborate(imports, exports):
    """The imports and the exports of a world that lists these; or raises the conflict."""
    for watch in WATCHERS:
        watch(imports, exports)
    exported = {id(it.item) for it in exports if it.label is None}
    interfaces = [it for it in exports if isinstance(it.item, Interface)]
    refuse_conflict(exported, interfaces)
    new_imports, new_exports = imported(imports), {}
    for it in exports:
        if isinstance(it.item, Function):
            new_exports.setdefault(it.key, it)
    for it in interfaces:
        export_uses(it.item, it.note, exported, new_imports, new_exports)
        new_exports.setdefault(it.key, it)
    return sorted(new_imports.values(), key=Entry.order), list(new_exports.values())


def refuse_conflict(exported, interfaces):
    """Raises the conflict of the first export that has one, `exported` being what is exported under its own key."""

    def leads_back(use):
        return id(use) not in exported and any(id(it) in exported for it in walk(use))

    if any(leads_back(use) for it in interfaces for use in it.item.direct_uses()):
        for it in interfaces:
            if any(leads_back(far) for use in it.item.direct_uses() for far in walk(use)):
                raise Conflict(it.key_text())


def bring(entries, interface, note):
    entries.setdefault(id(interface), Entry(None, interface, note))


def imported(imports):
    """The imports by their keys, each after what it uses."""
    found = {}
    for it in sorted(imports, key=Entry.order):
        if isinstance(it.item, Interface):
            uses, note = it.item.direct_uses(), it.note
        else:
            uses, note = [it.item.used_interface()] if it.order() == 1 else [], it.item.note
        for use in uses:
            for far in walk(use):
                bring(found, far, note)
        # (an imported interface keeps no span)
        found.setdefault(it.key, Entry(it.label, it.item, it.note) if isinstance(it.item, Interface) else it)
    return found


def export_uses(interface, note, exported, imports, exports):
    """Brings what an exported interface uses: to the exports what is itself exported, to the imports the others."""
    for use in interface.direct_uses():
        if id(use) in exported:
            export_uses(use, note, exported, imports, exports)
            bring(exports, use, note)
        else:
            for far in walk(use):
                bring(imports, far, note)

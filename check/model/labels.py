"""The labels under which worlds list things, such as `[method]r.f`: groups in brackets, and then the rest."""
import re

from .data import Function


def groups_of(label):
    """The leading groups in brackets, and the rest."""
    groups = re.match(r"(?:\[[^\]]*\])*", label)[0]
    return re.findall(r"\[[^\]]*\]", groups), label[len(groups) :]


def strong_key(label):
    """What no two labels of a list may have in common."""
    groups, rest = groups_of(label)
    return next((it for it in groups if it in ("[constructor]", "[get]", "[set]")), "plain"), rest.lower()


def renamed(label, old, new):
    """The label with the new name in place of the old, None where it doesn't have the old."""
    groups, rest = groups_of(label)
    head, dot, tail = rest.partition(".")
    return None if head != old or rest.startswith("[") else "".join(groups) + new + dot + tail


def getter_of(entry):
    """The label of a setter's getter, None for what is no setter."""
    if not isinstance(entry.item, Function):
        return None
    groups, _ = groups_of(entry.label)
    return entry.label.replace("[set]", "[get]", 1) if "[set]" in groups and "[get]" not in groups else None


def label_causes(world, word, entries):
    """The causes that lie in the labels of a list of a world, `word` being what it does with them."""
    labelled = [it for it in entries if it.label is not None]
    for n, it in enumerate(labelled):
        for before in labelled[:n]:
            if strong_key(it.label) == strong_key(before.label):
                yield 17, (
                    f"{word} `{it.label}` in world `{world}` conflicts with {word} `{before.label}`"
                    " (names must be strongly unique)"
                )
        getter = getter_of(it)
        if getter and all(other.label != getter for other in labelled):
            yield 18, f"{word} `{it.label}` in world `{world}` has no corresponding getter `{getter}`"


def place_setters(entries):
    """Puts each setter that stands before its getter right after it, the last one first."""
    for setter in reversed([it for it in entries if getter_of(it)]):
        labels = [it.label for it in entries]
        getter = labels.index(getter_of(setter)) if getter_of(setter) in labels else -1
        if entries.index(setter) < getter:
            entries.remove(setter)
            entries.insert(getter, setter)

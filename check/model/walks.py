"""Walks along what things need. Things are the same only where they are one object."""


def in_order(starts, needs):
    """What some things lead to, these included, each once and after what it needs. Nothing may lead back to itself."""
    found, todo = {}, [(it, False) for it in reversed(starts)]
    while todo:
        it, is_done = todo.pop()
        if is_done:
            found.setdefault(id(it), it)
        elif id(it) not in found:
            todo += [(it, True), *((need, False) for need in reversed(needs(it)))]
    return list(found.values())


def reached(starts, needs):
    """What some things lead to, these included, each once."""
    found, todo = {}, list(starts)
    while todo:
        it = todo.pop()
        if id(it) not in found:
            found[id(it)] = it
            todo += needs(it)
    return list(found.values())


def in_cycles(things, needs):
    """Those that lead back to themselves."""
    return [it for it in things if any(other is it for other in reached(needs(it), needs))]

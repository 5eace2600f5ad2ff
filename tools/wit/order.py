"""The order of things that name each other, as wit-parser has it."""
import heapq

from . import faults


def in_order(kind, nodes):
    """The names of nodes, each as early as their order allows behind those that it needs.

    Of each name `nodes` has what it needs: a file, and there a name and its span.
    """
    numbers = {name: n for n, name in enumerate(nodes)}
    missing, users = [], [[] for _ in nodes]
    for n, needs in enumerate(nodes.values()):
        missing.append(len(needs))
        for file, name, span in needs:
            if name not in numbers:
                raise absent(kind, file, name, span)
            users[numbers[name]].append(n)
    names, ready, placed = list(nodes), [n for n, count in enumerate(missing) if not count], []
    while ready:
        n = heapq.heappop(ready)
        placed.append(names[n])
        for user in users[n]:
            missing[user] -= 1
            if not missing[user]:
                heapq.heappush(ready, user)
    if len(placed) < len(nodes):
        raise cycle(kind, nodes, {name for name, count in zip(names, missing) if count})
    return placed


def absent(kind, file, name, span):
    new = {"float32": "f32", "float64": "f64"}.get(name)
    if kind == "type" and new:
        return faults.FormerFloat(file, span, name=name, new=new)
    return faults.NotThere(file, span, kind=kind, name=name)


def cycle(kind, nodes, waiting):
    """The fault of the first that waits and names one that waits."""
    for name, needs in nodes.items():
        for file, needed, span in needs:
            if name in waiting and needed in waiting:
                return faults.DependsOnItself(file, span, kind=kind, name=needed)
    raise AssertionError("what waits names what waits")


def told_order(nodes, needs, tell):
    """The same order of nodes with names, all of which are there.

    `needs` answers names. A node that comes behind a later one is told, with the last one for which it waited.
    """
    by_name = {it.name: it for it in nodes}
    numbers = {name: n for n, name in enumerate(by_name)}
    placed = in_order("", {it.name: [(None, name, None) for name in needs(it) if name in by_name] for it in nodes})
    at, furthest = {name: n for n, name in enumerate(placed)}, -1
    for name in placed:
        if numbers[name] < furthest:
            node = by_name[name]
            last = max((it for it in needs(node) if it in by_name), key=at.get)
            tell(node, f"{node.word} `{name}` comes behind `{last}`, which it names")
        furthest = max(furthest, numbers[name])
    return [by_name[name] for name in placed]

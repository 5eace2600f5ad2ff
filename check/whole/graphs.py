"""Compares two graphs of docs/JSON.md in all data, up to the numbers that the rules leave free.

Free are the numbers of copies that an include makes, and which unnamed `own` of a type stands at the place of a value:
so each such `own` is read as part of what names it, and their types are compared beside. A renumbering of the rest is
searched for, from packages down, and has to leave all numbers but those of copies as they are.
"""
import copy
from collections import Counter


class Differ(Exception):
    """Where two graphs differ, as a path with what stands there."""


class Graph:
    """A graph with its details, each reference being a pair of a sort and a number."""

    def __init__(self, resolve):
        graph, details = resolve["graph"], resolve["details"]
        self.raw = graph["types"]
        self.rest = {"features": resolve["features"], "sources": resolve["sources"]}
        self.kept = [at for at, it in enumerate(self.raw) if not is_own(it)]
        self.ranks = {at: rank for rank, at in enumerate(self.kept)}
        self.things = {
            "type": {at: self.type(self.raw[at], details["types"][at]) for at in self.kept},
            "interface": dict(enumerate(map(self.interface, graph["interfaces"], details["interfaces"]))),
            "world": dict(enumerate(map(self.world, graph["worlds"], details["worlds"]))),
            "package": dict(enumerate(map(self.package, graph["packages"]))),
        }
        owns = [(it, details["types"][at]) for at, it in enumerate(self.raw) if is_own(it)]
        self.owns = [(it["kind"]["handle"]["own"], beside(it, more)) for it, more in owns]

    def reference(self, value):
        """What a place names, `None` and primitives as they are."""
        if not isinstance(value, int):
            return value
        it = self.raw[value]
        return ("own", ("type", it["kind"]["handle"]["own"])) if is_own(it) else ("type", value)

    def type(self, it, more):
        owner = it["owner"] and next(iter(it["owner"].items()))
        parts = more.get("parts")
        return {"name": it["name"], "owner": owner, "kind": self.kind(it["kind"]), "parts": parts} | beside(it, more)

    def kind(self, kind):
        if isinstance(kind, str):
            return kind
        [(word, of)] = kind.items()
        match word:
            case "handle":
                [(sort, target)] = of.items()
                return sort, ("type", target)
            case "map":
                return word, [self.reference(it) for it in of]
            case "fixed-length-list":
                return word, self.reference(of[0]), of[1:]
            case "tuple":
                return word, [self.reference(it) for it in of["types"]]
            case "result":
                return word, self.reference(of["ok"]), self.reference(of["err"])
            case "record" | "variant" | "flags" | "enum":
                return word, [self.named(it) for it in next(iter(of.values()))]
        return word, self.reference(of)

    def named(self, it):
        """A field, a case, a flag or a parameter."""
        return it | {"type": self.reference(it["type"])} if "type" in it else it

    def function(self, it, more):
        kind = it["kind"] if isinstance(it["kind"], str) else [(word, ("type", at)) for word, at in it["kind"].items()]
        made = {"name": it["name"], "kind": kind, "params": [self.named(of) for of in it["params"]]}
        return made | {"result": self.reference(it.get("result")), "spans": more["params"]} | beside(it, more)

    def interface(self, it, more):
        types = [(name, ("type", at)) for name, at in it["types"].items()]
        functions = [self.function(of, more["functions"][name]) for name, of in it["functions"].items()]
        keys = list(it["functions"])
        made = {"name": it["name"], "package": ("package", it["package"]), "types": types, "keys": keys}
        return made | {"functions": functions} | beside(it, more)

    def world(self, it, more):
        made = {"name": it["name"], "package": ("package", it["package"])}
        for side in ("imports", "exports"):
            made[side] = [self.entry(key, of, more[side][key]) for key, of in it[side].items()]
        return made | beside(it, more)

    def entry(self, key, item, more):
        [(sort, of)] = item.items()
        label = key.removeprefix("%")
        if sort == "function":
            return label, self.function(of, more)
        if sort == "type":
            return label, ("type", of), beside({}, more)
        named = ("interface", of["id"])
        return named if key == f"interface-{of['id']}" else label, named, beside(of, more)

    def package(self, it):
        sorts = ("interface", "world")
        made = {sort + "s": [(name, (sort, at)) for name, at in it[sort + "s"].items()] for sort in sorts}
        return {"name": it["name"]} | made | beside(it, {})

    def is_copied(self, sort, at):
        """Whether a thing may be a copy: what a world or an unnamed interface owns, or an unnamed type naming it."""
        thing = self.things[sort][at]
        if sort == "type" and thing["owner"]:
            owner, of = thing["owner"]
            return owner == "world" or self.things["interface"][of]["name"] is None
        named = references(thing["kind"]) if sort == "type" else ()
        return sort == "interface" and thing["name"] is None or any(self.is_copied(*it) for it in named)


def is_own(it):
    """Whether a type is an `own` without a name."""
    is_handle = isinstance(it["kind"], dict) and "own" in it["kind"].get("handle", ())
    return is_handle and it["name"] is None and it["owner"] is None


def beside(it, more):
    """What a thing has beside its structure."""
    docs = it.get("docs", more.get("docs"))
    return {"docs": docs, "gate": it.get("stability"), "span": more.get("span"), "external": more.get("external-id")}


def references(value):
    """The types that a kind names."""
    if isinstance(value, tuple) and len(value) == 2 and value[0] == "type" and isinstance(value[1], int):
        return [value]
    parts = value.values() if isinstance(value, dict) else value if isinstance(value, (list, tuple)) else ()
    return [found for it in parts for found in references(it)]


SORTS = ("type", "interface", "world", "package")


class Pairing:
    """The numbers of one graph that are those of another, by sort."""

    def __init__(self, ours, theirs):
        self.ours, self.theirs = ours, theirs
        self.there = {sort: {} for sort in SORTS}
        self.back = {sort: {} for sort in SORTS}
        self.added = []

    def pair(self, sort, one, other, path):
        """Takes two things for the same, and what they name, too."""
        there, back = self.there[sort], self.back[sort]
        if one in there or other in back:
            if there.get(one) != other or back.get(other) != one:
                raise Differ(f"{path}: {sort} {one} is {there.get(one)}, not {other}")
            return
        there[one], back[other] = other, one
        self.added.append((sort, one, other))
        self.compare(self.ours.things[sort][one], self.theirs.things[sort][other], f"{path} {sort} {one}/{other}")

    def compare(self, one, other, path):
        """Compares two values, in which things are paired."""
        if is_reference(one) and is_reference(other) and one[0] == other[0]:
            if one[1] is not None or other[1] is not None:
                self.pair(one[0], one[1], other[1], path)
        elif isinstance(one, dict) and isinstance(other, dict) and one.keys() == other.keys():
            for key, value in one.items():
                self.compare(value, other[key], f"{path}.{key}")
        elif isinstance(one, (list, tuple)) and isinstance(other, (list, tuple)) and len(one) == len(other):
            for at, (value, more) in enumerate(zip(one, other)):
                self.compare(value, more, f"{path}[{at}]")
        elif one != other or type(one) is not type(other):
            raise Differ(f"{path}: {one!r} is {other!r}")

    def pair_rest(self):
        """Pairs what no package leads to: those that begin are tried first, each with the first that is the same."""
        for sort in ("world", "interface", "type"):
            left = [it for it in self.theirs.things[sort] if it not in self.back[sort]]
            for one in sorted(self.ours.things[sort].keys() - self.there[sort].keys(), reverse=True):
                if one not in self.there[sort]:
                    self.pair_first(sort, one, [it for it in reversed(left) if it not in self.back[sort]])

    def pair_first(self, sort, one, others):
        told = None
        for other in others:
            before = len(self.added)
            try:
                self.pair(sort, one, other, "left over")
                return
            except Differ as fault:
                told = told or fault
                self.drop_to(before)
        raise Differ(f"{sort} {one} {self.ours.things[sort][one]} has no other of it: {told}")

    def drop_to(self, count):
        for sort, one, other in self.added[count:]:
            del self.there[sort][one], self.back[sort][other]
        del self.added[count:]

    def check_numbers(self):
        """All but copies have the same number, `own`s left out."""
        for sort in SORTS:
            for one, other in self.there[sort].items():
                is_same = self.ours.ranks[one] == self.theirs.ranks[other] if sort == "type" else one == other
                if not (is_same or sort in ("type", "interface") and self.ours.is_copied(sort, one)):
                    raise Differ(f"number of {sort} {one}/{other} {self.ours.things[sort][one]}")

    def check_owns(self):
        """Of the `own`s that values need, and that are copied, wit-parser may have fewer, as long as it has one. Which one is
        copied with a resource follows from which one a value names."""
        ours = Counter((self.there["type"][of], repr(more)) for of, more in self.ours.owns)
        theirs = Counter((of, repr(more)) for of, more in self.theirs.owns)
        ours_of, theirs_of, new = {of for of, _ in ours}, {of for of, _ in theirs}, repr(beside({}, {}))
        for it in ours.keys() | theirs.keys():
            of, more = it
            is_copied = of in theirs_of and self.theirs.is_copied("type", of)
            is_less = theirs[it] < ours[it] and of in theirs_of and more == new
            if theirs[it] != ours[it] and not is_less and not (is_copied and of in ours_of):
                raise Differ(f"own of type {of} {more}: {ours[it]} is {theirs[it]}")

    def is_same_type(self, one, other):
        """Whether two numbers of types, or None, name the same."""
        return self.named(self.ours, one, self.there["type"]) == self.named(self.theirs, other, None)

    @staticmethod
    def named(graph, at, map):
        if at is None:
            return None
        sort, of = graph.reference(at)
        number = of[1] if sort == "own" else of
        return sort, map[number] if map else number


def without_gated(ours, theirs):
    """A graph without the functions that are gated off and that the other doesn't have."""
    made, others = copy.deepcopy(ours), theirs["graph"]["interfaces"]
    for at, (it, more) in enumerate(zip(made["graph"]["interfaces"], made["details"]["interfaces"])):
        gated = gated_off(it["functions"], ours["features"])
        for name in gated - other_of(at, it, gated, others)["functions"].keys():
            del it["functions"][name], more["functions"][name]
    return made


def gated_off(functions, features):
    """The names of the functions whose feature is off."""
    gates = ((name, it.get("stability", {}).get("unstable")) for name, it in functions.items())
    return {name for name, gate in gates if gate and not features["all"] and gate["feature"] not in features["names"]}


def other_of(at, interface, gated, others):
    """The interface of this number, or, as a copy may have another number, the first one with the same other functions."""

    def named(it):
        return it["name"], [name for name in it["functions"] if name not in gated]

    fits = (it for it in [others[at], *others] if named(it) == named(interface))
    return next(fits, others[at])


def is_reference(value):
    is_pair = isinstance(value, tuple) and len(value) == 2
    return is_pair and value[0] in SORTS and (value[1] is None or isinstance(value[1], int))


def paired(ours, theirs):
    """The pairing of two graphs; `Differ` where they differ."""
    pairing = Pairing(Graph(ours), Graph(theirs))
    pairing.compare(pairing.ours.rest, pairing.theirs.rest, "")
    packages, others = (it.things["package"] for it in (pairing.ours, pairing.theirs))
    for sort in SORTS:
        if len(pairing.ours.things[sort]) != len(pairing.theirs.things[sort]):
            counts = len(pairing.ours.things[sort]), len(pairing.theirs.things[sort])
            raise Differ("{}s: {} is {}".format(sort, *counts))
    for at in packages:
        pairing.pair("package", at, at, "")
    pairing.pair_rest()
    pairing.check_numbers()
    pairing.check_owns()
    return pairing

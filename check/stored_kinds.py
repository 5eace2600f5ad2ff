"""What comes out of examples/kinds, by the rules: a push of one package into an empty graph with another that it names.

Of what comes out this asks the types and the interfaces, beside what check/stored.py asks the model. First stand those of the
package that is named, then the others in their order; what a package only names of another is that one's. All is as it was
given but for ids, for spans, which stand beside the graph, and for what a gate leaves out. A value whose type leads to a
resource names an `own` of that type: one each, behind all other types.
"""
import json


def is_active(thing):
    return "unstable" not in thing.get("stability", {})


class Push:
    def __init__(self, groups, graph):
        self.dep, self.main = groups["deps"][0]["main"], groups["main"]["main"]
        self.graph = graph
        self.types = self.ids("types", lambda it: it["kind"] == "unknown")
        self.interfaces, self.worlds = (self.ids(word, self.is_named(word)) for word in ("interfaces", "worlds"))
        kinds = [it["kind"] for it in graph["types"]]
        owns = [(it["kind"]["handle"]["own"], at) for at, it in enumerate(graph["types"]) if at >= self.count("types")]
        self.kinds, self.owns, self.are_each_once = kinds, dict(owns), len(owns) == len(dict(owns))

    def is_named(self, word):
        """Whether a thing is another package's: those stand in front, so their names tell them from its own."""
        foreign = {name for items in self.main["foreign-deps"].values() for name in items}
        return lambda it: it["name"] in foreign and all(of["name"] in foreign for of in self.main[word][: self.main[word].index(it)])

    def ids(self, word, is_foreign):
        """Where each thing of the package goes."""
        places, behind = [], len(self.dep[word])
        for it in self.main[word]:
            if is_foreign(it):
                places.append(next(at for at, of in enumerate(self.dep[word]) if of["name"] == it["name"]))
            else:
                places.append(behind)
                behind += 1
        return places

    def count(self, word):
        return len(set(range(len(self.dep[word]))) | set(getattr(self, word)))

    def leads(self, index):
        kind = self.kinds[index]
        return kind == "resource" or "type" in kind and isinstance(kind["type"], int) and self.leads(kind["type"])

    def value(self, it, types):
        """A thing with its references as those of values."""
        if isinstance(it, dict):
            return {word: self.word(word, of, types) for word, of in it.items() if word != "span"}
        if isinstance(it, list):
            return [self.value(of, types) for of in it]
        if isinstance(it, int) and not isinstance(it, bool):
            return self.owns.get(types[it]) if self.leads(types[it]) else types[it]
        return it

    def word(self, word, of, types):
        if word == "fixed-length-list":
            return [self.value(of[0], types), of[1]]
        if word in ("docs", "stability"):
            return of
        return self.bare(of, types) if word == "handle" else self.value(of, types)

    def bare(self, it, types):
        """A thing with its references as they are."""
        if isinstance(it, dict):
            return {word: self.bare(of, types) for word, of in it.items()}
        return types[it] if isinstance(it, int) else it

    def type(self, it, types, homes):
        kind = it["kind"]
        is_alias = isinstance(kind, dict) and "type" in kind
        owner = it["owner"] and {word: homes[word][at] for word, at in it["owner"].items()}
        made = {"name": it["name"], "kind": (self.bare if is_alias else self.value)(kind, types), "owner": owner}
        return made | {word: it[word] for word in ("docs", "stability") if word in it}

    def interface(self, it, types, package):
        functions = {name: self.function(of, types) for name, of in it["functions"].items() if is_active(of)}
        made = {"name": it["name"], "types": {name: types[of] for name, of in it["types"].items()}, "functions": functions}
        return made | {word: it[word] for word in ("docs", "stability") if word in it} | {"package": package}

    def function(self, it, types):
        return self.value(it, types) | {"kind": self.bare(it["kind"], types)}

    def wanted(self):
        """The types without the `own`s, and the interfaces, by their ids."""
        types, interfaces, same = {}, {}, range(10_000)
        both = ((self.main, self.types, self.interfaces, self.worlds), (self.dep, same, same, same))
        for at, (package, of, those, worlds) in zip((1, 0), both):
            homes = {"interface": those, "world": worlds}
            types |= {of[n]: self.type(it, of, homes) for n, it in enumerate(package["types"])}
            interfaces |= {those[n]: self.interface(it, of, at) for n, it in enumerate(package["interfaces"])}
        return types, interfaces


def faults(document, output):
    graph = output["resolve"]["graph"]
    push = Push(document["commands"][0]["push-groups"], graph)
    if not push.are_each_once:
        yield "two types are an `own` of one"
    for word, wanted in zip(("types", "interfaces"), push.wanted()):
        for at, it in sorted(wanted.items()):
            if json.dumps(graph[word][at]) != json.dumps(it):
                yield f"{word}[{at}] is {graph[word][at]}, and has to be {it}"

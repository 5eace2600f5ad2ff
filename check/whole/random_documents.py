"""Random documents of docs/JSON.md: packages in groups and nested, in several versions, and what is done with them:
merges, transformations, semver merges and questions. Packages are those of random_packages.py or of random_texts.py.
"""
from random_packages import FEATURES, INTERFACES, LABELS, VERSIONS, WORLDS, Chances, File, Package
from random_texts import TextGroup

PACKAGES = ["a:x", "a:y", "b:z", "c:w"]


class MadeGroup:
    """A group of packages that are made as JSON, and are of one file."""

    def __init__(self, graph, name):
        self.graph, self.file, self.packages = graph, File(graph.chances, f"{name}.wit"), []

    def add(self, name, known):
        """Adds a package. Answers what packages made later can name of it."""
        graph = self.graph
        made = Package(graph.seed_of(name), name, known, self.file, graph.less, graph.features, graph.chances)
        self.packages.append(made)
        return made.known_parts()

    def document(self):
        main, *nested = [it.document() for it in self.packages]
        sources = [{"path": self.file.path, "text": self.file.text}]
        sources += [{"path": "more.wit", "text": "x\n"}] * self.graph.chances.may(0.1)
        return {"main": main, "nested": nested, "sources": sources}


class Graph:
    """Commands on one graph, and what is in it. `seeds` and `texts` are those of the document, `texts` where packages
    are to be texts of WIT."""

    def __init__(self, chances, seeds, texts=None, less=0.0):
        self.chances, self.seeds, self.texts, self.less = chances, seeds, texts, less
        self.known, self.commands, self.features = {}, [], []

    def seed_of(self, name):
        return self.seeds.setdefault(name.partition("@")[0], self.chances.random.random())

    def set_features(self):
        for it in FEATURES:
            if self.chances.may(0.4):
                self.commands.append({"add-feature": it})
                self.features.append(it)
        if self.chances.may(0.1):
            self.commands.append({"set-all-features": True})

    def push(self, names):
        """Pushes packages, some of them nested in the group of another."""
        groups, known = [], dict(self.known)
        for name in names:
            if not groups or not self.chances.may(0.25):
                groups.append((MadeGroup if self.texts is None else TextGroup)(self, name))
            known[name] = groups[-1].add(name, known)
        self.known = known
        groups = [it.document() for it in groups]
        self.chances.random.shuffle(groups)
        self.commands.append({"push-groups": {"main": groups[0], "deps": groups[1:]}})

    def push_some(self, names):
        """Pushes packages of these names, in one or several commands."""
        names = list(names)
        while names:
            count = self.chances.one([1, 1, 2, 3])
            self.push(names[:count])
            names = names[count:]

    def worlds(self):
        return [(package, world) for package, it in self.known.items() for world in it["worlds"]]

    def turn(self):
        """A command that changes a world."""
        worlds = self.worlds()
        if not worlds:
            return
        package, world = self.chances.one(worlds)
        asked = {"package": package, "world": world}
        word = self.chances.one(["importize", "exportize", "semver", "semver"])
        if word != "semver" and self.chances.may(0.5):
            asked["out"] = self.chances.one(["new", "new", "other", *WORLDS])
        if word == "exportize" and self.chances.may(0.7):
            asked["keys"] = [self.chances.one(self.keys()) for _ in self.chances.some(0, 4)]
        self.commands.append({word: asked})

    def keys(self):
        return [id_text(package, name) for package, it in self.known.items() for name in it["interfaces"]] + LABELS

    def ask(self):
        """A question, mostly of what is there."""
        package = self.chances.one(self.known) if self.known and self.chances.may(0.95) else "no:package"
        known = self.known.get(package, {"interfaces": {}, "worlds": {}})
        interface = self.chances.one([*known["interfaces"], *known["interfaces"], self.chances.one(INTERFACES)])
        world = self.chances.one([*known["worlds"], *known["worlds"], self.chances.one(WORLDS)])
        mangling = self.chances.one(["standard32", "legacy-sync", "legacy-async-callback", "legacy-async-stackful"])
        sort = self.chances.one(["interface", "import", "export"])
        name = interface if sort == "interface" else world
        place = {"package": package, "name": name, "function": self.chances.one(LABELS)}
        path = self.chances.one([world, id_text(package, world), id_text(package.partition("@")[0], world)])
        self.commands.append(
            self.chances.one(
                [
                    "package-order",
                    {"select": self.selection(package, path)},
                    {"package-dependencies": {"package": package}},
                    {"interface-dependencies": {"package": package, "interface": interface}},
                    {"canonical-id": {"package": package, "name": interface}},
                    {"core-names": {"package": package, "world": world, "mangling": mangling}},
                    {"futures-and-streams": {sort: place}},
                ]
            )
        )


    def selection(self, package, path):
        asked = {"packages": [package] * self.chances.one([0, 1, 1, 1, 2])}
        return asked | ({"world": path} if self.chances.may(0.8) else {})


def id_text(package, name):
    """The id of an interface or a world."""
    base, at, version = package.partition("@")
    return f"{base}/{name}{at}{version}"


def package_names(chances):
    """Names of packages, of which some have several versions."""
    names = []
    for it in chances.random.sample(PACKAGES, chances.random.randint(1, 3)):
        versions = chances.random.sample(VERSIONS, chances.one([0, 1, 1, 2, 2]))
        names += [f"{it}@{version}" for version in versions] or [it]
    chances.random.shuffle(names)
    return names


def document(number, are_texts=False):
    """The document of a number, whose packages are made as JSON or as texts of WIT."""
    chances, seeds = Chances("texts" if are_texts else "document", number), {}
    graph, names = Graph(chances, seeds, {} if are_texts else None), package_names(chances)
    graph.set_features()
    graph.push_some(names)
    for _ in chances.some(0, 4):
        kind = chances.random.random()
        if kind < 0.5:
            graph.turn()
        elif kind < 0.75:
            graph.ask()
        else:
            merge(graph, names)
    for _ in chances.some(0, 2):
        graph.ask()
    return {"commands": graph.commands}


def merge(graph, names):
    """Another graph of some of the packages, and maybe others, that is merged into the first."""
    chances = graph.chances
    other = Graph(chances, graph.seeds, graph.texts, chances.one([0, 0, 0.1]))
    other.features = [it for it in FEATURES if it in graph.features or chances.may(0.15)]
    other.commands = [{"add-feature": it} for it in other.features]
    kept = [it for it in names if chances.may(0.7)] + [it for it in package_names(chances) if it not in names][:2]
    other.push_some(dict.fromkeys(kept))
    if chances.may(0.15):
        other.turn()
    graph.commands.append({"merge": other.commands})
    graph.known = other.known | graph.known

"""The graph of packages, and what commands do with one: pushes, turns of worlds, and which world is selected."""
from .adding import Addition
from .causes import defined_twice, package_cycle
from .data import Type
from .elaboration import Conflict, elaborate
from .names import NotUnderstood, read_use_path
from .walks import in_cycles, in_order


class Graph:
    """The packages in the order in which they were added, the features that are on, the rule of tracks, and the files.

    All that was added stands in `types`, `interfaces` and `worlds`, in the order of ids.
    """

    def __init__(self):
        self.packages, self.features, self.all_features, self.tracks = [], {}, False, "published"
        self.types, self.interfaces, self.worlds, self.files = [], [], [], []

    def find(self, name):
        return next((it for it in self.packages if it.name.key == name.key), None)

    def push(self, packages):
        """The causes of a refusal; none where the packages are added."""
        self.files += [it.file for it in packages if it.file]
        causes, ordered = sort(packages)
        lists = self.packages, self.types, self.interfaces, self.worlds
        before = [len(it) for it in lists]
        for package in ordered:
            added = Addition(self, package)
            if added.causes:
                for of, count in zip(lists, before):
                    del of[count:]
                return added.causes
            self.packages.append(added.made)
            self.types += added.all_types()[len(self.types) :]
            self.interfaces += added.interfaces
            self.worlds += added.made.worlds.values()
        return causes

    def turn(self, package, world, new, exports, keys):
        """Importizes a world, or exportizes it where `exports` says so, by the filter of `keys`."""
        causes, lists = exportized(world, keys) if exports else importized(world)
        if new != world.name and new in package.worlds:
            causes.add((20, f"world `{new}` is already defined in package `{package.name}`"))
        if causes:
            return causes
        try:
            world.imports, world.exports = elaborate(*lists)
        except Conflict as error:
            return {error.cause}
        del package.worlds[world.name]
        world.name = new
        package.worlds[new] = world
        return set()

    def select(self, package, text=None):
        """What is answered for a caller whose main package this is: the world of a path, or the only world."""
        if text is None:
            return select_only(package)
        try:
            asked, name = read_use_path(text)
        except NotUnderstood:
            return f"refused 26 failed to parse world specifier `{text}`: invalid use path"
        if asked is not None:
            package = self.find(asked)
            versioned = self.versions_of(asked) if package is None and asked.version is None else []
            if len(versioned) > 1:
                first, second = (it.name.version for it in versioned[:2])
                return (
                    f"refused 26 package name `{asked}` is available at both versions {first} and {second}"
                    " but which is not specified"
                )
            if versioned:
                package = versioned[0]
            if package is None:
                return f"refused 26 unknown package `{asked}`"
        if name in package.worlds:
            return f"selected {package.name.id_of(name)}"
        return f"refused 26 World `{name}` not found in package `{package.name}`"

    def versions_of(self, name):
        """The packages of a name that have versions."""
        base = name.namespace, name.name
        return [it for it in self.packages if (it.name.namespace, it.name.name) == base and it.name.version]


def sort(packages):
    """The causes that lie in packages being pushed together; and the packages, each after what it needs."""
    causes, by_key = set(), {}
    for it in packages:
        if it.name.key in by_key:
            causes.add(defined_twice(it.name))
        by_key.setdefault(it.name.key, it)

    def needs(package):
        keys = (it.package.key for it in package.foreign.values())
        return [by_key[key] for key in keys if key in by_key]

    causes |= {package_cycle(it.name) for it in in_cycles(by_key.values(), needs)}
    return causes, [] if causes else in_order(sorted(packages, key=lambda it: it.name.order), needs)


def importized(world):
    """The causes not to importize a world; and what it lists then."""
    kept = [it for it in world.imports if isinstance(it.item, Type)]
    keys = {it.key for it in kept}
    taken = [it for it in world.exports if it.key in keys]
    causes = {(19, f"world export `{it.key_text()}` conflicts with import of same name") for it in taken}
    return causes, ([*kept, *world.exports], [])


def exportized(world, keys):
    """The causes not to exportize the imports of these keys, or all where there is none; and what it lists then."""
    moved = [it for it in world.imports if not keys or it.key_text() in keys]
    types = [it for it in moved if isinstance(it.item, Type)]
    causes = {(21, f"type import `{it.key_text()}` cannot be exported") for it in types}
    return causes, ([it for it in world.imports if it not in moved], moved)


def select_only(package):
    if len(package.worlds) == 1:
        return f"selected {package.name.id_of(*package.worlds)}"
    if not package.worlds:
        return f"refused 26 The main package `{package.name}` contains no worlds"
    listed = "".join(f"\n  {package.name.id_of(it)}" for it in package.worlds)
    return f"refused 26 There are multiple worlds in `{package.name}`; one must be explicitly chosen:{listed}"

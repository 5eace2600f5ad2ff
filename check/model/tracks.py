"""Semver merging: of what a world imports, the greatest version on each track is left."""
import copy

from .data import Interface, Type
from .finishing import all_types, finish
from .mismatches import function_mismatches
from .names import RELEASED, version_key


def track(version, rule):
    """The track of a version. By the rule `published` each version before a release has one of its own."""
    major, minor, patch, before, _ = version_key(version)
    if before != RELEASED and rule == "published":
        return major, minor, patch, before
    if major:
        return (major,)
    return (0, minor) if minor else (0, 0, patch)


def replacements(world, rule):
    """Each interface whose track has a greater version, with the greatest."""
    tracks = {}
    for it in world.imports:
        if it.label is None and it.item.package.version:
            name = it.item.package
            key = name.namespace, name.name, track(name.version, rule), it.item.name
            tracks.setdefault(key, []).append(it.item)
    found = []
    for interfaces in tracks.values():
        greatest = max(interfaces, key=lambda it: it.package.key[2])
        found += [(it, greatest) for it in interfaces if it is not greatest]
    return found


def types_of(item):
    """The types that stand in an interface, or the type that a world lists."""
    if isinstance(item, Interface):
        return list(item.types.values())
    return [item] if isinstance(item, Type) else []


def interface_mismatches(old, new):
    for it in old.functions.values():
        if it.name in new.functions:
            for text in function_mismatches(it, new.functions[it.name]):
                yield f"failed to merge interfaces: mismatch in function `{it.name}`: {text}"


def merge_by_track(graph, package_name, world_name, rule):
    """A graph of which a world is so merged, and the causes that speak against it; the given graph stays as it is."""
    graph = copy.deepcopy(graph)
    world = graph.find(package_name).worlds[world_name]
    replaced = replacements(world, rule)
    gone = {id(old) for old, _ in replaced}
    staying = [it for it in world.imports if it.key not in gone]
    aliases = [ty for it in [*staying, *world.exports] for ty in types_of(it.item) if ty.kind[0] == "alias"]
    causes, targets, is_whole = set(), {}, True
    for old, new in replaced:
        begin = (
            f"failed to upgrade `{old.package.id_of(old.name)}` to `{new.package.id_of(new.name)}`,"
            " was this semver-compatible update not semver compatible?: "
        )
        causes |= {(25, begin + text) for text in interface_mismatches(old, new)}
        for alias in aliases:
            target = alias.kind[1]
            if isinstance(target, Type) and target.owner is old and alias.owner is not old:
                if target.name in new.types:
                    targets[id(alias)] = new.types[target.name]
                else:
                    causes.add((25, f"{begin}type `{target.name}` is missing"))
                    is_whole = False
    # (all aliases are transformed at once)
    for it in all_types(graph):
        if id(it) in targets:
            it.kind = "alias", targets[id(it)]
    if not is_whole:
        return graph, causes
    return finish(graph, causes, lambda it: (staying if it is world else it.imports, it.exports))

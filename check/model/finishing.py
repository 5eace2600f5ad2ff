"""Finishes a graph in which things were put together: what speaks against it is told, and its worlds are made anew."""
from .causes import package_cycle
from .data import Interface, Type
from .elaboration import Conflict, elaborate
from .walks import in_cycles, reached


def all_types(graph):
    """The types that packages show, and what they refer to."""
    shown = []
    for package in graph.packages:
        for interface in package.interfaces.values():
            shown += interface.shown_types()
        for world in package.worlds.values():
            shown += world.types.values()
            shown += [ty for it in world.entries() for ty in it.types()]
    return reached(shown, Type.references)


def interfaces_of(graph):
    return [it for package in graph.packages for it in package.all_interfaces()]


def worlds_of(graph):
    return [it for package in graph.packages for it in package.worlds.values()]


def package_needs(graph):
    """A function that tells of a package which others it needs."""

    def needs(package):
        used = [use for it in package.interfaces.values() for use in it.direct_uses()]
        for entry in (it for world in package.worlds.values() for it in world.entries()):
            # (a function refers to other packages by types of its world alone)
            if isinstance(entry.item, Interface):
                used.append(entry.item)
            elif isinstance(entry.item, Type):
                used.append(entry.item.used_interface())
        keys = {it.package.key for it in used if it is not None} - {package.name.key}
        return [it for it in graph.packages if it.name.key in keys]

    return needs


def finish(graph, causes, listed):
    """The graph and all causes against it, after its worlds were elaborated from the lists that `listed` tells."""
    interfaces = in_cycles(interfaces_of(graph), Interface.direct_uses)
    cyclic = {(22, f"interface `{it.package.id_of(it.name)}` would depend on itself") for it in interfaces if it.name}
    types = in_cycles(all_types(graph), Type.references)
    cyclic |= {(23, f"type `{it.name}` would refer to itself") for it in types if it.name}
    causes |= cyclic | {package_cycle(it.name) for it in in_cycles(graph.packages, package_needs(graph))}
    if cyclic:
        return graph, causes
    for world in worlds_of(graph):
        try:
            world.imports, world.exports = elaborate(*listed(world))
        except Conflict as error:
            causes.add(error.cause)
    return graph, causes

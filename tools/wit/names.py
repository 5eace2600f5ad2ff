"""The names of a package: of its interfaces and worlds, and of what its files call them."""
import itertools

from . import faults
from .order import in_order
from .syntax import Entry, Include, Path, Scope, TopUse, Use

ITEM = "interface or world"


def by_name(package):
    """The interfaces and worlds of a package by their names. Its files know the names that `use` gives."""
    found = {}
    for scope in package.scopes:
        if scope.name in found:
            raise faults.DuplicateItem(scope.file, scope.span, name=scope.name)
        found[scope.name] = scope
    for _, statements in itertools.groupby(package.statements, key=lambda it: id(it.file)):
        name_in_file(list(statements), found)
    return found


def name_in_file(statements, scopes):
    """Raises what a file names twice, and what it needs that isn't there."""
    names = set()
    for it in statements:
        is_use = isinstance(it, TopUse)
        name, span = (it.name.text, it.name.span) if is_use else (it.name, it.span)
        if name in names:
            raise faults.DuplicateInFile(it.file, span, name=name)
        names.add(name)
        if is_use:
            it.file.aliases[name] = it.path
    for it in statements:
        for path in it.needed_first() if isinstance(it, Scope) else []:
            if not path.package and path.name not in names and path.name not in scopes:
                raise faults.NotThere(it.file, path.span, kind=ITEM, name=path.name)


def resolved(path, file):
    """A path in place of the name that its file has for it."""
    return path if path.package else file.aliases.get(path.name, path)


def item_order(package, scopes):
    """The names of the interfaces and worlds, each behind those that it needs."""
    nodes = {}
    for name, scope in scopes.items():
        nodes[name] = [needed(it, scope, scopes) for it in scope.needed_first() if not resolved(it, scope.file).package]
    order = in_order(ITEM, nodes)
    for it in package.statements:
        if isinstance(it, TopUse):
            if it.gate.attributes:
                raise faults.AttributesOnUse(it.file, it.span)
            if not it.path.package and it.path.name not in scopes:
                raise faults.NotThere(it.file, it.path.span, kind=ITEM, name=it.path.name)
    return order


def needed(path, scope, scopes):
    """What a scope needs, for `in_order`. A fault of what its own file has is shown where that stands."""
    found = resolved(path, scope.file)
    there = scopes.get(found.name)
    is_own = found is path and there is not None and there.file is scope.file
    return scope.file, found.name, there.span if is_own else found.span


def mentions(package):
    """All that is named by a path: the file, the path, its gate, the `use` where it is one, and of which sort it is.

    In the order in which wit-parser meets them: of a world the imports before the exports, behind all else.
    """
    for statement in package.statements:
        if isinstance(statement, TopUse):
            yield statement.file, statement.path, statement.gate, None, "interface"
        else:
            yield from mentions_in(statement)


def mentions_in(scope):
    for it in scope.of((Use, Include)):
        is_use = isinstance(it, Use)
        yield scope.file, it.path, it.gate, it if is_use else None, "interface" if is_use else "world"
    for word in ("import", "export"):
        for entry in scope.of(Entry):
            if entry.word == word and isinstance(entry.item, Path):
                yield scope.file, entry.item, entry.gate, None, "interface"
            elif entry.word == word and isinstance(entry.item, Scope):
                yield from mentions_in(entry.item)


def check_attributes(file, gate, may_have_id=False):
    """Raises what is wrong with the attributes of a statement."""
    gates = [it for it in gate.attributes if it.word != "external-id"]
    ids = [it for it in gate.attributes if it.word == "external-id"]
    if len(ids) > may_have_id:
        raise faults.MisplacedExternalId(file, ids[-1].span)
    words = [it.word for it in gates]
    if words == ["deprecated"]:
        raise faults.DeprecatedAlone(file, gates[0].span)
    if len(words) > 1 and sorted(words) not in (["deprecated", "since"], ["deprecated", "unstable"]):
        raise faults.UnsupportedAttributes(file, gates[1].span)

"""What keeps two things of one name from being one: how functions and the structures of types differ."""
from .data import Type
from .labels import groups_of

# what the parts of a kind are called that have no names
STEPS = {"alias": ["alias"], "own": ["handle"], "borrow": ["handle"], "map": ["key", "value"], "result": ["ok", "err"]}
OTHER_KINDS = "different kinds of types"


def same_sort(one, other):
    """Whether both are types, or the same primitive."""
    return isinstance(one, Type) == isinstance(other, Type) and (isinstance(one, Type) or one == other)


def function_mismatches(one, other):
    """What two functions of one name disagree in; the names of the first are told first."""
    if groups_of(one.name)[0] != groups_of(other.name)[0] or one.kind != other.kind:
        yield "different function kind types"
    if len(one.parts) != len(other.parts):
        yield "different number of function parameters"
    for name, other_name, part, other_part in zip(one.names, other.names, one.parts, other.parts):
        if name != other_name:
            yield f"different function parameter names: {name} != {other_name}"
        if not same_sort(part, other_part):
            yield f"different function parameter types for `{name}`: {OTHER_KINDS}"
    if (one.result is None) != (other.result is None):
        yield "different number of function results"
    elif one.result is not None and not same_sort(one.result, other.result):
        yield f"different function result types: {OTHER_KINDS}"


def type_mismatch(one, other, are_one):
    """Where the structures of two types first differ, and how; None where they don't.

    `are_one` tells whether two types with names are to be one.
    """
    if one.kind[0] != other.kind[0]:
        return [], OTHER_KINDS
    if one.fields != other.fields:
        return [], "different lengths" if one.kind[0] == "fixed-length-list" else "different names or number of parts"
    if len(one.kind) != len(other.kind):
        return ["element"], OTHER_KINDS
    steps = steps_of(one)
    for step, part, other_part in zip(steps, one.kind[1:], other.kind[1:]):
        found = part_mismatch(part, other_part, are_one)
        if found:
            return [step, *found[0]], found[1]
    return None


def steps_of(ty):
    """What the parts of a type are called."""
    if ty.kind[0] in ("record", "variant"):
        return ty.fields
    return [str(n) for n in range(len(ty.kind))] if ty.kind[0] == "tuple" else STEPS.get(ty.kind[0], ["element"])


def part_mismatch(one, other, are_one):
    if not (isinstance(one, Type) and isinstance(other, Type)):
        return None if one == other else ([], OTHER_KINDS)
    if (one.name is None) != (other.name is None):
        return [], OTHER_KINDS
    if one.name is None:
        return type_mismatch(one, other, are_one)
    return None if are_one(one, other) else ([], "different types")

"""Small values of the data of a package."""


def without_none(**members):
    """An object of the members that are there, each `_` in a name as `-`."""
    return {name.replace("_", "-"): value for name, value in members.items() if value is not None}


def docs_of(lines):
    """The documentation of these lines, None where there is none."""
    text = "\n".join(lines).strip("\n")
    return {"contents": text} if lines else None


def stability_of(gate):
    """The gate of a statement, None where it has none."""
    if gate.feature:
        return {"unstable": without_none(feature=gate.feature, deprecated=gate.deprecated)}
    return {"stable": without_none(since=gate.since, deprecated=gate.deprecated)} if gate.since else None


def marked(label):
    """The name of an entry under a label: behind a `%` where it could be taken for the key of an interface."""
    return f"%{label}" if label.startswith("interface-") and label[len("interface-") :].isdigit() else label

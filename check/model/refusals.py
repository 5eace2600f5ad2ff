"""What a refusal tells as data (docs/JSON.md): its fields by its number and its text, its places and its way by the text that
shows them, and the known name that is nearest to one that isn't there."""
import functools
import re

NAME = "`(?P<name>.*)`"
TEXTS = {
    1: r"package '(?P<requested>.*?)' not found(?P<known>(?:\. known packages:(?:\n    .*)+)?)",
    2: r"world '(?P<requested>.*)' not found in package '(?P<package>.*)'",
    3: r"interface '(?P<requested>.*)' not found in package '(?P<package>.*)'",
    4: rf"interface {NAME} transitively depends on an interface in incompatible ways",
    5: rf"package {NAME} is defined in two different locations",
    6: r"package `(?P<package>.*)` creates a dependency cycle",
    7: rf"(?P<item_type>import|export) of {NAME} shadows previously (?:import|export)ed items",
    8: r"mismatch in stability from '(?P<from>.*)' to '(?P<into>.*)'",
}
GATE = r"(?:stable (?P<since>\S+)|unstable (?P<feature>\S+))(?: deprecated (?P<deprecated>\S+))?"
PLACE = re.compile(r" +--> (?P<path>.*):(?P<line>\d+):(?P<column>\d+)")
WAY = "      = way: "


def gate_of(text):
    """A gate as JSON has it."""
    if text == "unknown":
        return None
    found = {name: it for name, it in re.fullmatch(GATE, text).groupdict().items() if it is not None}
    return {"stable" if "since" in found else "unstable": found}


def fields_of(error):
    """The fields of an error of JSON; the second span of 5, which no text tells, is left out."""
    number, text = error["number"], error["text"]
    if number > 8:
        return {} if number in (27, 28) else {"message": text}
    fields = {name.replace("_", "-"): it for name, it in re.fullmatch(TEXTS[number], text, re.S).groupdict().items()}
    match number:
        case 1:
            fields["known"] = [it.strip() for it in fields["known"].split("\n")[1:]]
        case 5:
            fields["span1"] = error.get("span")
        case 8:
            fields = {name: gate_of(it) for name, it in fields.items()}
    return fields


@functools.cache
def edits(one, other):
    """How many characters at least are inserted, deleted or replaced from one text to another."""
    if not one or not other:
        return len(one) + len(other)
    if one[-1] == other[-1]:
        return edits(one[:-1], other[:-1])
    return 1 + min(edits(one[:-1], other), edits(one, other[:-1]), edits(one[:-1], other[:-1]))


def nearest_of(requested, known):
    """The known name that is nearest to one that isn't there, None where none is near."""
    short = requested.partition("@")[0]
    far = [(edits(short, it.partition("@")[0]), edits(requested, it), at) for at, it in enumerate(known)]
    near = [it for it in far if it[0] <= len(short) // 3]
    return known[min(near)[2]] if near and len(requested.encode()) <= 100 else None


def place_of(line):
    """The place that a line shows, None of another line."""
    found = PLACE.fullmatch(line)
    return found and {"path": found["path"], "line": int(found["line"]), "column": int(found["column"])}


def shown_in(text):
    """The places of an error, the names along its way, and the places of its steps, as its text shows them."""
    places, names, steps = [], [], []
    for line in text.split("\n"):
        if line.startswith(WAY):
            names = line.removeprefix(WAY).split(" -> ")
        elif place := place_of(line):
            (steps if names else places).append(place)
    return places, names, steps


def place_at(files, span):
    """The place at which a span begins in files one after another, None where it is in none of them."""
    start = 0
    for file in files:
        text = file["text"].encode()
        if span and start <= span[0] <= start + len(text):
            before = text[: span[0] - start]
            column = before[before.rfind(b"\n") + 1 :].decode(errors="replace")
            return {"path": file["path"], "line": before.count(b"\n") + 1, "column": len(column) + 1}
        start += len(text) + 1
    return None


def faults(refused):
    """Where the data of a refusal aren't those of its text."""
    wanted, fields = fields_of(refused["error"]), dict(refused["fields"])
    if refused["error"]["number"] == 5:
        fields.pop("span2")
    if fields != wanted:
        yield f"the fields {refused['fields']}, expected {wanted}"
    nearest = nearest_of(fields["requested"], fields["known"]) if refused["error"]["number"] == 1 else None
    if refused.get("nearest") != nearest:
        yield f"the nearest {refused.get('nearest')}, expected {nearest}"
    places, names, steps = shown_in(refused["rendered"].removeprefix(refused["error"]["text"]))
    if refused["places"] != places:
        yield f"the places {refused['places']}, expected {places}"
    way = refused["way"]
    if [(it["from"], it["to"]) for it in way] != list(zip(names, names[1:])):
        yield f"the way {way}, expected {names}"
    if [it["place"] for it in way if "place" in it] != steps:
        yield f"the way {way}, expected the places {steps}"

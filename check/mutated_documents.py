#!/usr/bin/env python3
"""Changes documents (docs/JSON.md) at random, and looks that each is answered.

    check/mutated_documents.py LIBRARY [--many N] [--first SEED] [--jobs N]

LIBRARY is a shared library with `witgraph_json`, made as bindings/python/README.md says; one of `tools/trial-build` stops
where a sum passes its type or an index its list. The documents are those of the stored scripts, some that begin with the
graph which came out of one of these, random ones of check/whole/random_documents.py, and examples/kinds. Of each some values
or bytes are changed, left out, repeated or exchanged.

A document is to be answered by status 0 with a reply to each command, or by status 1 with a fault whose place is in the text,
or by status 3 where it isn't UTF-8; what comes out is compact JSON. Of each eighth document the graph that comes out is read
again, and has to come out as it was, but where a label `interface-1` stands beside interface 1. A call that ends the process,
or takes a minute, is told by its number, and the others go on. Ends with status 1 where something else was answered.
"""
import argparse
import collections
import ctypes
import functools
import json
import mmap
import os
import random
import re
import signal
import struct
import sys

TOP = os.path.dirname(os.path.dirname(os.path.abspath(__file__)))
sys.dont_write_bytecode = True
sys.path.insert(0, os.path.join(TOP, "check/whole"))

import compare  # noqa: E402
import random_documents  # noqa: E402
import script_documents  # noqa: E402

# The members of a fault, and those that it has besides if a graph isn't valid.
FAULT, BREACH = {"path", "offset", "line", "column", "expected"}, {"clause", "message"}

SCALARS = [
    None, True, False, 0, 1, 2, 3, 7, 63, 128, 4294967295, 4294967296, 18446744073709551615, 18446744073709551616, 10**30, -1,
    1.0, 1.5, 1e300, "", "a", "u8", "string", "resource", "unknown", "freestanding", "a:b", "a:b@1.0.0", "a:b/c@1.0.0", "A-b",
    "é", "\u0000", "interface-0", "interface-1", "interface-99", [], {}, [0, 0], [5, 2], [0, 4294967295], [[]],
]
NAMES = [b"spam", b"docs", b"span", b"id", b"name", b"stability", b"external-id", b"details", b"sources"]
BYTES = [b'"', b"{", b"}", b"[", b"]", b":", b",", b"\\", b"\\u0000", b"\\ud800", b"0", b"-", b"1e9", b"null", b" ", b"\x00", b"\xff", b"\xc3\xa9"]
SPACES = [b" ", b"\n", b"\t", b"\r", b"  \n"]
TOKEN = re.compile(rb'"(?:[^"\\]|\\.)*"|[{}\[\],:]|[^{}\[\],:"]+')
PATIENCE = 60
STEP = 50000


class Library:
    """The call, with a buffer that stays."""

    def __init__(self, path):
        size = ctypes.c_size_t
        self.call = ctypes.CDLL(path).witgraph_json
        self.call.argtypes = [ctypes.c_char_p, size, ctypes.c_char_p, size, ctypes.POINTER(size)]
        self.call.restype = ctypes.c_uint32
        self.output, self.needed = ctypes.create_string_buffer(1 << 20), size()

    def answer(self, text):
        while True:
            status = self.call(text, len(text), self.output, len(self.output), ctypes.byref(self.needed))
            if status != 2:
                return status, ctypes.string_at(self.output, self.needed.value) if status < 2 else b""
            self.output = ctypes.create_string_buffer(2 * self.needed.value)


encoded = functools.partial(json.JSONEncoder(separators=(",", ":"), ensure_ascii=False).encode)


def compact(value):
    return encoded(value).encode()


# ---- documents to begin with


class Place:
    """A value in a text, the member or the element that it is of its whole, and its parts."""

    __slots__ = ("begin", "start", "end", "name", "whole", "at", "parts")

    def __init__(self, begin, start, end, name, whole):
        self.begin, self.start, self.end, self.name, self.whole, self.at, self.parts = begin, start, end, name, whole, 0, []
        if whole:
            self.at = len(whole.parts)
            whole.parts.append(self)


class Document:
    """A compact document, all its places, and those of one sort: of one name, and of one form."""

    def __init__(self, text):
        self.text, self.places, self.sorts = text, [], collections.defaultdict(list)
        self.find_places()
        for it in self.places:
            self.sorts[it.name, self.form(it)].append(it)
        self.places = [it for it in self.places if it.whole]

    def form(self, place):
        first = self.text[place.start : place.start + 1]
        return b"0" if first.isdigit() or first == b"-" else b"t" if first in b"tfn" else first

    def find_places(self):
        whole = key = None
        for found in TOKEN.finditer(self.text):
            start, end, first = found.start(), found.end(), self.text[found.start() : found.start() + 1]
            if first in b",:":
                continue
            if first in b"}]":
                whole.end, whole = end, whole.whole
                continue
            is_object = whole and self.text[whole.start : whole.start + 1] == b"{"
            if is_object and key is None:
                key = start, found.group()
                continue
            begin, name = key if is_object else (start, whole.name + b"[]" if whole else b"")
            key, place = None, Place(begin, start, end, name, whole)
            self.places.append(place)
            whole = place if first in b"{[" else whole

    def value(self, place):
        return self.text[place.start : place.end]

    def like(self, source, place):
        """A place of the same sort."""
        return source.choice(self.sorts[place.name, self.form(place)])


def stored_documents():
    scripts, _ = compare.stored(compare.read(f"{TOP}/crates/test_cases/stdin"))
    made = [script_documents.document_of("\n".join(script_documents.compared_lines(it))) for it in scripts.values()]
    return [compact(it) for it in made if it]


def going_on(library, text):
    """The commands of a document once more, on the graph that it leaves."""
    _, out = library.answer(text)
    return b'{"resolve":%s,%s' % (resolve_of(out), text[1:])


def first_documents(library):
    with open(f"{TOP}/examples/kinds/kinds.json", encoding="utf-8") as file:
        begun = [compact(json.load(file)), *stored_documents()]
    made = [compact(random_documents.document(it)) for it in range(1, 201)]
    return [Document(it) for it in [*begun, *(going_on(library, it) for it in begun), *made]]


# ---- changes


def near_one(source, it):
    """A number or a text near one."""
    if isinstance(it, int):
        return max(0, it + source.choice([-1, 1, -1, 1, 2, 100]))
    at = source.randrange(len(it) + 1)
    return source.choice([it[:at] + it[at + 1 :], it[:at] + it[at : at + 1] + it[at:], it[:at] + source.choice("a-@:/.[]Z0é ") + it[at + 1 :], it.upper()])


def near(source, value, share):
    """A value near a number or a text, None of another one, and of that share of all."""
    if value[:1] in b"{[tfn" or source.random() > share:
        return None
    return compact(near_one(source, json.loads(value)))


def same_sort(source, document, place):
    """A near number or text, or what another place of this sort has."""
    return near(source, document.value(place), 0.5) or document.value(document.like(source, place))


def left_out(place):
    """The edit that takes a member or an element away."""
    parts = place.whole.parts
    if place.at:
        return parts[place.at - 1].end, place.end, b""
    return place.begin, parts[1].begin if len(parts) > 1 else place.end, b""


def shuffled(source, document, place):
    """The parts of an object or a list in another order, with another member now and then."""
    parts = [document.text[it.begin : it.end] for it in place.parts]
    source.shuffle(parts)
    value = document.value(place)
    if value[:1] == b"{" and source.random() < 0.5:
        parts.append(b'"%s":%s' % (source.choice(NAMES), compact(source.choice(SCALARS))))
    return value[:1] + b",".join(parts) + value[-1:]


def wrapped(source, value):
    depth = source.choice([1, 1, 1, 1, 1, 1, source.randrange(200)])
    return b"[" * depth + value + b"]" * depth


def escaped(source, value):
    """A text with one of its characters escaped."""
    it = json.loads(value)
    at = source.randrange(len(it) or 1)
    units = b"".join(b"\\u%04x" % unit for (unit,) in struct.iter_unpack("<H", it[at : at + 1].encode("utf-16-le")))
    return compact(it[:at])[:-1] + units + compact(it[at + 1 :])[1:]


def change(source, document):
    """The edits of a change: what stands between two positions is replaced."""
    place = source.choice(document.places)
    start, end, value = place.start, place.end, document.value(place)
    if source.random() < 0.7:
        return [(start, end, same_sort(source, document, place))]
    match source.randrange(10):
        case 0:
            return [left_out(place)]
        case 1 | 2 | 3:
            return [(start, end, near(source, value, 0.7) or compact(source.choice(SCALARS)))]
        case 4:
            return [(start, end, document.value(source.choice(document.places)))]
        case 5:
            return [(place.begin, place.begin, document.text[place.begin : end] + b",")]
        case 6 if place.parts:
            return [(start, end, shuffled(source, document, place))]
        case 6 if value[:1] == b'"':
            return [(start, end, escaped(source, value))]
        case 7:
            return [(start, end, wrapped(source, value))]
        case 8:
            other = document.like(source, place)
            return [(start, end, document.value(other)), (other.start, other.end, value)]
    return [(at, at, source.choice(SPACES)) for at in (place.begin, start, end)]


def changed_places(source, document):
    edits = [edit for _ in range(1 + int(source.expovariate(1))) for edit in change(source, document)]
    parts, at = [], 0
    for start, end, new in sorted(edits):
        if start >= at:
            parts += [document.text[at:start], new]
            at = end
    return b"".join([*parts, document.text[at:]])


def changed_bytes(source, text):
    for _ in range(1 + int(source.expovariate(0.7))):
        at, to = sorted(source.randrange(len(text) + 1) for _ in range(2))
        to = min(to, at + source.choice([1, 2, 8, 64]))
        match source.randrange(5):
            case 0:
                text = text[:at] + text[to:]
            case 1:
                text = text[:at] + text[at:to] + text[at:]
            case 2:
                text = text[:at] + source.choice(BYTES) + text[at:]
            case 3:
                text = text[:at] + bytes([source.randrange(256)]) + text[at + 1 :]
            case 4:
                text = text[:to] if source.random() < 0.3 else text[:at] + source.choice(BYTES) + text[to:]
    return text


def document_text(documents, number):
    """The document of a number. Of two the shorter is changed: long ones have the same places more often."""
    source = random.Random(number)
    document = min(source.choice(documents), source.choice(documents), key=lambda it: len(it.text))
    in_bytes = source.random()
    text = changed_places(source, document) if in_bytes > 0.25 else document.text
    return changed_bytes(source, text) if in_bytes < 0.3 else text


# ---- what is answered


def resolve_of(out):
    """The graph that came out, as text."""
    return out[out.index(b',"resolve":') + 11 : -1]


def wrong(text, status, out):
    """What is wrong with an answer, None where nothing is."""
    if status == 3:
        try:
            text.decode()
        except UnicodeDecodeError:
            return None
        return "UTF-8 isn't read"
    if status > 1:
        return f"status {status}"
    output = json.loads(out)
    if compact(output) != out:
        return "not compact, or a name stands twice in an object"
    if status == 1:
        fault = output["fault"]
        members = FAULT | (BREACH if fault.get("expected") == "a valid graph" else set())
        return None if set(output) == {"fault"} and set(fault) == members and fault["offset"] <= len(text) else "fault"
    asked = json.loads(text)
    return None if len(output["replies"]) == len(asked["commands"]) and set(output) == {"replies", "resolve"} else "replies"


def is_read_again(library, out):
    """Whether the graph that came out comes out again."""
    resolve = resolve_of(out)
    answer = library.answer(b'{"resolve":%s,"commands":[]}' % resolve)
    return answer == (0, b'{"replies":[],"resolve":%s}' % resolve)


def look(library, documents, number, counts):
    text = document_text(documents, number)
    status, out = library.answer(text)
    counts[status] += 1
    fault = wrong(text, status, out)
    if not fault and status == 0 and number % 8 == 0:
        counts["read again"] += 1
        fault = None if is_read_again(library, out) else "not the same when it is read again"
    if fault:
        counts["wrong"] += 1
        print(f"{number}: {fault}\n{text[:2000].decode(errors='replace')}\n{out[:500].decode()}", flush=True)


def work(library, documents, numbers, cell):
    """Looks at some numbers in a process of its own; tells the counts, and at which number it ended, if before the last."""
    read, write = os.pipe()
    child = os.fork()
    if child == 0:
        counts = collections.Counter()
        for done, number in enumerate(numbers, 1):
            cell[:8] = struct.pack("<Q", number)
            signal.alarm(PATIENCE)
            look(library, documents, number, counts)
            if done % STEP == 0:
                print(f"{done} of {len(numbers)}: {dict(counts)}", flush=True)
        os.write(write, json.dumps(counts).encode())
        os._exit(0)
    os.close(write)
    return child, os.fdopen(read)


def main():
    parser = argparse.ArgumentParser()
    parser.add_argument("library")
    parser.add_argument("--many", type=int, default=10000)
    parser.add_argument("--first", type=int, default=1)
    parser.add_argument("--jobs", type=int, default=1)
    asked = parser.parse_args()
    library = Library(asked.library)
    documents = first_documents(library)
    print(f"{len(documents)} documents to begin with", flush=True)
    last, counts = asked.first + asked.many, collections.Counter()
    ranges = [(asked.first + job, asked.jobs) for job in range(asked.jobs)]
    while ranges:
        started = []
        for first, step in ranges:
            cell = mmap.mmap(-1, 8)
            started.append((step, cell, *work(library, documents, range(first, last, step), cell)))
        ranges = []
        for step, cell, child, pipe in started:
            told, (_, ended) = pipe.read(), os.waitpid(child, 0)
            if ended == 0:
                counts.update(json.loads(told))
                continue
            number = struct.unpack("<Q", cell[:8])[0]
            counts["ended the process"] += 1
            print(f"{number}: ended the process, {ended}\n{document_text(documents, number)[:2000].decode(errors='replace')}", flush=True)
            ranges.append((number + step, step))
    print(f"{asked.many} documents: {dict(counts)}")
    return 1 if counts["wrong"] or counts["ended the process"] else 0


if __name__ == "__main__":
    sys.exit(main())

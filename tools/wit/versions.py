"""Versions as SemVer 2.0.0 has them."""
import re

from .faults import character

PLACES = ("major version number", "minor version number", "patch version number")
PRE, BUILD = "pre-release identifier", "build metadata"
GREATEST = 2**64 - 1


def number_fault(text, place):
    """What is wrong with the number that a text begins with, and what stands behind it."""
    digits = re.match("[0-9]*", text)[0]
    if not digits:
        found = f"character {character(text[0])}" if text else "end of input"
        return f"unexpected {found} while parsing {place}", ""
    if digits[0] == "0" and len(digits) > 1:
        return f"invalid leading zero in {place}", ""
    if len(digits) > 20 or int(digits) > GREATEST:
        return f"value of {place} exceeds u64::MAX", ""
    return None, text[len(digits) :]


def parts_fault(text, place):
    """The same of identifiers with dots between."""
    found = re.match("[0-9A-Za-z.-]*", text)[0]
    parts = found.split(".")
    if not all(parts):
        return f"empty identifier segment in {place}", ""
    if place == PRE and any(re.fullmatch("0[0-9]+", it) for it in parts):
        return f"invalid leading zero in {place}", ""
    return None, text[len(found) :]


def version_fault(text):
    """What is wrong with a version, None where nothing is."""
    last = PLACES[-1]
    for n, place in enumerate(PLACES):
        if n and not text.startswith("."):
            return f"unexpected character {character(text[0])} after {PLACES[n - 1]}"
        what, text = number_fault(text[bool(n) :], place)
        if what:
            return what
    for sign, place in (("-", PRE), ("+", BUILD)):
        if text.startswith(sign):
            last = place
            what, text = parts_fault(text[1:], place)
            if what:
                return what
    return f"unexpected character {character(text[0])} after {last}" if text else None

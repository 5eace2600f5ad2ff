"""Handles that no Rust function takes: allocators, and what `main` and tests get.

A handle is known by its name: as a parameter or a field of one of its types, as an argument, and in front of the `;` in a
macro. The allocator is always the global one in Rust.
"""
import re

from .tokens import UNREAD, after, before, closing, item_start, text_at

ALLOCATORS = ("alloc", "_alloc")
ALLOCATOR_TYPES = ("Global", "& Global")
# how an allocator is asked for, where it is an argument
ALLOCATOR_VALUE = re.compile(r"Global|rt \. alloc \( \)|(\* )?(\w+ \. )*(\w+ \. allocator \( \)|alloc)")
RUNTIMES = ("rt", "_rt")
RUNTIME_TYPES = ("& impl Abort", "& impl Print", "& impl Env", "HostRuntime", "& HostRuntime")
ENDS = (",", ")", "}", "]", ";", "{")


def delete_allocators(tokens):
    """Functions and variables that only give an allocator, then each allocator that is handed on."""
    out, index = [], 0
    while index < len(tokens):
        following = text_at(tokens, after(tokens, index))
        if tokens[index].text == "fn" and following == "allocator":
            index = delete_function(tokens, index, out)
        elif tokens[index].text == "let" and following == "alloc":
            while tokens[index].text != ";":
                index += 1
            index += 1
        else:
            out.append(tokens[index])
            index += 1
    for name in ALLOCATORS:
        out = delete_handle(out, name, ALLOCATOR_TYPES)
    return out


def delete_runtimes(tokens):
    for name in RUNTIMES:
        tokens = delete_handle(tokens, name, RUNTIME_TYPES)
    return tokens


def delete_function(tokens, index, out):
    """Takes the function at `index` away, with its documents; answers where to go on."""
    public = before(tokens, index)
    start = item_start(tokens, public if tokens[public].text == "pub" else index)
    del out[len(out) - (index - start) :]
    while tokens[index].text != "{":
        index += 1
    return closing(tokens, index) + 1


def delete_handle(tokens, name, types):
    """Each handle of this name and these types, with the comma that stands behind it, or before it at the end."""
    out, index = [], 0
    while index < len(tokens):
        end = handle_end(tokens, index, out, name, types)
        if end is None:
            out.append(tokens[index])
            index += 1
            continue
        following = after(tokens, end) if tokens[end].kind in UNREAD else end
        if text_at(tokens, following) in (",", ";"):
            index = after(tokens, following)
        else:
            previous = before(out, len(out))
            if out[previous].text == ",":
                del out[previous:]
            index = following
    return out


def handle_end(tokens, index, out, name, types):
    """The index behind the handle at `index`, or None where none is there."""
    previous = before(out, len(out))
    if previous < 0 or out[previous].text not in ("(", ",", "{", "["):
        return None
    token = tokens[index]
    if token.kind != "word" and token.text not in ("&", "*"):
        return None
    end, said = words_from(tokens, index)
    closes = text_at(tokens, end)
    if said is None or closes not in (",", ")", "}", ";"):
        return None
    said = said.removeprefix("pub ")
    if any(said in (f"{it} : {kind}", f"{it}: {kind}") for it in (name, "_") for kind in types):
        return end
    is_handed_on = is_named(said, name) if closes == ";" else is_value_of(said, name)
    return end if is_handed_on else None


def is_named(said, name):
    return said in (name, "& " + name)


def is_value_of(said, name):
    """Whether an argument hands on a handle of this name."""
    return is_named(said, name) or (name == "alloc" and ALLOCATOR_VALUE.fullmatch(said) is not None)


def words_from(tokens, index):
    """The index where the parameter, field or argument at `index` ends, and its words with a space between each.

    Brackets that hold something belong to no handle: then None is in the place of the words.
    """
    words = []
    while index < len(tokens) and tokens[index].text not in ENDS:
        if tokens[index].text == "(" and text_at(tokens, index - 1) == "pub":
            index = after(tokens, closing(tokens, index))
        if tokens[index].text == "(":
            if text_at(tokens, after(tokens, index)) != ")":
                return index, None
            words.append("(")
            index = closing(tokens, index)
        if tokens[index].kind not in UNREAD:
            words.append(tokens[index].text)
        index += 1
    return index, " ".join(words)

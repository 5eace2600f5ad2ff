"""What goes without anything in its place: what the prover reads, and `Model` and `Drop`.

Every Rust type can be dropped, so `Drop` is no bound there. A type of Rattle whose fields are to be dropped in an order has
a `drop` that only takes it apart: Rust's own drop does that. One that did more would be refused here.
"""
import re

from .tokens import Token, after, before, closing, item_start, past_generics, text_at, text_of

OF_THE_PROVER = ("tactic", "cycle")
# a `drop` that names each field, of the type or of each of its variants, and drops some of them
PLAIN_DROP = re.compile(
    r"\{\s*fn drop\(self\)\s*\{("
    r"\s*let \w+ \{[^}]*\} = self;|\s*drop\(\w+\);|\s*match self \{|\s*\w+::\w+( \{[\w\s,]*\})? => \{|\s*\}"
    r")*\s*\}\s*\}"
)


def is_of_prover(tokens, index):
    """The index behind the attribute of the prover that stands at `index`, or None."""
    if tokens[index].text != "#":
        return None
    bracket = after(tokens, index)
    if text_at(tokens, bracket) == "!":
        bracket = after(tokens, bracket)
    if text_at(tokens, bracket) != "[" or text_at(tokens, after(tokens, bracket)) not in OF_THE_PROVER:
        return None
    end = closing(tokens, bracket) + 1
    return end + 1 if end < len(tokens) and tokens[end].kind == "space" else end


def delete_attributes(tokens):
    """`#[tactic(..)]` and its kin."""
    out, index = [], 0
    while index < len(tokens):
        end = is_of_prover(tokens, index)
        if end is None:
            out.append(tokens[index])
            end = index + 1
        index = end
    return out


def delete_derives(tokens):
    """`Drop` among derives."""
    out, index = [], 0
    while index < len(tokens):
        names = []
        if tokens[index].text == "#" and text_at(tokens, index + 2) == "derive":
            end = closing(tokens, index + 1)
            names = [token.text for token in tokens[index + 3 : end] if token.kind == "word"]
        if "Drop" not in names:
            out.append(tokens[index])
            index += 1
            continue
        names.remove("Drop")
        index = end + 1
        if names:
            out.append(Token("mark", f"#[derive({', '.join(names)})]"))
        elif tokens[index].kind == "space":
            index += 1
    return out


def deleted_impl(tokens, index):
    """The trait of the impl at `index` and where its braces open, where it is one of `Model` or `Drop`; else None."""
    if tokens[index].text != "impl":
        return None
    name = after(tokens, index)
    if text_at(tokens, name) == "<":
        name = past_generics(tokens, name)
    if text_at(tokens, name) not in ("Model", "Drop") or text_at(tokens, after(tokens, name)) != "for":
        return None
    braces = name
    while tokens[braces].text != "{":
        braces += 1
    return tokens[name].text, braces


def delete_impls(tokens):
    """`impl Model for X`, and `impl Drop for X`."""
    out, index = [], 0
    while index < len(tokens):
        found = deleted_impl(tokens, index)
        if found is None:
            out.append(tokens[index])
            index += 1
            continue
        trait, braces = found
        end = closing(tokens, braces) + 1
        body = text_of(tokens[braces:end])
        if trait == "Drop" and not PLAIN_DROP.fullmatch(body):
            raise ValueError(f"a drop that does more than to take a value apart: {body}")
        kept = len(out) - (index - item_start(tokens, index))
        del out[kept:]
        index = end
    return out


def delete_bounds(tokens):
    """The bound `Drop`."""
    out, index = [], 0
    in_where = in_trait = False
    while index < len(tokens):
        token = tokens[index]
        if token.text == "where":
            in_where = True
        elif token.text in ("{", ";"):
            in_where = in_trait = False
        elif token.text == "trait" and token.kind == "word":
            in_trait = True
        if token.text == "Drop" and token.kind == "word":
            index = delete_bound(tokens, index, out, in_where, in_trait)
        else:
            out.append(token)
            index += 1
    return out


def delete_bound(tokens, index, out, in_where, in_trait):
    """Takes the bound at `index` away, with a `+` or the `:` that only it needed; answers where to go on."""
    previous, following = before(out, len(out)), after(tokens, index)
    if out[previous].text == "+":
        del out[before(out, previous) + 1 :]
    elif text_at(tokens, following) == "+":
        return after(tokens, following)
    elif out[previous].text == ":" and in_trait:
        out.append(Token("word", "Sized"))
    elif out[previous].text == ":":
        del out[previous:]
        if in_where:
            del out[before(out, len(out)) :]
            if text_at(tokens, following) == ",":
                return following + 1
    return index + 1

"""A Rattle file as tokens, without its ghost text; and walks over tokens.

Spaces, comments and documents are tokens too, so that a file that no rule touches comes out as it went in.
"""
import re

TOKEN = re.compile(
    r"""
    (?P<space>\s+)
  | (?P<doc>///[^\n]*|//![^\n]*)
  | (?P<comment>//[^\n]*|/\*.*?\*/)
  | (?P<string>b?"(?:[^"\\]|\\.)*"|b?'(?:[^'\\\n]|\\(?:x..|u\{[^}]*\}|.))')
  | (?P<lifetime>'[A-Za-z_]\w*)
  | (?P<word>[A-Za-z_]\w*)
  | (?P<number>\d[\w]*)
  | (?P<mark>::|->|=>|\.\.=|\.\.|.)
    """,
    re.VERBOSE | re.DOTALL,
)
UNREAD = ("space", "comment", "doc")
CLOSING = {"(": ")", "[": "]", "{": "}"}

GHOST_USE = re.compile(r"(?:pub\s+)?ghost\s+use\s[^;]*;")
GHOST_MEMBER = re.compile(r"(?:pub\s+)?ghost\s+\w+\s*(?=[:={])")
CLAUSE = re.compile(r"(?:requires|ensures)\b\*?(?:\s+\w+)?\s*(?=\{)")
DEFINED = re.compile(r"\s*=")
AFTER_MEMBER = re.compile(r"\s*[;,]?")


class Token:
    """A piece of a file: its kind, as TOKEN names it, and its text."""

    __slots__ = ("kind", "text")

    def __init__(self, kind, text):
        self.kind = kind
        self.text = text

    def __repr__(self):
        return f"{self.kind}:{self.text!r}"


def past_braces(source, at):
    """The place behind the braces that open at `at`. Antt stands between them, so only braces and texts count."""
    depth = 0
    while True:
        character = source[at]
        if character == '"':
            at = source.index('"', at + 1)
        elif character == "{":
            depth += 1
        elif character == "}":
            depth -= 1
            if depth == 0:
                return at + 1
        at += 1


def past_member(source, at):
    """The place behind a ghost member or field: `: { type }`, `= { value }`, `{ value }`, or a type and a value."""
    while source[at] in ":=":
        at = past_braces(source, source.index("{", at))
        value = DEFINED.match(source, at)
        if value is None:
            break
        at = value.end() - 1
    else:
        at = past_braces(source, at)
    return AFTER_MEMBER.match(source, at).end()


def past_ghost(source, at):
    """The place behind the ghost text that begins at `at`, or None where none does."""
    if found := GHOST_USE.match(source, at):
        return found.end()
    if found := GHOST_MEMBER.match(source, at):
        return past_member(source, found.end())
    if found := CLAUSE.match(source, at):
        return past_braces(source, found.end())
    return None


def tokens_of(source):
    """The tokens of a file, without its ghost text and what documents that."""
    tokens, at = [], 0
    while at < len(source):
        found = TOKEN.match(source, at)
        may_be_ghost = found.group("word") in ("ghost", "requires", "ensures", "pub")
        end = past_ghost(source, at) if may_be_ghost else None
        if end is None:
            tokens.append(Token(found.lastgroup, found.group()))
            end = found.end()
        else:
            delete_documents(tokens)
        at = end
    return tokens


def delete_documents(tokens):
    """Takes the documents at the end of some tokens away, which are those of a ghost item."""
    while tokens:
        last = len(tokens) - 1
        while last > 0 and tokens[last].kind == "space":
            last -= 1
        if not tokens[last].text.startswith("///"):
            break
        del tokens[last:]


def text_of(tokens):
    return "".join(token.text for token in tokens)


def text_at(tokens, index):
    """The text of a token, or nothing beyond the ends."""
    return tokens[index].text if 0 <= index < len(tokens) else ""


def after(tokens, index):
    """The index of the next token that is no space."""
    index += 1
    while index < len(tokens) and tokens[index].kind in UNREAD:
        index += 1
    return index


def before(tokens, index):
    """The index of the last token before `index` that is no space, or -1."""
    index -= 1
    while index >= 0 and tokens[index].kind in UNREAD:
        index -= 1
    return index


def closing(tokens, index):
    """The index of the bracket that closes the one at `index`."""
    opens, closes, depth = tokens[index].text, CLOSING[tokens[index].text], 0
    for place in range(index, len(tokens)):
        if tokens[place].text == opens:
            depth += 1
        elif tokens[place].text == closes:
            depth -= 1
            if depth == 0:
                return place
    raise ValueError(f"a `{opens}` that nothing closes")


def past_generics(tokens, index):
    """The index behind the `<..>` that opens at `index`, at a token that is no space."""
    depth = 0
    while True:
        depth += {"<": 1, ">": -1}.get(tokens[index].text, 0)
        if depth == 0:
            return after(tokens, index)
        index += 1


def item_start(tokens, index):
    """The index from which the attributes and documents of the item at `index` stand."""
    start = index
    while True:
        place = start - 1
        while place >= 0 and tokens[place].kind == "space":
            place -= 1
        if place >= 0 and tokens[place].kind == "doc" and tokens[place].text.startswith("///"):
            start = place
        elif place >= 0 and tokens[place].text == "]":
            while tokens[place].text != "#":
                place -= 1
            start = place
        else:
            return start

"""Tokens of WIT, with the documentation before each."""
import re
from dataclasses import dataclass, field

from . import faults

KEYWORDS = set(
    """
    use type func u8 u16 u32 u64 s8 s16 s32 s64 f32 f64 char resource own borrow record flags variant enum bool string option
    result future stream error-context list map _ as from static interface tuple import export world package constructor
    async include with
    """.split()
)
# what messages call tokens; signs that aren't here stand between quotes
CALLED = {"id": "an identifier", "explicit": "an '%' identifier", "integer": "an integer", "text": "a string", "end": "eof"}
BACKQUOTED = ("->", "*", "@", "/", "+", "-")

TOKEN = re.compile(
    r"(?P<blank>(?:[ \t\n]|\r\n)+)"
    r"|(?P<line>//[^\n]*\n?)"
    r"|(?P<comment>/\*)"
    r"|(?P<integer>[0-9]+)"
    r'|(?P<text>"[^"\\\n]*")'
    r"|(?P<sign>->|[{}()<>=,;:/.@*+-])"
    r"|(?P<word>%(?:[A-Za-z_-][A-Za-z0-9_-]*)?|[A-Za-z_][A-Za-z0-9_-]*)"
)
COMMENT_EDGE = re.compile(r"/\*|\*/")
BIDIRECTIONAL = "[\u202a-\u202e\u2066-\u2069]"
DISCOURAGED = "[\u0149\u0673\u0f77\u0f79\u17a3\u17a4\u17b4\u17b5]"
CONTROL = "[\0-\x08\x0b\x0c\x0e-\x1f\x7f-\x9f]"
REFUSED = re.compile(f"(?P<bidirectional>{BIDIRECTIONAL})|(?P<discouraged>{DISCOURAGED})|(?P<control>{CONTROL})")
REFUSALS = {
    "bidirectional": faults.BidirectionalOverride,
    "discouraged": faults.DiscouragedCodepoint,
    "control": faults.ControlCode,
}


def called(kind):
    """What a message calls a kind of token."""
    if kind in KEYWORDS:
        return f"keyword `{kind}`"
    return CALLED.get(kind) or (f"`{kind}`" if kind in BACKQUOTED else f"'{kind}'")


@dataclass
class Token:
    kind: str  # id, explicit, integer, text, end; of a keyword or a sign this itself
    text: str
    line: int
    span: tuple  # where it begins in the file, and where it ends
    docs: list = field(default_factory=list)  # the lines of documentation before it
    docs_span: tuple = None  # from the first comment before it to the end of the last


def tokens_of(file):
    """The tokens of a file, one by one, and one for its end."""
    text = file.text
    refused = REFUSED.search(text)
    if refused:
        raise REFUSALS[refused.lastgroup](file, refused.span(), found=f"'\\u{{{ord(refused[0]):x}}}'")
    at, line, comments = int(text.startswith("\ufeff")), 1, []
    while at < len(text):
        kind, end = token_at(file, at)
        if kind in ("line", "comment"):
            comments.append((at, at + len(text[at:end].rstrip(" \t\r\n"))))
        elif kind != "blank":
            yield token(file, kind, line, (at, end), comments)
            comments = []
        line += text.count("\n", at, end)
        at = end
    yield token(file, "end", line, (at, at), comments)


def token_at(file, at):
    """The sort of what begins at a place, and where it ends."""
    text = file.text
    found = TOKEN.match(text, at)
    if found is None:
        if not text[at].isidentifier():
            raise faults.UnexpectedCharacter(file, (at, at + 1), found=faults.character(text[at]))
        return "word", word_end(text, at + 1)
    kind = found.lastgroup
    if kind == "comment":
        return kind, comment_end(file, at)
    return kind, word_end(text, found.end(), found[0]) if kind == "word" else found.end()


def word_end(text, at, begun="a"):
    """Where a word ends that goes on here: at what can't be of any name in Unicode."""
    if begun == "%":
        if at == len(text) or not text[at].isidentifier():
            return at
    while at < len(text) and (text[at] == "-" or f"a{text[at]}".isidentifier()):
        at += 1
    return at


def comment_end(file, begin):
    """Where a comment ends that begins here. Comments may hold comments."""
    depth = 0
    for edge in COMMENT_EDGE.finditer(file.text, begin):
        depth += 1 if edge[0] == "/*" else -1
        if depth == 0:
            return edge.end()
    raise faults.UnterminatedComment(file, (begin, begin + 1))


def token(file, kind, line, span, comments):
    text = file.text[span[0] : span[1]]
    if kind == "sign" or (kind == "word" and text in KEYWORDS):
        kind = text
    elif kind == "word":
        kind = "explicit" if text[0] == "%" else "id"
    docs = [line for start, end in comments for line in docs_in(file.text[start:end])]
    return Token(kind, text, line, span, docs, (comments[0][0], comments[-1][1]) if comments else None)


def docs_in(comment):
    """The lines of documentation in a comment, which has none unless it begins with `///` or `/**`."""
    if comment.startswith("///"):
        return [comment[3:].removeprefix(" ").rstrip()]
    if comment.startswith("/**") and len(comment) > 4:
        # (a line ends as Rust's `lines` has it: not at a lone carriage return)
        return [line.strip() for line in re.split("\r?\n", comment[3:-2].strip())]
    return []


def check_name(file, name, span):
    """Raises what is wrong with a name: it is words of one case with `-` between, and begins with a letter."""
    at = (span[0], span[0] + 1)
    for n, part in enumerate(name.split("-")):
        if not part:
            raise faults.EmptyPart(file, at)
        if n == 0 and not (part[0].isascii() and part[0].isalpha()):
            raise faults.CharacterInIdentifier(file, at, found=faults.character(part[0]))
        letters = [it for it in part if not (it.isascii() and it.isdigit())]
        for it in letters:
            if not (it.isascii() and it.isalpha()) or it.isupper() != letters[0].isupper():
                raise faults.CharacterInIdentifier(file, at, found=faults.character(it))

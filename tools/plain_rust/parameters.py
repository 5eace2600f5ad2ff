"""Parameters that no body reads: clauses did, and in Rust their names begin with `_`."""
import re

from .tokens import after, closing, past_generics, text_at

SAID_IN_TEXT = re.compile(r"\{(\w+)[:}]")


def mark_unread(tokens):
    """`_` before the name of each parameter that the body of its function doesn't say."""
    for index, token in enumerate(tokens):
        if token.kind == "word" and token.text == "fn":
            mark_of_function(tokens, index)
    return tokens


def mark_of_function(tokens, index):
    opens = after(tokens, after(tokens, index))
    if text_at(tokens, opens) == "<":
        opens = past_generics(tokens, opens)
    if text_at(tokens, opens) != "(":
        return
    closes = closing(tokens, opens)
    body = closes
    while text_at(tokens, body) not in ("{", ";", ""):
        body += 1
    if text_at(tokens, body) != "{":
        return
    said = words_of(tokens[body : closing(tokens, body)])
    for name in names_of(tokens, opens, closes):
        if tokens[name].text not in said:
            tokens[name].text = "_" + tokens[name].text


def words_of(body):
    """The words that a body says, also those that its texts are formatted with."""
    words = {token.text for token in body if token.kind == "word"}
    for token in body:
        if token.kind == "string":
            words.update(SAID_IN_TEXT.findall(token.text))
    return words


def names_of(tokens, opens, closes):
    """Where the names of plain parameters stand."""
    names, depth = [], 0
    for index in range(opens, closes):
        depth += {"(": 1, "[": 1, "<": 1, ")": -1, "]": -1, ">": -1}.get(tokens[index].text, 0)
        is_name = tokens[index].kind == "word" and tokens[index].text != "self" and text_at(tokens, after(tokens, index)) == ":"
        if depth == 1 and is_name and not tokens[index].text.startswith("_"):
            names.append(index)
    return names

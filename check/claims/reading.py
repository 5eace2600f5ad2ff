"""How documents are read: what a newcomer finds in README.md, how many words there are, how long sentences are."""
import re

from claims.markdown import without_blocks

# What a newcomer looks for in README.md, what stands behind it, and the words that he may have read by then, at 200 a
# minute.
FOUND = (
    ("what it is", "\n## Why use it", 100),
    ("how it is run", "\n    tools/", 250),
    ("which door he takes", "\n## The promise", 500),
    ("what is promised", "\n## When not to use it", 650),
    ("where a thing lives", "\n## License", 850),
)
# The words that all documents may have together.
MOST = 32_000
# The words that a sentence may have.
LONGEST = 45


def stale_reading(path, text):
    if path == "README.md":
        for what, behind, most in FOUND:
            read_by_then = len(text.partition(behind)[0].split())
            if behind not in text or read_by_then > most:
                yield f"{what} isn't found in {most} words"


def words_of(text):
    return [word for word in text.split() if re.search(r"[^\W_]", word)]


def sentences(text):
    """The sentences of prose, of more than two words: no headings, tables and blocks."""
    prose = re.sub(r"(?m)^(?:#.*|\|.*|<!--.*)$", "", without_blocks(text))
    prose = re.sub(r"(?m)^\s*(?:- |\d+\. )", "\n\n", prose)
    return [it for it in re.split(r"(?<=[.?!])\*{0,2}\s+|\n\n+", prose) if len(words_of(it)) > 2]


def sentence_length(text):
    """The words of a sentence in the mean."""
    lengths = [len(words_of(it)) for it in sentences(text)]
    return sum(lengths) / max(len(lengths), 1)


def stale_sentences(_, text):
    for it in sentences(text):
        if (count := len(words_of(it))) > LONGEST:
            yield f"a sentence of {count} words: {' '.join(it.split()[:8])} .."


CHECKS = [stale_reading, stale_sentences]

"""The doc comments of the code: names between backquotes are declared in the crate or in one that it stands on, links
lead to what the file can name, and paths of files are there."""
import functools
import re

from claims.markdown import spans
from claims.names import ELSEWHERE, declared_in, is_path, names_in
from claims.repository import crates, read, sources, tracked, uses
from claims.rust import handed_on, types_of

LINK = r"\[`([\w:]+)(?:\(\))?`\](?!\()"


@functools.cache
def below(crate):
    """A crate and all on which it stands."""
    found = {crate}
    for it in uses().get(crate, ()):
        if it not in found and it in crates():
            found |= below(it)
    return frozenset(found)


@functools.cache
def names_of(crate):
    """The names that a crate declares, in code and definitions, and those that it hands on."""
    found = {crate} | set(handed_on(crate))
    for name, members in types_of(crate).items():
        found.update({name}, members)
    for path in tracked():
        if path.startswith(f"crates/{crate}/") and path.endswith((".rt", ".antt")):
            found.update(re.split(r"[/.]", path))
            found.update(declared_in(path))
            found.update(re.findall(r"\bfn (\w+)", read(path)))
    return found


@functools.cache
def locals_of(path):
    """The parameters, type parameters and local names of a file."""
    found = re.findall(r"\b(\w+):(?!:)|\blet (?:mut )?(\w+)|\|(\w+)\||<(\w+)", read(path))
    return {name for names in found for name in names if name}


def paragraphs(path):
    """The doc comments of a file without what stands in fences; a comment that goes on is one text."""
    text = []
    for line in [*read(path).split("\n"), ""]:
        found = re.match(r" *//[/!] ?(.*)$", line)
        if not found and text:
            yield re.sub(r"(?s)```.*?(?:```|\Z)", "", "\n".join(text))
            text = []
        if found:
            text.append(found[1])


# Names of std, of the systems and of the languages that comments speak of.
OF_LANGUAGES = set(
    """
    None Some Ok Err Copy Clone Debug Display Drop Hash Eq Ord Iterator Fn bool true false self Self crate collect
    include import export borrow own null stdin cm32p2 Resolve
    """.split()
)


def is_known(path, name, others):
    """Whether a file may speak of a name: its crate, those below it, wit_items, which each caller has, or some others have it,
    or the languages."""
    those = below(path.split("/")[1]) | below("wit_items") | others
    return name in locals_of(path) | ELSEWHERE | OF_LANGUAGES or name in crates() or any(name in names_of(it) for it in those)


def stale_links(path, text):
    for link in re.findall(LINK, text):
        if not all(is_known(path, it, frozenset()) for it in link.split("::")):
            yield f"[`{link}`], which is nowhere"


def stale_comments(path):
    """What is stale in the comments of a file; the sources that they cite are left out."""
    for text in paragraphs(path):
        yield from stale_links(path, text)
        text = re.sub(r"[^.]*\b(?:wit-parser|Source: )[^.]*(?:\.\d+)*[^.]*", "", text.replace("\n", " "))
        others = frozenset(it for it in re.findall(r"\b\w+\b", text) if it in crates())
        for span in spans(text):
            for sort, name in names_in(span):
                if not (is_path(name) if sort == "path" else is_known(path, name, others)):
                    yield f"`{name}`, which is nowhere" + (f" (in `{span}`)" if span != name else "")


def commented():
    return [path for crate in crates() for path in sources(crate)]

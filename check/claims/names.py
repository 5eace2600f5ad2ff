"""Names, paths, crates, links and quoted code: whether there is such a thing."""
import builtins
import functools
import os
import re

from claims.markdown import is_original, rows_of, spans, without_blocks, without_original
from claims.repository import TOP, crates, edits, read, tracked
from claims.rust import functions, types_of

CASES, EXPLAINED, PROOFS = "crates/test_cases/stdin", "crates/test_explanations/stdin", "docs/PROOFS.md"

CODE = (".rt", ".antt", ".py", ".rs", ".c", ".h", ".sh", ".toml", ".txt", ".edit")
COMMENTS = {".rt": r"//.*", ".rs": r"//.*", ".antt": r"--.*", ".edit": r"//.*", ".py": r"#.*"}
# Names that others have: the toolchain, std, cargo, the system, the component model, wit-parser.
ELSEWHERE = set(
    """
    component-model wasm-tools wit-bindgen cargo rustc rattle indexmap malloc realloc free nice autogroup callgrind valgrind
    apt-get liblibc_c libwitgraph_c libwitgraph generate_all ctypes dataclasses shift_remove shrink_to_fit wc
    no_mangle wit_parser wit_bindgen wit_component src/resolve/mod.rs src/resolve/error.rs resolve/mod.rs
    resolve/error.rs wasi/__generated_wasip2.h network-error-code exit-with-code mod.rs error.rs clone.rs
    kit-13f kit-13b rattle-kit-13f bin/rt
    std_collections fast_float itoa ryu simdutf8 times map_or clone_of anyhow wasi-libc _name
    manylinux_2_17_x86_64 spawn wasm-component-ld
    """.split()
)
WORD = r"[A-Za-z_][A-Za-z0-9_]*(?:-[A-Za-z0-9_]+)*"
# The documents that speak of the crates alone: what only the bindings, a tool or wit-parser have isn't there for them.
OF_CRATES = set(
    """
    docs/ARCHITECTURE.md docs/DECISIONS.md docs/DEFINITIONS.md docs/FROM_WIT_PARSER.md docs/GUARANTEES.md docs/WALK.md
    crates/wit_resolve_graph/CALLING.md
    """.split()
)
# What declares a name, by the ending of the file, and what names it of others.
DECLARED = {
    ".antt": r"(?m)^ *(?:pub )?(?:abbrev|unfoldable|record|data|infixl \d+)(?: pub)? ([^\s{(.]+)|^ *(?:pub )?([\w«»]+) : ",
    ".py": r"\b(?:def|class|import) (\w+)|^([A-Z_]+) =|\bself\.(\w+)|^    (\w+): ",
    ".rs": r"\b(?:fn|struct|enum|trait|type|const|static|mod) (\w+)|\b(\w+):(?!:)|^\s+(\w+)(?:[,({]| \{|$)",
    ".c": r"\b(\w+)\(",
    ".h": r"\b(\w+)\(|\b([A-Z_]+)\b",
}
IMPORTED = r"(?m)^ *(?:ghost |pub )*use ((?:std|Rattle|core|alloc|json|semver|indexmap)\b[^;\n]*(?:\{[^}]*\})?)"


# ---- what there is


@functools.cache
def suffixes():
    """Each end of a path, with and without its file's ending, and each of its folders."""
    found = set()
    for path in tracked():
        parts = path.split("/")
        for end in range(1, len(parts) + 1):
            for begin in range(end):
                found.add("/".join(parts[begin:end]))
        stem = os.path.splitext(parts[-1])[0]
        found.update("/".join([*parts[begin:-1], stem]) for begin in range(len(parts)))
        found.update(shortened(parts, stem))
    return found


def shortened(parts, stem):
    """How a file of a crate may be named: by its crate and, without the folders between, its own name."""
    if parts[0] == "crates" and len(parts) > 3:
        for name in (stem, parts[-1]):
            for begin in range(3, len(parts)):
                yield "/".join([parts[1], *parts[begin:-1], name])
            yield f"{parts[1]}/{name}"


def is_foreign(path):
    """Whether a file has names of wit-parser, or names that were put together to be nowhere."""
    return path.startswith("check/original/") or path == "check/test_documents.py"


def declared_in(path):
    """What a file declares, imports from a library and, as definitions have the words of the languages, has in texts."""
    ending = os.path.splitext(path)[1] or ".py"
    text = re.sub(COMMENTS[ending], "", read(path)) if ending in COMMENTS else read(path)
    for found in re.findall(DECLARED.get(ending, r"([A-Za-z_][\w-]*)"), text, re.M):
        yield from [found] if isinstance(found, str) else filter(None, found)
    if ending in (".antt", ".rt"):
        for line in re.findall(IMPORTED, text):
            yield from re.findall(WORD, line)
        for literal in re.findall(r'"([^"\n]*)"', text):
            yield from re.findall(WORD, literal)
        yield from re.findall(r"ensures (\w+) \{", text)


@functools.cache
def of_crates():
    """The names that crates declare, their files, the worked cases, and the wrong bodies by which edits are called."""
    found = set(crates()) | set(re.findall(r"(?m)^=== (\S+)", read(CASES) + read(EXPLAINED)))
    for stem in (os.path.basename(path)[: -len(".edit")] for path in edits()):
        found.update("-".join(stem.split("-")[begin:]) for begin in range(stem.count("-")))
    for crate in filter(is_no_test, crates()):
        for name, members in types_of(crate).items():
            found.update({name}, members)
    found.update(name for name, those in functions().items() if any(is_no_test(it.crate) for it in those))
    for path in tracked():
        if path.startswith("crates/") and is_no_test(path.split("/")[1]):
            found.update(re.split(r"[/.]", path))
            if path.endswith((".antt", ".rt")):
                found.update(declared_in(path))
    return found


def is_no_test(crate):
    return not re.match(r"(?:test|examples)_", crate)


@functools.cache
def of_tests():
    """The names that crates of tests and examples declare."""
    found = {name for name, those in functions().items() if not all(is_no_test(it.crate) for it in those)}
    paths = [it for it in tracked() if it.startswith("crates/") and not is_no_test(it.split("/")[1])]
    return found.union(*(declared_in(it) for it in paths if it.endswith((".antt", ".rt"))))


@functools.cache
def of_others():
    """The names that tools, bindings and examples beside the crates declare, their files, and what Python has."""
    found = set(dir(builtins))
    for path in tracked():
        if not path.endswith((".md", ".edit")) and not path.startswith("crates/") and not is_foreign(path):
            found.update(re.split(r"[/.]", path))
            if path.endswith((*CODE, ".wit", ".script")) or not os.path.splitext(path)[1]:
                found.update(declared_in(path))
    return found


@functools.cache
def of_original():
    """The names of wit-parser, by the columns of docs/FROM_WIT_PARSER.md that are its."""
    rows = rows_of(read("docs/FROM_WIT_PARSER.md"))
    cells = [cell for _, columns, row in rows for column, cell in zip(columns, row) if is_original(column)]
    return set(re.findall(WORD, " ".join(cells)))


def is_word(name, path="", line=""):
    """Whether there is such a name; one that begins or ends with `_` is an end or a beginning of crates' names."""
    ends = name.startswith("_") and any(crate.endswith(name) for crate in crates())
    begins = name.endswith("_") and any(crate.startswith(name) for crate in crates())
    if ends or begins or name in ELSEWHERE or name in of_crates():
        return True
    if "_" in name and name.replace("_", "-") in of_others():
        return True
    if path not in OF_CRATES and (name in of_others() or name in of_original()):
        return True
    is_of_tests = path == PROOFS or re.search(r"\b(?:test|examples|witgraph)_\w+", line)
    return bool(is_of_tests) and (name in of_tests() or name in of_proofs())


@functools.cache
def of_proofs():
    """The words of proofs, which name what the prover calls parts of a goal."""
    found = set()
    for path in tracked():
        if path.endswith(".antt"):
            found.update(re.findall(r"[A-Za-z_][\w-]*", re.sub(COMMENTS[".antt"], "", read(path))))
    return found


def is_path(path):
    built = re.search(r"(?:^|/)(?:out|target)(?:/|$)|\.(?:so|a)$", path)
    return built or path in ELSEWHERE or path.rstrip("/") in suffixes() or os.path.exists(f"{TOP}/{path}")


def is_placeholder(token):
    return bool(re.search(r"(?<![A-Za-z0-9])[A-Z][A-Z_]+(?![a-z0-9])|\.\.|[*?]|^interface-\d+$", token))


def names_in(span):
    """The paths and names of a span that have to be there."""
    if " " not in span and ("/" in span or span.endswith((*CODE, ".md", ".json"))):
        yield from [("path", span)] if re.fullmatch(r"[\w.-][\w./-]*", span) and not is_placeholder(span) else []
        return
    if re.fullmatch(rf"[<&]?{WORD}(?:::{WORD}|\.{WORD})*(?:\(\))?>?", span):
        yield from [("name", name) for name in re.findall(WORD, span) if not is_placeholder(name)]
        return
    for token in re.findall(r"[\w./?*-]+", span):
        if re.match(r"(?:bench|tools|crates|check|examples|bindings|docs|include)/", token):
            yield from [] if is_placeholder(token) else [("path", token.rstrip("."))]
    for name in re.findall(r"\b(?:[a-z]+(?:_[a-z0-9]+)+|(?:[A-Z][a-z0-9]+){2,})\b", re.sub(r"[\w.-]*/[\w./-]*", "", span)):
        yield "name", name


# ---- what is stale


def stale_names(path, text):
    prose = without_original(without_blocks(text))
    shown = set() if path in OF_CRATES else set(re.findall(WORD, "".join(re.findall(r"(?ms)^```.*?^```$", text))))
    for line in prose.split("\n"):
        for span in spans(line):
            for sort, name in names_in(span):
                there = is_path(name) or is_path(f"{os.path.dirname(path)}/{name}") or f"/tmp/{name}" in text
                if not (there if sort == "path" else name in shown or is_word(name, path, line)):
                    yield f"`{name}`, which is nowhere" + (f" (in `{span}`)" if span != name else "")
    for crate, file in re.findall(r"`(wit\w+)`, `(\w+\.rt)`", text):
        if not is_path(f"crates/{crate}/src/{file}"):
            yield f"{file} of {crate}, which is nowhere"


def stale_crates(_, text):
    named = set(re.findall(r"\bwit(?:graph)?_[a-z][a-z_]*\b", without_original(without_blocks(text))))
    return [f"{name}, which is no crate and no name" for name in sorted(named) if not is_word(name)]


def slugs(text):
    heads = re.findall(r"(?m)^#+ (.*)$", re.sub(r"(?ms)^```.*?^```$", "", text))
    return {re.sub(r"[^\w\- ]", "", head.lower()).replace(" ", "-") for head in heads}


def stale_links(path, text):
    for target in re.findall(r"\]\(([^)\s]+)\)", re.sub(r"`[^`\n]*`", "", without_blocks(text))):
        if re.match(r"https?:", target):
            continue
        file, _, head = target.partition("#")
        file = os.path.normpath(os.path.join(os.path.dirname(path), file)) if file else path
        if not os.path.exists(f"{TOP}/{file}"):
            yield f"the link to {target}"
        elif head and head not in slugs(read(file)):
            yield f"the heading of the link to {target}"


def stale_quotes(_, text):
    for where, block in re.findall(r"(?ms)^<!-- (?:example|from): (\S+) -->\n```\w*\n(.*?)^```$", text):
        files = [it for it in tracked() if it == where or it.startswith(f"{where}/")]
        parts = [re.escape(it.strip("\n")) for it in re.split(r"(?m)^\s*\.\.$", block)]
        if not any(re.search(r".*?\n".join(parts), read(it), re.S) for it in files):
            yield f"the block of {where} that begins with {block.split(chr(10), 1)[0]}"

def stale_places(_, text):
    """What is said to be of a file of a crate, as `name` of `crate/File`, stands there."""
    for named, crate, file in re.findall(r"((?:`\w+`(?:, | and )?)+) of `(wit_\w+)/([\w/]+)`", text):
        begin = f"crates/{crate}/"
        there = [path for path in tracked() if path.startswith(begin) and path.endswith(f"/{file}.antt")]
        for name in spans(named):
            if not any(re.search(rf"\b{name}\b", read(path)) for path in there):
                yield f"`{name}` isn't in {file} of {crate}"


CHECKS = [stale_names, stale_crates, stale_links, stale_quotes, stale_places]

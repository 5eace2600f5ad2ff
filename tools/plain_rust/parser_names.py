"""wit-parser's names and forms in the made files: the last rules, over all files of the made crate at once.

    respell_folder(folder, home)    the files of a folder; `home` is the path of its module, as `crate::made`

The source takes a `_` where a contract can't spell a name, has struct variants where wit-parser has structs, and copies
by `try_clone`. Here names lose the `_`, the struct variants of `TypeDefKind` become structs of their own, data gets the
derives that wit-parser's has, and the crate `wit_values` is `crate::values`, which stands in the folder `plain`: texts,
lists, tables and versions are those of std, `indexmap` and `semver`.
"""

import re
import shutil

# the crate that isn't translated
VALUES = "wit_values"

# names that contracts can't spell
NAMES = {"Type_": "Type", "result_": "result"}

# names of calls that std's and indexmap's own have with another type
CALLS = {"retain": "keep_where", "reserve": "make_room"}

# calls whose only refusal is memory: users meet those of `plain/src/face`, which answer no `Result`
INNER_CALLS = """
    has_valid_version version_compat_track version_compat_track_string track_by render_location highlight_span show_span
    render id_of_name id_of name_world_key new_semantic
""".split()

# data whose fields are public in wit-parser
PUBLIC = ("Remap",)

# what clippy would have: an empty value that is left behind, and a list without a first thing
SIMPLER = [
    (re.compile(r"\bmem::replace\((&mut [\w.]+), (?:Items|SourceMap|Text|Docs)::(?:new|none)\(\)\)"), r"mem::take(\1)"),
    (re.compile(r"\.first\(\)\.is_none\(\)"), ".is_empty()"),
]

# the kind of an error lies on the heap, as in wit-parser, since it is large with versions in it
ERROR_FILE = "wit_graph_data/error.rs"
BOXED = "std::boxed::Box"

# the struct variants of `TypeDefKind`, each with the name that it gets
VARIANTS = {"Record": "Record", "Flags": "Flags", "Tuple": "Tuple", "Variant": "Variant", "Enum": "Enum", "Result_": "Result"}

COMPARED = "Clone, Debug, PartialEq, Eq"

# data with the derives that it gets where it hasn't them
DERIVES = {
    COMPARED + ", Hash": """
        AccessorKind AstItem Case Docs EnumCase Field Flag FunctionKind Handle IncludeName LiftLowerAbi ManglingAndAbi
        MapFault PackageName Param ParsedUsePath ShapeClause ShapePlace Span Stability TrackRule Type TypeDefKind TypeOwner
        UsePathFault WorldKey Cause FutureIntrinsic ResourceIntrinsic StreamIntrinsic WasmExportKind
    """,
    COMPARED: """
        Function Interface TypeDef World WorldInclude WorldItem Package UnresolvedPackage UnresolvedPackageGroup
        Graph Features ResolveError ResolveErrorKind Remap ShapeFault
    """,
}
DERIVES_OF = {name: derives for derives, names in DERIVES.items() for name in names.split()}

WORD = re.compile(r"\b(" + "|".join(NAMES) + r")\b")
CALL = re.compile(r"(?<=\.)(" + "|".join(CALLS) + r")(?=[(<])")
INNER_CALL = re.compile(r"(?<=\.|:)(" + "|".join(INNER_CALLS) + r")(?=\()")
INNER_DECLARATION = re.compile(r"(?<=    )pub fn (" + "|".join(INNER_CALLS) + r")(?=\()")
FILE_PUSHED = re.compile(r"\.push_str\((?=(?:\"[^\"]*\"|[\w.]+(?:\(\))?), )|\bpub fn push_str\(&mut self, path")
STRUCT_VARIANT = re.compile(r"\bTypeDefKind::(" + "|".join(VARIANTS) + r") (?=\{)")
UNIT_PATH = re.compile(r"\bTypeDefKind::Result_\b")
DECLARATION = re.compile(r"(?P<derive>#\[derive\((?P<derives>[\w, ]*)\)\]\n)?pub (?:struct|enum) (?P<name>\w+)")
# a list of things with ids gives them with their ids where it is walked
WALK = re.compile(r"\bfor (\w+) in ((?:\w+\.)+(?:packages|types|interfaces|worlds))\.iter\(\)")
# a list of things with ids is an arena, as documents show it
ARENA = re.compile(r"\bpub (\w+): Items<(TypeDef|Interface|World|Package)>")
# the map of the shim has its own texts as keys
NAMES_MADE = re.compile(r"\bNames::from_map\(")
VERSION_PARSED = re.compile(r"(?<![\w:])Version::parse\(")
PUBLIC_STRUCT = re.compile(r"^pub struct (" + "|".join(PUBLIC) + r") \{[^}]*\}", re.MULTILINE)
WRITTEN_BY_HAND = re.compile(r"^impl(?:<[^>]*>)? (?:fmt::|std::fmt::|::std::fmt::)?(Clone|Debug|PartialEq|Eq|Hash) for (\w+)", re.MULTILINE)


def respell_folder(folder, home):
    """Gives the files of a folder wit-parser's names and forms."""
    shutil.rmtree(folder / VALUES)
    files = {path: path.read_text(encoding="utf-8") for path in sorted(folder.rglob("*.rs"))}
    by_hand = {pair for text in files.values() for pair in WRITTEN_BY_HAND.findall(text)}
    for path, text in files.items():
        text = boxed_kind(text) if path.as_posix().endswith(ERROR_FILE) else text
        path.write_text(respelled(text, home, by_hand), encoding="utf-8")
    with open(folder / "wit_data" / "mod.rs", "a", encoding="utf-8") as root:
        root.write(f"pub use {home}::wit_data::types::kinds;\n")


def respelled(text, home, by_hand):
    """One file."""
    text = with_kinds(text, home)
    text = WORD.sub(lambda found: NAMES[found[1]], text)
    text = CALL.sub(lambda found: CALLS[found[1]], text)
    for pattern, replacement in SIMPLER:
        text = pattern.sub(replacement, text)
    text = ARENA.sub(r"pub \1: crate::values::Arena<\2>", text)
    text = WALK.sub(r"for \1 in \2.as_slice()", text)
    text = NAMES_MADE.sub("Names::from_texts(", text)
    text = VERSION_PARSED.sub("Version::read(", text)
    text = INNER_CALL.sub(r"try_\1", text)
    text = INNER_DECLARATION.sub(r"pub(crate) fn try_\1", text)
    text = FILE_PUSHED.sub(lambda found: found[0].replace("pub fn", "pub(crate) fn").replace("push_str", "try_push_str"), text)
    text = text.replace(f"{home}::{VALUES}", "crate::values")
    text = PUBLIC_STRUCT.sub(lambda found: found[0].replace("\n    ", "\n    pub "), text)
    text = DECLARATION.sub(lambda found: with_derives(found, by_hand), text)
    return with_calls(text)


def boxed_kind(text):
    """The file of `ResolveError`, whose kind lies on the heap: it is made by `From` alone."""
    text = text.replace("    kind: ResolveErrorKind,\n}", f"    kind: {BOXED}<ResolveErrorKind>,\n}}")
    text = text.replace("ResolveError { kind }", f"ResolveError {{ kind: {BOXED}::new(kind) }}")
    text = text.replace("match &self.kind", "match &*self.kind")
    at = 0
    while found := re.compile(r"\bResolveError \{\s*kind: (?!std::)").search(text, at):
        end = past_braces(text, text.index("{", found.start()))
        kind = text[found.end() : end - 1].strip().rstrip(",")
        text = f"{text[: found.start()]}ResolveError::from({kind}){text[end:]}"
        at = found.end()
    return text


def with_kinds(text, home):
    """The struct variants of `TypeDefKind` as structs, in its declaration and where it is made or matched."""
    text = declared_kinds(text)
    at = 0
    while found := STRUCT_VARIANT.search(text, at):
        end = past_braces(text, found.end())
        name = found[1]
        inner = text[found.end() : end]
        new = f"TypeDefKind::{VARIANTS[name]}({home}::wit_data::kinds::{name} {inner})"
        text = text[: found.start()] + new + text[end:]
        at = found.start() + len(new) - len(inner)
    return UNIT_PATH.sub("TypeDefKind::Result", text)


def past_braces(text, at):
    """The place behind the braces that open at `at`."""
    depth = 0
    while True:
        depth += {"{": 1, "}": -1}.get(text[at], 0)
        at += 1
        if depth == 0:
            return at


def declared_kinds(text):
    """The declaration of `TypeDefKind`, whose struct variants become structs of a module `kinds`."""
    found = re.search(r"pub enum TypeDefKind (?=\{)", text)
    if not found:
        return text
    end = past_braces(text, found.end())
    body, structs = text[found.end() : end], []
    for name, new in VARIANTS.items():
        variant = re.search(rf"^    {name} (?=\{{)", body, re.MULTILINE)
        past = past_braces(body, variant.end())
        fields = re.sub(r"^        (?=\w)", "        pub ", body[variant.end() : past], flags=re.MULTILINE)
        structs.append(
            f"    /// What a type of the kind `{new}` is made of.\n    #[derive({COMPARED}, Hash)]\n    pub struct {name} {fields}\n"
        )
        body = body[: variant.start()] + f"    {new}(kinds::{name})" + body[past:]
    module = "\n/// What the kinds of types are made of.\npub mod kinds {\n    use super::*;\n\n" + "\n".join(structs) + "}\n"
    return text[: found.end()] + body + text[end:] + module


def with_derives(found, by_hand):
    """A declaration with the derives of its type."""
    name = found["name"]
    wanted = DERIVES_OF.get(name)
    if wanted is None:
        return found[0]
    has = (found["derives"] or "").replace(" ", "").split(",")
    has = [it for it in has if it]
    more = [it for it in wanted.split(", ") if it not in has and (it, name) not in by_hand]
    old = found["derive"] or ""
    return f"#[derive({', '.join(has + more)})]\n" + found[0][len(old) :]


def with_calls(text):
    """A file in which the calls of `crate::values` on std's types are in scope."""
    at = 0
    for line in text.splitlines(keepends=True):
        if line.strip() and not line.startswith(("//!", "#![")):
            break
        at += len(line)
    return text[:at] + "use crate::values::calls::*;\n" + text[at:]

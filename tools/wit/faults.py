"""Faults of WIT: a class for each with its message, and the place that it names."""
import unicodedata


def character(text):
    """A character as a message has it."""
    if text in "'\\":
        return f"'\\{text}'"
    short = {"\t": "\\t", "\r": "\\r", "\n": "\\n", "\0": "\\0"}.get(text)
    if short is None and (not text.isprintable() or unicodedata.category(text) in ("Mn", "Me", "Zs")) and text != " ":
        short = f"\\u{{{ord(text):x}}}"
    return f"'{short or text}'"


class Fault(Exception):
    """What is wrong at a place of a file: a span of characters, None where it is of the whole file."""

    text = "{what}"

    def __init__(self, file, span, **named):
        super().__init__(self.text.format(**named))
        self.file, self.span = file, span

    @property
    def line(self):
        """The number of its line, from 1."""
        return 1 + self.file.text.count("\n", 0, self.span[0]) if self.span else 1

    def place(self):
        """FILE:LINE:COLUMN. Columns count bytes, from 1."""
        if not self.span:
            return self.file.path
        text, start = self.file.text, self.span[0]
        begin = text.rfind("\n", 0, start) + 1
        return f"{self.file.path}:{self.line}:{len(text[begin:start].encode()) + 1}"

    def shown(self):
        """The message, and below it the place with its line, marked."""
        head = f"{self}\n     --> {self.place()}"
        if not self.span:
            return head
        text, (start, end) = self.file.text, self.span
        begin = text.rfind("\n", 0, start) + 1
        line = text[begin:].split("\n", 1)[0].rstrip("\r")
        blanks = "".join("\t" if it == "\t" else " " for it in line[: start - begin])
        marked = min(end, begin + len(line)) - start
        return f"{head}\n      |\n{self.line:5} | {line}\n      | {blanks}^{'-' * (marked - 1)}"


def fault(name, text):
    """A class of faults with this message."""
    return type(name, (Fault,), {"text": text, "__doc__": text, "__module__": __name__})


# of characters
UnexpectedCharacter = fault("UnexpectedCharacter", "unexpected character {found}")
UnterminatedComment = fault("UnterminatedComment", "unterminated block comment")
ControlCode = fault("ControlCode", "Control code {found}")
BidirectionalOverride = fault("BidirectionalOverride", "Input contains bidirectional override codepoint {found}")
DiscouragedCodepoint = fault("DiscouragedCodepoint", "Codepoint {found} is discouraged by Unicode")
CharacterInIdentifier = fault("CharacterInIdentifier", "invalid character in identifier {found}")
EmptyPart = fault("EmptyPart", "identifiers must have characters between '-'s")

# of the grammar
Expected = fault("Expected", "expected {expected}, found {found}")
NoVersion = fault("NoVersion", "{what}")
ListSize = fault("ListSize", "invalid list size: number too large to fit in target type")
EmptyList = fault("EmptyList", "a fixed-length list must have more than zero elements")
UnknownAttribute = fault("UnknownAttribute", "unknown attribute `{name}`")
AttributesOnPackage = fault("AttributesOnPackage", "cannot place attributes on nested packages")
AttributesOnUse = fault("AttributesOnUse", "attributes not allowed on top-level use")
DeprecatedAlone = fault("DeprecatedAlone", "must pair @deprecated with either @since or @unstable")
UnsupportedAttributes = fault("UnsupportedAttributes", "unsupported combination of attributes")
MisplacedExternalId = fault("MisplacedExternalId", "`@external-id` not allowed here")

# of packages
NoPackage = fault("NoPackage", "no `package` header was found in any WIT file for this package")
OtherPackage = fault("OtherPackage", "package identifier `{name}` does not match previous package name of `{previous}`")
NestedTooDeep = fault("NestedTooDeep", "nested packages must be placed at the top-level")
SecondDocs = fault("SecondDocs", "found doc comments on multiple 'package' items")
BinaryPackage = fault("BinaryPackage", "a package in binary form isn't read")

# of names
DuplicateItem = fault("DuplicateItem", "duplicate item named `{name}`")
DuplicateInFile = fault("DuplicateInFile", "duplicate name `{name}` in this file")
NotThere = fault("NotThere", "{kind} `{name}` does not exist")
FormerFloat = fault(
    "FormerFloat",
    "type `{name}` does not exist: the `{name}` type has been renamed to `{new}` and is no longer accepted",
)
DependsOnItself = fault("DependsOnItself", "{kind} `{name}` depends on itself")
NotAnInterface = fault("NotAnInterface", "name `{name}` is defined as a world, not an interface")
NotAWorld = fault("NotAWorld", "name `{name}` is defined as an interface, not a world")
DefinedTwice = fault("DefinedTwice", "name `{name}` is defined more than once")
DefinedAbove = fault("DefinedAbove", "name `{name}` is defined more than once; a type above has it")
ParameterTwice = fault("ParameterTwice", "param `{name}` is defined more than once")
FunctionTwice = fault("FunctionTwice", "duplicate function name `{name}`")
SecondConstructor = fault("SecondConstructor", "duplicate constructors")
EntryConflict = fault("EntryConflict", "{word} `{name}` conflicts with prior {kind} of same name")
EntryTwice = fault("EntryTwice", "interface cannot be {word}ed more than once")
UsedFunction = fault("UsedFunction", "cannot import function `{name}`")
FunctionAsType = fault("FunctionAsType", "cannot use function `{name}` as a type")

# of types
NoCase = fault("NoCase", "empty {word}")
MapKey = fault(
    "MapKey",
    "invalid map key type: map keys must be bool, u8, u16, u32, u64, s8, s16, s32, s64, char, or string",
)
NoResource = fault("NoResource", "type `{name}` used in a handle must be a resource")
ConstructorResult = fault("ConstructorResult", "if a constructor return type is declared it must be a `result`")
ConstructorOk = fault("ConstructorOk", "the `ok` type must be the resource being constructed")


class Report:
    """What is told of files: what is worth a note, and the faults, in the order in which they were met."""

    def __init__(self):
        self.notes, self.problems = [], []

    def note(self, file, line, what):
        self.notes.append((file.path, line, what))

    def problem(self, fault):
        self.problems.append(fault)

    def lines(self):
        """Notes as FILE:LINE: WHAT; where there are faults, these alone, by their places."""
        if self.problems:
            files = list(dict.fromkeys(it.file.path for it in self.problems))
            told = sorted(self.problems, key=lambda it: (files.index(it.file.path), it.span or (0, 0)))
            return list(dict.fromkeys(it.shown() for it in told))
        files = list(dict.fromkeys(path for path, _, _ in self.notes))
        told = sorted(dict.fromkeys(self.notes), key=lambda it: (files.index(it[0]), it[1]))
        return [f"{path}:{line}: {what}" for path, line, what in told]

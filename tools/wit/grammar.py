"""The grammar of WIT."""
from . import faults
from .syntax import DEFINITIONS, PRIMITIVES
from .syntax import Attribute, Definition, Entry, File, Function, Gate, Header, Include, Name, Package, Part, Path
from .syntax import Renaming, Scope, Source, TopUse, Type, Use
from .tokens import called, check_name, tokens_of
from .versions import version_fault

NAME = "an identifier or string"
STATEMENTS = {
    "interface": "`type`, `resource` or `func`",
    "world": "`import`, `export`, `include`, `use`, or type definition",
}
# of each form of a type how many types it has at least and at most, and whether it may stand without any
FORMS = {
    "list": (1, 1, False),
    "option": (1, 1, False),
    "result": (1, 2, True),
    "tuple": (0, None, False),
    "future": (1, 1, True),
    "stream": (1, 1, True),
    "own": (1, 1, False),
    "borrow": (1, 1, False),
    "map": (2, 2, False),
}


class Parser:
    """Reads a file of WIT, by recursive descent; types, which may nest in any depth, with a list of what is open."""

    def __init__(self, file):
        self.file = file
        self.tokens, self.ahead = tokens_of(file), []
        self.version_end = 0  # where the version that was taken last ends

    # tokens

    def peek(self, n=0):
        """The n-th token from here."""
        while len(self.ahead) <= n:
            at_end = self.ahead and self.ahead[-1].kind == "end"
            self.ahead.append(self.ahead[-1] if at_end else next(self.tokens))
        return self.ahead[n]

    @property
    def next(self):
        return self.peek()

    def advance(self):
        token = self.peek()
        if token.kind != "end":
            self.ahead.pop(0)
        return token

    def take(self, *kinds):
        """The next token, where it is of one of these kinds; otherwise None, and it isn't taken."""
        return self.advance() if self.next.kind in kinds else None

    def expected(self, what, token=None):
        token = token or self.next
        return faults.Expected(self.file, token.span, expected=what, found=called(token.kind))

    def sign(self, kind):
        """The next token, which has to be of this kind."""
        return self.take(kind) or self.fail(called(kind))

    def fail(self, what):
        raise self.expected(what)

    def name(self, what=NAME):
        token = self.take("id", "explicit") or self.fail(what)
        text = token.text[token.kind == "explicit" :]
        check_name(self.file, text, token.span)
        return Name(text, token.line, token.span)

    def list_of(self, read, end):
        """What stands up to this sign, with commas between."""
        read_all = []
        while not self.take(end):
            read_all.append(read())
            if not self.take(","):
                self.sign(end)
                break
        return read_all

    # files and packages

    def source(self):
        """All that the file says."""
        docs, comments = self.next.docs, self.next.docs_span
        read = Source(self.file)
        if self.take("package"):
            name, span = self.package_name()
            if self.take(";"):
                read.header = Header(name, span, docs, comments)
            else:
                read.nested.append(self.nested_package(name, span, docs))
        while self.next.kind != "end":
            gate = self.gate()
            word = self.take("package")
            if not word:
                read.statements.append(self.item(gate))
                continue
            if gate.attributes:
                raise faults.AttributesOnPackage(self.file, word.span)
            read.nested.append(self.nested_package(*self.package_name(), gate.docs))
        return read

    def nested_package(self, name, span, docs):
        """What stands in the braces of a package, which has its own `use .. as ..`."""
        self.sign("{")
        outer, self.file = self.file, File(self.file.path, self.file.text)
        package = Package(name, span, self.file, docs)
        while not self.take("}"):
            gate = self.gate()
            word = self.take("package")
            if not word:
                package.statements.append(self.item(gate))
                continue
            if gate.attributes:
                raise faults.AttributesOnPackage(self.file, word.span)
            inner = self.nested_package(*self.package_name(), gate.docs)
            package.inner = package.inner or inner
        self.file = outer
        return package

    def package_name(self):
        namespace = self.name()
        self.sign(":")
        name = self.name()
        version = f"@{self.version()}" if self.take("@") else ""
        return f"{namespace}:{name}{version}", (namespace.span[0], self.version_end if version else name.span[1])

    def version(self):
        start = self.sign("integer").span[0]
        for _ in range(2):
            self.sign(".")
            end = self.sign("integer").span[1]
        for sign in "-+":
            end = self.version_part(sign, end)
        text = self.file.text[start:end]
        if what := version_fault(text):
            raise faults.NoVersion(self.file, (start, end), what=what)
        self.version_end = end
        return text

    def version_part(self, sign, end):
        """What stands behind the sign in a version, if it does: names, numbers and `-`, with dots between."""
        if not self.take(sign):
            return end
        while True:
            token = self.next
            if token.kind == "." and self.peek(1).kind in ("id", "integer", "-"):
                self.advance()
            elif token.kind not in ("id", "integer", "-"):
                return end
            end = self.advance().span[1]

    def item(self, gate):
        token = self.take("interface", "world", "use") or self.fail("`world`, `interface` or `use`")
        if token.kind == "use":
            path = self.path()
            name = self.name() if self.take("as") else Name(path.name, path.line, path.span)
            self.sign(";")
            return TopUse(gate, token.line, path, self.file, name, token.span)
        name = self.name()
        scope = Scope(gate, token.line, token.kind, name.text, name.span, self.file)
        self.body(scope)
        return scope

    def body(self, scope):
        """What stands in the braces of an interface or a world."""
        self.sign("{")
        while not self.take("}"):
            scope.statements.append(self.statement(scope))

    # attributes

    def gate(self):
        """The documentation and the attributes before a statement."""
        gate = Gate(docs=self.next.docs)
        while self.take("@"):
            gate.attributes.append(self.attribute())
        return gate

    def attribute(self):
        name = self.name()
        if name.text not in ("since", "unstable", "deprecated", "external-id"):
            raise faults.UnknownAttribute(self.file, name.span, name=name)
        self.sign("(")
        if name.text == "external-id":
            value = self.sign("text").text[1:-1]
        else:
            word = "feature" if name.text == "unstable" else "version"
            found = self.name()
            if found.text != word:
                raise faults.Expected(self.file, found.span, expected=f"`{word}`", found=f"`{found}`")
            self.sign("=")
            value = self.name().text if word == "feature" else self.version()
        self.sign(")")
        return Attribute(name.text, value, name.line, name.span)

    # statements

    def path(self):
        """A name, or `ns:pkg/name[@version]`."""
        first = self.name()
        if not self.take(":"):
            return Path(first.text, first.line, first.span)
        second = self.name()
        self.sign("/")
        name = self.name()
        version = self.version() if self.take("@") else None
        package_span = (first.span[0], second.span[1])
        return Path(name.text, first.line, name.span, f"{first}:{second}", version, package_span)

    def statement(self, scope):
        gate, line = self.gate(), self.next.line
        if self.take("use"):
            return self.use(gate, line)
        if token := self.take(*DEFINITIONS):
            return self.definition(gate, line, token.kind)
        if scope.word == "world":
            if token := self.take("import", "export"):
                return self.entry(gate, line, token.kind)
            if self.take("include"):
                return self.include(gate, line)
            self.fail(STATEMENTS["world"])
        name = self.name(STATEMENTS["interface"])
        self.sign(":")
        return self.function(gate, line, name.text, name.span)

    def use(self, gate, line):
        path = self.path()
        self.sign(".")
        self.sign("{")
        names = self.list_of(self.used, "}")
        self.sign(";")
        return Use(gate, line, path, names)

    def used(self):
        name = self.name()
        return Renaming(name, self.name() if self.take("as") else name)

    def include(self, gate, line):
        path, names = self.path(), []
        if self.take("with"):
            self.sign("{")
            names = self.list_of(self.renaming, "}")
        else:
            self.sign(";")
        return Include(gate, line, path, names)

    def renaming(self):
        name = self.name()
        self.sign("as")
        return Renaming(name, self.name())

    def definition(self, gate, line, word):
        name = self.name()
        made = Definition(gate, line, word, name.text, name.span)
        if word == "type":
            self.sign("=")
            made.type = self.type()
            self.sign(";")
        elif word == "resource":
            if self.take("{"):
                while not self.take("}"):
                    made.functions.append(self.resource_function(name.text))
            else:
                self.sign(";")
        else:
            self.sign("{")
            read = {"record": self.named_type, "variant": self.case}.get(word, self.bare)
            made.parts = self.list_of(read, "}")
        return made

    def named_type(self):
        docs, name = self.next.docs, self.name()
        self.sign(":")
        return Part(name, self.type(), docs)

    def case(self):
        docs, name, payload = self.next.docs, self.name(), None
        if self.take("("):
            payload = self.type()
            self.sign(")")
        return Part(name, payload, docs)

    def bare(self):
        docs = self.next.docs
        return Part(self.name(), None, docs)

    def resource_function(self, resource):
        """A function in the braces of a resource, under the name by which it is its own."""
        gate, line = self.gate(), self.next.line
        if token := self.take("constructor"):
            return self.signature(gate, line, f"[constructor]{resource}", token.span, resource)
        name = self.name("`constructor` or identifier")
        self.sign(":")
        word = "static" if self.take("static") else "method"
        return self.function(gate, line, f"[{word}]{resource}.{name}", name.span, resource)

    def function(self, gate, line, name, span, resource=None):
        is_async = bool(self.take("async"))
        self.sign("func")
        made = self.signature(gate, line, name, span, resource)
        made.is_async = is_async
        return made

    def signature(self, gate, line, name, span, resource):
        self.sign("(")
        parameters = self.list_of(self.named_type, ")")
        result = self.type() if self.take("->") else None
        self.sign(";")
        return Function(gate, line, name, span, parameters, result, resource)

    def entry(self, gate, line, word):
        """What stands behind `import` or `export`: a path, or a label and what is under it."""
        label = None
        if self.peek(0).kind in ("id", "explicit") and self.peek(1).kind == ":" and not self.begins_path():
            label = self.name()
            self.sign(":")
            if self.next.kind in ("func", "async"):
                return Entry(gate, line, word, label, self.function(gate, line, label.text, label.span))
            if self.take("interface"):
                inner = Scope(gate, line, "interface", f"{word}-{label}", label.span, self.file, is_in_place=True)
                self.body(inner)
                return Entry(gate, line, word, label, inner)
        path = self.path()
        self.sign(";")
        return Entry(gate, line, word, label, path)

    def begins_path(self):
        """Whether `ns:name` goes on as `ns:name/`, and so is no label with an interface."""
        return self.peek(2).kind in ("id", "explicit") and self.peek(3).kind == "/"

    # types

    def type(self):
        """A type. The forms that are open stand in a list, so a type may nest in any depth."""
        open_forms = []
        while True:
            made, is_open = self.type_begin()
            if is_open:
                open_forms.append(made)
                continue
            while open_forms:
                open_forms[-1].parts.append(made)
                if not self.ends_behind_part(open_forms[-1]):
                    break
                made = open_forms.pop()
            else:
                return made

    def type_begin(self):
        """A type, or the beginning of a form and that its parts follow."""
        token = self.next
        if token.kind in PRIMITIVES:
            self.advance()
            return Type(token.kind, token.line, token.span, is_word=True), False
        if token.kind not in FORMS:
            name = self.name("a type")
            return Type(name.text, name.line, name.span), False
        self.advance()
        form = Type(token.kind, token.line, token.span, True)
        if FORMS[form.name][2] and self.next.kind != "<":
            return form, False
        self.sign("<")
        return form, self.is_open_before_part(form)

    def is_open_before_part(self, form):
        """Takes what may stand in front of the first part. Whether parts follow."""
        if form.name == "result" and self.take("_"):
            self.sign(",")
            form.parts.append(None)
        if form.name in ("own", "borrow"):
            name = self.name()
            form.parts.append(Type(name.text, name.line, name.span))
            self.sign(">")
            return False
        return not (form.name == "tuple" and self.take(">"))

    def ends_behind_part(self, form):
        """Takes what stands behind a part. Whether the form ends there."""
        least, most, _ = FORMS[form.name]
        count = len(form.parts)
        if form.name == "list" and self.take(","):
            form.parts.append(self.list_size())
        elif most is None:
            if self.take(","):
                return bool(self.take(">"))
        elif count < least:
            self.sign(",")
            return False
        elif count < most and self.take(","):
            return False
        self.sign(">")
        return True

    def list_size(self):
        token = self.take("integer") or self.fail("fixed-length")
        digits = token.text.lstrip("0")
        if len(digits) > 10 or int(digits or 0) > 2**32 - 1:
            raise faults.ListSize(self.file, token.span)
        if not digits:
            raise faults.EmptyList(self.file, token.span)
        return int(digits)

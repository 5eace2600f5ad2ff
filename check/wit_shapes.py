"""What the functions of interfaces are, for check/wit_texts.py: as tools/wit says, and as a component says that wit-parser
and its encoder made.

`interfaces_of(group)` has of each interface its functions: whether each is async, its parameters with names and shapes,
and the shape of its result. `module_of` writes a core module that asks for these, each with the flat type that it has in
the Canonical ABI; linked with it, wit-parser's world keeps all its imports. `imports_of(component)` reads them back.

A shape is a tuple of a word and what it is made of; names of fields, cases and flags are in it, and a resource is told by
its interface and its name.
"""

PRIMITIVES = dict(
    zip(
        (0x7F, 0x7E, 0x7D, 0x7C, 0x7B, 0x7A, 0x79, 0x78, 0x77, 0x76, 0x75, 0x74, 0x73, 0x64),
        "bool s8 u8 s16 u16 s32 u32 s64 u64 f32 f64 char string error-context".split(),
    )
)
FLAT = {"u64": ["i64"], "s64": ["i64"], "f32": ["f32"], "f64": ["f64"], "string": ["i32", "i32"]}
CORE = {"i32": 0x7F, "i64": 0x7E, "f32": 0x7D, "f64": 0x7C}


# As tools/wit says


class Shapes:
    """The shapes of the types of a package; those of other packages are in `known`, by interface and name."""

    def __init__(self, data, known):
        self.types, self.known, self.data = data["types"], known, data
        self.foreign = {}
        for package, items in data["foreign-deps"].items():
            for name, (item, _) in items.items():
                self.foreign[item["interface"]] = id_text(package, name)

    def interface_name(self, id):
        """The full name of an interface of the package, or of another."""
        return self.foreign.get(id) or id_text(self.data["name"], self.data["interfaces"][id]["name"])

    def of(self, ty):
        """The shape of a primitive or of a type by its id."""
        if ty is None or isinstance(ty, str):
            return ty
        made = self.types[ty]
        kind = made["kind"]
        if kind in ("resource", "unknown"):
            named = (self.interface_name(made["owner"]["interface"]), made["name"])
            return ("resource", *named) if kind == "resource" else self.known[named]
        ((word, what),) = kind.items()
        return self.of_kind(word, what)

    def of_kind(self, word, what):
        if word == "type":
            return self.of(what)
        if word == "handle":
            ((handle, resource),) = what.items()
            return (handle, self.of(resource))
        if word == "record":
            return ("record", tuple((it["name"], self.of(it["type"])) for it in what["fields"]))
        if word == "variant":
            return ("variant", tuple((it["name"], self.of(it["type"])) for it in what["cases"]))
        if word in ("enum", "flags"):
            return (word, tuple(it["name"] for it in what["flags" if word == "flags" else "cases"]))
        if word == "tuple":
            return ("tuple", tuple(map(self.of, what["types"])))
        if word == "result":
            return ("result", self.of(what["ok"]), self.of(what["err"]))
        if word == "map":
            return ("map", *map(self.of, what))
        if word == "fixed-length-list":
            return ("fixed", self.of(what[0]), what[1])
        return (word, self.of(what))

    def function(self, it):
        is_async = isinstance(it["kind"], str) and it["kind"].startswith("async")
        is_async = is_async or any(word.startswith("async") for word in it["kind"] if not isinstance(it["kind"], str))
        return is_async, tuple((param["name"], self.of(param["type"])) for param in it["params"]), self.result(it)

    def result(self, it):
        """The result; that of a constructor is an `own`."""
        shape = self.of(it.get("result"))
        return with_own(shape)


def with_own(shape):
    """A value of a resource is an `own` of it, also within a type."""
    if not isinstance(shape, tuple) or shape[:1] in (("own",), ("borrow",)):
        return shape
    if shape[:1] == ("resource",):
        return ("own", shape)
    return tuple(with_own(it) for it in shape)


def id_text(package, name):
    """The full name of an interface."""
    base, at, version = package.partition("@")
    return f"{base}/{name}{at}{version}"


def interfaces_of(group):
    """The functions of each interface of the main package, by full names."""
    known = {}
    for package in [*group.nested, group.main]:
        shapes, found = Shapes(package.data, known), {}
        for id, interface in enumerate(package.data["interfaces"]):
            if id in shapes.foreign:
                continue
            name = shapes.interface_name(id)
            for ty, made in interface["types"].items():
                known[name, ty] = shapes.of(made)
            functions = {it["name"]: shapes.function(it) for it in interface["functions"].values()}
            found[name] = {
                it: (is_async, tuple((p, with_own(s)) for p, s in params), result)
                for it, (is_async, params, result) in functions.items()
            }
    return found


# Flat types and the module


def flat(shape):
    """The core types of a value."""
    if shape is None:
        return []
    if isinstance(shape, str):
        return FLAT.get(shape, ["i32"])
    word = shape[0]
    if word == "record":
        return [it for _, part in shape[1] for it in flat(part)]
    if word == "tuple":
        return [it for part in shape[1] for it in flat(part)]
    if word in ("list", "map"):
        return ["i32", "i32"]
    if word == "fixed":
        return flat(shape[1]) * shape[2]
    if word == "flags":
        return ["i32"] * ((len(shape[1]) + 31) // 32)
    if word in ("variant", "option", "result"):
        return ["i32", *joined(map(flat, payloads(shape)))]
    return ["i32"]


def payloads(shape):
    if shape[0] == "variant":
        return [payload for _, payload in shape[1]]
    return shape[1:]


def joined(cases):
    """The core types that serve for each case."""
    made = []
    for case in cases:
        for n, ty in enumerate(case):
            if n == len(made):
                made.append(ty)
            elif made[n] != ty:
                made[n] = "i32" if {made[n], ty} == {"i32", "f32"} else "i64"
    return made


def core_type(function):
    """The parameters and the results of a function's import."""
    _, params, result = function
    given, answered = [it for _, shape in params for it in flat(shape)], flat(result)
    given = ["i32"] if len(given) > 16 else given
    return (given, answered) if len(answered) < 2 else ([*given, "i32"], [])


def number(n):
    made = b""
    while n > 127:
        made += bytes([n & 127 | 128])
        n >>= 7
    return made + bytes([n])


def text(it):
    return number(len(it.encode())) + it.encode()


def vector(items):
    return number(len(items)) + b"".join(items)


def section(id, body):
    return bytes([id]) + number(len(body)) + body


def function_type(params, results):
    return b"\x60" + b"".join(vector([bytes([CORE[it]]) for it in types]) for types in (params, results))


def module_of(interfaces):
    """A module that imports all functions, and has the memory that they need."""
    wanted = [(name, it, core_type(made)) for name, functions in interfaces.items() for it, made in functions.items()]
    types = [function_type(*ty) for _, _, ty in wanted] + [function_type(["i32"] * 4, ["i32"])]
    imports = [text(name) + text(it) + b"\0" + number(n) for n, (name, it, _) in enumerate(wanted)]
    exports = [text("memory") + b"\x02\0", text("cabi_realloc") + b"\0" + number(len(wanted))]
    bodies = [section(1, vector(types)), section(2, vector(imports)), section(3, vector([number(len(wanted))]))]
    bodies += [section(5, b"\1\0\1"), section(7, vector(exports)), section(10, b"\1\4\0\x41\0\x0b")]
    return b"\0asm\1\0\0\0" + b"".join(bodies)


# As a component says


class Bytes:
    def __init__(self, data, at=0):
        self.data, self.at = data, at

    def byte(self):
        self.at += 1
        return self.data[self.at - 1]

    def number(self):
        made, shift = 0, 0
        while True:
            byte = self.byte()
            made |= (byte & 127) << shift
            shift += 7
            if byte < 128:
                return made

    def text(self):
        size = self.number()
        self.at += size
        return self.data[self.at - size : self.at].decode()

    def extern_name(self):
        self.byte()
        return self.text()

    def many(self, read):
        return [read() for _ in range(self.number())]

    def maybe(self, read):
        return read() if self.byte() else None


class Space(Bytes):
    """Reads definitions of types into an index space, within another one where they are of an instance."""

    def __init__(self, data, at, outer=None):
        super().__init__(data, at)
        self.types, self.instances, self.exports, self.outer = [], [], {}, outer

    def value(self):
        byte = self.data[self.at]
        if byte in PRIMITIVES:
            self.at += 1
            return PRIMITIVES[byte]
        return self.types[self.number()]

    def labelled(self):
        return self.text(), self.value()

    def case(self):
        made = self.text(), self.maybe(self.value)
        self.byte()
        return made

    def result(self):
        """The result of a function, None where it has none."""
        if self.byte() == 0:
            return self.value()
        self.byte()
        return None

    def definition(self):
        """A definition of a type."""
        byte = self.data[self.at]
        if byte in PRIMITIVES:
            return self.value()
        self.at += 1
        if byte in (0x40, 0x43):
            params = tuple(self.many(self.labelled))
            return byte == 0x43, params, self.result()
        if byte == 0x42:
            return self.instance()
        words = {0x70: "list", 0x6B: "option", 0x69: "own", 0x68: "borrow", 0x66: "stream", 0x65: "future"}
        if byte in (0x69, 0x68):
            return (words[byte], self.types[self.number()])
        if byte in (0x66, 0x65):
            return (words[byte], self.maybe(self.value))
        if byte in words:
            return (words[byte], self.value())
        if byte in (0x72, 0x71):
            record = byte == 0x72
            return ("record" if record else "variant", tuple(self.many(self.labelled if record else self.case)))
        if byte in (0x6E, 0x6D):
            return ("flags" if byte == 0x6E else "enum", tuple(self.many(self.text)))
        if byte == 0x6F:
            return ("tuple", tuple(self.many(self.value)))
        if byte == 0x6A:
            return ("result", self.maybe(self.value), self.maybe(self.value))
        if byte == 0x67:
            return ("fixed", self.value(), self.number())
        if byte == 0x63:
            return ("map", self.value(), self.value())
        raise ValueError(f"a type that begins with {byte:#x}")

    def instance(self):
        """The exports of an instance; a resource is a list that gets the name of the instance later."""
        inner = Space(self.data, self.at, self)
        for _ in range(inner.number()):
            word = inner.byte()
            if word == 1:
                inner.types.append(inner.definition())
            elif word == 2:
                inner.alias()
            elif word == 4:
                inner.export()
            else:
                raise ValueError(f"a declaration that begins with {word:#x}")
        self.at = inner.at
        return inner.exports

    def alias(self):
        sort = self.byte()
        target = self.byte()
        if sort != 3:
            raise ValueError(f"an alias of sort {sort}")
        if target == 0:
            instance = self.instances[self.number()]
            self.types.append(instance[self.text()])
        else:
            depth, index = self.number(), self.number()
            self.types.append((self.outer if depth else self).types[index])

    def export(self):
        name, sort = self.extern_name(), self.byte()
        if sort == 1:
            self.exports[name] = self.types[self.number()]
        elif sort == 3 and self.byte() == 0:
            self.exports[name] = self.types[self.number()]
            self.types.append(self.exports[name])
        elif sort == 3:
            self.exports[name] = ["resource", None, name]
            self.types.append(self.exports[name])
        else:
            raise ValueError(f"an export of sort {sort}")


def imports_of(component):
    """The functions of each instance that a component imports."""
    space, found = Space(component, 8), {}
    while space.at < len(component):
        id, size = space.byte(), space.number()
        end = space.at + size
        if id == 7:
            for _ in range(space.number()):
                space.types.append(space.definition())
        elif id == 6:
            for _ in range(space.number()):
                space.alias()
        elif id == 10:
            for _ in range(space.number()):
                name = space.extern_name()
                if space.byte() != 5:
                    raise ValueError(f"{name} is no instance")
                space.instances.append(named(space.types[space.number()], name))
                found[name] = space.instances[-1]
        elif id in (1, 2):
            break
        space.at = end
    return {name: functions_of(it) for name, it in found.items()}


def named(exports, name):
    """The exports of an instance with this name, which its own resources get."""
    for export, it in exports.items():
        if isinstance(it, list) and it[1] is None:
            it[1] = name
    return exports


def functions_of(exports):
    functions = {name: it for name, it in exports.items() if isinstance(it, tuple) and it and isinstance(it[0], bool)}
    return {name: frozen(it) for name, it in functions.items()}


def frozen(it):
    return tuple(map(frozen, it)) if isinstance(it, (list, tuple)) else it

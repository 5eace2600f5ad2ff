"""Generated scripts of any size, by kinds."""


def chain(size):
    """Interfaces that each use the two before them, and a world that imports the last."""
    yield "package foo:bar"
    for number in range(size):
        yield f"interface i{number}"
        yield f"type t{number} u32"
        for before in (number - 1, number - 2):
            if before >= 0:
                yield f"use i{before} t{before} u{before}"
    yield "world w"
    yield f"import i{size - 1}"
    yield "push"
    yield "print foo:bar w"


def separate(size):
    """Interfaces that use nothing, and a world that imports none of them."""
    yield "package foo:bar"
    for number in range(size):
        yield f"interface i{number}"
        yield f"type t{number} u32"
    yield "world w"
    yield "push"
    yield "print foo:bar w"


def worlds(size):
    """Worlds that each import, and worlds that each export, the last of three interfaces in a chain."""
    yield "package foo:bar"
    yield "interface a"
    yield "type t u32"
    yield "interface b"
    yield "use a t"
    yield "interface c"
    yield "use b t"
    for number in range(size):
        yield f"world w{number}"
        yield "export c" if number % 2 else "import c"
    yield "push"
    yield f"print foo:bar w{size - 1}"


def aliases(size):
    """One interface of types that are each an alias of the one before."""
    yield "package foo:bar"
    yield "interface a"
    yield "type t0 u32"
    for number in range(1, size):
        yield f"type t{number} t{number - 1}"
    yield "push"


def nested(size):
    """One type in one line: a list of a list of a list, that deep."""
    yield "package foo:bar"
    yield "interface a"
    yield "type t " + "list<" * size + "u32" + ">" * size
    yield "push"


def fields(size):
    """A record of that many fields."""
    yield "package foo:bar"
    yield "interface a"
    yield "record r " + " ".join(f"f{number}:u32" for number in range(size))
    yield "push"


def includes(size):
    """A chain of worlds that each include the one before; the first has ten labels."""
    yield "package foo:bar"
    yield "world w0"
    for number in range(10):
        yield f"import-func f{number}()"
    for number in range(1, size):
        yield f"world w{number}"
        yield f"include w{number - 1}"
    yield "push"
    yield f"print foo:bar w{size - 1}"


def renames(size):
    """One include that renames each of that many labels."""
    yield "package foo:bar"
    yield "world base"
    for number in range(size):
        yield f"import-func f{number}()"
    yield "world w"
    yield "include base " + " ".join(f"f{number}=g{number}" for number in range(size))
    yield "push"
    yield "print foo:bar w"


def resources(size):
    """Resources, and functions that take one each; each resource has one `own`, however often it is taken."""
    yield "package foo:bar"
    yield "interface a"
    for number in range(size):
        yield f"resource r{number}"
        yield f"func f{number}(first:r{number},second:r{number // 2})"
    yield "push"


def handed_on(size):
    """A resource with aliases that each name the one before, and a package that takes each of them as a value and the last one in handles."""
    yield "package foo:p"
    yield "interface a"
    yield "resource t0"
    for number in range(1, size):
        yield f"type t{number} t{number - 1}"
    yield "push"
    yield "package foo:q"
    yield "interface b"
    yield f"use foo:p/a t{size - 1} last"
    for number in range(size):
        yield f"use foo:p/a t{number}"
        yield f"type h{number} borrow<last>"
        yield f"func f{number}(x:t{number})"
    yield "push"


def members(size):
    yield "package foo:p0"
    yield "interface a"
    yield "type t u32"
    for number in range(1, size):
        yield f"package foo:p{number}"
        yield "interface a"
        yield f"use foo:p{number - 1}/a t"


def groups(size):
    """Packages handed in together, each naming the one before."""
    yield from members(size)
    yield "push"


def pushes(size):
    """The same packages, pushed one after another."""
    for number, line in enumerate(members(size)):
        if number and line.startswith("package"):
            yield "push"
        yield line
    yield "push"


def alias_pushes(size):
    """Packages pushed one after another: the first has a resource, each later one an alias of what the one before has, and a function that takes it."""
    yield "package foo:p0"
    yield "interface a"
    yield "resource t"
    yield "push"
    for number in range(1, size):
        yield f"package foo:p{number}"
        yield "interface a"
        yield f"use foo:p{number - 1}/a t"
        yield "func f(x:t)"
        yield "push"


def tracks(size):
    """Interfaces in two versions, and users of the first; a world imports all, and its imports are merged by tracks."""
    for version in ("1.0.0", "1.1.0"):
        yield f"package foo:bar@{version}"
        for number in range(size):
            yield f"interface i{number}"
            yield "type t u32"
        yield "push"
    yield "package foo:main"
    for number in range(size):
        yield f"interface j{number}"
        yield f"use foo:bar/i{number}@1.0.0 t"
    yield "world w"
    for number in range(size):
        yield f"import j{number}"
        yield f"import foo:bar/i{number}@1.1.0"
    yield "push"
    yield "semver foo:main w"
    yield "print foo:main w"


def package_to_merge(size, first):
    """Interfaces from a number on, each of which uses the one before, a record and a function; a world imports the last."""
    yield "package foo:bar"
    for number in range(first, first + size):
        yield f"interface i{number}"
        yield "type t u32"
        yield "record r a:t b:string"
        yield "func f(x:r)->t"
        if number > first:
            yield f"use i{number - 1} t u"
    yield f"world w{first}"
    yield f"import i{first + size - 1}"
    yield "push"


def merges(size):
    """A graph into which one goes that has half of its interfaces, and as many others."""
    yield from package_to_merge(size, 0)
    yield "other"
    yield from package_to_merge(size, size // 2)
    yield "merge"
    yield f"print foo:bar w{size // 2}"


def small_graph(number):
    """One interface and one world of a package of their own."""
    yield f"package p:q{number}"
    yield "interface i"
    yield "type t u32"
    yield "world w"
    yield "import i"
    yield "push"


def merges_one_by_one(size):
    """That many graphs of one interface and one world each, merged one after another."""
    for number in range(size):
        yield "other"
        yield from small_graph(number)
        yield "merge"


def small_into_big(size):
    """A graph of that many packages, into which ten small ones go one after another."""
    for number in range(size):
        yield from small_graph(number)
    for number in range(size, size + 10):
        yield "other"
        yield from small_graph(number)
        yield "merge"


def semver_by_world(size):
    """That many worlds that import an interface in two versions, each merged by tracks."""
    for version in ("1.0.0", "1.1.0"):
        yield f"package d:d@{version}"
        yield "interface i"
        yield "type t u32"
        yield "push"
    yield "package p:q"
    for number in range(size):
        yield f"world w{number}"
        yield "import d:d/i@1.0.0"
        yield "import d:d/i@1.1.0"
    yield "push"
    for number in range(size):
        yield f"semver p:q w{number}"


def transformed(size, entry, command):
    """That many worlds of one package with an entry, each transformed."""
    yield "package p:q"
    yield "interface i"
    yield "type t u32"
    for number in range(size):
        yield f"world w{number}"
        yield f"{entry} i"
    yield "push"
    for number in range(size):
        yield f"{command} p:q w{number} x{number}"


def importize_by_world(size):
    """That many worlds of one package that each export an interface, importized one after another."""
    yield from transformed(size, "export", "importize")


def exportize_by_world(size):
    """That many worlds of one package that each import an interface, exportized one after another."""
    yield from transformed(size, "import", "exportize")


# one command or a few, on much
AT_ONCE = (chain, separate, worlds, aliases, nested, fields, includes, renames, resources, handed_on, groups, pushes, alias_pushes, tracks, merges)
# many commands that each change little
ONE_BY_ONE = (merges_one_by_one, small_into_big, semver_by_world, importize_by_world, exportize_by_world)
KINDS = {it.__name__: it for it in (*AT_ONCE, *ONE_BY_ONE)}

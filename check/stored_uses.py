"""What `calls_to_copy` prints, by the model: each use in words of scripts, in which its packages are those of its module."""
import worked_graphs
from model.scripts import Rules, Session

INTERFACE = "interface i\ntype t u32\n"
MAIN, DEP = "package foo:main\ninterface j\nuse foo:dep/i t u\n", f"package foo:dep\n{INTERFACE}"
# The file of the refusal, and where in it the package stands that isn't there.
FILE, SPAN = "package foo:main;\ninterface j {\n  use foo:dep/i.{t as u};\n}\n", (38, 45)


def made(script):
    """What is answered last, and the graph then as it is written."""
    document, session, texts = worked_graphs.documents.read_document(script), Session(Rules()), set()
    for it in document.read_commands:
        texts = session.answer(*it)
    return texts, worked_graphs.Written(session.graphs[-1]).resolve()["graph"]


def two_packages():
    names = [it["name"] for it in made(f"{MAIN}{DEP}push\n")[1]["packages"]]
    return [f"pushed package {names.index('foo:main')}", *names]


def two_graphs():
    graph = made(f"package foo:a\n{INTERFACE}push\nother\npackage foo:b\n{INTERFACE}push\nmerge\n")[1]
    package = next(it for it in graph["packages"] if it["name"] == "foo:b")
    return [f"interface {id} is foo:b/{name}" for name, id in package["interfaces"].items()]


def exports_as_imports():
    graph = made(f"package foo:api\n{INTERFACE}world w\nexport i\npush\nimportize foo:api w\n")[1]
    return [f"{it['name']}: {len(it['imports'])} imports, {len(it['exports'])} exports" for it in graph["worlds"]]


def imports():
    graph = made(f"package foo:api\n{INTERFACE}world w\nimport i\npush\n")[1]
    ids = [it["interface"]["id"] for it in graph["worlds"][0]["imports"].values()]
    return [f"interface foo:api/{graph['interfaces'][it]['name']}" for it in ids]


def a_package():
    names = [it["name"] for it in made(f"package foo:a\n{INTERFACE}push\n")[1]["packages"]]
    return [f"package {names.index('foo:a')}"]


def a_missing_package():
    """The refusal, and the line in which its span begins, with a mark under the span."""
    (said,) = made(f"{MAIN}push\n")[0]
    _, number, text = said.split(" ", 2)
    start, end = SPAN
    line, column = FILE.count("\n", 0, start) + 1, start - FILE.rfind("\n", 0, start)
    shown = ["     |", f"   {line} | {FILE.splitlines()[line - 1]}", f"     | {' ' * (column - 1)}^{'-' * (end - start - 1)}"]
    return [f"refused {number}", *text.split("\n"), f"     --> main.wit:{line}:{column}", *(f" {it}" for it in shown)]


USES = {
    "two packages, of which one names the other": two_packages,
    "two graphs as one": two_graphs,
    "exports that become imports": exports_as_imports,
    "the imports of a world": imports,
    "a package, where it has its shape": a_package,
    "a refusal with its line": a_missing_package,
}


def output():
    return "".join(f"{line}\n" for heading, use in USES.items() for line in [f"# {heading}", *use()])

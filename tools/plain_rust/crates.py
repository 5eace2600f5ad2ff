"""Which crates there are, what each stands on, and which are made into Rust."""
import pathlib

TOP = pathlib.Path(__file__).resolve().parent.parent.parent
# what users name; each draws in what it stands on
LIBRARIES = (
    "wit_resolve_graph",
    "wit_unite",
    "wit_link",
    "wit_graph",
    "wit_items",
    "wit_ways",
    "wit_script",
    "wit_script_explain",
    "wit_json",
    "wit_json_reading",
    "wit_json_commands",
    "wit_groups",
    "wit_print",
    "witgraph_calls",
)
PROGRAMS = ("witgraph", "witgraph_json", "witgraph_dot")
# libraries whose `#[test]` functions `cargo test` runs
TESTS = ("test_facades", "test_json", "test_resolve")
# programs that `cargo test` runs on what is stored beside them
STORED = (
    "test_cases",
    "test_json_cases",
    "test_sweep",
    "calls_to_copy",
    "test_explanations",
)


def graph():
    """The crates of crates.txt, each with those of them that it names."""
    named = {}
    for line in (TOP / "crates.txt").read_text(encoding="utf-8").splitlines():
        head, colon, names = line.partition("#")[0].partition(":")
        if colon:
            named[head.split()[0]] = names.split()
    return {crate: [it for it in names if it in named] for crate, names in named.items()}


def in_order(names):
    """Some crates and all below them, each once and behind what it stands on."""
    all_crates, found = graph(), []

    def take(crate):
        if crate not in found:
            for other in all_crates[crate]:
                take(other)
            found.append(crate)

    for name in names:
        take(name)
    return found


def sources(crate):
    """The Rattle files of a crate, each with its path below `src`."""
    folder = TOP / "crates" / crate / "src"
    return [(path, path.relative_to(folder)) for path in sorted(folder.rglob("*.rt"))]


def is_program(crate):
    return (TOP / "crates" / crate / "src" / "main.rt").exists()

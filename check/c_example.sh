#!/bin/sh
# check/c_example.sh: builds what is written in C on the static library, with gcc or another C compiler and nothing else:
# the example prints what each worked script is to print and ends with the status of `witgraph`, tells a script that isn't
# UTF-8, a document is carried out, and its graph read again, and an allocation that is refused is told. Then come the tests
# of Python's module, whose readme shows what is told, and a graph that stays in C and in Python. `.ci/run` runs it after `rt ci`, over whose libraries it builds the static one.
#
# WITGRAPH_LIBRARY, the folder of a libwitgraph_c.a that is there, spares the build of the library. WITGRAPH_SHARED is where
# the shared library is left that the tests of Python's module load.
set -eu
cd "$(dirname "$0")/.."
kit=$(dirname "$(rt doc)")
compiler=$(command -v cc || command -v gcc || command -v clang) || { echo "c_example: no cc, gcc or clang is here" >&2; exit 1; }
work=$(mktemp -d)
trap 'rm -rf "$work"' EXIT

if [ -z "${WITGRAPH_LIBRARY:-}" ]; then
    python3 tools/c_library.py
    WITGRAPH_LIBRARY=crates/witgraph_c/out
fi
flags="-std=c99 -Wall -Wextra -Werror -Iinclude"
libraries="$WITGRAPH_LIBRARY/libwitgraph_c.a $kit/c/liblibc_c.a"

"$compiler" $flags bindings/c/example.c $libraries -o "$work/example"
python3 - "$work/example" << 'P'
import re, subprocess, sys

def run(script):
    ran = subprocess.run([sys.argv[1]], input=script, capture_output=True)
    return ran.returncode, ran.stdout.decode(), ran.stderr.decode()

cases = {"witgraph": (open("crates/witgraph/stdin").read(), open("crates/witgraph/stdout").read())}
for case in open("crates/test_cases/stdin").read().split("=== ")[1:]:
    name, rest = case.split("\n", 1)
    script, _, answers = rest.partition("---\n")
    cases[name] = script, answers
for name, (script, answers) in cases.items():
    status = 1 if re.fullmatch(r"line \d+: not understood\n", answers) else 0
    told = run(script.encode())
    if told != (status, answers, ""):
        sys.exit(f"{name}: the C example tells {told}")
told = run(b"push\xff")
if told != (1, "", "the script isn't UTF-8\n"):
    sys.exit(f"of a script that isn't UTF-8 the C example tells {told}")
print(f"c_example: {len(cases)} worked scripts print what they are to print")
P

"$compiler" $flags bindings/c/json.c $libraries -o "$work/json"
"$work/json" < crates/witgraph_json/stdin | cmp - crates/witgraph_json/stdout
sed 's/^.*,"resolve":/{"replies":[],"resolve":/' crates/witgraph_json/stdout > "$work/again"
sed 's/^.*,"resolve":/{"commands":[],"resolve":/' crates/witgraph_json/stdout | "$work/json" | cmp - "$work/again"
told=$(printf '{"commands":["\377"]}' | "$work/json" 2>&1) && exit 1
[ "$told" = "the document isn't UTF-8" ] || { echo "of a document that isn't UTF-8 the C example tells $told" >&2; exit 1; }
echo "c_example: the document of witgraph_json comes out as stored, and its graph again"

# Each allocation is refused in turn.
"$compiler" $flags -Wl,--wrap=malloc,--wrap=realloc,--wrap=free bindings/c/no_memory.c $libraries -o "$work/no_memory"
"$work/no_memory" crates/witgraph_json/stdin < crates/witgraph/stdin

WITGRAPH_SHARED=${WITGRAPH_SHARED:-$work/libwitgraph.so}
export WITGRAPH_SHARED
"$compiler" -shared -Wl,--whole-archive "$WITGRAPH_LIBRARY/libwitgraph_c.a" -Wl,--no-whole-archive "$kit/c/liblibc_c.a" \
    -o "$WITGRAPH_SHARED"
python3 bindings/python/test_witgraph.py

# The C program that links 200 packages one by one prints what Python's prints.
"$compiler" $flags bindings/c/two_hundred.c $libraries -o "$work/two_hundred"
"$work/two_hundred" > "$work/linked"
PYTHONDONTWRITEBYTECODE=1 python3 bindings/python/two_hundred.py | cmp - "$work/linked"
echo "c_example: C and Python link 200 packages one by one, and print the same signatures"

# What isn't UTF-8 is told of each call alike.
python3 - << 'P'
import ctypes, os, sys

library, size, output = ctypes.CDLL(os.environ["WITGRAPH_SHARED"]), ctypes.c_size_t, ctypes.create_string_buffer(8)
for call in library.witgraph_execute, library.witgraph_explain, library.witgraph_json:
    needed = size(1)
    status = call(b"push\xff", size(5), output, size(8), ctypes.byref(needed))
    if (status, needed.value) != (3, 0):
        sys.exit(f"of an input that isn't UTF-8 a call tells {status}, {needed.value}")
P

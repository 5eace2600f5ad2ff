#!/usr/bin/env bash
# check.sh [--store] PATH/TO/witgraph: whether what is stored here is what the tool and the program make of it.
#
# Makes the scripts of the packages anew from the texts in wit, and what the tool tells of them (notes.txt). Runs the
# program on each walk-through, and asks the model of the rules (check/model), too. Compares the cases of
# crates/test_cases. Names what differs, and then ends with status 1. With --store it is stored, but for the cases.
#
# Where WITGRAPH_JSON is the path of a build of witgraph_json, that runs the walk-throughs with nothing substituted, and its
# graph of all packages is compared with the texts.
#
# Where OBJECTS has paths of objects with published worlds (compare_object.py), that graph is compared with them, too.
#
# Where ORIGINAL is the path of the original that reads scripts (check/differences.py), that is asked too; it answers the
# same but for the numbers of refusals, which it doesn't have.
set -u
store=
[ "${1-}" = --store ] && { store=yes; shift; }
program=$(realpath "${1:?which program? a build of witgraph}") || exit 1
[ -f "$program" ] && [ -x "$program" ] || { echo "$1: this is no program"; exit 1; }
cd "$(dirname "$0")" || exit 1
status=0
made=$(mktemp -d) || exit 1
trap 'rm -rf "$made"' EXIT

# same MADE STORED: whether a file is as it is stored
same() {
    [ -n "$store" ] && cp "$1" "$2"
    cmp -s "$1" "$2" || { echo "$2: it isn't what is made now"; status=1; }
}

# the case of a name: its script, a line ---, and its answers
case_of() {
    awk -v name="=== wasi-$1" '/^=== / { inside = $0 == name; next } inside' ../../crates/test_cases/stdin
}

for version in 0.2.0 0.2.3; do
    for text in wit/$version/*.wit; do
        package=$(basename "$text" .wit)
        ../../tools/wit2script.py -o "$made/script" "$text" 2>> "$made/notes-$version" || status=1
        same "$made/script" "$version/$package.script"
    done
    same "$made/notes-$version" "$version/notes.txt"
done

for walk in features merge proxy tool; do
    ./walk.sh $walk > "$made/$walk.script"
    "$program" < "$made/$walk.script" > "$made/$walk.out" || { echo "$walk: the program ends with status $?"; status=1; }
    same "$made/$walk.out" "$walk.out"
    { cat "$made/$walk.script"; echo ---; cat "$made/$walk.out"; } > "$made/$walk.case"
    { echo "=== $walk"; cat "$made/$walk.case"; } >> "$made/cases"
done
for walk in features merge tool; do
    case_of $walk | cmp -s - "$made/$walk.case" || { echo "case wasi-$walk: it isn't the script of walk.sh with $walk.out"; status=1; }
done
for walk in ${WITGRAPH_JSON:+features merge proxy tool}; do
    ./walk_json.py $walk "$WITGRAPH_JSON" | cmp -s - $walk.out || { echo "$walk: witgraph_json answers otherwise"; status=1; }
done
if [ -n "${WITGRAPH_JSON:-}" ]; then
    ../../tools/wit2json.py wit/0.2.?/*.wit | "$WITGRAPH_JSON" | ./compare_graph.py 0.2.0 0.2.3 ${OBJECTS:-} || status=1
fi
for walk in ${ORIGINAL:+features merge proxy tool}; do
    sed 's/^refused [0-9]* /refused ? /' "$made/$walk.out" > "$made/expected"
    "$ORIGINAL" < "$made/$walk.script" | cmp -s - "$made/expected" || { echo "$walk: the original answers otherwise"; status=1; }
done
python3 ../../check/compare.py --stored "$made/cases" || status=1
exit $status

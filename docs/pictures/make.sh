#!/usr/bin/env bash
# make.sh [--check] PROGRAM: draws each script of this folder anew by this witgraph_dot, as NAME.dot and, by Graphviz, as
# NAME.svg; and writes the page index.html. With --check nothing is written: each NAME.dot is compared with what the program
# writes.
#
# A line `#+ VERSION/PACKAGE ..` of a script stands for the scripts of these packages of examples/wasi.
set -eu
check=
if [ "${1:-}" = --check ]; then
    check=1
    shift
fi
program=$(realpath "$1")
cd "$(dirname "$0")"

# whole SCRIPT: the script with the packages that it names
whole() {
    while IFS= read -r line; do
        case $line in
        "#+ "*) for package in ${line#"#+ "}; do cat "../../examples/wasi/$package.script"; done ;;
        *) printf '%s\n' "$line" ;;
        esac
    done < "$1"
}

status=0
for script in *.script; do
    name=${script%.script}
    if [ "$check" ]; then
        whole "$script" | "$program" | cmp - "$name.dot" || status=1
    else
        whole "$script" | "$program" > "$name.dot"
        dot -Tsvg "$name.dot" > "$name.svg"
    fi
done
[ "$check" ] || ./page.py
exit $status

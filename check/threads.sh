#!/bin/sh
# check/threads.sh [--whole]: calls the static library from eight threads at once, and very often from one: what calls write
# is the same as before, no memory is kept, none is touched that isn't theirs, and no two threads touch the same. It stands on
# what `rt ci` and tools/c_library.py leave. With --whole there are 100,000 calls, and twenty times as many in each other step.
#
# The steps: eight threads; many calls without growth; AddressSanitizer with its look for leaks, which see what the library
# allocates and frees; then valgrind, which sees each access of the library's own machine code: memcheck, and helgrind over
# eight threads. What isn't here is told and not tried, and the status is 77 then. WITGRAPH_LIBRARY is the folder of another
# libwitgraph_c.a.
set -eu
cd "$(dirname "$0")/.."
kit=$(dirname "$(rt doc)")
work=$(mktemp -d)
trap 'rm -rf "$work"' EXIT
libraries="${WITGRAPH_LIBRARY:-crates/witgraph_c/out}/libwitgraph_c.a $kit/c/liblibc_c.a"
flags="-std=c99 -Wall -Wextra -Werror -O1 -g -pthread -Wl,--wrap=malloc,--wrap=realloc,--wrap=free -Iinclude check/threads.c"
inputs="crates/witgraph/stdin examples/kinds/kinds.json"
many=5000 some=480 few=24 status=0
skip() {
    echo "threads: SKIPPED: $*" >&2
    status=77
}
[ "${1:-}" != --whole ] || { many=100000 some=9600 few=480; }

cc $flags $libraries -o "$work/threads"
"$work/threads" $inputs at-once $some
echo "threads: eight threads made $some calls, and each wrote what it is to write"
"$work/threads" $inputs often $many
echo "threads: $many calls kept no memory, and took no more of the system"

if cc -fsanitize=address $flags $libraries -o "$work/sanitized" 2> "$work/log"; then
    ASAN_OPTIONS=detect_leaks=1 "$work/sanitized" $inputs at-once $some
    echo "threads: AddressSanitizer finds nothing in $some calls of eight threads"
else
    skip "no AddressSanitizer is here: $(tail -n 1 "$work/log")"
fi

if command -v valgrind > /dev/null; then
    valgrind --quiet --error-exitcode=9 --leak-check=full "$work/threads" $inputs often $few
    valgrind --quiet --error-exitcode=9 --tool=helgrind "$work/threads" $inputs at-once $few
    echo "threads: memcheck finds nothing in $few calls, helgrind nothing in $few of eight threads"
else
    skip "no valgrind is here, so no accesses of the library's own code are watched"
fi
exit $status

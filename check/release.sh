#!/bin/sh
# check/release.sh OUT: tries what tools/release has left in the folder OUT, from empty folders and without anything of the
# repository but what is compared with: the programs, C programs compiled by what pkg-config tells, with the shared and the
# static library, and the wheel in a fresh environment of Python, by the tests of bindings/python.
#
# check/release.sh --of FOLDER: has tools/release make that of a folder of programs with libwitgraph_c.a, tries it, and leaves
# nothing.
#
# Needs a C compiler, nm, pkg-config, and a python3 with venv and pip. What isn't here is told and not tried, and the status
# is 77 then.
set -eu
work=$(mktemp -d)
trap 'rm -rf "$work"' EXIT
fails() {
    echo "release: $*" >&2
    exit 1
}
status=0
skip() {
    echo "release: SKIPPED: $*" >&2
    status=77
}
top=$(cd "$(dirname "$0")/.." && pwd)
if [ "$1" = --of ]; then
    "$top/tools/release" --unproved "$2" "$work/out"
    out=$work/out
else
    out=$(cd "$1" && pwd)
fi
cd "$top"

(cd "$out" && sha256sum --quiet --check SHA256SUMS)
archive=$(ls "$out"/witgraph-*.tar.gz)
wheel=$(ls "$out"/witgraph-*.whl)
tar -C "$work" -xzf "$archive"
there=$(ls -d "$work"/witgraph-*)
version=$(cat VERSION)
cd "$work"

for program in witgraph witgraph_json witgraph_dot; do
    crate=$top/crates/$program
    env -i "$there/bin/$program" < "$crate/stdin" | cmp - "$crate/stdout" || fails "$program writes something else"
done
# what README.txt says of glibc
newest() {
    grep -aoh 'GLIBC_2\.[0-9]*' "$@" | sort -uV | tail -n 1
}
[ "$(newest "$there"/bin/*)" = GLIBC_2.34 ] || fails "the programs need $(newest "$there"/bin/*)"
printf 'GLIBC_2.17\n%s\n' "$(newest "$there/lib/libwitgraph.so")" | sort -CVr || fails "the library needs a newer glibc"
echo "release: the programs write what is stored"

# the functions of the header are what the library offers
grep -o '^uint32_t witgraph_[a-z_]*' "$there/include/witgraph.h" | sed 's/.* //' | sort > declared
nm -D --defined-only "$there/lib/libwitgraph.so" | sed 's/.* //' | sort | cmp - declared || fails "the header and the library differ"

PKG_CONFIG_PATH=$there/lib/pkgconfig
export PKG_CONFIG_PATH
if command -v pkg-config > /dev/null; then
    [ "$(pkg-config --modversion witgraph)" = "$version" ] || fails "pkg-config tells another version"
    flags=$(pkg-config --cflags witgraph)
    libraries=$(pkg-config --libs witgraph)
else
    skip "no pkg-config is here; its flags are written by hand"
    flags=-I$there/include
    libraries="-L$there/lib -lwitgraph"
fi
for kind in shared static; do
    [ $kind = shared ] || libraries=$there/lib/libwitgraph.a
    for name in json example; do
        cc -std=c99 -Wall -Wextra -Werror $flags "$top/bindings/c/$name.c" $libraries -o "$name"
    done
    LD_LIBRARY_PATH=$there/lib ./json < "$top/crates/witgraph_json/stdin" | cmp - "$top/crates/witgraph_json/stdout"
    LD_LIBRARY_PATH=$there/lib ./example < "$top/crates/witgraph/stdin" | cmp - "$top/crates/witgraph/stdout"
done
printf '#include <witgraph.h>\n#include <stdio.h>\nint main(void) { return puts(WITGRAPH_VERSION) < 0; }\n' > version.c
cc -std=c99 $flags version.c -o version
[ "$(./version)" = "$version" ] || fails "the header has another version"
if command -v c++ > /dev/null; then
    c++ -x c++ -std=c++11 -Wall -Wextra -Werror -fsyntax-only $flags version.c
else
    skip "no C++ compiler is here"
fi
echo "release: C programs with the shared and the static library write what is stored"

if python3 -m venv environment > venv.log 2>&1; then
    environment/bin/pip install --quiet --no-index --disable-pip-version-check "$wheel"
    unset PYTHONPATH WITGRAPH_SHARED
    WITGRAPH_INSTALLED=1 environment/bin/python "$top/bindings/python/test_witgraph.py"
    echo "release: the wheel is installed, and its tests pass"
else
    skip "no environment of Python can be made here: $(tail -n 1 venv.log)"
fi
exit $status

#!/bin/sh
# build.sh WIT_PARSER OUT: builds the program over the crate of wit-parser 0.263.0 in the folder WIT_PARSER, in which all
# fields of `UnresolvedPackage` are public, and puts it at OUT. The data and the conversions are those of plain Rust, which
# tools/plain-rust makes first. Other crates are Debian's where they are installed, else those of cargo's registry.
set -eu
WIT_PARSER=$(cd "${1:?usage: build.sh WIT_PARSER OUT}" && pwd)
OUT=${2:?usage: build.sh WIT_PARSER OUT}
HERE=$(cd "$(dirname "$0")" && pwd)
CARGO_TARGET_DIR=${CARGO_TARGET_DIR:-${TMPDIR:-/tmp}/witgraph-original-build}
export CARGO_TARGET_DIR
MADE=$CARGO_TARGET_DIR/plain
DEBIAN=/usr/share/cargo/registry
mkdir -p "$CARGO_TARGET_DIR"
"$HERE/../../tools/plain-rust" "$MADE" >&2
set -- --config "patch.crates-io.wit-parser.path=\"$WIT_PARSER\"" \
  --config "patch.crates-io.wit-resolve-graph.path=\"$MADE\"" \
  --config "patch.crates-io.wit-resolve-graph-parser.path=\"$MADE/parser\""
if [ -d "$DEBIAN" ]; then
  set -- "$@" --offline --config 'source.crates-io.replace-with="debian"' --config "source.debian.directory=\"$DEBIAN\""
fi
(cd "$HERE" && cargo build --release -q "$@")
cp "$CARGO_TARGET_DIR/release/witgraph-original" "$OUT"

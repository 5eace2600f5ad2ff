#!/usr/bin/env bash
# walk.sh NAME: writes the whole script of a walk-through, which is NAME.script with the scripts of the packages that a
# line `#+ PACKAGE ..` names in place of that line. With a build of witgraph:
#
#     examples/wasi/walk.sh tool | PATH/TO/witgraph
set -eu
cd "$(dirname "$0")"
while IFS= read -r line; do
    case $line in
    "#+ "*) for package in ${line#"#+ "}; do cat "$package.script"; done ;;
    *) printf '%s\n' "$line" ;;
    esac
done < "${1:?which walk-through? features, merge, proxy or tool}.script"

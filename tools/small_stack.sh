#!/usr/bin/env bash
# A store whose place map has 256 levels, under a small stack (`ulimit -s`): what is looked up there is answered in 80 KB, as over a map of two
# levels, and a place that is put into a full leaf in 160 KB. tools/deep_store.py writes the store.
# It needs python3, and the program built (./irtree-build builds it).
# usage: tools/small_stack.sh
set -euo pipefail
top=$(cd "$(dirname "$0")/.." && pwd)
program=${IRTREE:-$top/crates/irtree_cli/out/irtree_cli}
work=$(mktemp -d)
trap 'rm -rf "$work"' EXIT

# The replies to a script over a fresh store of so many levels, under a stack of so many KB.
replies() {
    python3 "$top/tools/deep_store.py" "$work/store" "$1"
    rm -f "$work/store.journal"
    (ulimit -s "$2" && "$program" "$work/store" run)
}

same() {
    if [ "$2" != "$3" ]; then
        printf '%s: the replies are\n%s\nand not\n%s\n' "$1" "$2" "$3"
        exit 1
    fi
    echo "$1: as it should be"
}

shown='show "x"
show "a"
show "v"'
same "look-ups over 256 levels in 80 KB" "$(replies 256 80 <<< "$shown")" "$(replies 2 8192 <<< "$shown")"

put='add "va" 0 0
add "vb" 0 0
add "vc" 0 0
add "vd" 0 0
show "vd"
count'
same "a leaf split below 255 levels in 160 KB" "$(replies 256 160 <<< "$put")" "$(replies 2 8192 <<< "$put")"

#!/usr/bin/env bash
# Looks by strace whether each reply comes after what it says is safe: over a script, a load, and openings after a kill at each
# call that writes or syncs. tools/check_trace.awk has the rules. Then it takes out each sync of the traces, one at a time, and
# each real sync of a run (strace answers in its place), and each time the rules must be broken.
# It needs strace, and the program built (./irtree-build builds it).
# usage: tools/trace_syncs.sh
set -euo pipefail
top=$(cd "$(dirname "$0")/.." && pwd)
program=${IRTREE:-$top/crates/irtree_cli/out/irtree_cli}
work=$(realpath "$(mktemp -d)")
trap 'rm -rf "$work"' EXIT
store=$work/a.store
calls=openat,flock,pread64,pwrite64,write,fsync,fdatasync

# Runs the program under strace; the trace goes to $work/trace, what it says to $work/said.
traced() {
    strace -y -f -a 1 -s 32 -o "$work/trace" -e trace="$calls" "${inject[@]}" "$program" "$store" "$1" > "$work/said" 2> "$work/err"
}

# Whether a trace keeps the rules.
keeps() {
    awk -v store="$store" -v folder="$work" -f "$top/tools/check_trace.awk" "$1"
}

# The trace must keep the rules, and each sync taken out of it must break one.
needs_each_sync() {
    local lines line
    if ! keeps "$work/trace" > "$work/verdict"; then
        echo "$1:"
        cat "$work/verdict"
        exit 1
    fi
    lines=$(grep -nE '^[0-9]+ +(fsync|fdatasync)\(' "$work/trace" | cut -d: -f1)
    for line in $lines; do
        sed "${line}d" "$work/trace" > "$work/cut"
        if keeps "$work/cut" > /dev/null; then
            echo "$1: the rules hold without the sync at line $line:"
            sed -n "${line}p" "$work/trace"
            exit 1
        fi
    done
    syncs=$(echo "$lines" | wc -w)
}

fresh() {
    rm -f "$store" "$store.journal"
}

inject=()
script=$'add a 0 0 cafe\nadd b 3 4 bar\nremove a\ncount\nadd c 1 1 pub'

fresh
traced run <<< "$script"
needs_each_sync "adds in a new store"
echo "adds in a new store: $(cat "$work/verdict"), each of $syncs syncs is needed"

traced run <<< "$script"
needs_each_sync "adds in a store that was there"
echo "adds in a store that was there: $(cat "$work/verdict"), each of $syncs syncs is needed"

fresh
traced load < "$top/examples/ogr2ogr.geojson"
needs_each_sync "a load"
echo "a load: $(cat "$work/verdict"), each of $syncs syncs is needed"

# A kill at the Nth write or sync of a file, for each N until the run ends by itself, and an opening after it.
for call in pwrite64 fsync fdatasync; do
    for nth in $(seq 1 400); do
        fresh
        inject=(--inject="$call:signal=KILL:when=$nth")
        ended=0
        { traced run <<< "$script"; } 2> /dev/null || ended=$?
        said=$(grep -c '^ok' "$work/said" || true)
        inject=()
        traced run <<< count
        needs_each_sync "an opening after a kill at $call $nth"
        count=$(sed -n 's/^count //p' "$work/said")
        # By k replies: 0, a, ab, b, bc.
        after=(0 1 2 1 2)
        if [ "$count" != "${after[said]}" ] && [ "$count" != "${after[said + 1]:-none}" ]; then
            echo "after a kill at $call $nth: $said acknowledged, and count $count"
            exit 1
        fi
        [ "$ended" -eq 0 ] && break
    done
    echo "a kill at each of $((nth - 1)) calls $call: what was acknowledged is there, and the opening needs each of its syncs"
done

# A sync that the program asks for and that isn't made: the rules must see it. The folder's is an fsync, a file's an fdatasync.
for sync in fsync fdatasync; do
    for nth in $(seq 1 400); do
        fresh
        inject=(--inject="$sync:retval=0:when=$nth")
        traced run <<< "$script"
        grep -q INJECTED "$work/trace" || break
        if keeps "$work/trace" > /dev/null; then
            echo "$sync $nth of the run was not made, and the rules hold"
            exit 1
        fi
    done
    echo "a run without one of its $((nth - 1)) calls $sync breaks the rules, each time"
done

# A sync that fails: the run ends as a fault of the disk, and nothing is acknowledged from there on.
for sync in fsync fdatasync; do
    for nth in $(seq 1 400); do
        fresh
        inject=(--inject="$sync:error=EIO:when=$nth")
        ended=0
        { traced run <<< "$script"; } 2> /dev/null || ended=$?
        grep -q INJECTED "$work/trace" || break
        after=$(sed '1,/INJECTED/d' "$work/trace" | grep -cE 'p(read|write)64\(.*(store|journal)>|write\(1<|sync\(' || true)
        if [ "$ended" -ne 3 ] || [ "$after" -ne 0 ] || [ "$(head -n 1 "$work/err")" != "irtree: disk" ]; then
            echo "$sync $nth failed: status $ended, $after calls after it"
            cat "$work/err"
            exit 1
        fi
    done
    echo "a run in which one of its $((nth - 1)) calls $sync fails ends there with status 3, each time"
done

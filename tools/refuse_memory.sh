#!/usr/bin/env bash
# Refuses the program memory: for each growth of its heap in a script, a load and an upgrade over real files, that growth alone, and then
# that growth and each later one. Each run must end with status 1; or with 0 and the whole text; or with 3 and the advice to give the program
# more memory, if it was for a call on the store's files. What it printed must be a prefix of the whole text. The store, opened again, must
# hold the state after as many updates or batches as were acknowledged, or one more.
# tools/refuse_memory.c has the allocator that is preloaded. A line comes for each kind of run, and one for each run that isn't as it must be.
# It needs gcc, and the program built (./irtree-build builds it).
# usage: tools/refuse_memory.sh
set -euo pipefail
top=$(cd "$(dirname "$0")/.." && pwd)
program=${IRTREE:-$top/crates/irtree_cli/out/irtree_cli}
each=2000  # Up to this growth each one is refused,
stride=23  # and then one in as many, so that all takes a minute or two.
work=$(realpath "$(mktemp -d)")
trap 'rm -rf "$work"' EXIT
store=$work/store
gcc -O2 -shared -fPIC -o "$work/refuse_memory.so" "$top/tools/refuse_memory.c"
failed=0

# Each kind of run has the words after STORE, the input, the whole text that it prints, and the states of the store by updates acknowledged.
cat > "$work/script" <<'TEXT'
add a 0 0 x
add b 1 1 y
remove a
nearest 0 0 2
TEXT
cat > "$work/load" <<'TEXT'
{"type": "FeatureCollection", "features": [
{"type": "Feature", "id": "a", "geometry": {"type": "Point", "coordinates": [1, 2]}, "properties": {"name": "Café Ny"}},
{"type": "Feature", "id": "b", "geometry": {"type": "Point", "coordinates": [2, 3]}, "properties": {"name": "Harbour", "kind": "café"}},
{"type": "Feature", "geometry": null, "properties": {"name": "Planned crane"}},
{"type": "Feature", "geometry": {"type": "Point", "coordinates": [3, 4]}},
{"type": "Feature", "id": 7, "geometry": {"type": "Point", "coordinates": [4, 5]}, "properties": {"name": "Ny Bar", "tags": ["fish", null]}},
{"type": "Feature", "id": "e", "geometry": {"type": "Point", "coordinates": [5, 6]}, "properties": {"name": "Bar"}}]}
TEXT
# Places in the order of their keys, so many that their node of the tree is split.
{
    echo '{"type": "FeatureCollection", "features": ['
    for n in $(seq 0 48); do
        echo "{\"type\": \"Feature\", \"id\": $((100 + n)), \"geometry\": {\"type\": \"Point\", \"coordinates\": [$n, 0]}, \"properties\": {\"n\": \"w$((n % 10))\"}},"
    done
    echo '{"type": "Feature", "id": 149, "geometry": {"type": "Point", "coordinates": [0, 0]}}]}'
} > "$work/large load"
: > "$work/upgrade"
everything=$'count\nbox -180 -90 180 90'

# What a store holds with the first so many places of the large load.
first_places() {
    echo "count $1"
    echo "= $1"
    [ "$1" = 0 ] || seq "$1" | awk '{ printf "%d \"%d\"\n", $1, 99 + $1 }'
}

set_kind() {
    case $1 in
        script)
            words=(run)
            whole=$'ok\nok\nok\n= 1\n1 "b" 1.4142135\n'
            states=(
                $'count 0\n= 0'
                $'count 1\n= 1\n1 "a"'
                $'count 2\n= 2\n1 "a"\n2 "b"'
                $'count 1\n= 1\n1 "b"'
            )
            ;;
        load)
            words=(load --batch=2)
            whole=$'stored 2\nskip 2 no-geometry\nstored 4\nstored 5\nloaded 5 skipped 1\n'
            states=(
                $'count 0\n= 0'
                $'count 2\n= 2\n1 "a"\n2 "b"'
                $'count 4\n= 4\n1 "7"\n2 "a"\n3 "b"\n4 #1'
                $'count 5\n= 5\n1 "7"\n2 "a"\n3 "b"\n4 "e"\n5 #1'
            )
            ;;
        "large load")
            words=(load --batch=20)
            whole=$'stored 20\nstored 40\nstored 50\nloaded 50 skipped 0\n'
            states=("$(first_places 0)" "$(first_places 20)" "$(first_places 40)" "$(first_places 50)")
            ;;
        upgrade)
            words=(upgrade)
            whole=$'upgraded 2\n'
            states=(
                $'upgraded 2\ncount 2\n= 2\n1 "7"\n2 "ring"'
                $'version 2\ncount 2\n= 2\n1 "7"\n2 "ring"'
            )
            ;;
    esac
}

# The store as it is before a run: none, or one of version 1 with records in its journal.
lay_out() {
    rm -f "$store" "$store.journal"
    if [ "$1" = upgrade ]; then
        cp "$top/data/version1/pending.version1" "$store"
        cp "$top/data/version1/pending.version1.journal" "$store.journal"
    fi
}

# What the store holds: the line of an upgrade, if the run was one, and then all places.
held() {
    if [ "$1" = upgrade ]; then
        "$program" "$store" upgrade 2> /dev/null
    fi
    "$program" "$store" run <<< "$everything" 2> /dev/null
}

# A run of a kind in which the growths from one number to another are refused. It has the status, what was printed, and the lines on
# standard error without those that an upgrade begins with.
run_refused() {
    rm -f "$work/note"
    status=0
    LD_PRELOAD=$work/refuse_memory.so REFUSE_FROM=$2 REFUSE_TO=$3 REFUSE_NOTE=$work/note \
        "$program" "$store" "${words[@]}" < "$work/$1" > "$work/said" 2> "$work/err" || status=$?
    IFS= read -r -d '' said < "$work/said" || true
    mapfile -t err < "$work/err"
    while [[ ${err[0]:-} == "$store: an upgrade begins; "* || ${err[0]:-} == "$store: "*" pages read so far; "* ]]; do
        err=("${err[@]:1}")
    done
}

# Whether the last run's end is one that may come.
is_end() {
    case $status in
        0) [ "$said" = "$whole" ] && [ ${#err[@]} -eq 0 ] ;;
        1) [ "${err[0]:-}" = "irtree: want of memory" ] ;;
        3) [ "${err[0]:-}" = "irtree: disk" ] && [[ ${#err[@]} -eq 1 || ${err[1]} == *"; give the program more memory" ]] ;;
        *) false ;;
    esac
}

# How many whole lines that the last run printed acknowledge an update or a batch.
acknowledged() {
    local left=$said
    acknowledged=0
    while [[ $left == *$'\n'* ]]; do
        if [[ $left == ok* || $left == stored* || $left == upgraded* ]]; then
            acknowledged=$((acknowledged + 1))
        fi
        left=${left#*$'\n'}
    done
}

# Looks at the last run, of this kind, and at the store that it left: `wrong` says what isn't as it must be.
look() {
    wrong=
    is_end || wrong+=" its end;"
    [ -e "$work/note" ] || [ "$status" = 0 ] || wrong+=" its status, since no memory was refused;"
    [ "$said" = "${whole:0:${#said}}" ] || wrong+=" what it printed;"
    acknowledged
    state=$(held "$1") || true
    [ "$state" = "${states[acknowledged]:-none}" ] || [ "$state" = "${states[acknowledged + 1]:-none}" ] || wrong+=" what the store holds;"
}

# Tries a kind of run with each growth refused, alone or with all later ones.
try_each() {
    local kind=$1 way=$2 nth=0 last ok=0 fails=0
    local -A ended=()
    set_kind "$kind"
    while true; do
        nth=$((nth + (nth < each ? 1 : stride)))
        last=$nth
        [ "$way" = alone ] || last=18446744073709551615
        lay_out "$kind"
        run_refused "$kind" "$nth" "$last"
        look "$kind"
        if [ -z "$wrong" ]; then
            ok=$((ok + 1))
        else
            fails=$((fails + 1))
            printf 'FAIL %s, growth %s refused %s, by%s status %s\n' "$kind" "$nth" "$way" "$wrong" "$status"
            printf '    standard error: %s\n' "${err[@]:-}"
            printf '    printed: %q\n    the store: %q\n' "${said:${#said}<200?0:-200}" "${state:0:200}"
        fi
        [ -e "$work/note" ] || break
        ended[$status]=$((${ended[$status]:-0} + 1))
    done
    echo "$kind: growths 1 to $((nth - 1)) refused $way, and none: ok $ok, FAIL $fails" \
        "(status 0: ${ended[0]:-0}, 1: ${ended[1]:-0}, 3: ${ended[3]:-0})"
    [ "$fails" = 0 ] && [ "$nth" -gt 1 ] || failed=1
}

for kind in script load "large load" upgrade; do
    try_each "$kind" alone
    try_each "$kind" "with all later ones"
done
exit "$failed"

#!/bin/sh
# Carries copies of the stores of version 1 in data/version1 over to version 2, and looks at what they hold then.
#
#   tools/upgrade_check.sh PROGRAM
#
# PROGRAM is the irtree program. Prints a line for each check, and at the end how many failed.
set -u
program=${1:?the program}
case $program in */*) ;; *) program=./$program ;; esac
program=$(cd "$(dirname "$program")" && pwd)/$(basename "$program")
stores=$(cd "$(dirname "$0")/../data/version1" && pwd)
work=$(mktemp -d)
trap 'rm -rf "$work"' EXIT
cd "$work" || exit 1
failed=0

# check WHAT EXPECTED ACTUAL
check() {
    if [ "$2" = "$3" ]; then
        echo "ok   $1"
    else
        echo "FAIL $1"
        printf '%s\n' "expected: $2" "found:    $3"
        failed=$((failed + 1))
    fi
}

for store in two pending; do
    cp "$stores/$store.version1" "$store" && cp "$stores/$store.version1.journal" "$store.journal"
    check "$store: run refuses version 1" "irtree: version 1 7" \
        "$(echo count | "$program" "$store" run 2>&1 | head -n 1) $(echo count | "$program" "$store" run >said 2>/dev/null; echo $?)"
    check "$store: and says nothing" "" "$(cat said)"
    check "$store: upgrade" "upgraded 2" "$("$program" "$store" upgrade 2>begun)"
    check "$store: what standard error says" "$store: an upgrade begins; until it is done the store stays as it was" "$(grep -v ' pages read so far; ' begun)"
    check "$store: upgrade once more" "version 2" "$("$program" "$store" upgrade 2>/dev/null)"
    check "$store: the place at 7" 'place "7" 12.5683000 55.6761000 2 ""
"café" 128
"ny" 128' "$(echo 'show 7' | "$program" "$store" run)"
done
check "two: the automatic key, and the next one" 'place #1 12.5700000 55.6800000 1 ""
"bar" 255' "$(echo 'show #1' | "$program" two run)"
check "two: a query" '= 2
1 "7" 0.0000000
2 #1 0.0042544' "$(echo 'nearest 12.5683 55.6761 5' | "$program" two run)"
check "pending: a query" '= 2
1 "ring" 0.0000000
2 "7" 0.0042544' "$(echo 'nearest 12.57 55.68 5 where bar or ny' | "$program" pending run)"
check "pending: what was removed stays so" "absent" "$(echo 'show "with space"' | "$program" pending run)"
check "pending: a place more" "ok
count 3" "$(printf 'add new 0 0 Quay\ncount\n' | "$program" pending run)"
echo "$failed failed"
[ "$failed" -eq 0 ]

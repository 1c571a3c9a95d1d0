#!/usr/bin/env bash
# Runs the tests of what is written in Python: the client, and the tools and examples that have tests (files test_*.py).
# They ask the built program (./irtree-build builds it), or the one that IRTREE names. It prints each command that it runs.
# With IRTREE_LARGE=1 the client's tests take their large numbers, and minutes of processor time.
# usage: [IRTREE=PROGRAM] tools/check_python.sh [unittest's options, such as -v]
set -euo pipefail
top=$(cd "$(dirname "$0")/.." && pwd)
program=${IRTREE:-$top/crates/irtree_cli/out/irtree_cli}
IRTREE=$(realpath -- "$program" 2> /dev/null) || IRTREE=$program
export IRTREE PYTHONDONTWRITEBYTECODE=1
if [ ! -x "$IRTREE" ]; then
    echo "the program $IRTREE isn't there: ./irtree-build proves and builds it, and IRTREE names another one" >&2
    exit 1
fi
cd "$top"
status=0
for folder in clients/python tools examples/finder; do
    compgen -G "$folder/test_*.py" > /dev/null || continue
    command=(python3 -m unittest discover -s "$folder" -p 'test_*.py' "$@")
    echo "IRTREE=$IRTREE ${command[*]}"
    "${command[@]}" || status=$?
done
echo "status $status"
exit "$status"

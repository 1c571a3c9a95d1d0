#!/usr/bin/env bash
# A script of 200,000 adds and 100 nearest queries through a pipe, against `sort` on the same lines in the same run:
# seconds and kilobytes at most of each, and their ratios. The program must be built (./irtree-build builds it).
set -euo pipefail
top=$(cd "$(dirname "$0")/.." && pwd)
lines=$(mktemp)
trap 'rm -f "$lines"' EXIT
python3 - >"$lines" <<'PY'
import random
random.seed(7)
for i in range(200_000):
    print(f"add p{i} {random.randint(-180, 180)} {random.randint(-90, 90)}")
for i in range(100):
    print(f"nearest {random.randint(-180, 180)} {random.randint(-90, 90)} {random.randint(1, 20)}")
PY
python3 - "$top/irtree" "$lines" <<'PY'
import os, resource, subprocess, sys, time
program, lines = sys.argv[1:]
def measured(words):
    begun = time.monotonic()
    feeder = subprocess.Popen(["cat", lines], stdout=subprocess.PIPE)
    child = subprocess.Popen(words, stdin=feeder.stdout, stdout=subprocess.DEVNULL)
    _, status, usage = os.wait4(child.pid, 0)
    assert status == 0, status
    return time.monotonic() - begun, usage.ru_maxrss
irtree = measured([program, "-", "run"])
sort = measured(["sort"])
print(f"irtree: {irtree[0]:.2f} s, {irtree[1]} kB")
print(f"sort:   {sort[0]:.2f} s, {sort[1]} kB")
print(f"ratio:  {irtree[0] / sort[0]:.1f} in time, {irtree[1] / sort[1]:.1f} in memory")
PY

#!/usr/bin/env bash
# A store on this disk against SQLite (R*Tree and FTS5 tables, WAL, synchronous=FULL) on the same places in one run, which are like a
# user's (places.py): durable adds a second, one transaction each, and places a second of a load of 100,000 in batches of 1,000; what an add
# to a store of 1,000, 10,000 and 100,000 places costs, counted by strace: reads, writes, bytes written and syncs; and how long it takes to
# open a store after a crash with a long journal. The program must be built (./irtree-build builds it).
# usage: bench/store_against_sqlite.sh [ADDS] [PLACES]    (works in a folder of its own beside the repository and leaves nothing)
set -euo pipefail
top=$(cd "$(dirname "$0")/.." && pwd)
work=$(mktemp -d "$top/bench_store.XXXXXX")
trap 'rm -rf "$work"' EXIT
python3 - "$top" "$work" "${1:-2000}" "${2:-100000}" <<'PY'
import os, re, resource, signal, sqlite3, subprocess, sys, time
top, work, adds, loads = sys.argv[1], sys.argv[2], int(sys.argv[3]), int(sys.argv[4])
program = f"{top}/irtree"
sys.path.insert(0, f"{top}/bench")
from places import geojson, places, script

def run(words, data, trace=None):
    command = ["strace", "-f", "-o", trace, "-e", "trace=pread64,pwrite64,fsync,fdatasync"] if trace else []
    begun = time.monotonic()
    child = subprocess.Popen(command + [program] + words, stdin=subprocess.PIPE, stdout=subprocess.PIPE)
    said, _ = child.communicate(data)
    assert child.returncode == 0, (child.returncode, said[-200:])
    return time.monotonic() - begun, said

def database(name):
    base = sqlite3.connect(f"{work}/{name}", isolation_level=None)
    base.execute("pragma journal_mode=wal")
    base.execute("pragma synchronous=full")
    base.execute("create table places(id integer primary key, key text unique, x real, y real, text text)")
    base.execute("create virtual table box using rtree(id, west, east, south, north)")
    base.execute("create virtual table words using fts5(text, content='')")
    return base

def put(base, i, row):
    key, x, y, text = row
    base.execute("insert into places values(?,?,?,?,?)", (i, key, x, y, text))
    base.execute("insert into box values(?,?,?,?,?)", (i, x, x, y, y))
    base.execute("insert into words(rowid, text) values(?,?)", (i, text))

def in_transactions(base, rows, size):
    begun = time.monotonic()
    for start in range(0, len(rows), size):
        base.execute("begin")
        for i in range(start, min(start + size, len(rows))):
            put(base, i, rows[i])
        base.execute("commit")
    return time.monotonic() - begun

some = list(places(adds))
seconds, _ = run([f"{work}/adds", "run"], script(some))
other = in_transactions(database("adds.db"), some, 1)
print(f"durable adds: irtree {adds / seconds:.0f} a second, SQLite {adds / other:.0f}: ratio {other / seconds:.2f}")

many = list(places(loads))
text = geojson(many)
seconds, said = run([f"{work}/load", "load"], text)
peak = resource.getrusage(resource.RUSAGE_CHILDREN).ru_maxrss
other = in_transactions(database("load.db"), many, 1000)
size = os.path.getsize(f"{work}/load")
print(f"load of {loads}: irtree {loads / seconds:.0f} places a second ({seconds:.2f} s, {peak} kB at most, {peak * 1024 / len(text):.1f} times the text, store of {size} bytes), SQLite {loads / other:.0f}: ratio {other / seconds:.2f}")

for count in (1_000, 10_000, 100_000):
    if count > loads:
        continue
    store = f"{work}/s{count}"
    run([store, "load"], geojson(many[:count]))
    calls = {}
    for n in (0, 200):
        run([store, "run"], script(list(places(n, 11))), f"{work}/trace")
        lines = open(f"{work}/trace").read()
        written = sum(int(it) for it in re.findall(r"pwrite64\(.* = (\d+)", lines))
        calls[n] = [*(len(re.findall(name + r"\(", lines)) for name in ("pread64", "pwrite64", "f(?:data)?sync")), written]
    reads, writes, syncs, written = [(after - before) / 200 for before, after in zip(calls[0], calls[200])]
    print(f"an add to {count} places: {reads:.1f} reads, {writes:.2f} writes, {written:.0f} bytes written, {syncs:.2f} syncs (checkpoint and closing included)")

def journal_end(path):
    """Where the records of a journal end: its first closed gate."""
    with open(path, "rb") as file:
        at = 0
        while True:
            file.seek(at)
            head = file.read(5)
            if len(head) < 5 or head[0] == 0:
                return at
            at += 5 + 4100 * int.from_bytes(head[1:], "big")

store = f"{work}/crashed"
run([store, "load"], geojson(many[:10_000]))
child = subprocess.Popen([program, store, "run"], stdin=subprocess.PIPE, stdout=subprocess.PIPE)
acknowledged = 0
for line in script(list(places(2_000, 13))).splitlines(keepends=True):
    child.stdin.write(line)
    child.stdin.flush()
    assert child.stdout.readline().startswith(b"ok")
    acknowledged += 1
    if journal_end(store + ".journal") > 16_000_000:
        break
child.send_signal(signal.SIGKILL)
child.wait()
length = journal_end(store + ".journal")
recovered, said = run([store, "run"], b"count\n")
at_rest, _ = run([store, "run"], b"count\n")
print(f"opening after kill -9 with {length} bytes of records, {acknowledged} adds acknowledged: {recovered:.3f} s, a store at rest {at_rest:.3f} s; {said.decode().strip()}")
PY

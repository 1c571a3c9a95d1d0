"""What an add, a removal and a replacement cost over stores of places like a user's (places.py): reads, writes, syncs and bytes written, counted
by strace over 200 of them, the checkpoint at the end included, and processor time without strace. A replacement gives a place another
text and moves it by a quarter of a degree. The program must be built (./irtree-build builds it; IRTREE names another one).

usage: python3 bench/update_costs.py [WORDS [COUNT..]]    (WORDS: how many each text has, 0 for those of a user; the counts of places: 1000 10000 100000)
"""
import os
import re
import resource
import subprocess
import sys
import tempfile

from places import geojson, places, script

PROGRAM = os.environ.get("IRTREE", os.path.join(os.path.dirname(os.path.abspath(__file__)), "..", "irtree"))
MANY = 200
# How many places are loaded at a time: the text of a load has at most 64 MiB.
PIECE = 50_000


def run(words, text, trace=None):
    traced = ["strace", "-f", "-o", trace, "-e", "trace=pread64,pwrite64,fdatasync,fsync"] if trace else []
    before = resource.getrusage(resource.RUSAGE_CHILDREN)
    subprocess.run(traced + [PROGRAM] + words, input=text, stdout=subprocess.DEVNULL, check=True)
    after = resource.getrusage(resource.RUSAGE_CHILDREN)
    return after.ru_utime - before.ru_utime


def calls(store, text, trace):
    run([store, "run"], text, trace)
    lines = open(trace).read()
    counts = [len(re.findall(name + r"\(", lines)) for name in ("pread64", "pwrite64", "f(?:data)?sync")]
    return counts + [sum(int(it) for it in re.findall(r"pwrite64\(.* = (\d+)", lines))]


def updates(rows, each):
    """Yields a name and two scripts of so many updates: one to be counted, and one to be timed."""
    named = [row for row in rows if row[0] is not None]
    chosen = [named[i * len(named) // (4 * MANY)] for i in range(4 * MANY)]
    new = list(places(4 * MANY, 11, each))
    adds = [(f"n{i}", *row[1:]) for i, row in enumerate(new)]
    moved = [(old[0], min(old[1] + 0.25, 180), old[2], row[3]) for old, row in zip(chosen, new)]
    gone = "".join(f"remove {row[0]}\n" for row in chosen[2 * MANY :]).encode().splitlines(keepends=True)
    yield "add", script(adds[:MANY]), script(adds[MANY : 2 * MANY])
    yield "replacement", script(moved[:MANY]), script(moved[MANY : 2 * MANY])
    yield "removal", b"".join(gone[:MANY]), b"".join(gone[MANY:])


each = int(sys.argv[1]) if len(sys.argv) > 1 else 0
with tempfile.TemporaryDirectory(dir=".") as work:
    for count in [int(it) for it in sys.argv[2:]] or [1_000, 10_000, 100_000]:
        rows = list(places(count, 7, each or None))
        store, trace = f"{work}/{count}", f"{work}/trace"
        loading = sum(run([store, "load"], geojson(rows[start : start + PIECE])) for start in range(0, count, PIECE))
        print(f"{count} places: a load computes for {loading / count * 1e6:.0f} us a place", flush=True)
        for name, counted, timed in updates(rows, each or None):
            before, after = calls(store, b"", trace), calls(store, counted, trace)
            reads, writes, syncs, written = [(a - b) / MANY for a, b in zip(after, before)]
            idle, busy = run([store, "run"], b""), run([store, "run"], timed)
            print(
                f"{count} places, one {name}: {reads:.1f} reads, {writes:.1f} writes of {written:.0f} bytes in all,"
                f" {syncs:.2f} syncs, {(busy - idle) / MANY * 1e6:.0f} us of processor time",
                flush=True,
            )

#!/usr/bin/env python3
"""Group queries, or gather queries, over a store on this disk, of places like a user's (places.py): for 2, 3, 5 and 8 words that many, some and few places hold, or of each
kind in turn, how many are answered a second, and the slowest of them. A line is written and its reply read before the next, so a pipe's time is in each.
With `one-point` all places lie at one point, and with `gather` the queries are those for the least sum.
The program must be built (./irtree-build builds it).
usage: bench/groups.py [PLACES] [QUERIES] [CACHE] [POLICY] [one-point] [gather]    (works in a folder of its own beside the repository)"""
import os
import random
import subprocess
import sys
import tempfile
import time

TOP = os.path.dirname(os.path.dirname(os.path.abspath(__file__)))
PROGRAM = os.environ.get("IRTREE", f"{TOP}/irtree")
sys.path.insert(0, f"{TOP}/bench")
from places import geojson, places


def reply(stream):
    """A group's reply: a line for each word behind its head, or none."""
    head = stream.readline().split()
    assert head[0] in (b"=", b"none"), head
    return head[0] == b"=" and [stream.readline() for _ in range(int(head[1]))]


def latencies(child, lines):
    taken = []
    for line in lines:
        begun = time.perf_counter()
        child.stdin.write(line)
        child.stdin.flush()
        reply(child.stdout)
        taken.append(time.perf_counter() - begun)
    return taken


def main():
    count = int(sys.argv[1]) if len(sys.argv) > 1 else 100_000
    asked = int(sys.argv[2]) if len(sys.argv) > 2 else 300
    cache = sys.argv[3] if len(sys.argv) > 3 else "65536"
    policy = sys.argv[4] if len(sys.argv) > 4 else "quadratic"
    command = "gather" if "gather" in sys.argv else "group"
    rows = list(places(count))
    if "one-point" in sys.argv:
        rows = [(key, 10.0, 50.0, text) for key, _, _, text in rows]
    held = {}
    for row in rows:
        for name in set(row[3].split()):
            held[name] = held.get(name, 0) + 1
    ranked = sorted((name for name in held if name.isalpha() and name not in ("and", "or", "not")), key=lambda name: (-held[name], name))
    pools = {"many": ranked[:20], "some": ranked[200:1_000], "few": ranked[4_000:12_000]}
    with tempfile.TemporaryDirectory(prefix="bench_groups.", dir=TOP) as work:
        store = f"{work}/store"
        begun = time.monotonic()
        subprocess.run([PROGRAM, store, "load", f"--cache={cache}", f"--policy={policy}"], input=geojson(rows), stdout=subprocess.DEVNULL, check=True)
        print(f"load by {policy}: {count / (time.monotonic() - begun):.0f} places a second")
        print(f"{'words':8}{'held by':>8}{'a second':>10}{'median us':>11}{'slowest us':>12}")
        for size in (2, 3, 5, 8):
            for name in ("many", "some", "few", "each"):
                rng = random.Random(size)
                lines = []
                for _ in range(asked):
                    _, x, y, _ = rng.choice(rows)
                    pool = [rng.choice(pools[("many", "some", "few")[i % 3]]) for i in range(size)] if name == "each" else rng.sample(pools[name], size)
                    if len(set(pool)) == size:
                        lines.append(f"{command} {x:.7f} {y:.7f} words {' '.join(pool)}\n".encode())
                child = subprocess.Popen([PROGRAM, store, "run", f"--cache={cache}"], stdin=subprocess.PIPE, stdout=subprocess.PIPE)
                latencies(child, lines)
                taken = sorted(latencies(child, lines))
                child.stdin.close()
                child.wait()
                print(f"{size:<8}{name:>8}{len(taken) / sum(taken):10.0f}{taken[len(taken) // 2] * 1e6:11.0f}{taken[-1] * 1e6:12.0f}", flush=True)


main()

#!/usr/bin/env python3
"""Group queries of the shapes that are slow to search: words that only some regions use, asked from near and from the other side of the world. For each
set, and for 2, 3, 5 and 8 words: how many a second, the median, and the slowest and how far away it was asked. All by the processor's time that the
program took, so that a busy machine changes it little.

The sets: `regions` (half of a place's words are its country's and its province's, which lie in one part of the map), `one-point` (all places at one
point), `line` (on one meridian) and `clusters` (two far ones, of which each has words of its own). A line is written and its reply read before the
next. With `IRTREE` another program is measured, `SETS` names the sets, and `SIZES` how many words. With `REPLIES` set to a file, all replies are
written to it, to compare two programs.
The program must be built (./irtree-build builds it).
usage: bench/far_groups.py [PLACES] [QUERIES] [CACHE]    (works in a folder of its own beside the repository)"""
import os
import random
import subprocess
import sys
import tempfile

TOP = os.path.dirname(os.path.dirname(os.path.abspath(__file__)))
PROGRAM = os.environ.get("IRTREE", f"{TOP}/irtree")
sys.path.insert(0, f"{TOP}/bench")
from places import geojson

# How far the query's point is from the midst of the words' places, in degrees: in it, beside it, and on the other side of the world.
AWAY = (0, 2, 20, 90, 170)


def regions(count, rng):
    """Places of 24 countries of 12 provinces each: a country's two words, a province's two, and two or three of 400 that are used everywhere."""
    lands = []
    for land in range(24):
        x, y = rng.uniform(-170, 170), rng.uniform(-60, 65)
        lands.append([(land, part, x + rng.uniform(-9, 9), y + rng.uniform(-7, 7)) for part in range(12)])
    for index in range(count):
        land, part, x, y = rng.choice(lands[min(int(rng.expovariate(1 / 5)), 23)])
        words = [f"land{land}", f"people{land}", f"part{land}x{part}", f"town{land}x{part}"]
        words += [f"every{min(int(rng.paretovariate(0.6)), 400)}" for _ in range(rng.choice((2, 3)))]
        at = rng.gauss(x, 0.8), rng.gauss(y, 0.8)
        yield f"k{index}", *at, rng.sample(words, len(words) - 1)


def one_point(count, rng):
    for index in range(count):
        yield f"k{index}", 10.0, 50.0, [f"every{min(int(rng.paretovariate(0.5)), 400)}" for _ in range(4)]


def line(count, rng):
    for index in range(count):
        yield f"k{index}", 10.0, rng.uniform(-60, 60), [f"every{min(int(rng.paretovariate(0.5)), 400)}" for _ in range(4)]


def clusters(count, rng):
    for index in range(count):
        side = index % 2
        words = [f"side{side}w{min(int(rng.paretovariate(0.5)), 200)}" for _ in range(4)]
        yield f"k{index}", rng.gauss((-100, 60)[side], 0.5), rng.gauss((40, -20)[side], 0.5), words


SETS = {"regions": regions, "one-point": one_point, "line": line, "clusters": clusters}


def clipped(x, y):
    return round((x + 180) % 360 - 180, 7), round(min(max(y, -90), 90), 7)


def queries(rows, asked, size, rng):
    """From each distance in turn, of words of a place and of its neighbours by number of the same set."""
    held = {}
    for row in rows:
        for word in row[3]:
            held[word] = held.get(word, 0) + 1
    ranked = sorted(held, key=lambda word: (-held[word], word))
    frequent = ranked[: max(40, len(ranked) // 4)]
    lines = []
    while len(lines) < asked:
        _, x, y, words = rng.choice(rows)
        pool = list(dict.fromkeys(rng.sample(words, min(len(words), (size + 1) // 2)) + rng.sample(frequent, size)))[:size]
        away = AWAY[len(lines) % len(AWAY)]
        at = clipped(x + away * rng.choice((-1, 1)), y - min(away, 60) * (1 if y > 0 else -1))
        if len(pool) == size:
            lines.append((away, f"group {at[0]:.7f} {at[1]:.7f} words {' '.join(pool)}\n".encode()))
    return lines


def reply(stream):
    head = stream.readline()
    parts = head.split()
    assert parts[0] in (b"=", b"none"), head
    return head + (b"".join(stream.readline() for _ in range(int(parts[1]))) if parts[0] == b"=" else b"")


def used(child):
    """How long the program has run on a processor so far, in seconds."""
    with open(f"/proc/{child.pid}/schedstat") as stat:
        return int(stat.read().split()[0]) / 1e9


def main():
    count = int(sys.argv[1]) if len(sys.argv) > 1 else 100_000
    asked = int(sys.argv[2]) if len(sys.argv) > 2 else 100
    cache = sys.argv[3] if len(sys.argv) > 3 else "65536"
    replies = open(os.environ["REPLIES"], "wb") if "REPLIES" in os.environ else None
    print(f"{'set':11}{'words':>6}{'a second':>10}{'median ms':>11}{'slowest ms':>12}{'from':>6}")
    for name in os.environ.get("SETS", " ".join(SETS)).split():
        rows = [(key, *clipped(x, y), words) for key, x, y, words in SETS[name](count, random.Random(7))]
        with tempfile.TemporaryDirectory(prefix="bench_far_groups.", dir=os.environ.get("WORK", TOP)) as work:
            store = f"{work}/store"
            loaded = geojson([(key, x, y, " ".join(words)) for key, x, y, words in rows])
            subprocess.run([PROGRAM, store, "load", f"--cache={cache}"], input=loaded, stdout=subprocess.DEVNULL, check=True)
            child = subprocess.Popen([PROGRAM, store, "run", f"--cache={cache}"], stdin=subprocess.PIPE, stdout=subprocess.PIPE)
            for size in (int(size) for size in os.environ.get("SIZES", "2 3 5 8").split()):
                taken = []
                for away, query in queries(rows, asked, size, random.Random(size)):
                    begun = used(child)
                    child.stdin.write(query)
                    child.stdin.flush()
                    found = reply(child.stdout)
                    taken.append((used(child) - begun, away))
                    if replies:
                        replies.write(query + found)
                taken.sort()
                seconds = [one for one, _ in taken]
                print(f"{name:11}{size:6}{len(seconds) / sum(seconds):10.0f}{seconds[len(seconds) // 2] * 1e3:11.2f}{taken[-1][0] * 1e3:12.1f}{taken[-1][1]:6}", flush=True)
            child.stdin.close()
            child.wait()


main()

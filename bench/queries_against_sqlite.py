#!/usr/bin/env python3
"""Queries over a store on this disk against SQLite (R*Tree and FTS5 tables) on the same places, which are like a user's (places.py), in one
run: queries a second of each kind, with words that many, some and few places hold, parsing and printing included. A query's point is
that of a place. SQLite answers each kind in the better of two ways: by the words first, or by the box first (for the nearest by boxes that
grow). It has no group query. Both sides are timed warm: SQLite in a second pass over some of the same queries, irtree in a second and third pass
over all. The keys of the hits are compared, automatic ones left out; those of `top` aren't, since SQLite ranks by bm25, and of two at the same distance
either may be the last of a `nearest`.
The program must be built (./irtree-build builds it).
usage: bench/queries_against_sqlite.py [PLACES] [QUERIES] [CACHE] [POLICY]    (works in a folder of its own beside the repository)"""
import os
import random
import sqlite3
import subprocess
import sys
import tempfile
import time

TOP = os.path.dirname(os.path.dirname(os.path.abspath(__file__)))
PROGRAM = os.environ.get("IRTREE", f"{TOP}/irtree")
sys.path.insert(0, f"{TOP}/bench")
from places import geojson, places


def run(words, data):
    begun = time.monotonic()
    child = subprocess.Popen([PROGRAM] + words, stdin=subprocess.PIPE, stdout=subprocess.PIPE)
    said, _ = child.communicate(data)
    assert child.returncode == 0, (child.returncode, said[-200:])
    return time.monotonic() - begun, said


def database(rows, path):
    base = sqlite3.connect(path, isolation_level=None)
    base.execute("pragma journal_mode=wal")
    base.execute("pragma cache_size=-262144")
    base.execute("create table places(id integer primary key, key text unique, x real, y real, text text)")
    base.execute("create virtual table box using rtree(id, west, east, south, north)")
    base.execute("create virtual table words using fts5(text, content='', tokenize='unicode61 remove_diacritics 0')")
    base.execute("begin")
    for i, (key, x, y, text) in enumerate(rows):
        base.execute("insert into places values(?,?,?,?,?)", (i, key, x, y, text))
        base.execute("insert into box values(?,?,?,?,?)", (i, x, x, y, y))
        base.execute("insert into words(rowid, text) values(?,?)", (i, text))
    base.execute("commit")
    base.execute("insert into words(words) values('optimize')")
    return base


# Longitudes meet at 180 degrees.
GAP = "min(abs(p.x - :x), 360 - abs(p.x - :x))"
NEAR = f"{GAP} * {GAP} + (p.y - :y) * (p.y - :y)"
# The R*Tree keeps floats of 32 bits, so its box is taken a little wider; the exact condition is on the place itself.
IN_BOX = "b.west >= :west - 0.0001 and b.east <= :east + 0.0001 and b.south >= :south - 0.0001 and b.north <= :north + 0.0001"


def by_words(base, it, condition="", order=NEAR, limit=""):
    return base.execute(f"select p.key, {NEAR} from words w join places p on p.id = w.rowid where words match :match {condition} order by {order} {limit}", it).fetchall()


def by_box(base, it, condition="", order=NEAR, limit=""):
    return base.execute(f"select p.key, {NEAR} from box b join places p on p.id = b.id where {IN_BOX} and b.id in (select rowid from words where words match :match) {condition} order by {order} {limit}", it).fetchall()


def square(x, y, side):
    """The box that reaches so far to each side of a point; one that would cross the 180th meridian goes round the earth."""
    crosses = x - side < -180 or x + side > 180
    return {"west": -180 if crosses else x - side, "east": 180 if crosses else x + side, "south": y - side, "north": y + side}


def growing(base, it, words):
    """The k nearest by boxes that grow fourfold until the k-th lies within."""
    side = 0.02
    while True:
        there = it | square(it["x"], it["y"], side)
        inside = "and b.id in (select rowid from words where words match :match)" if words else ""
        found = base.execute(f"select p.key, {NEAR} from box b join places p on p.id = b.id where {IN_BOX} {inside} order by {NEAR} limit :k", there).fetchall()
        if side > 400 or len(found) == it["k"] and found[-1][1] <= side * side:
            return found
        side *= 4


def ways(kind):
    """The ways to answer a kind by SQLite."""
    within = f"and {NEAR} <= :r * :r"
    if kind == "range":
        return [lambda base, it: by_words(base, it, within), lambda base, it: by_box(base, it, within)]
    if kind == "box":
        point = "and p.x between :west and :east and p.y between :south and :north"
        return [lambda base, it: by_words(base, it, point, "p.key"), lambda base, it: by_box(base, it, point, "p.key")]
    if kind == "nearest":
        return [lambda base, it: by_words(base, it, limit="limit :k"), lambda base, it: growing(base, it, True)]
    if kind == "plain nearest":
        return [lambda base, it: growing(base, it, False)]
    if kind == "top":
        return [lambda base, it: by_words(base, it, order=f"sqrt({NEAR}) * :alpha + (w.rank) * (1000 - :alpha)", limit="limit :k")]
    return []


def hits_of(said):
    """The keys of the hits of each reply, automatic ones left out, and how many hits there are."""
    replies = []
    for line in said.decode().splitlines():
        if line.startswith("= "):
            replies.append((set(), int(line.split()[1])))
        elif replies and line.count('"') >= 2:
            replies[-1][0].add(line.split('"')[1])
    return replies


def line_of(kind, it, names):
    at = f"{it['x']:.7f} {it['y']:.7f}"
    where = " where " + " or ".join(names)
    return {
        "range": f"range {at} {it['r']:.7f}{where}",
        "box": f"box {it['west']:.7f} {it['south']:.7f} {it['east']:.7f} {it['north']:.7f}{where}",
        "nearest": f"nearest {at} {it['k']}{where}",
        "plain nearest": f"nearest {at} {it['k']}",
        "top": f"top {at} {it['k']} 500 10 words {' '.join(names)}",
        "group": f"group {at} words {' '.join(names)}",
    }[kind]


def queries(kind, rows, ranked, share, count, rng):
    pool = ranked[slice(*share)]
    for _ in range(count):
        _, x, y, _ = rng.choice(rows)
        names = rng.sample(pool, 2)
        side = 0.5
        it = {"x": x, "y": y, "r": side, "k": 10, "alpha": 500, "match": " OR ".join(f'"{name}"' for name in names)}
        it |= {"west": max(x - side, -180), "east": min(x + side, 180), "south": max(y - side, -90), "north": min(y + side, 90)}
        line = line_of(kind, it, names)
        yield it if kind == "box" else it | square(x, y, side), line


def main():
    count = int(sys.argv[1]) if len(sys.argv) > 1 else 100_000
    asked = int(sys.argv[2]) if len(sys.argv) > 2 else 1_000
    cache = sys.argv[3] if len(sys.argv) > 3 else "65536"
    policy = sys.argv[4] if len(sys.argv) > 4 else "quadratic"
    rows = list(places(count))
    held = {}
    for row in rows:
        for name in set(row[3].split()):
            held[name] = held.get(name, 0) + 1
    ranked = sorted((name for name in held if name.isalpha() and name not in ("and", "or", "not")), key=lambda name: (-held[name], name))
    shares = {"many": (0, 20), "some": (200, 1_000), "few": (4_000, 12_000)}
    with tempfile.TemporaryDirectory(prefix="bench_queries.", dir=TOP) as work:
        store = f"{work}/store"
        seconds, _ = run([store, "load", f"--cache={cache}", f"--policy={policy}"], geojson(rows))
        print(f"load by {policy}: {count / seconds:.0f} places a second, store of {os.path.getsize(store)} bytes")
        base = database(rows, f"{work}/base.db")
        opening, _ = run([store, "run", f"--cache={cache}"], b"")
        print(f"{'kind':15}{'words':7}{'irtree':>12}{'SQLite':>12}{'ratio':>8}{'hits':>8}{'same':>8}")
        for kind in ("range", "box", "nearest", "plain nearest", "top", "group"):
            for name, share in shares.items():
                if kind == "plain nearest" and name != "many":
                    continue
                some = list(queries(kind, rows, ranked, share, asked, random.Random(3)))
                text = "".join(line + "\n" for _, line in some).encode()
                # Once to warm the cache, and once more in the same run: the difference is a warm pass.
                once, said = run([store, "run", f"--cache={cache}"], text)
                twice, _ = run([store, "run", f"--cache={cache}"], text * 3)
                ours = (twice - once) / 2
                replies = hits_of(said)
                best, same = None, ""
                for way in ways(kind):
                    few = some[: max(20, asked // 10)]
                    found = [{row[0] for row in way(base, it) if row[0]} for it, _ in few]
                    begun = time.monotonic()
                    for it, _ in few:
                        way(base, it)
                    taken = (time.monotonic() - begun) * asked / len(few)
                    best = taken if best is None else min(best, taken)
                    same = "-" if kind == "top" else f"{sum(a == b for a, (b, _) in zip(found, replies))}/{len(few)}"
                theirs = f"{asked / best:12.0f}{best / ours:8.1f}" if best else f"{'-':>12}{'-':>8}"
                print(f"{kind:15}{name:7}{asked / ours:12.0f}{theirs}{sum(count for _, count in replies) / asked:8.1f}{same:>8}  cold {asked / max(once - opening, 1e-9):.0f}", flush=True)


if __name__ == "__main__":
    main()

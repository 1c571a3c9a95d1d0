#!/usr/bin/env python3
"""Stores of several sizes on this disk beside SQLite (R*Tree and FTS5 tables, WAL, synchronous=FULL) on the same places: in clusters, with texts of 5
to 12 words by Zipf's law (places.py). Of each size it measures
- the load in batches of 1,000: seconds, memory at most, and bytes of the files after it;
- opening, with nothing of the files in the system's memory (cold) and with all of them (warm);
- each kind of query, warm and cold, with two words that many, some and few places hold, and `show` by key; SQLite's in the better of two ways;
- adds one by one, each safe before its reply. A store that has no room for them beside its places gets as many places less.
It prints one Markdown table. Each figure goes to standard error, too, as soon as it is there.

Queries and ways are those of queries_against_sqlite.py. Warm is a second pass over the same queries in one process; cold is the first pass of fewer of
them, just after opening. SQLite's passes end after LIMIT seconds at the latest. A load's text has at most 64 MiB, so a large one is loaded in pieces.
The program must be built (./irtree-build builds it; IRTREE names another one).
On a machine that does other work, too, --processor takes the processor's time of the program and of SQLite's process in place of the clock's: then no
wait is in a figure, not for the disk either.
usage: bench/sizes_against_sqlite.py [--queries N] [--cold N] [--adds N] [--cache PAGES] [--policy POLICY] [--limit SECONDS] [--folder DIR] [--processor]
[PLACES ..]
(10000, 100000 and 1000000 places if none are named; it works in a folder of its own below DIR, by default beside the repository, and leaves nothing)"""
import argparse
import json
import os
import random
import sqlite3
import subprocess
import sys
import tempfile
import threading
import time
from statistics import median

TOP = os.path.dirname(os.path.dirname(os.path.abspath(__file__)))
PROGRAM = os.environ.get("IRTREE", f"{TOP}/irtree")
sys.path.insert(0, f"{TOP}/bench")
from places import geojson, places, script
from queries_against_sqlite import hits_of, queries, ways

LENGTHS = (5, 12)                       # words of a text
PIECE = 100_000                         # places of one load
BATCH = 1_000
LIVE_MAX = 1_000_000                    # places that a store may have
SAMPLE = 20_000                         # places from which queries take their points and keys
SHARES = {"many": (0, 20), "some": (200, 1_000), "few": (4_000, 12_000)}
KINDS = ("range", "box", "nearest", "plain nearest", "top", "group")

# A process of its own measures a command: the memory of a process that starts another one counts for that one, too.
MEASURE = """if True:
    import json, resource, subprocess, sys, time
    begun = time.monotonic()
    done = subprocess.run(sys.argv[1:], stdout=subprocess.PIPE)
    seconds = time.monotonic() - begun
    used = resource.getrusage(resource.RUSAGE_CHILDREN)
    print(json.dumps([seconds, used.ru_utime + used.ru_stime, used.ru_maxrss * 1024, done.returncode, done.stdout.decode()[-200:]]))
"""
by_processor = False


def now():
    """Seconds of the clock, or of the processor in this process."""
    return time.process_time() if by_processor else time.monotonic()


def measured(command, given=os.devnull):
    """The seconds of a command, its memory at most in bytes, and the end of what it printed."""
    with open(given, "rb") as file:
        done = subprocess.run([sys.executable, "-c", MEASURE, *command], stdin=file, stdout=subprocess.PIPE, check=True)
    seconds, processor, peak, status, said = json.loads(done.stdout)
    assert status == 0, (command, status, said)
    return processor if by_processor else seconds, peak, said


class Run:
    """A run of the program on a store, which is opened first."""

    def __init__(self, store, pages):
        self.child = subprocess.Popen([PROGRAM, store, "run", f"--cache={pages}"], stdin=subprocess.PIPE, stdout=subprocess.PIPE)
        self.ask(b"")

    def __enter__(self):
        return self

    def __exit__(self, *error):
        self.child.communicate()
        assert self.child.returncode == 0, self.child.returncode

    def now(self):
        """Seconds of the clock, or of the processor in the program, which has one thread."""
        if not by_processor:
            return time.monotonic()
        with open(f"/proc/{self.child.pid}/schedstat") as file:
            return int(file.read().split()[0]) / 1e9

    def ask(self, text):
        """The seconds from the first line to the last reply, and the replies; the last one is that to `count`, which looks at nothing."""
        def write():
            self.child.stdin.write(text + b"count\n")
            self.child.stdin.flush()
        writer, said, begun = threading.Thread(target=write), bytearray(), self.now()
        writer.start()
        while not (said.endswith(b"\n") and said[said.rfind(b"\n", 0, -1) + 1:].startswith(b"count ")):
            piece = os.read(self.child.stdout.fileno(), 1 << 20)
            assert piece, (self.child.wait(), said[-200:])
            said += piece
        taken = self.now() - begun
        writer.join()
        return taken, bytes(said)


def forget(path):
    """Drops what the system has in memory of the files whose paths begin so."""
    folder, name = os.path.split(path)
    for each in os.listdir(folder):
        if each.startswith(name):
            file = os.open(os.path.join(folder, each), os.O_RDONLY)
            os.fsync(file)
            os.posix_fadvise(file, 0, 0, os.POSIX_FADV_DONTNEED)
            os.close(file)


def bytes_of(path):
    folder, name = os.path.split(path)
    return sum(os.path.getsize(os.path.join(folder, each)) for each in os.listdir(folder) if each.startswith(name))


def connected(path, pages):
    base = sqlite3.connect(path, isolation_level=None)
    base.execute("pragma journal_mode=wal")
    base.execute("pragma synchronous=full")
    base.execute(f"pragma cache_size={-4 * pages}")
    return base


def put(base, i, key, x, y, text):
    base.execute("insert into places values(?,?,?,?,?)", (i, key, x, y, text))
    base.execute("insert into box values(?,?,?,?,?)", (i, x, x, y, y))
    base.execute("insert into words(rowid, text) values(?,?)", (i, text))


def load_sqlite(path, rows, pages):
    """Stores the rows of a file, and prints the seconds that it takes; the words' index is made compact after that."""
    base = connected(path, pages)
    base.execute("create table places(id integer primary key, key text unique, x real, y real, text text)")
    base.execute("create virtual table box using rtree(id, west, east, south, north)")
    base.execute("create virtual table words using fts5(text, content='', tokenize='unicode61 remove_diacritics 0')")
    begun = now()
    with open(rows, encoding="utf-8") as file:
        for i, line in enumerate(file):
            if i % BATCH == 0:
                base.execute("commit" if i else "begin")
                if i:
                    base.execute("begin")
            key, x, y, text = line.rstrip("\n").split("\t")
            put(base, i, key or None, float(x), float(y), text)
    base.execute("commit")
    print(now() - begun)
    base.execute("insert into words(words) values('optimize')")
    base.close()


class Table:
    """Figures of both sides by what was measured and by size."""

    def __init__(self, sizes):
        self.sizes, self.rows = sizes, {}

    def put(self, name, size, ours, theirs, form, more_is_better, note=""):
        cells = [form(ours), "-", "-"]
        if theirs is not None:
            cells[1:] = form(theirs), rate(ours / theirs if more_is_better else theirs / ours)
        self.rows.setdefault(name, {})[size] = cells
        print(f"{size:,} places, {', '.join(filter(None, name))}: irtree {cells[0]}, SQLite {cells[1]}, ratio {cells[2]} {note}", file=sys.stderr, flush=True)

    def text(self):
        yield "| What | Words of | " + " | ".join(f"{size:,} places: irtree | SQLite | ratio" for size in self.sizes) + " |"
        yield "|---|---|" + "---|---|---|" * len(self.sizes)
        for (what, words), cells in self.rows.items():
            yield f"| {what} | {words} | " + " | ".join(" | ".join(cells.get(size, ["", "", ""])) for size in self.sizes) + " |"


def rate(number):
    return f"{number:,.0f}" if number >= 10 else f"{number:.2g}"


def seconds(number):
    return f"{number:,.1f} s" if number >= 1 else f"{number * 1000:,.1f} ms"


def megabytes(number):
    return f"{number / 1e6:,.0f} MB" if number >= 1e7 else f"{number / 1e6:.1f} MB"


def by_key(base, it):
    return base.execute("select key, x, y, text from places where key = :key", it).fetchall()


def passed(way, base, some, limit):
    """Asks in turn until the time is over; the seconds of each query, and the keys found."""
    end, begun, found = time.monotonic() + limit, now(), []
    for it, _ in some:
        found.append({row[0] for row in way(base, it) if row[0]})
        if time.monotonic() > end:
            break
    return (now() - begun) / len(found), found


def compared(table, name, size, some, tried, store, path, options):
    """Measures queries, warm and cold: pairs of what SQLite gets and the line for irtree. SQLite may be asked in several ways."""
    text = [line + "\n" for _, line in some]
    with Run(store, options.cache) as child:
        _, said = child.ask("".join(text).encode())
        ours, _ = child.ask("".join(text).encode())
    best = best_way = None
    base, same = connected(path, options.cache), ""
    replies = hits_of(said)
    for way in tried:
        _, found = passed(way, base, some, options.limit)
        theirs, _ = passed(way, base, some[:len(found)], options.limit)
        if best is None or theirs < best:
            best, best_way = theirs, way
        same = f"{sum(a == b for a, (b, _) in zip(found, replies))} of {len(found)} have the same keys" if len(replies) == len(some) else ""
    base.close()
    what, of = name
    table.put((f"{what}, warm, a second", of), size, len(some) / ours, best and 1 / best, rate, True, "" if what.startswith("`top") else same)
    few = some[:options.cold]
    forget(store)
    with Run(store, options.cache) as child:
        ours, _ = child.ask("".join(text[:len(few)]).encode())
    theirs = None
    if best_way:
        forget(path)
        base = connected(path, options.cache)
        theirs, _ = passed(best_way, base, few, options.limit)
        base.close()
    table.put((f"{what}, cold, a second", of), size, len(few) / ours, theirs and 1 / theirs, rate, True)


def opened(store, pages):
    """The seconds of a run without lines, from the start of its process to its end."""
    return measured([PROGRAM, store, "run", f"--cache={pages}"])[0]


def opened_by_sqlite(path, pages):
    """The seconds that SQLite takes to open and read a first row."""
    begun = now()
    base = connected(path, pages)
    base.execute("select * from places limit 1").fetchall()
    taken = now() - begun
    base.close()
    return taken


def measure(size, table, work, options):
    store, path, rows, piece = f"{work}/irtree", f"{work}/sqlite", f"{work}/rows", f"{work}/piece"
    some, held, live = [], {}, min(size, LIVE_MAX - options.adds)
    with open(rows, "w", encoding="utf-8") as file:
        for i, (key, x, y, text) in enumerate(places(live, lengths=LENGTHS)):
            file.write(f"{key or ''}\t{x:.7f}\t{y:.7f}\t{text}\n")
            for name in set(text.split()):
                held[name] = held.get(name, 0) + 1
            if i % max(1, live // SAMPLE) == 0:
                some.append((key, x, y, text))
    ranked = sorted((name for name in held if name.isalpha() and name not in ("and", "or", "not")), key=lambda name: (-held[name], name))

    time_of_load = peak = 0
    every = places(live, lengths=LENGTHS)
    for first in range(0, live, PIECE):
        with open(piece, "wb") as file:
            file.write(geojson(next(every) for _ in range(min(PIECE, live - first))))
        taken, most, _ = measured([PROGRAM, store, "load", f"--cache={options.cache}", f"--policy={options.policy}", f"--batch={BATCH}"], piece)
        time_of_load, peak = time_of_load + taken, max(peak, most)
        print(f"{min(first + PIECE, live):,} of {live:,}: {time_of_load:.1f} s", file=sys.stderr, flush=True)
    os.remove(piece)
    _, their_peak, said = measured([sys.executable, __file__, "--into", path, rows, "--cache", str(options.cache), *["--processor"] * by_processor])
    table.put(("load", ""), size, time_of_load, float(said), seconds, False)
    table.put(("its memory at most", ""), size, peak, their_peak, megabytes, False)
    table.put(("bytes of the files", ""), size, bytes_of(store), bytes_of(path), megabytes, False)

    cold, warm = [], []
    for times, before in ((cold, True), (warm, False)):
        for _ in range(3):
            pair = []
            for file, opens in ((store, opened), (path, opened_by_sqlite)):
                if before:
                    forget(file)
                pair.append(opens(file, options.cache))
            times.append(pair)
        table.put((f"opening, {'cold' if before else 'warm'}", ""), size, *(median(side) for side in zip(*times)), seconds, False)

    rng = random.Random(5)
    keys = [(it, f'show "{it["key"]}"') for it in ({"key": key} for key in rng.choices([row[0] for row in some if row[0]], k=options.queries))]
    compared(table, ("`show`", ""), size, keys, [by_key], store, path, options)
    for kind in KINDS:
        for name, share in SHARES.items():
            if len(ranked[slice(*share)]) < 2 or kind == "plain nearest" and name != "many":
                continue
            what = {"nearest": "`nearest 10 where`", "plain nearest": "`nearest 10`", "top": "`top 10`"}.get(kind, f"`{kind}`")
            asked = list(queries(kind, some, ranked, share, options.queries, random.Random(3)))
            compared(table, (what, "" if kind == "plain nearest" else name), size, asked, ways(kind), store, path, options)

    new = [(f"n{i}", *row[1:]) for i, row in enumerate(places(options.adds, 11, lengths=LENGTHS))]
    with Run(store, options.cache) as child:
        taken, said = child.ask(script(new))
    assert said.count(b"ok\n") == len(new)
    base = connected(path, options.cache)
    begun = now()
    for i, row in enumerate(new, live):
        base.execute("begin")
        put(base, i, *row)
        base.execute("commit")
    theirs = now() - begun
    base.close()
    table.put(("adds one by one, a second", ""), size, len(new) / taken, len(new) / theirs, rate, True)


def main():
    parser = argparse.ArgumentParser(description=__doc__, formatter_class=argparse.RawDescriptionHelpFormatter)
    parser.add_argument("places", nargs="*", type=int, help="how many places; several sizes may be named")
    parser.add_argument("--queries", type=int, default=1_000, help="how many queries of each kind, warm")
    parser.add_argument("--cold", type=int, default=50, help="how many of them cold")
    parser.add_argument("--adds", type=int, default=500)
    parser.add_argument("--cache", type=int, default=65_536, help="pages of 4,096 bytes in memory, of SQLite as many bytes")
    parser.add_argument("--policy", default="quadratic")
    parser.add_argument("--limit", type=float, default=20, help="seconds after which a pass of SQLite ends")
    parser.add_argument("--folder", default=TOP, help="on the disk that is measured")
    parser.add_argument("--processor", action="store_true", help="takes the processor's time in place of the clock's")
    parser.add_argument("--into", nargs=2, help=argparse.SUPPRESS)
    options = parser.parse_args()
    global by_processor
    by_processor = options.processor
    if options.into:
        return load_sqlite(*options.into, options.cache)
    sizes = options.places or [10_000, 100_000, 1_000_000]
    table = Table(sizes)
    for size in sizes:
        with tempfile.TemporaryDirectory(prefix="bench_sizes.", dir=options.folder) as work:
            measure(size, table, work, options)
    print("\n".join(table.text()))


if __name__ == "__main__":
    main()

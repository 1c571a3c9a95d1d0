#!/usr/bin/env python3
"""The check of a whole store (`verify`) beside SQLite's PRAGMA integrity_check (R*Tree and FTS5 tables, WAL) on the same places: in clusters, with texts
of 5 to 12 words by Zipf's law (places.py). Of each size it prints the pages and bytes of the store, the seconds of a check and its memory at most, with
the default cache and with one of 65,536 pages, the bytes of SQLite's file and the seconds of its check. The files are in the system's memory.

The program must be built (./irtree-build builds it; IRTREE names another one). With --processor seconds are the processor's, for a machine that does
other work, too.
usage: bench/checks_against_sqlite.py [--folder DIR] [--processor] [PLACES ..]    (10000 and 100000 places if none are named)"""
import argparse
import os
import sqlite3
import sys
import tempfile
import time

TOP = os.path.dirname(os.path.dirname(os.path.abspath(__file__)))
sys.path.insert(0, f"{TOP}/bench")
import sizes_against_sqlite as sizes
from places import geojson, places

PIECE = 100_000                         # places of one load


def stored(folder, rows):
    """A store with these places, and its pages counted."""
    store, text = f"{folder}/checked.store", f"{folder}/text"
    for at in range(0, len(rows), PIECE):
        with open(text, "wb") as file:
            file.write(geojson(rows[at:at + PIECE]))
        sizes.measured([sizes.PROGRAM, store, "load", "--cache=65536"], text)
    with open(store, "rb") as file:
        return store, int.from_bytes(file.read(12)[8:], "big")


def database(folder, rows):
    """A database with the same places."""
    path = f"{folder}/checked.sqlite"
    db = sqlite3.connect(path)
    db.executescript("""
        PRAGMA journal_mode = WAL;
        CREATE TABLE place(id INTEGER PRIMARY KEY, key TEXT UNIQUE, longitude REAL, latitude REAL, text TEXT);
        CREATE VIRTUAL TABLE region USING rtree(id, west, east, south, north);
        CREATE VIRTUAL TABLE word USING fts5(text, content='place', content_rowid='id');
    """)
    numbered = [(i, key or f"#{i}", float(x), float(y), text) for i, (key, x, y, text) in enumerate(rows, 1)]
    with db:
        db.executemany("INSERT INTO place VALUES (?, ?, ?, ?, ?)", numbered)
        db.executemany("INSERT INTO region VALUES (?, ?, ?, ?, ?)", [(i, x, x, y, y) for i, _, x, y, _ in numbered])
        db.executemany("INSERT INTO word(rowid, text) VALUES (?, ?)", [(i, text) for i, _, _, _, text in numbered])
    db.execute("PRAGMA wal_checkpoint(TRUNCATE)")
    db.close()
    return path


def main():
    words = argparse.ArgumentParser(description=__doc__, formatter_class=argparse.RawDescriptionHelpFormatter)
    words.add_argument("--folder", default=os.path.dirname(TOP))
    words.add_argument("--processor", action="store_true")
    words.add_argument("sizes", metavar="PLACES", nargs="*", type=int, default=[10_000, 100_000])
    given = words.parse_args()
    sizes.by_processor = given.processor
    print("| places | pages | bytes | `verify` | memory | `--cache 65536` | memory | SQLite: bytes | `integrity_check` |\n|---|---|---|---|---|---|---|---|---|")
    for count in given.sizes:
        with tempfile.TemporaryDirectory(dir=given.folder) as folder:
            rows = list(places(count, lengths=sizes.LENGTHS))
            store, pages = stored(folder, rows)
            cells = []
            for cache in (1_024, 65_536):
                seconds, peak, said = sizes.measured([sizes.PROGRAM, store, "verify", f"--cache={cache}"])
                assert said == "whole\n", said
                cells += [f"{seconds:.2f} s", f"{peak // 2 ** 20} MiB"]
            path = database(folder, rows)
            db = sqlite3.connect(path)
            begun = time.process_time() if given.processor else time.monotonic()
            assert db.execute("PRAGMA integrity_check").fetchall() == [("ok",)]
            seconds = (time.process_time() if given.processor else time.monotonic()) - begun
            print(f"| {count:,} | {pages:,} | {os.path.getsize(store):,} | {' | '.join(cells)} | {os.path.getsize(path):,} | {seconds:.2f} s |", flush=True)


main()

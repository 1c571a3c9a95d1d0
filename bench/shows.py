#!/usr/bin/env python3
"""Loads places like a user's (places.py) into a store on this disk, then shows random keys of it: places a second of the load, shows a
second, warm (the same keys once before), and the reads of the device that a second run of the same lines makes, by strace.
The program must be built (./irtree-build builds it).
usage: bench/shows.py [PLACES] [SHOWS]    (works in a folder of its own beside the repository and leaves nothing)"""
import os
import random
import re
import subprocess
import sys
import tempfile
import time

TOP = os.path.dirname(os.path.dirname(os.path.abspath(__file__)))
PROGRAM = os.environ.get("IRTREE", f"{TOP}/irtree")
sys.path.insert(0, f"{TOP}/bench")
from places import geojson, places


def run(words, data, trace=None):
    command = ["strace", "-f", "-o", trace, "-e", "trace=pread64"] if trace else []
    begun = time.monotonic()
    child = subprocess.Popen(command + [PROGRAM] + words, stdin=subprocess.PIPE, stdout=subprocess.PIPE)
    said, _ = child.communicate(data)
    assert child.returncode == 0, (child.returncode, said[-200:])
    return time.monotonic() - begun, said


def shows(keys):
    return "".join(f'show "{key}"\n' for key in keys).encode()


def main():
    count = int(sys.argv[1]) if len(sys.argv) > 1 else 100_000
    asked = int(sys.argv[2]) if len(sys.argv) > 2 else 100_000
    rows = list(places(count))
    keys = [row[0] for row in rows if row[0]]
    chosen = random.Random(5).choices(keys, k=asked)
    with tempfile.TemporaryDirectory(prefix="bench_shows.", dir=TOP) as work:
        store = f"{work}/store"
        seconds, _ = run([store, "load"], geojson(rows))
        print(f"load: {count / seconds:.0f} places a second")
        for _ in range(2):
            seconds, said = run([store, "run"], shows(chosen))
        print(f"show: {asked / seconds:.0f} a second over {count} places, {len(said) / asked:.0f} bytes a reply")
        # As many lines that look at nothing: what reading lines and saying replies costs.
        seconds, _ = run([store, "run"], b"count\n" * asked)
        print(f"count: {asked / seconds:.0f} a second")
        few = random.Random(6).choices(keys, k=50)
        reads = []
        for times in (1, 2):
            run([store, "run"], shows(few * times), f"{work}/trace")
            with open(f"{work}/trace", encoding="utf-8") as trace:
                reads.append(len(re.findall(r"pread64\(", trace.read())))
        print(f"reads of the device: {reads[0]} for 50 keys shown once, {reads[1]} for the same keys twice")


main()

#!/usr/bin/env python3
"""Counts folded words as Python does it: split, casefold, dict. Prints seconds and a checksum."""
import sys
import time

text = open(sys.argv[1], encoding="utf-8").read()
start = time.perf_counter()
counts = {}
total = 0
for word in text.split():
    word = word.casefold()
    total += 1
    counts[word] = counts.get(word, 0) + 1
first = list(counts.items())[:64]
impacts = sorted((word, 1 + 254 * count // total) for word, count in first)
print(f"{time.perf_counter() - start:.2f} s, {total} words, {len(impacts)} kept, sum {sum(i for _, i in impacts)}")

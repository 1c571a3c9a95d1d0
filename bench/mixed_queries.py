#!/usr/bin/env python3
"""Writes a script: so many places, half of them round the 180th meridian, and so many mixed queries over them, half of them with a scale.

usage: bench/mixed_queries.py PLACES QUERIES SEED"""
import random
import sys

places, queries, seed = map(int, sys.argv[1:])
random.seed(seed)
common = "place the of and bar cafe shop hotel park street".split()
rare = [f"w{n}" for n in range(150)]


def text():
    return " ".join(random.choice(common if random.random() < 0.5 else rare) for _ in range(random.randint(1, 8)))


def longitude(x):
    """A longitude within 20 degrees of 0, or the same from the 180th meridian."""
    return random.choice([x, x - 180 if x > 0 else x + 180])


def point():
    lon, lat = longitude(random.uniform(-20, 20)), random.uniform(-20, 20)
    return f"{lon:.{random.randint(0, 7)}f} {lat:.{random.randint(0, 7)}f}"


def scale():
    return f" scale {random.choice([0, 1, 500, 564, 999, 1000])}" if random.random() < 0.5 else ""


def word():
    return f'"{random.choice(common)}"' if random.random() < 0.1 else random.choice(["cafe", "bar", "shop", random.choice(rare)])


def some_filter(levels):
    kind = random.random()
    if levels == 0 or kind < 0.4:
        return word()
    if kind < 0.55:
        return "not " + some_filter(levels - 1) if random.random() < 0.5 else f"not ({some_filter(levels - 1)})"
    if kind < 0.7:
        return f"({some_filter(levels - 1)})"
    return f"{some_filter(levels - 1)} {random.choice(['and', 'or'])} {some_filter(levels - 1)}"


def where():
    return f" where {some_filter(2)}" if random.random() < 0.5 else ""


def some_words(pool, least, most):
    return random.sample(pool, random.randint(least, most))


def query():
    kind = random.random()
    if kind < 0.2:
        return f"range {point()} {random.uniform(0, 4):.3f}{scale()}{where()}"
    if kind < 0.4:
        west, south = longitude(random.uniform(-20, 18)), random.uniform(-20, 18)
        east = min(west + random.uniform(0, 4), 180)
        return f"box {west:.4f} {south:.4f} {east:.5f} {south + random.uniform(0, 4):.5f}{where()}"
    if kind < 0.65:
        return f"nearest {point()} {random.randint(1, 20)}{scale()}{where()}"
    if kind < 0.95:
        words = [w + (f"*{random.randint(1, 20)}" if random.random() < 0.3 else "") for w in some_words(common + rare, 1, 4)]
        numbers = f"{random.randint(1, 20)} {random.randint(0, 1000)} {random.uniform(0.1, 20):.2f}"
        if random.random() < 0.2:
            return f"top {point()} {numbers}{scale()} idf words {' '.join(some_words(common + rare, 1, 4))}"
        return f"top {point()} {numbers}{scale()} words {' '.join(words)}"
    if kind < 0.97:
        return f"{random.choice(['group', 'gather'])} {point()}{scale()} words {' '.join(some_words(rare, 1, 2))}"
    return f"show p{random.randrange(places + 5)}" if kind < 0.99 else "count"


for i in range(places):
    print(f"add p{i} {point()} {text()}")
for _ in range(queries):
    line = query()
    print("explain " + line if random.random() < 0.1 and not line.startswith(("show", "count")) and " idf " not in line else line)

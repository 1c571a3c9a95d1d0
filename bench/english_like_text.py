#!/usr/bin/env python3
"""Writes N bytes (default 100,000,000) of English-like text to standard output, always the same.

Words follow Zipf's law over a vocabulary of 20,000, sentences begin with a capital letter and end
with a full stop, a comma follows one word in ten, and one word in fifty has a letter beyond ASCII.
"""
import itertools
import random
import sys

SIZE = int(sys.argv[1]) if len(sys.argv) > 1 else 100_000_000
VOCABULARY = 20_000
# Relative frequencies of letters in English, per thousand.
LETTERS = {
    "e": 127, "t": 91, "a": 82, "o": 75, "i": 70, "n": 67, "s": 63, "h": 61, "r": 60, "d": 43,
    "l": 40, "c": 28, "u": 28, "m": 24, "w": 24, "f": 22, "g": 20, "y": 20, "p": 19, "b": 15,
    "v": 10, "k": 8, "j": 2, "x": 2, "q": 1, "z": 1,
}
LENGTHS = {1: 3, 2: 17, 3: 21, 4: 16, 5: 11, 6: 8, 7: 8, 8: 6, 9: 4, 10: 3, 11: 2, 12: 1}
BEYOND_ASCII = "éüøñçå"


def vocabulary(rng):
    letters, weights = list(LETTERS), list(LETTERS.values())
    lengths, shares = list(LENGTHS), list(LENGTHS.values())
    words = []
    for rank in range(VOCABULARY):
        length = rng.choices(lengths, shares)[0] + (rank > 100) + (rank > 2000)
        word = rng.choices(letters, weights, k=length)
        if rank % 50 == 49:
            word[rng.randrange(length)] = rng.choice(BEYOND_ASCII)
        words.append("".join(word))
    return words


def main():
    rng = random.Random(1)
    words = vocabulary(rng)
    weights = list(itertools.accumulate(1 / (rank + 2) for rank in range(VOCABULARY)))
    out = sys.stdout.buffer
    written = 0
    while written < SIZE:
        sentences = []
        for _ in range(2000):
            chosen = rng.choices(words, cum_weights=weights, k=rng.randint(4, 24))
            chosen[0] = chosen[0].capitalize()
            chosen = [w + "," if rng.random() < 0.1 else w for w in chosen]
            sentences.append(" ".join(chosen) + ". ")
        piece = "".join(sentences).encode()[: SIZE - written]
        out.write(piece.decode(errors="ignore").encode().ljust(len(piece), b" "))
        written += len(piece)


main()

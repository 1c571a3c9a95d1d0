#!/usr/bin/env python3
"""The plain program: answers a script by scanning a dict of places, as the definitions say.

usage: bench/scan.py < SCRIPT

It reads lines that are well formed, with texts of ASCII letters and digits, and says what the program irtree says of
them. It is an oracle for tests and the slow side of a benchmark, and shares no code with the program.
"""
import itertools
import json
import math
import re
import sys
from decimal import ROUND_HALF_UP, Decimal

UNIT = Decimal(10) ** 7
TOKEN = re.compile(r'\(|\)|"(?:[^"\\]|\\.)*"|[^ \t()"]+')


def units(spelling):
    return int((Decimal(spelling) * UNIT).to_integral_value(rounding=ROUND_HALF_UP))


def degrees(n):
    whole, part = divmod(n, 10**7)
    return f"{whole}.{part:07d}"


def dist(p, q, scale):
    """Longitudes go the shorter way round, and count as many thousandths as the scale says."""
    gap, dy = abs(p[0] - q[0]), p[1] - q[1]
    dx = min(gap, 3_600_000_000 - gap)
    return math.isqrt((scale * dx) ** 2 + (1000 * dy) ** 2) // 1000


def scale_of(tokens):
    """The scale that may come first among the rest of a line, and what follows it."""
    return (int(tokens[1]), tokens[2:]) if tokens[:1] == ["scale"] else (1000, tokens)


def impacts(text):
    words = [word.casefold() for word in re.findall(r"[A-Za-z0-9]+", text)]
    words = [word for word in words if len(word.encode()) <= 32]
    kept = list(dict.fromkeys(words))[:64]
    return {word: 1 + 254 * words.count(word) // len(words) for word in kept}


def label_of(text):
    """The text, which is one line, cut to as many whole characters as have at most 63 bytes."""
    return text.encode()[:63].decode(errors="ignore")


def key_order(key):
    return (0, key.encode(), 0) if isinstance(key, str) else (1, b"", key)


def literal(text):
    return json.dumps(text, ensure_ascii=False)


def key_text(key):
    return literal(key) if isinstance(key, str) else f"#{key}"


def word_of(token):
    return (json.loads(token) if token.startswith('"') else token).casefold()


class Filter:
    """E is one or more T joined by `or`, T one or more F joined by `and`, F is `not F`, `( E )` or a word."""

    def __init__(self, tokens):
        self.tokens = tokens
        self.at = 0
        self.test = self.either()

    def next_is(self, word):
        return self.at < len(self.tokens) and self.tokens[self.at] == word

    def either(self):
        left = self.both()
        while self.next_is("or"):
            self.at += 1
            left = (lambda a, b: lambda words: a(words) or b(words))(left, self.both())
        return left

    def both(self):
        left = self.one()
        while self.next_is("and"):
            self.at += 1
            left = (lambda a, b: lambda words: a(words) and b(words))(left, self.one())
        return left

    def one(self):
        token = self.tokens[self.at]
        self.at += 1
        if token == "not":
            inner = self.one()
            return lambda words: not inner(words)
        if token == "(":
            inner = self.either()
            self.at += 1
            return inner
        word = word_of(token)
        return lambda words: word in words


def filter_of(tokens):
    return Filter(tokens[1:]).test if tokens else (lambda words: True)


class Store:
    def __init__(self):
        self.places = {}
        self.order = None

    def by_key(self):
        if self.order is None:
            self.order = sorted(self.places, key=key_order)
        return self.order

    def key(self, token):
        if token.startswith('"'):
            return json.loads(token)
        return int(token[1:]) if token.startswith("#") else token

    def near(self, at, scale, keep):
        hits = []
        for key in self.by_key():
            point, words, _ = self.places[key]
            if keep(words):
                hits.append((dist(at, point, scale), key_order(key), key, point))
        hits.sort()
        return hits

    def hits(self, hits, explain):
        yield f"= {len(hits)}"
        for rank, (cost, _, key, point) in enumerate(hits, 1):
            where = f" at {signed(point[0])} {signed(point[1])}" if explain else ""
            yield f"{rank} {key_text(key)} {degrees(cost)}{where}"

    def range(self, tokens, explain):
        at, radius, (scale, rest) = (units(tokens[0]), units(tokens[1])), units(tokens[2]), scale_of(tokens[3:])
        yield from self.hits([hit for hit in self.near(at, scale, filter_of(rest)) if hit[0] <= radius], explain)

    def nearest(self, tokens, explain):
        at, (scale, rest) = (units(tokens[0]), units(tokens[1])), scale_of(tokens[3:])
        yield from self.hits(self.near(at, scale, filter_of(rest))[: int(tokens[2])], explain)

    def box(self, tokens, explain):
        west, south, east, north = map(units, tokens[:4])
        keep = filter_of(tokens[4:])
        found = []
        for key in self.by_key():
            (x, y), words, _ = self.places[key]
            if west <= x <= east and south <= y <= north and keep(words):
                found.append((key, (x, y)))
        yield f"= {len(found)}"
        for rank, (key, point) in enumerate(found, 1):
            where = f" at {signed(point[0])} {signed(point[1])}" if explain else ""
            yield f"{rank} {key_text(key)}{where}"

    def top(self, tokens, explain):
        at, k, alpha, reach = (units(tokens[0]), units(tokens[1])), int(tokens[2]), int(tokens[3]), units(tokens[4])
        (scale, rest), weights = scale_of(tokens[5:]), {}
        if rest[0] == "idf":
            for word in map(word_of, rest[2:]):
                holders = sum(word in words for _, words, _ in self.places.values())
                weights[word] = 1 + max(e for e in range(20) if holders << e <= len(self.places)) if holders else 1
        else:
            for token in rest[1:]:
                word, _, weight = ("", "", "") if token.startswith('"') else token.rpartition("*")
                weights[word_of(word or token)] = int(weight) if word else 1
        total = sum(weights.values())
        hits = []
        for key in self.by_key():
            point, words, _ = self.places[key]
            if any(word in words for word in weights):
                text = sum(weight * words.get(word, 0) for word, weight in weights.items())
                away = dist(at, point, scale)
                cost = alpha * away * 255 * total + (1000 - alpha) * reach * (255 * total - text)
                hits.append((cost, key_order(key), key, point, away, text))
        hits.sort()
        hits = hits[:k]
        yield f"= {len(hits)}"
        for rank, (cost, _, key, point, away, text) in enumerate(hits, 1):
            more = ""
            if explain:
                more = f" at {signed(point[0])} {signed(point[1])} dist {degrees(away)} text {text} of {255 * total}"
            yield f"{rank} {key_text(key)} {cost}{more}"

    def group(self, tokens, explain):
        def price(at, scale, choice):
            points = [self.places[key][0] for key in choice]
            return max(dist(at, point, scale) for point in points) + max(dist(p, q, scale) for p in points for q in points)
        yield from self.chosen(tokens, explain, price)

    def gather(self, tokens, explain):
        def price(at, scale, choice):
            return sum(dist(at, self.places[key][0], scale) for key in set(choice))
        yield from self.chosen(tokens, explain, price)

    def chosen(self, tokens, explain, price):
        at, (scale, rest) = (units(tokens[0]), units(tokens[1])), scale_of(tokens[2:])
        words = [word_of(token) for token in rest[1:]]
        columns = [[key for key in self.by_key() if word in self.places[key][1]] for word in words]
        best = None
        for choice in itertools.product(*columns):
            offer = (price(at, scale, choice), [key_order(key) for key in choice], choice)
            if best is None or offer < best:
                best = offer
        if best is None:
            yield "none"
            return
        yield f"= {len(words)} {degrees(best[0])}"
        for rank, (word, key) in enumerate(zip(words, best[2]), 1):
            point = self.places[key][0]
            where = f" at {signed(point[0])} {signed(point[1])}" if explain else ""
            yield f"{rank} {literal(word)} {key_text(key)} {degrees(dist(at, point, scale))}{where}"

    def line(self, line):
        tokens = TOKEN.findall(line)
        if not tokens or tokens[0].startswith("#"):
            return
        command = tokens[0]
        if command == "add":
            key, parts = self.key(tokens[1]), line.split(None, 4)
            text = parts[4] if len(parts) > 4 else ""
            self.order = None if key not in self.places else self.order
            yield "ok replaced" if key in self.places else "ok"
            self.places[key] = (units(tokens[2]), units(tokens[3])), impacts(text), label_of(text)
        elif command == "remove":
            key = self.key(tokens[1])
            if key in self.places:
                del self.places[key]
                self.order = None
                yield "ok"
            else:
                yield "absent"
        elif command == "count":
            yield f"count {len(self.places)}"
        elif command == "show":
            key = self.key(tokens[1])
            if key not in self.places:
                yield "absent"
                return
            point, words, label = self.places[key]
            yield f"place {key_text(key)} {signed(point[0])} {signed(point[1])} {len(words)} {literal(label)}"
            for word in sorted(words, key=str.encode):
                yield f"{literal(word)} {words[word]}"
        elif command == "explain":
            yield from getattr(self, tokens[1])(tokens[2:], True)
        else:
            yield from getattr(self, command)(tokens[1:], False)


def signed(n):
    return ("-" if n < 0 else "") + degrees(abs(n))


def main():
    store = Store()
    for line in sys.stdin:
        for reply in store.line(line.rstrip("\r\n")):
            print(reply)


if __name__ == "__main__":
    main()

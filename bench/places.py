"""Places like a user's: points in clusters, words by Zipf's law among 20,000, 1 to 20 of them in a text, keys in no order, some automatic.

usage: python3 bench/places.py COUNT [SEED] [geojson|script]    (a script gives every place a text key, as `add` needs one)
"""
import json
import random
import sys
from itertools import accumulate

WORDS = 20_000
CLUSTERS = 300


def _words(rng):
    """Made-up words of one to four syllables, one in twenty of them with a letter that isn't ASCII."""
    heads = "b c d f g h j k l m n p r s t v w z br ch dr fl gr kl pl pr sch sk st str tr".split()
    vowels = ["a", "e", "i", "o", "u", "ai", "ei", "ou"]
    found = {}
    while len(found) < WORDS:
        word = "".join(rng.choice(heads) + rng.choice(vowels) + rng.choice(["", "", "n", "r", "s", "l"]) for _ in range(rng.choice((1, 2, 2, 3, 3, 4))))
        if rng.random() < 0.05:
            word = word.replace("a", "ä", 1).replace("o", "ø", 1).replace("e", "é", 1)
        found.setdefault(word)
    return list(found)


def places(count, seed=7, words_each=None, lengths=None):
    """Yields (key, longitude, latitude, text); a key of None is automatic. Each text has so many words, if a number is given, or from the first to the
    second of two `lengths`, each as often."""
    rng = random.Random(seed)
    words = _words(random.Random(1))
    weights = list(accumulate(1 / (rank + 3) for rank in range(WORDS)))
    clusters = [(rng.uniform(-175, 175), rng.uniform(-70, 70), 10 ** rng.uniform(-2, 0)) for _ in range(CLUSTERS)]
    sizes = list(accumulate(1 / (rank + 1) for rank in range(CLUSTERS)))
    for _ in range(count):
        if rng.random() < 0.1:
            x, y = rng.uniform(-180, 180), rng.uniform(-90, 90)
        else:
            east, north, spread = rng.choices(clusters, cum_weights=sizes)[0]
            x, y = rng.gauss(east, spread), rng.gauss(north, spread)
        x, y = min(max(x, -180), 180), min(max(y, -90), 90)
        length = rng.randint(*lengths) if lengths else words_each or min(20, 1 + int(rng.expovariate(1 / 7)))
        key = None if rng.random() < 0.1 else f"{rng.getrandbits(48):012x}"
        yield key, round(x, 7), round(y, 7), " ".join(rng.choices(words, cum_weights=weights, k=length))


def feature(key, x, y, text):
    named = {} if key is None else {"id": key}
    return {"type": "Feature", **named, "geometry": {"type": "Point", "coordinates": [x, y]}, "properties": {"name": text}}


def geojson(rows):
    return json.dumps({"type": "FeatureCollection", "features": [feature(*row) for row in rows]}, ensure_ascii=False).encode()


def script(rows):
    return "".join(f"add {key or 'a%d' % i} {x:.7f} {y:.7f} {text}\n" for i, (key, x, y, text) in enumerate(rows)).encode()


if __name__ == "__main__":
    count = int(sys.argv[1])
    seed = int(sys.argv[2]) if len(sys.argv) > 2 else 7
    write = script if len(sys.argv) > 3 and sys.argv[3] == "script" else geojson
    sys.stdout.buffer.write(write(places(count, seed)))

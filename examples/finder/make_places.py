"""Writes the places of a made-up town as GeoJSON: cafés, bakeries, museums and more along the streets of its quarters.

usage: python3 examples/finder/make_places.py [COUNT [SEED]]    (2000 places of the seed 1 if absent; the same numbers make the same town)
"""
import json
import math
import random
import sys

# Each kind of place: how often it occurs, its name with {} for a word of its own, and what it may offer.
KINDS = {
    "café": (16, "Café {}", "coffee cake breakfast terrace vegan wifi books"),
    "bakery": (12, "Bakery {}", "bread cake coffee rolls breakfast"),
    "bar": (12, "{} Bar", "beer cocktails music late terrace"),
    "restaurant": (12, "Restaurant {}", "lunch dinner fish vegan terrace wine"),
    "grocer": (10, "{} Grocer", "bread fruit cheese wine late"),
    "sushi": (6, "Sushi {}", "fish lunch dinner takeaway"),
    "pizza": (6, "Pizzeria {}", "dinner takeaway wine late"),
    "bookshop": (5, "{} Books", "books maps coffee music"),
    "pharmacy": (5, "Pharmacy {}", "medicine late"),
    "hotel": (5, "Hotel {}", "rooms breakfast bar sauna"),
    "bicycles": (4, "{} Bicycles", "repair rental"),
    "playground": (4, "{} Playground", "swings sand shade"),
    "library": (2, "{} Library", "books maps wifi reading"),
    "museum": (2, "{} Museum", "art ships history shop café"),
    "theatre": (2, "{} Theatre", "music plays bar"),
    "cinema": (2, "{} Cinema", "films popcorn late"),
    "swimming": (2, "{} Baths", "pool sauna café"),
    "lighthouse": (0.2, "{} Light", "view history stairs"),
}
OWN = ("Bølgen Anchor Willow Lantern Copper Juniper Heron Amber Mill Swan Fjord Clover Magnus Ida Otto Freja Karla Viggo Thistle Gull Oak "
       "Harvest Pilot North Blue Old Royal Little Golden Green Märta Élan Crown Moon Ferry Stork Linden Salt Ember Saga").split()
STREETS = ("Rope Tar Sail Fish Ferry Mill Market Church Bell Glass Silver Baker Cooper Weaver King Queen Garden Rose Linden Orchard "
           "Bridge Tower Castle Meadow Hill School Canal Lock Forge Stone").split()
WAYS = ["Street", "Lane", "Row", "Road"]
# Each quarter: its middle in thousandths of a degree from the town's, the length of its streets, its share, and the kinds it has most of.
QUARTERS = {
    "Old Town": (0, 0, 14, 12, "café museum bookshop bar"),
    "Harbour": (29, 3, 18, 9, "sushi bar lighthouse restaurant"),
    "Station": (-17, -9, 15, 8, "hotel grocer bicycles pizza"),
    "University": (-12, 15, 16, 7, "library bookshop café pizza"),
    "Riverside": (15, -17, 18, 6, "playground swimming restaurant"),
    "Northfield": (16, 20, 15, 4, "grocer playground bakery"),
    "Westgate": (-37, 5, 17, 4, "grocer pharmacy bakery"),
    "Southmoor": (-24, -26, 14, 3, "grocer playground pharmacy"),
}
TOWN = (12.575, 55.69)


def streets_of(rng, quarter):
    """The streets of a quarter as (name, start, direction, length): half run along it, half across, and one leads to the town's middle."""
    east, north, long, _, _ = QUARTERS[quarter]
    turn, found = rng.uniform(0, math.pi / 2), []
    for number, name in enumerate(rng.sample(STREETS, 10)):
        angle, length = turn + (number % 2) * math.pi / 2 + rng.gauss(0, 0.08), long * rng.uniform(0.7, 1.2)
        aside = (number // 2 - 2) * long / 5 + rng.uniform(-0.6, 0.6)
        x, y = east - math.sin(angle) * aside - math.cos(angle) * length / 2, north + math.cos(angle) * aside - math.sin(angle) * length / 2
        found.append((f"{name} {rng.choice(WAYS)}", x, y, angle, length))
    leading = (f"{quarter} Road", 0, 0, math.atan2(north, east), math.hypot(east, north))
    return found + [leading] * (2 if leading[-1] else 0)


def places(count, seed):
    """Yields one feature a place. Its `id` is its name and address, which no other place has."""
    rng = random.Random(seed)
    streets = {quarter: streets_of(rng, quarter) for quarter in QUARTERS}
    shares = [quarter[3] for quarter in QUARTERS.values()]
    used = set()
    while len(used) < count:
        quarter = rng.choices(list(QUARTERS), shares)[0]
        liked = QUARTERS[quarter][4].split()
        kind = rng.choices(list(KINDS), [KINDS[kind][0] * (3 if kind in liked else 1) for kind in KINDS])[0]
        street, east, north, angle, long = rng.choice(streets[quarter])
        along = rng.betavariate(1.7, 1.7)
        side = rng.choice((-0.12, 0.12)) + rng.gauss(0, 0.05)
        x = TOWN[0] + (east + math.cos(angle) * along * long - math.sin(angle) * side) / 1000
        y = TOWN[1] + (north + math.sin(angle) * along * long + math.cos(angle) * side) / 1000
        name = KINDS[kind][1].format(rng.choice(OWN))
        key = f"{name}, {street} {1 + int(along * 90) * 2 + (side > 0)}"
        if key in used:
            continue
        used.add(key)
        offers = rng.sample(KINDS[kind][2].split(), rng.randint(1, 2))
        yield {"type": "Feature", "id": key, "geometry": {"type": "Point", "coordinates": [round(x, 7), round(y, 7)]},
               "properties": {"name": name, "kind": kind, "offers": " ".join(offers), "street": street, "quarter": quarter}}


if __name__ == "__main__":
    count, seed = [int(number) for number in sys.argv[1:3]] + [2000, 1][len(sys.argv[1:3]):]
    features = ",\n".join(json.dumps(place, ensure_ascii=False) for place in places(count, seed))
    sys.stdout.buffer.write(f'{{"type": "FeatureCollection", "features": [\n{features}\n]}}\n'.encode())

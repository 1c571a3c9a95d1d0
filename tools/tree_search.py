"""Searches the tree of a store that store_file.py read, by the rules of the tree and without the program's code.

`best_first` gives the hits of a `nearest` or a `top` query and the nodes that are opened for it, `cheapest_group` the places of a `group`
query. Distances are in units of 10^-7 degrees. Longitudes meet at 180 degrees, and count as many thousandths of their size as a scale
says. Words of a query are folded by Python: of a letter that is new in Unicode it may know another small form than the program.
"""
import heapq
import json
import math
import re
from collections import namedtuple
from decimal import ROUND_HALF_UP, Decimal, InvalidOperation

from store_file import Refused

CIRCLE = 360 * 10 ** 7                  # the way round the earth

Opening = namedtuple("Opening", "bound level page")
Hit = namedtuple("Hit", "cost key")


def units(spelling, limit):
    """Degrees as units, rounded half away from zero."""
    try:
        number = int((Decimal(spelling) * 10 ** 7).to_integral_value(rounding=ROUND_HALF_UP))
    except (InvalidOperation, ValueError, OverflowError) as error:
        raise Refused(f"{spelling!r} isn't a number of degrees") from error
    if abs(number) > limit * 10 ** 7:
        raise Refused(f"{spelling} isn't within {limit} degrees")
    return number


def counted(spelling, least, most, name):
    """Digits as a number of this range."""
    if not (spelling.isascii() and spelling.isdigit() and least <= int(spelling) <= most):
        raise Refused(f"{name} is {spelling!r}, not {least} to {most}")
    return int(spelling)


def degrees(number):
    return f"{'-' if number < 0 else ''}{abs(number) // 10 ** 7}.{abs(number) % 10 ** 7:07d}"


def line(east, north, scale):
    """How long a line is that goes so many units east and north."""
    return math.isqrt((scale * east) ** 2 + (1000 * north) ** 2) // 1000


def longitude_gap(a, b):
    """The lesser of the two ways round from one longitude to another."""
    gap = abs(a - b)
    return min(gap, CIRCLE - gap)


def distance(p, q, scale):
    return line(longitude_gap(p[0], q[0]), abs(p[1] - q[1]), scale)


def mindist(rectangle, p, scale):
    """The distance to the nearest point of a rectangle (Roussopoulos, Kelley and Vincent 1995, with longitudes that meet)."""
    west, south, east, north = rectangle
    gap = 0 if west <= p[0] <= east else min(longitude_gap(p[0], west), longitude_gap(p[0], east))
    return line(gap, max(south - p[1], 0, p[1] - north), scale)


class Nearest:
    """What `nearest` asks of words: a filter, or None. Bounds and costs are distances."""

    def __init__(self, tree=None):
        self.tree = tree

    def admits(self, level, impact):
        return self.tree is None or _meets(self.tree, level, impact)

    def cost(self, away, impact):
        return away


class Top:
    """What `top` asks of words: one of them. Bounds and costs are as docs/QUERIES.md gives them."""

    def __init__(self, alpha, reach, words):
        self.alpha, self.reach, self.weights = alpha, reach, {}
        for word in words:
            name, _, weight = ("", "", "") if word.startswith('"') else word.rpartition("*")
            self.weights[folded(name or word)] = counted(weight, 1, 20, "WEIGHT") if name else 1
        if len(self.weights) < len(words):
            raise Refused("a word comes twice")
        self.total = 255 * sum(self.weights.values())

    def admits(self, level, impact):
        return any(impact(word) for word in self.weights)

    def cost(self, away, impact):
        text = sum(weight * impact(word) for word, weight in self.weights.items())
        return self.alpha * away * self.total + (1000 - self.alpha) * self.reach * (self.total - text)


def folded(word):
    """A word as a store keeps it; it may be a JSON string."""
    try:
        return (json.loads(word) if word.startswith('"') else word).casefold()
    except json.JSONDecodeError as error:
        raise Refused(f"{word} isn't a JSON string") from error


def filter_of(text):
    """A filter as (name, parts ..): `or` of `and`s, `and` of `not`s, words and parentheses."""
    tokens = re.findall(r'\(|\)|"(?:[^"\\]|\\.)*"|[^ \t()"]+', text)

    def joined(name, part):
        found = [part()]
        while tokens and tokens[0] == name:
            tokens.pop(0)
            found.append(part())
        return (name, *found) if len(found) > 1 else found[0]

    def either():
        return joined("or", lambda: joined("and", one))

    def one():
        token = tokens.pop(0) if tokens else ")"
        if token in (")", "and", "or"):
            raise Refused(f"the filter {text!r} lacks a word")
        if token == "not":
            return "not", one()
        if token != "(":
            return "has", folded(token)
        inner = either()
        if not tokens or tokens.pop(0) != ")":
            raise Refused(f"the filter {text!r} lacks a parenthesis")
        return inner

    tree = either()
    if tokens:
        raise Refused(f"the filter {text!r} goes on after its end")
    return tree


def _meets(tree, level, impact):
    """In a leaf whether a place meets the filter; above it whether one below may: what is held above may be missing below."""
    name, *parts = tree
    if name == "has":
        return impact(parts[0]) > 0
    if name == "not":
        return level > 0 or not _meets(parts[0], level, impact)
    return (all if name == "and" else any)(_meets(part, level, impact) for part in parts)


def best_first(store, at, k, ask, scale):
    """The first k places by cost and then by key, and the nodes opened for them in their order, each with its bound.

    The node of the least bound is opened next, until k places cost less than it (Hjaltason and Samet 1999).
    """
    waiting, hits, opened = [], [], []
    if store.root:
        root = store.nodes[store.root]
        if any(ask.admits(1, lambda word, slot=slot: store.impact(root.page, slot, word)) for slot in root.slots):
            waiting = [Opening(0, root.level, root.page)]
    while waiting:
        opening = heapq.heappop(waiting)
        if len(hits) == k and hits[-1].cost < opening.bound:
            break
        opened.append(opening)
        node = store.nodes[opening.page]
        for slot in node.slots:
            def impact(word, page=node.page, slot=slot):
                return store.impact(page, slot, word)
            if not ask.admits(node.level, impact):
                continue
            cost = ask.cost(mindist(slot.rectangle, at, scale), impact)
            if node.level:
                heapq.heappush(waiting, Opening(cost, node.level - 1, slot.child))
            else:
                hits = sorted(hits + [Hit(cost, slot.key)])[:k]
    return hits, opened


def cheapest_group(store, at, words, scale):
    """Of all choices of a place for each word the least by greatest distance plus diameter, and then by keys, with its cost; or None."""
    if len(set(words)) < len(words):
        raise Refused("a word comes twice")
    lists = [sorted((distance(at, place.point, scale), place.key) for place in store.places.values() if store.impact_in(place, word))
             for word in words]
    if not all(lists):
        return None

    def cost(keys):
        points = [store.places[key].point for key in keys]
        return max(distance(at, p, scale) for p in points) + max(distance(p, q, scale) for p in points for q in points)

    first = [found[0][1] for found in lists]
    best = [cost(first), first]
    order = sorted(range(len(words)), key=lambda i: len(lists[i]))

    def extend(chosen):
        """Goes through the choices that begin so, and leaves each beginning that costs more than the best choice."""
        if len(chosen) == len(order):
            keys = [chosen[order.index(i)] for i in range(len(order))]
            best[:] = min(best, [cost(keys), keys])
            return
        for away, key in lists[order[len(chosen)]]:
            if away > best[0]:
                break
            if cost(chosen + [key]) <= best[0]:
                extend(chosen + [key])

    extend([])
    return best[0], best[1]

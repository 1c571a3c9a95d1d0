#!/usr/bin/env python3
"""Draws a store at rest as SVG, from its file alone: docs/FORMAT.md says how to read it, and the program isn't asked.

    python3 tools/picture.py STORE OUT.svg                                           the tree: its rectangles over its places
    python3 tools/picture.py STORE OUT.svg --nearest LON LAT K [--where FILTER]      the nodes that a `nearest` opens, and its hits
    python3 tools/picture.py STORE OUT.svg --top LON LAT K ALPHA REACH WORD*W ..     the same of a `top`
    python3 tools/picture.py STORE OUT.svg --group LON LAT WORD ..                   a group: its circle and its widest pair
    python3 tools/picture.py STORE OUT.svg --strip                                   the file: a cell a page, by kind

The parts of a query are those of docs/QUERIES.md; with --scale SCALE it has this scale. Opened is each node whose bound is at most the
cost of the last hit: its bound is the least cost that its rectangle and the rows of words allow for a place below it. A group goes through
all choices that may cost least: of words that thousands of places hold that takes long. A store whose journal has records is refused, and
so is one that a run has open.
"""
import argparse
import os
import sys
from collections import Counter

from drawing import HIT, INK, LEVELS, MARGIN, OPENED, PASSED, PLACE, WIDTH, Drawing, Map, key_of_signs, number, signs_for
from store_file import Refused, Store, key_text
from tree_search import CIRCLE, Nearest, Top, best_first, cheapest_group, counted, degrees, distance, filter_of, folded, mindist, units

LEFT, RIGHT = 690, 438                  # the widths of the two maps
KINDS = {"page 0": "#000000", "places": "#0072b2", "words by text": "#e69f00", "words by number": "#f5dc78", "rows of words": "#3aa882",
         "leaves of the tree": "#b2003b", "nodes above them": "#4f0a20", "free": "#e6e6e6", "not used": "#ffffff"}
CELLS = 20_000                          # a strip has no more cells than this
LEAVES = 400                            # of more leaves a query's map of the whole store has only those that matter to it


def wide_as(rectangle, least):
    """A rectangle with room around it."""
    west, south, east, north = rectangle
    room = max(east - west, north - south, least) // 60 + 1
    return west - room, south - room, east + room, north + room


def around(at, points):
    """The square round a point that has these points."""
    reach = max([int(1.15 * max(abs(x - at[0]), abs(y - at[1]))) for x, y in points] + [20_000])
    return at[0] - reach, at[1] - reach, at[0] + reach, at[1] + reach


def beside(at, points):
    """The points where their longitudes are nearest to a point's, which may be beyond 180 degrees."""
    return [(x + CIRCLE * round((at[0] - x) / CIRCLE), y) for x, y in points]


def turns_of(bounds):
    """What is to be added to longitudes of the map for each time that it meets a part with these bounds."""
    return [turn for turn in (0, -CIRCLE, CIRCLE) if bounds[0] <= CIRCLE // 2 + turn and -CIRCLE // 2 + turn <= bounds[2]]


def draw_reach(view, at, far, scale):
    """What is as far from a point: a circle, or with a scale an ellipse."""
    x, y = view.at(at)
    view.drawing.add("ellipse", cx=x, cy=y, rx=far * view.scale * 1000 / max(scale, 1), ry=far * view.scale, fill="none", stroke=INK,
                     stroke_width=1.2, stroke_dasharray="2 3")


def rectangles(store, page=None):
    """Yields (page, level, rectangle) of each node below the root, the upper levels first in each branch."""
    node = store.nodes[page or store.root]
    for slot in node.slots if node.level else []:
        yield slot.child, node.level - 1, slot.rectangle
        yield from rectangles(store, slot.child)


def whole(store):
    xs, ys = zip(*(place.point for place in store.places.values()))
    return wide_as((min(xs), min(ys), max(xs), max(ys)), 1000)


def draw_tree(store, view, opened=frozenset(), passed=frozenset(), dot=1.6, least=0):
    """The rectangles of the tree, from a level on, over its places; opened nodes and those passed by are all drawn, and last."""
    view.dots([place.point for place in store.places.values()], dot, PLACE)
    nodes = sorted(rectangles(store), key=lambda node: node[1])
    for page, level, rectangle in nodes:
        if page not in opened and page not in passed and level >= least:
            view.box(rectangle, stroke=LEVELS[min(level, 2)], stroke_width=0.7 + 0.4 * min(level, 2))
    for page, level, rectangle in nodes:
        if page in passed:
            view.box(rectangle, stroke=PASSED, stroke_width=1.3, stroke_dasharray="5 3")
    for page, level, rectangle in nodes:
        if page in opened:
            filled = "0.13" if level == 0 else "0"
            view.box(rectangle, stroke=OPENED, stroke_width=1.5 + 0.5 * min(level, 2), fill=OPENED, fill_opacity=filled)


def leaves_of(store):
    return sum(node.level == 0 for node in store.nodes.values())


def draw_levels(drawing, store, y, opened, passed, hits):
    """The tree from its root down, each node as wide as the leaves below it. Returns where it ends."""
    left, wide = MARGIN + 66, WIDTH - 2 * MARGIN - 66
    step, top = wide / leaves_of(store), store.nodes[store.root].level
    owner = {slot.key: page for page, node in store.nodes.items() if node.level == 0 for slot in node.slots}
    ranks, labels = {}, []
    for rank, hit in enumerate(hits, 1):
        ranks.setdefault(owner[hit.key], []).append(str(rank))

    def draw(page, x):
        """Draws a node whose first leaf is at x, and all below it. Returns how many leaves those are."""
        node, count = store.nodes[page], 0
        for slot in node.slots if node.level else []:
            count += draw(slot.child, x + count * step)
        count = count or 1
        row, width = y + 24 * (top - node.level), count * step
        if width >= 4:
            fill = OPENED if page in opened else "#ffffff"
            stroke, dash = (PASSED, "3 2") if page in passed else (LEVELS[1], "none")
            drawing.rectangle(x + 0.5, row, width - 1, 18, fill=fill, stroke=stroke, stroke_dasharray=dash)
        elif page in opened or page in passed:
            drawing.rectangle(x, row, max(width - 0.4, 0.8), 18, fill=OPENED if page in opened else PASSED,
                              fill_opacity="1" if page in opened else "0.35")
        if page in ranks and labels and x - labels[-1][0] < 7 * len(labels[-1][1]) + 5:
            labels[-1][1] += "," + ",".join(ranks[page])
        elif page in ranks:
            labels.append([x, ",".join(ranks[page])])
        return count

    for level in range(top + 1):
        name = "leaves" if level == 0 else "root" if level == top else f"level {level}"
        drawing.text(MARGIN, y + 24 * (top - level) + 14, name, 12)
    drawing.rectangle(left + 0.5, y + 24 * top, wide - 1, 18, stroke=LEVELS[0])
    draw(store.root, left)
    for x, text in labels:
        drawing.text(x + min(step / 2, 9) - 4, y + 24 * top + 31, text, 11, HIT, font_weight="bold")
    return y + 24 * (top + 1) + (16 if hits else 0)


def headed(drawing, subtitle):
    drawing.text(MARGIN, 36, drawing.title if len(drawing.title) < 90 else drawing.title[:88] + " ..", 20, font_weight="bold")
    drawing.text(MARGIN, 60, subtitle, 14, "#555555")


def two_maps(drawing, store, at, points, shown, opened=frozenset(), passed=frozenset()):
    """Draws the whole tree with some points at the left, and begins the map round the point, in which some more are shown."""
    least = 1 if leaves_of(store) > LEAVES else 0
    drawing.text(MARGIN, 90, f"the whole store{', without its other leaves' * least}")
    left = Map(drawing, whole(store), MARGIN, 98, LEFT, 430)
    bounds = around(at, beside(at, points) + shown)
    near = Map(drawing, bounds, MARGIN + LEFT + 24, 98, RIGHT, RIGHT, turns_of(bounds))
    drawing.text(near.x, 90, f"round the point: {degrees(near.bounds[2] - near.bounds[0])[:-4]} degrees wide")
    left.begin()
    draw_tree(store, left, opened, passed, least=least)
    left.dots(points, 4, HIT)
    left.box(near.bounds, stroke=INK, stroke_width=1.4)
    left.cross(at)
    left.end()
    near.begin()
    return left, near


def draw_ranked(store, path, at, k, ask, scale, query):
    hits, opened = best_first(store, at, k, ask, scale)
    pages = {opening.page for opening in opened}
    points = [store.places[hit.key].point for hit in hits]
    is_near, far = isinstance(ask, Nearest), max([distance(at, point, scale) for point in points], default=0)
    passed = {slot.child for page in pages for slot in store.nodes[page].slots if slot.child is not None
              and not ask.admits(store.nodes[page].level, lambda word, page=page, slot=slot: store.impact(page, slot, word))
              and not (is_near and mindist(slot.rectangle, at, scale) > far)}
    drawing = Drawing(query)
    headed(drawing, f"{len(store.places):,} places in {len(store.nodes)} nodes: {len(pages)} nodes are opened for {len(hits)} hits")
    left, near = two_maps(drawing, store, at, points, [], pages, passed)
    draw_tree(store, near, pages, passed, 3)
    if is_near:
        draw_reach(near, at, far, scale)
    near.dots(points, 7, HIT)
    near.cross(at)
    near.labels([(point, str(rank)) for rank, point in enumerate(beside(at, points[:40]), 1)], at)
    near.end()
    signs = signs_for(drawing)
    why = "no farther than the last hit, and it may hold one" if is_near else "its bound is at most the last cost"
    if len(hits) < k:
        why = f"there are fewer than {k} hits"
    y = left.y + left.height + 30
    key_of_signs(drawing, MARGIN, y, [
        (signs["opened"], f"node opened: {why}"),
        (signs["passed"], f"passed by{', though as near' if is_near else ''}: no place below it has the words"),
        (signs["other"], "other node, darker on higher levels"), (signs["place"], "place"), (signs["hit"], "hit, by rank"),
        (signs["point"], "the point of the query")] + [(signs["circle"], "as far as the last hit")] * is_near)
    for rank, (hit, point) in enumerate(list(zip(hits, points))[:7], 1):
        cost = degrees(hit.cost) if is_near else hit.cost
        drawing.text(MARGIN + (480 if is_near else 440), y + 4 + 22 * (rank - 1), f"{rank}  {key_text(hit.key)[:16]}  {cost}", 13, HIT)
    y = max(y + 154, near.y + near.height) + 24
    drawing.text(MARGIN, y, "the tree: each node over the leaves below it; filled if it is opened, with the ranks of a leaf's hits")
    drawing.write(path, draw_levels(drawing, store, y + 12, pages, passed, hits) + 16)


def draw_group(store, path, at, words, scale, query):
    found = cheapest_group(store, at, words, scale)
    if found is None:
        raise Refused("none: a word has no place")
    cost, keys = found
    points = [store.places[key].point for key in keys]
    far = max(distance(at, point, scale) for point in points)
    pair = max(((p, q) for p in points for q in points), key=lambda pair: distance(*pair, scale))
    drawing = Drawing(query)
    headed(drawing, f"{len(store.places):,} places; the group costs {degrees(cost)} = {degrees(far)} + {degrees(distance(*pair, scale))}")
    left, near = two_maps(drawing, store, at, points, [(at[0] + far, at[1] + far)])
    draw_tree(store, near, dot=3)
    near.dots([place.point for place in store.places.values() if any(store.impact_in(place, word) for word in words)], 5, PASSED)
    draw_reach(near, at, far, scale)
    (x1, y1), (x2, y2) = map(near.at, beside(at, pair))
    drawing.add("line", x1=x1, y1=y1, x2=x2, y2=y2, stroke=HIT, stroke_width=2)
    near.dots(points, 8, HIT)
    near.cross(at)
    near.labels(list(zip(beside(at, points), words)), at)
    near.end()
    signs, y = signs_for(drawing), left.y + left.height + 30
    key_of_signs(drawing, MARGIN, y, [
        (signs["hit"], "place of the group, with its word"), (signs["holder"], "other place that has one of the words"),
        (signs["place"], "place without them"), (signs["point"], "the point of the query"),
        (signs["circle"], "the greatest distance to the point"), (signs["pair"], "the greatest distance between two")])
    for index, (word, key, point) in enumerate(zip(words, keys, points)):
        drawing.text(MARGIN + 330, y + 4 + 22 * index, f"{word}  {key_text(key)[:20]}  {degrees(distance(at, point, scale))}", 13, HIT)
    drawing.write(path, max(y + 140, near.y + near.height) + 24)


def draw_whole(store, path, name):
    drawing = Drawing(f"The tree of {name}")
    headed(drawing, f"{len(store.places):,} places in {len(store.nodes)} nodes of at most 32 slots")
    view = Map(drawing, whole(store), MARGIN, 80, WIDTH - 2 * MARGIN, 640)
    view.begin()
    draw_tree(store, view, dot=2.2)
    view.end()
    y = view.y + view.height + 28
    signs = signs_for(drawing)
    key_of_signs(drawing, MARGIN, y, [
        (signs["other"], "node: the least rectangle round the places below it, darker on higher levels"), (signs["place"], "place")])
    drawing.text(MARGIN, y + 58, "the tree: each node over the leaves below it")
    drawing.write(path, draw_levels(drawing, store, y + 70, set(), set(), []) + 16)


def draw_strip(store, path, name):
    each = -(-store.counted // CELLS)
    kinds = [Counter(store.kinds.get(page, "not used") for page in range(first, min(first + each, store.counted))).most_common(1)[0][0]
             for first in range(0, store.counted, each)]
    columns = max(60, int((len(kinds) * 2.4) ** 0.5) // 10 * 10)
    size = (WIDTH - 2 * MARGIN - 60) / columns
    drawing = Drawing(f"The file of {name}, page by page")
    cell = "a page" if each == 1 else f"{each} pages"
    headed(drawing, f"{store.counted:,} pages of 4,096 bytes, for {len(store.places):,} places; a cell is {cell}")
    gap = min(1.5, size / 8)
    for kind in dict.fromkeys(kinds):
        cells = [(MARGIN + 60 + i % columns * size, 84 + i // columns * size) for i, other in enumerate(kinds) if other == kind]
        side = number(size - gap)
        drawing.add("path", d="".join(f"M{number(x)} {number(y)}h{side}v{side}h-{side}z" for x, y in cells), fill=KINDS[kind])
    rows = -(-len(kinds) // columns)
    for row in range(0, rows, max(1, int(16 / size) + 1)):
        drawing.text(MARGIN + 52, 84 + row * size + min(size, 14) - 2, f"{row * columns * each:,}", 11, text_anchor="end")
    y = 84 + rows * size + 30
    counts = Counter(store.kinds.get(page, "not used") for page in range(store.counted))
    for index, (kind, colour) in enumerate((kind, colour) for kind, colour in KINDS.items() if counts[kind]):
        x, line = MARGIN + 60 + index % 4 * 275, y + index // 4 * 26
        drawing.rectangle(x, line - 7, 14, 14, fill=colour, stroke="#999999", stroke_width=0.5)
        drawing.text(x + 22, line + 4, f"{kind}: {counts[kind]:,} ({100 * counts[kind] / store.counted:.1f}%)")
    drawing.write(path, y + 50)


def draw(options):
    store, name = Store(options.store), os.path.basename(options.store)
    if options.strip:
        return draw_strip(store, options.out, name)
    if not store.places:
        raise Refused(f"{options.store}: the store has no places")
    scale, scaled = 1000, ""
    if options.scale is not None:
        scale, scaled = counted(options.scale, 0, 1000, "SCALE"), f" scale {options.scale}"
    if options.nearest:
        at = units(options.nearest[0], 180), units(options.nearest[1], 90)
        words = " ".join(options.where or [])
        query = f"nearest {' '.join(options.nearest)}{scaled}{' where ' + words if words else ''}"
        ask = Nearest(filter_of(words) if words else None)
        return draw_ranked(store, options.out, at, counted(options.nearest[2], 1, 1000, "K"), ask, scale, query)
    if options.top:
        if len(options.top) < 6:
            raise Refused("--top takes LON LAT K ALPHA REACH and words")
        lon, lat, k, alpha, reach, *words = options.top
        if not 1 <= units(reach, 403) <= 4_024_922_359:
            raise Refused(f"REACH is {reach}, not 0.0000001 to 402.4922359")
        ask = Top(counted(alpha, 0, 1000, "ALPHA"), units(reach, 403), words)
        query = f"top {lon} {lat} {k} {alpha} {reach}{scaled} words {' '.join(words)}"
        return draw_ranked(store, options.out, (units(lon, 180), units(lat, 90)), counted(k, 1, 1000, "K"), ask, scale, query)
    if options.group:
        if not 3 <= len(options.group) <= 10:
            raise Refused("--group takes LON LAT and 1 to 8 words")
        lon, lat, *words = options.group
        query = f"group {lon} {lat}{scaled} words {' '.join(words)}"
        return draw_group(store, options.out, (units(lon, 180), units(lat, 90)), [folded(word) for word in words], scale, query)
    return draw_whole(store, options.out, name)


def main():
    parser = argparse.ArgumentParser(description=__doc__, formatter_class=argparse.RawDescriptionHelpFormatter)
    parser.add_argument("store", metavar="STORE")
    parser.add_argument("out", metavar="OUT.svg")
    one = parser.add_mutually_exclusive_group()
    one.add_argument("--nearest", nargs=3, metavar=("LON", "LAT", "K"))
    one.add_argument("--top", nargs="+", metavar="PART", help="LON LAT K ALPHA REACH WORD*WEIGHT ..")
    one.add_argument("--group", nargs="+", metavar="PART", help="LON LAT WORD ..")
    one.add_argument("--strip", action="store_true")
    parser.add_argument("--where", nargs="+", metavar="FILTER", help="of --nearest; quote parentheses for the shell")
    parser.add_argument("--scale", metavar="SCALE", help="of a query: 0 to 1000, how many thousandths longitudes count")
    options = parser.parse_args()
    if options.where and not options.nearest:
        parser.error("--where goes with --nearest")
    if options.scale is not None and not (options.nearest or options.top or options.group):
        parser.error("--scale goes with --nearest, --top or --group")
    try:
        draw(options)
    except Refused as refused:
        sys.exit(f"picture: {refused}")


if __name__ == "__main__":
    main()

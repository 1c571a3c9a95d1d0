"""Elements of an SVG, maps within it, and the signs that pictures of a store share."""
from html import escape
from math import dist

from store_file import Refused

WIDTH, MARGIN = 1200, 24
OPENED, PASSED, HIT, INK, PLACE = "#0072b2", "#b35900", "#b2003b", "#222222", "#8c8c8c"
LEVELS = ["#c4c4c4", "#7d7d7d", "#4a4a4a"]      # outlines of leaves, of the level above, and of all others


def number(value):
    return f"{value:.1f}".removesuffix(".0")


class Drawing:
    """The elements of an SVG, in the order in which they are painted."""

    def __init__(self, title):
        self.title, self.parts = title, []

    def add(self, name, text=None, **attributes):
        spelled = "".join(f' {key.replace("_", "-")}="{number(value) if isinstance(value, (int, float)) else escape(value)}"'
                          for key, value in attributes.items())
        self.parts.append(f"<{name}{spelled}/>" if text is None else f"<{name}{spelled}>{escape(text)}</{name}>")

    def text(self, x, y, text, size=13, fill=INK, **more):
        self.add("text", text, x=x, y=y, font_size=size, fill=fill, **more)

    def label(self, x, y, text, fill):
        """Text with a white rim, to be read over lines."""
        self.text(x, y, text, 12, fill, font_weight="bold", stroke="#ffffff", stroke_width=3, paint_order="stroke", stroke_linejoin="round")

    def rectangle(self, x, y, width, height, **style):
        self.add("rect", x=x, y=y, width=width, height=height, **{"fill": "none", **style})

    def write(self, path, height):
        head = (f'<svg xmlns="http://www.w3.org/2000/svg" viewBox="0 0 {WIDTH} {height:.0f}" width="{WIDTH}" height="{height:.0f}" '
                f'font-family="DejaVu Sans, Verdana, sans-serif">\n<title>{escape(self.title)}</title>\n'
                f'<rect width="{WIDTH}" height="{height:.0f}" fill="#ffffff"/>\n')
        try:
            with open(path, "w", encoding="utf-8") as file:
                file.write(head + "\n".join(self.parts) + "\n</svg>\n")
        except OSError as error:
            raise Refused(f"{path}: {error.strerror}") from error


class Map:
    """A part of the map of degrees as a rectangle of the drawing, at one scale on both axes.

    Boxes and dots are drawn once at each of the turns, which are added to longitudes: a part that goes beyond 180 degrees needs more.
    """

    def __init__(self, drawing, bounds, x, y, width, height, turns=(0,)):
        self.drawing, self.turns, (self.west, south, east, self.north) = drawing, turns, bounds
        self.bounds = bounds
        self.scale = min(width / (east - self.west), height / (self.north - south))
        self.x, self.y, self.width, self.height = x, y, (east - self.west) * self.scale, (self.north - south) * self.scale

    def begin(self):
        width, height = number(self.width), number(self.height)
        self.drawing.parts.append(f'<svg x="{self.x}" y="{self.y}" width="{width}" height="{height}" overflow="hidden">')

    def end(self):
        self.drawing.rectangle(0.5, 0.5, self.width - 1, self.height - 1, stroke=INK)
        self.drawing.parts.append("</svg>")

    def at(self, point):
        return (point[0] - self.west) * self.scale, (self.north - point[1]) * self.scale

    def meets(self, rectangle):
        west, south, east, north = self.bounds
        return rectangle[0] <= east and rectangle[2] >= west and rectangle[1] <= north and rectangle[3] >= south

    def box(self, rectangle, **style):
        """A rectangle of the map, cut off outside of this part."""
        west, south, east, north = rectangle
        for turn in filter(lambda turn: self.meets((west + turn, south, east + turn, north)), self.turns):
            (x, y), (right, low) = self.at((west + turn, north)), self.at((east + turn, south))
            x, y, right, low = max(x, -9), max(y, -9), min(right, self.width + 9), min(low, self.height + 9)
            self.drawing.rectangle(x, y, max(right - x, 0.8), max(low - y, 0.8), **style)

    def dots(self, points, size, colour):
        """Points as one path of short lines with round ends, which takes few bytes."""
        turned = [(x + turn, y) for x, y in points for turn in self.turns]
        shown = sorted({tuple(number(z) for z in self.at(point)) for point in turned if self.meets(point * 2)})
        if shown:
            self.drawing.add("path", d="".join(f"M{x} {y}h0" for x, y in shown), fill="none", stroke=colour, stroke_width=size,
                             stroke_linecap="round")

    def cross(self, point):
        x, y = self.at(point)
        self.drawing.add("path", d=f"M{x - 7:.1f} {y:.1f}h14M{x:.1f} {y - 7:.1f}v14", stroke=INK, stroke_width=2.4, fill="none")

    def labels(self, named, cross):
        """Texts beside their points, each at the first place round it that no other label, dot or border covers, nor the cross.

        The texts of one point are joined.
        """
        joined = {}
        for point, text in named:
            joined.setdefault(point, []).append(text)
        taken = [(x - 4, y - 4, x + 4, y + 4) for x, y in map(self.at, [*joined, cross])]
        for point, texts in joined.items():
            (x, y), text = self.at(point), ", ".join(texts)
            width = 7.8 * len(text)
            spots = [(x + dx * far - (width if dx < 0 else width / 2 if dx == 0 else 0), y + dy * far + 4) for far in (8, 16, 26, 38, 54)
                     for dx, dy in ((1, 0), (1, -1), (1, 1), (-1, 0), (-1, -1), (-1, 1), (0, -1), (0, 1.2))]
            for left, base in spots:
                box = (left - 1, base - 11, left + width + 1, base + 2)
                is_free = all(box[2] < o[0] or box[0] > o[2] or box[3] < o[1] or box[1] > o[3] for o in taken)
                if is_free and 2 < box[0] and box[2] < self.width - 2 and 2 < box[1] and box[3] < self.height - 2:
                    break
            else:
                left, base = spots[0]
                box = (left, base - 10, left + width, base + 1)
            taken.append(box)
            ends = min(max(x, left), left + width), min(max(y, base - 9), base)
            if dist((x, y), ends) > 9:
                self.drawing.add("line", x1=x, y1=y, x2=ends[0], y2=ends[1], stroke=HIT, stroke_width=0.8)
            self.drawing.label(left, base, text, HIT)


def key_of_signs(drawing, x, y, signs):
    """The legend: each sign is (how to draw it, text)."""
    for index, (draw, text) in enumerate(signs):
        line = y + 22 * index
        draw(x, line)
        drawing.text(x + 34, line + 4, text)


def signs_for(drawing):
    """How to draw each sign of the legend, left end and middle height given."""
    def box(**style):
        return lambda x, y: drawing.rectangle(x, y - 7, 22, 14, **style)

    def path(d, **style):
        return lambda x, y: drawing.add("path", d=d.format(x=x, y=y, m=x + 11, u=y - 7), fill="none", **style)

    return {
        "opened": box(stroke=OPENED, stroke_width=1.8, fill=OPENED, fill_opacity="0.13"),
        "passed": box(stroke=PASSED, stroke_width=1.3, stroke_dasharray="5 3"), "other": box(stroke=LEVELS[1], stroke_width=1.1),
        "place": path("M{m} {y}h0", stroke=PLACE, stroke_width=4, stroke_linecap="round"),
        "holder": path("M{m} {y}h0", stroke=PASSED, stroke_width=5, stroke_linecap="round"),
        "hit": path("M{m} {y}h0", stroke=HIT, stroke_width=8, stroke_linecap="round"),
        "point": path("M{x} {y}m4 0h14M{m} {u}v14", stroke=INK, stroke_width=2.4),
        "circle": path("M{x} {y}h22", stroke=INK, stroke_width=1.2, stroke_dasharray="2 3"),
        "pair": path("M{x} {y}h22", stroke=HIT, stroke_width=2)}

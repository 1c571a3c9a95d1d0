"""Reads the file of a store at rest by docs/FORMAT.md, without the program's code.

`Store` has its places, words, nodes and rows of words, and which kind each page is of. Points are in units of 10^-7 degrees.
"""
import fcntl
import json
import os
import struct
from collections import namedtuple

PAGE = 4096
SLOTS = 32
# Of each map its name and the bytes of a key and of a value, by its number.
MAPS = {5: ("places", 66, 649), 2: ("words by text", 33, 8), 3: ("words by number", 8, 37), 4: ("rows of words", 12, 32)}

Place = namedtuple("Place", "key point words label")            # key: bytes of its form; words: the impact of each word's number
Slot = namedtuple("Slot", "index rectangle child key")          # child: a page, or None in a leaf; key: bytes, or None above it
Node = namedtuple("Node", "page level slots")


class Refused(Exception):
    """Why a store or a query isn't read."""


def key_text(form):
    """A key as replies spell it."""
    return f"#{int.from_bytes(form[1:9], 'big')}" if form[0] else json.dumps(form[1:1 + form[65]].decode("utf-8"), ensure_ascii=False)


class Store:
    """A store at rest: `places` by the bytes of their keys, `nodes` and `rows` by page, `numbers` of words, `kinds` of pages."""

    def __init__(self, path):
        self.data = self._bytes(path)
        magic, self.counted, free, *roots, self.live = struct.unpack(">8sIIIIIIII", self.data[:40])
        if magic == b"IRTREE01":
            raise Refused(f"{path}: a store of version 1: it begins with IRTREE01")
        if magic != b"IRTREE02":
            raise Refused(f"{path}: not a store: it doesn't begin with IRTREE02")
        if len(self.data) < PAGE * self.counted:
            raise Refused(f"{path}: not a whole store: page 0 counts {self.counted} pages, and the file is shorter")
        self.kinds, self.nodes, self.rows = {0: "page 0"}, {}, {}
        try:
            self.places = {key: self._place(key, value) for key, value in self._map(5, roots[0])}
            self.numbers = {key[:key[32]].decode("utf-8"): int.from_bytes(value, "big") for key, value in self._map(2, roots[1])}
            for _ in self._map(3, roots[2]):
                pass
            for key, value in self._map(4, roots[3]):
                self.rows[struct.unpack(">IQ", key)] = value
            self.root = roots[4]
            if self.root:
                self._walk(self.root, None)
            while free:
                free = int.from_bytes(self._page(free, "free")[4:8], "big")
        except (struct.error, IndexError, UnicodeDecodeError, AssertionError) as error:
            raise Refused(f"{path}: a page isn't of its form: {error}") from error
        del self.data

    @staticmethod
    def _bytes(path):
        """The bytes of the file of a store that no run has open and whose journal is closed."""
        try:
            with open(path, "rb") as file:
                try:
                    fcntl.flock(file, fcntl.LOCK_SH | fcntl.LOCK_NB)
                except BlockingIOError as error:
                    raise Refused(f"{path}: another process has the store open; wait for it to end") from error
                except OSError:
                    pass                                        # A file system without locks.
                data = file.read()
            journal = os.path.realpath(path) + ".journal"
            if os.path.exists(journal):
                with open(journal, "rb") as file:
                    if file.read(1) not in (b"", b"\0"):
                        raise Refused(f"{journal}: the journal has records that aren't in their pages yet; "
                                      f"a run puts them there: ./irtree {path} run < /dev/null")
        except OSError as error:
            raise Refused(f"{path}: {error.strerror}") from error
        if len(data) < PAGE or not any(data[:PAGE]):
            raise Refused(f"{path}: not a store with places: its first {PAGE} bytes aren't there, or are zeros")
        return data

    def _page(self, number, kind):
        assert 0 < number < self.counted, f"page {number} isn't counted"
        assert number not in self.kinds, f"page {number} is used twice"
        self.kinds[number] = kind
        return self.data[PAGE * number:PAGE * (number + 1)]

    def _map(self, number, root):
        """The rows of a map in their order, each a key and a value."""
        name, key, value = MAPS[number]
        if root == 0:
            return
        page = self._page(root, name)
        kind, of_map, count, level = struct.unpack(">BBHB", page[:5])
        assert of_map == number and kind == (1 if level == 0 else 2), f"page {root} isn't one of the map {name}"
        width = key + (value if level == 0 else 4)
        for at in range(16, 16 + width * count, width):
            cell = page[at:at + width]
            if level == 0:
                yield cell[:key], cell[key:]
            else:
                yield from self._map(number, int.from_bytes(cell[key:], "big"))

    @staticmethod
    def _place(key, value):
        point = struct.unpack_from(">ii", value)
        words = dict(struct.unpack_from(">QB", value, 9 + 9 * i) for i in range(value[8]))
        return Place(key, point, words, value[585:585 + value[648]].decode("utf-8"))

    def _walk(self, number, level):
        """Reads the node at a page and all below it."""
        page = self._page(number, "leaves of the tree")
        kind, own, _, mask = struct.unpack(">BBHI", page[:8])
        if own:
            self.kinds[number] = "nodes above them"
        assert kind == 3 and level in (None, own), f"page {number} isn't a node of level {level}"
        slots = []
        for i in (i for i in range(SLOTS) if mask >> i & 1):
            if own == 0:
                x, y = struct.unpack_from(">ii", page, 16 + 74 * i)
                slots.append(Slot(i, (x, y, x, y), None, page[24 + 74 * i:90 + 74 * i]))
            else:
                *rectangle, child = struct.unpack_from(">iiiiI", page, 16 + 20 * i)
                slots.append(Slot(i, tuple(rectangle), child, None))
        self.nodes[number] = Node(number, own, slots)
        for slot in slots:
            if slot.child is not None:
                self._walk(slot.child, own - 1)

    def impact(self, page, slot, word):
        """The greatest impact of a word below a slot, by the node's row of the word."""
        row = self.rows.get((page, self.numbers.get(word)))
        return row[slot.index] if row else 0

    def impact_in(self, place, word):
        return place.words.get(self.numbers.get(word), 0)

"""A second opinion on whether a store is whole, written by docs/FORMAT.md without the program's code.

    python3 tools/store_check.py STORE                              prints `whole`, or a line `broken PAGE RULE` for each rule that it finds broken
    python3 tools/store_check.py --lowest-bits STORE                counts the bytes whose lowest bit can be turned over and the store be whole
    python3 tools/store_check.py --against PROGRAM STORE [STEP]     changes one byte of every STEP of a copy at a time, to three other values,
                                                                    and compares what `PROGRAM COPY verify` prints with its own opinion

A store is looked at as it is at rest: one whose journal has records is refused. The second form counts the changes that leave the store
whole, and prints each on which the two disagree: one says `whole` and the other doesn't, or PROGRAM names a page and a rule that this page
doesn't break. Its status is 1 if there is one. For a whole store the first form also prints how many nodes each level of the tree has.
"""
import os
import shutil
import struct
import subprocess
import sys
import tempfile
from collections import Counter

from store_file import PAGE, SLOTS, Refused, Store

HEAD, LINK, KIND, FILL, ORDER, SPARE, LEVEL, VALUE, SHARED, RECT, ROW, ENTRY, WORDS, COUNTS = range(1, 15)
PLACES, TEXTS, NUMBERS, ROWS = 5, 2, 3, 4
# The bytes of a key and of a value by a map's number.
SIZES = {PLACES: (66, 649), TEXTS: (33, 8), NUMBERS: (8, 37), ROWS: (12, 32)}


def is_utf8(text):
    try:
        text.decode("utf-8")
        return True
    except UnicodeDecodeError:
        return False


def is_padded(form, least, most):
    """Whether a form is a UTF-8 text of so many bytes, zeros, and its length."""
    text, zeros = form[:form[-1]], form[form[-1]:-1]
    return least <= form[-1] <= most and not any(zeros) and is_utf8(text)


def is_key(form):
    if form[0] == 0:
        return is_padded(form[1:], 1, 64)
    return form[0] == 1 and form[65] == 8 and not any(form[9:65])


def is_point(x, y):
    return abs(x) <= 1_800_000_000 and abs(y) <= 900_000_000


def is_place(value):
    pairs = list(struct.iter_unpack(">QB", value[9:585]))
    count, label = value[8], value[585:]
    held, spare = pairs[:count], pairs[count:]
    return (is_point(*struct.unpack_from(">ii", value)) and count <= 64 and all(impact for _, impact in held)
            and all(a[0] < b[0] for a, b in zip(held, held[1:])) and spare == [(0, 0)] * len(spare)
            and is_padded(label, 0, 63) and b"\n" not in label[:label[63]])


IS_ROW = {
    PLACES: lambda key, value: is_key(key) and is_place(value),
    TEXTS: lambda key, value: is_padded(key, 1, 32),
    NUMBERS: lambda key, value: is_padded(value[:33], 1, 32),
    ROWS: lambda key, value: True,
}


class Check:
    """All rules that a store's bytes break, as pages and rules: `broken`. What the structures hold is compared only if they are whole."""

    def __init__(self, data):
        self.data, self.broken, self.met, self.levels = data, set(), set(), Counter()
        fields = struct.unpack(">8sIIIIIIIIQQQ", data[:64])
        if not any(data[:PAGE]):
            fields = (b"IRTREE02", 1, 0, 0, 0, 0, 0, 0, 0, 1, 0, 1)
        magic, self.counted, self.free, *self.roots, self.live, self.serial, number, self.next_word = fields
        if (magic != b"IRTREE02" or any(data[64:PAGE]) or max(self.free, *self.roots) >= self.counted or number > 2 ** 40
                or not 1 <= self.serial <= number + 1 or not 1 <= self.next_word <= 64 * (number + 1)):
            self.broken.add((0, HEAD))
            return
        self.nodes = {}
        if self.roots[4]:
            self._node(self.roots[4], None)
        tables = {}
        for name, root in ((ROWS, self.roots[3]), (PLACES, self.roots[0]), (TEXTS, self.roots[1]), (NUMBERS, self.roots[2])):
            tables[name] = []
            if root:
                self._map(name, root, None, 0, 256 ** SIZES[name][0], tables[name])
        self._chain()
        for page in range(1, self.counted):
            if page not in self.met:
                self.broken.add((page, SHARED))
                break                                       # A header may count four thousand million pages.
        if not self.broken:
            self._compare(tables)

    def _page(self, number):
        return self.data[PAGE * number:PAGE * (number + 1)].ljust(PAGE, b"\0")

    def _enter(self, page):
        """The bytes of a page that is named, or None if it may not be."""
        if not 0 < page < self.counted:
            self.broken.add((page, LINK))
            return None
        if page in self.met:
            self.broken.add((page, SHARED))
            return None
        self.met.add(page)
        return self._page(page)

    def _map(self, name, page, level, low, high, rows):
        bytes_ = self._enter(page)
        if bytes_ is None:
            return
        key, value = SIZES[name]
        kind, of_map, count, own = struct.unpack(">BBHB", bytes_[:5])
        is_root = level is None
        level = own if is_root else level
        width = key + (value if level == 0 else 4)
        most = (PAGE - 16) // width
        if (kind, of_map) != (1 if level == 0 else 2, name):
            self.broken.add((page, KIND))
        if own != level:
            self.broken.add((page, LEVEL))
        if not (1 if is_root and level == 0 else 2 if is_root else most // 2) <= count <= most:
            self.broken.add((page, FILL))
        if any(bytes_[5:16]) or any(bytes_[16 + width * count:]):
            self.broken.add((page, SPARE))
        cells = [bytes_[at:at + width] for at in range(16, 16 + width * min(count, most), width)]
        keys = [int.from_bytes(cell[:key], "big") for cell in cells]
        if level == 0:
            if any(a >= b for a, b in zip(keys, keys[1:])) or any(not low <= k < high for k in keys):
                self.broken.add((page, ORDER))
            if not all(IS_ROW[name](cell[:key], cell[key:]) for cell in cells):
                self.broken.add((page, VALUE))
            rows.extend((cell[:key], cell[key:]) for cell in cells)
            return
        bounds = [low] + keys[1:] + [high]
        if (keys and keys[0]) or any(a >= b for a, b in zip(bounds, bounds[1:])):
            self.broken.add((page, ORDER))
        for i, cell in enumerate(cells):
            self._map(name, int.from_bytes(cell[key:], "big"), level - 1, bounds[i], bounds[i + 1], rows)

    def _node(self, page, level):
        """The least rectangle round what is below a node, or None if there is nothing."""
        bytes_ = self._enter(page)
        if bytes_ is None:
            return None
        kind, own, zeros, mask = struct.unpack(">BBHI", bytes_[:8])
        is_root = level is None
        level = own if is_root else level
        if kind != 3:
            self.broken.add((page, KIND))
            return None
        if own != level or own > 9:
            self.broken.add((page, LEVEL))
            if own > 9:
                return None
        used = [i for i in range(SLOTS) if mask >> i & 1]
        if len(used) < (1 if is_root and level == 0 else 2 if is_root else 12):
            self.broken.add((page, FILL))
        width = 74 if own == 0 else 20
        cells = [bytes_[16 + width * i:16 + width * (i + 1)] for i in range(SLOTS)]
        if zeros or any(bytes_[8:16]) or any(any(cells[i]) for i in range(SLOTS) if i not in used) or any(bytes_[16 + width * SLOTS:]):
            self.broken.add((page, SPARE))
        self.levels[own] += 1
        slots, edges = {}, []
        for i in used:
            if own == 0:
                x, y = struct.unpack_from(">ii", cells[i])
                if not is_point(x, y) or not is_key(cells[i][8:]):
                    self.broken.add((page, VALUE))
                slots[i] = (x, y, cells[i][8:])
                edges.append((x, y, x, y))
            else:
                west, south, east, north, child = struct.unpack_from(">iiiiI", cells[i])
                if not (is_point(west, south) and is_point(east, north) and west <= east and south <= north):
                    self.broken.add((page, VALUE))
                slots[i] = child
                least = self._node(child, level - 1) if level else None
                if least is not None and least != (west, south, east, north):
                    self.broken.add((page, RECT))
                edges.append(least or (west, south, east, north))
        self.nodes[page] = (own, slots)
        if not edges:
            return None
        west, south, east, north = zip(*edges)
        return min(west), min(south), max(east), max(north)

    def _chain(self):
        page = self.free
        while page:
            bytes_ = self._enter(page)
            if bytes_ is None:
                return
            if bytes_[0] != 4:
                self.broken.add((page, KIND))
                return
            if any(bytes_[1:4]) or any(bytes_[8:]):
                self.broken.add((page, SPARE))
            page = int.from_bytes(bytes_[4:8], "big")

    def _compare(self, tables):
        places, sites = {}, []
        for key, value in tables[PLACES]:
            places[key] = dict(list(struct.iter_unpack(">QB", value[9:585]))[:value[8]])
            sites.append((*struct.unpack_from(">ii", value), key))
        rows = {}
        for key, value in tables[ROWS]:
            node, word = struct.unpack(">IQ", key)
            rows.setdefault(node, {})[word] = value
            if node not in self.nodes or not any(value):
                self.broken.add((node, ROW))
        tops, entries = {}, []
        for page in sorted(self.nodes, key=lambda n: self.nodes[n][0]):
            level, slots = self.nodes[page]
            expected = {}
            for i, slot in slots.items():
                if level == 0:
                    entries.append(slot)
                below = places.get(slot[2], {}) if level == 0 else tops[slot]
                for word, impact in below.items():
                    expected.setdefault(word, bytearray(SLOTS))[i] = impact
            if rows.get(page, {}) != expected:
                self.broken.add((page, ROW))
            tops[page] = {word: max(row) for word, row in expected.items()}
        if sorted(entries) != sorted(sites):
            self.broken.add((0, ENTRY))
        held = Counter(word for words in places.values() for word in words)
        by_text = {int.from_bytes(value, "big"): key for key, value in tables[TEXTS]}
        by_number = {int.from_bytes(key, "big"): (value[:33], int.from_bytes(value[33:], "big")) for key, value in tables[NUMBERS]}
        if (len(by_text) != len(tables[TEXTS]) or by_text != {number: word for number, (word, _) in by_number.items()}
                or held != Counter({number: count for number, (_, count) in by_number.items()})
                or any(count == 0 for _, count in by_number.values()) or any(number >= self.next_word for number in by_number)):
            self.broken.add((0, WORDS))
        serials = [int.from_bytes(key[1:9], "big") for key in places if key[0] == 1]
        if len(places) != self.live or any(serial >= self.serial for serial in serials):
            self.broken.add((0, COUNTS))


def said_by(program, path):
    """What the program says of a store: None for whole, a page and a rule, or the text of another end."""
    run = subprocess.run([program, path, "verify"], capture_output=True, text=True, check=False)
    words = run.stdout.split()
    if run.returncode == 0 and words == ["whole"]:
        return None
    if run.returncode == 7 and words[:1] == ["broken"]:
        return int(words[1]), int(words[2])
    last = run.stderr.split("irtree: ")[-1].split("\n", maxsplit=1)[0].split()
    if run.returncode == 7 and not words and last[:1] == ["damaged"]:
        return int(last[1]), int(last[2])
    return f"status {run.returncode}: {run.stdout.strip()} {' '.join(last)}"


def against(program, path, step):
    """Compares the program's opinion with this one on changes of a byte. Returns how many disagree."""
    whole = disagree = tried = 0
    with tempfile.TemporaryDirectory() as folder:
        copy = os.path.join(folder, "copy.store")
        shutil.copy(path, copy)
        data = bytearray(Store(path)._bytes(path))
        counted = struct.unpack(">I", data[8:12])[0]
        for at in range(0, min(len(data), PAGE * counted), step):
            old = data[at]
            for new in {old ^ 1, old ^ 128, (old + 255) % 256 if old else 255} - {old}:
                if at < 8:
                    continue                                # The magic: another file, not a broken store.
                data[at] = new
                with open(copy, "r+b") as file:
                    file.seek(at)
                    file.write(bytes([new]))
                check, said = Check(bytes(data)), said_by(program, copy)
                tried += 1
                whole += said is None
                if (said is None) != (not check.broken) or (said is not None and said not in check.broken):
                    disagree += 1
                    print(f"byte {at} of page {at // PAGE} from {old} to {new}: the program says {said}, and broken is {sorted(check.broken)}")
            data[at] = old
            with open(copy, "r+b") as file:
                file.seek(at)
                file.write(bytes([old]))
    print(f"{tried} changes of a byte, {whole} leave the store whole, {disagree} on which the two disagree")
    return disagree


def lowest_bits(path):
    """How many changes of a byte's lowest bit leave a store whole."""
    data, whole = bytearray(Store._bytes(path)), 0
    for at in range(len(data)):
        data[at] ^= 1
        whole += not Check(bytes(data)).broken
        data[at] ^= 1
    return whole


def main(words):
    try:
        if words[:1] == ["--lowest-bits"]:
            print(lowest_bits(words[1]))
            return 0
        if words[:1] == ["--against"]:
            return 1 if against(words[1], words[2], int(words[3]) if len(words) > 3 else 1) else 0
        check = Check(Store._bytes(words[0]))
    except Refused as refused:
        print(refused)
        return 1
    for page, rule in sorted(check.broken):
        print(f"broken {page} {rule}")
    if check.broken:
        return 1
    print("whole")
    for level in sorted(check.levels, reverse=True):
        slots = sum(len(slots) for own, slots in check.nodes.values() if own == level)
        print(f"level {level}: {check.levels[level]} nodes, {slots / check.levels[level]:.1f} slots each")
    print(f"{check.live} places, {sum(check.levels.values())} nodes of {check.counted} pages")
    return 0


if __name__ == "__main__":
    sys.exit(main(sys.argv[1:]))

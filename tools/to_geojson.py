#!/usr/bin/env python3
"""Writes GeoJSON (RFC 7946) to standard output: a FeatureCollection of points, one feature a line, or nothing if something is refused.

    irtree STORE run < script.txt | python3 tools/to_geojson.py > hits.geojson
    python3 tools/to_geojson.py --export STORE > places.geojson

Without --export it reads the replies of a script. Each hit of an `explain` query and each place that `show` shows becomes a feature.
All other replies are passed over; those that begin with `bad` are named on standard error. A hit without coordinates is refused:
ask by `explain`. A feature has these properties, as the reply spells them:

    query      the number of the reply among those that are converted, from 1
    rank, key  as in the reply; `automatic` is true if the key is #N, the automatic key of number N
    distance   of range, nearest, top and group, in degrees
    cost       of top: what the place costs
    text, of   of top: how well the words fit, and the most that is possible
    word       of group: the word that the place is picked for
    group_cost of group: what all its places cost together, in degrees
    label      of show: the place's label
    impacts    of show: each word with its impact

With --export it writes all places of a store, in the order of their keys, so that `irtree NEW load < places.geojson` stores them again.

Kept exactly
    coordinates, in units of 10^-7 degrees; keys that are texts, as `id`; each place's words and their impacts; and its label.
    A load makes a text of the property `label` and, on the next line, of `text`. `label` is the place's label; one that was cut within a
    word has the whole word. An impact is 1 + floor(254 * c / L) for a word that comes c times among the L words of a text. `text` repeats
    each word as often as it takes, beside the label's words, to get all impacts again. That can be done for each place that was added,
    loaded or made. If a store has impacts that no text gives, their places are counted on standard error, and only their words are kept.
    So in a new store all queries give the same places, distances and costs, in the same order, except for automatic keys.
Not always kept
    a label whose words aren't found in it, as may be in languages without spaces. Its place has no `label`, and is counted on standard
    error.
Not kept
    automatic keys: such a place has no `id`, and gets a new number in the same order. The property `number` has the old one.
    texts, of which a store keeps only the words: their order, case and signs, and words that were passed over.
    properties of the GeoJSON that a store was loaded from, the numbers of updates and words, and the shape of the tree.

The property `impacts` is for readers: a load takes no words from an object. A load takes 67,108,864 bytes at most: a longer export has to
be cut between lines, with the first and the last line in each part.

--export runs the program twice on the store, and writes nothing to it except what each run does: a journal's records go to their pages.
It also asks a store in memory which words the labels have, if that isn't plain.
"""
import argparse
import json
import os
import re
import subprocess
import sys
import unicodedata
from collections import Counter
from functools import lru_cache

TOP = os.path.dirname(os.path.dirname(os.path.abspath(__file__)))
STRING = r'"(?:[^"\\]|\\.)*"'
KEY = rf"{STRING}|#\d+"
DEGREES = r"-?\d+\.\d+"
HIT = re.compile(rf"(?P<rank>\d+) (?:(?P<word>{STRING}) )?(?P<key>{KEY})(?: (?P<number>\d+(?:\.\d+)?))?"
                 rf"(?P<at> at (?P<lon>{DEGREES}) (?P<lat>{DEGREES}))?(?: dist (?P<dist>{DEGREES}) text (?P<text>\d+) of (?P<of>\d+))?")
PLACE = re.compile(rf"place (?P<key>{KEY}) (?P<lon>{DEGREES}) (?P<lat>{DEGREES}) (?P<words>\d+) (?P<label>{STRING})")
WORDS_MAX = 64
LABEL_MAX = 63          # bytes
# A piece of a label between word boundaries, near enough to UAX #29: letters, digits and marks, with signs such as those in `can't` and `3.14`.
SIGN = rf"[\w{''.join(map(chr, filter(lambda n: unicodedata.category(chr(n))[0] == 'M', range(0x300, 0x20000))))}]"
PIECE = re.compile(rf"{SIGN}+(?:(?:(?<![\d_])[.:'\u00b7\u2018\u2019](?=[^\W\d_])|(?<=\d)[.,;'](?=\d)){SIGN}+)*")
# A line whose pieces are its words for sure: Latin letters and digits, and signs that are in no word.
PLAIN = re.compile(r"(?:[A-Za-z0-9\u00c0-\u00d6\u00d8-\u00f6\u00f8-\u024f /()&!?+-]|,(?!\d))*")


class Refused(Exception):
    """Why nothing more is written."""


def text_of(value):
    return json.dumps(value, ensure_ascii=False)


def members(pairs):
    """A JSON object of names and values that are spelled already; those that are None are left out."""
    return "{" + ",".join(f"{text_of(name)}:{value}" for name, value in pairs if value is not None) + "}"


def feature(lon, lat, properties, key=None):
    """A point as a feature. Coordinates are written as they are spelled, so that no digit is lost."""
    point = members([("type", '"Point"'), ("coordinates", f"[{lon},{lat}]")])
    return members([("type", '"Feature"'), ("id", key), ("geometry", point), ("properties", members(properties))])


def collection(features, out):
    """Writes the features, one a line."""
    out.write(b'{"type":"FeatureCollection","features":[\n')
    for index, each in enumerate(features):
        out.write((",\n" if index else "").encode() + each.encode("utf-8"))
    out.write(b"\n]}\n")


def key_members(key):
    automatic = key.startswith("#")
    return [("key", text_of(key) if automatic else key), ("automatic", "true" if automatic else None)]


def hit_feature(line, number, query, group_cost):
    """The feature of one line of a query's reply, the line of this number."""
    hit = HIT.fullmatch(line)
    if not hit:
        raise Refused(f"line {number}: {line[:80]!r} isn't a line of a query's reply")
    if not hit["at"]:
        raise Refused(f"line {number}: the hit has no coordinates; ask by explain")
    return feature(hit["lon"], hit["lat"], [
        ("query", query), ("rank", hit["rank"]), *key_members(hit["key"]), ("word", hit["word"]), ("group_cost", group_cost),
        ("distance", hit["dist"] or hit["number"]), ("cost", hit["dist"] and hit["number"]), ("text", hit["text"]), ("of", hit["of"])])


class Replies:
    """The lines of replies, with their numbers."""

    def __init__(self, lines):
        self.lines = iter(lines)
        self.number = 0

    def next(self):
        """The next line, or None after the last one."""
        line = next(self.lines, None)
        self.number += 1
        return None if line is None else line.rstrip("\r\n")

    def within(self):
        """The next line of a reply that has begun."""
        line = self.next()
        if line is None:
            raise Refused(f"the replies end within a reply, after line {self.number - 1}")
        return line

    def words(self, count):
        """So many lines of a word and its impact, as (word as JSON, impact)."""
        return [tuple(self.within().rsplit(" ", 1)) for _ in range(count)]


def features_of(replies):
    """Yields a feature for each hit and each place shown."""
    query = 0
    while (line := replies.next()) is not None:
        head, place = line.split(" "), PLACE.fullmatch(line)
        if place:
            query += 1
            impacts = members([(json.loads(word), impact) for word, impact in replies.words(int(place["words"]))])
            yield feature(place["lon"], place["lat"], [
                ("query", query), *key_members(place["key"]), ("label", place["label"]), ("impacts", impacts)])
        elif head[0] == "=":
            query += 1
            for _ in range(int(head[1])):
                yield hit_feature(replies.within(), replies.number, query, head[2] if len(head) > 2 else None)
        elif head[0] == "bad":
            print(f"to_geojson: line {replies.number}: the reply is {line!r}", file=sys.stderr)


@lru_cache(maxsize=65536)
def repeats(impacts):
    """How often each word has to come in a text that gives these impacts, and how many further words come after them; or None.

    Only with 64 words there may be further ones: a place keeps no more, but they count for the shares. If there is a text at all, there is
    one of 254 * 64 words or less: of 254 * k words each impact above 1 takes any number of times from (impact - 1) * k to
    impact * k - 1, and an impact of 1 from 1 to k - 1.
    """
    for total in range(max(1, len(impacts)), 254 * WORDS_MAX + 1):
        least = [max(1, -(-(impact - 1) * total // 254)) for impact in impacts]
        most = [-(-impact * total // 254) - 1 for impact in impacts]
        enough = len(impacts) == WORDS_MAX or sum(most) >= total
        if enough and sum(least) <= total and all(low <= high for low, high in zip(least, most)):
            times, left = [], total - sum(least)
            for low, high in zip(least, most):
                more = min(left, high - low)
                times.append(low + more)
                left -= more
            return times, left
    return None


def parts_of(piece, names):
    """A piece of a label cut into words that the place has, the longest first; or None. Languages without spaces need that."""
    found = []
    while piece:
        word = next((piece[:end] for end in range(len(piece), 0, -1) if piece[:end] in names), None)
        if word is None:
            return None
        found, piece = found + [word], piece[len(word):]
    return found


def line_for(label, names):
    """A line that has this label, and how often it has each of the place's words, all its other words being too long; or None.

    It is the label, or if that was cut within its last word, the label with the rest of a word that the place has.
    """
    pieces = [match for match in PIECE.finditer(label) if any(map(str.isalnum, match[0]))]
    counts = Counter()
    for piece in pieces:
        word = piece[0].casefold()
        parts = parts_of(word, names)
        if parts is None and piece.end() == len(label) and len(label.encode()) > LABEL_MAX - 4:
            whole = [label + name[len(word):] for name in names if name.startswith(word)]
            label = next((line for line in whole if line.encode()[:LABEL_MAX].decode(errors="ignore") == label), label)
            parts = parts_of(label[piece.start():].casefold(), names)
        if parts is None and len(word.encode()) <= 32:
            return None
        counts.update(parts or [])
    return label, counts


def kept_lines(program, places):
    """For each place (words, label) a line that has its label, with the counts of its words as the program finds them; or None."""
    lines = [line_for(label, {word: None for word, _ in words}) for words, label in places]
    probe = "0probe0"                    # One word more shows how many the others are, and not only their shares.
    asked = [line for line in lines if line and not PLAIN.fullmatch(line[0])]
    replies = asked and run(program, "-", [each for line, _ in asked for each in (f"add k 0 0 {line} {probe}", "show k")])
    for line in lines:
        if line is None or PLAIN.fullmatch(line[0]):
            yield line
            continue
        replies.within()
        count = int(PLACE.fullmatch(replies.within())["words"])
        found = {json.loads(word): int(impact) for word, impact in replies.words(count)}
        counts = line[1] + Counter([probe])
        total = sum(counts.values())
        yield line if found == {word: 1 + 254 * times // total for word, times in counts.items()} else None


def text_for(words, counts):
    """A text that gives these words with these impacts, beside a line with so many of them, and whether it gives the impacts.
    Words are (word, impact)."""
    found = repeats(tuple(impact for _, impact in words)) if words else ([], 0)
    times, further = found or ([1] * len(words), 0)
    names = [word for word, _ in words]
    # So many times the shortest text has room for the words of the line.
    size = max([-(-counts[word] // count) for word, count in zip(names, times)], default=1) or 1
    filler = next(str(n) for n in range(WORDS_MAX + 1) if str(n) not in names)
    text = ""
    for word in [word for word, count in zip(names, times) for _ in range(size * count - counts[word])] + [filler] * (size * further):
        # A word that begins with a combining letter would join a space before it (UAX #29, WB4); a line's end keeps it apart.
        text += ("" if not text else " " if word[0].isalnum() else "\n") + word
    return text, found is not None


def run(program, store, lines):
    """The lines that a run of the program prints for a script."""
    try:
        done = subprocess.run([program, store, "run"], input="".join(f"{line}\n" for line in lines).encode("utf-8"), capture_output=True)
    except OSError as error:
        raise Refused(f"{program} can't be run: {error.strerror}; name the program by --program") from error
    if done.returncode != 0:
        reason = done.stderr.decode("utf-8", "replace").strip()
        raise Refused(f"{store}: the run ended with status {done.returncode}\n{reason}")
    return Replies(done.stdout.decode("utf-8").split("\n")[:-1])


def has_places(store):
    """Whether the file may hold places. Refuses what is no store, so that no run writes to it; one of zeros is a store without places."""
    try:
        with open(store, "rb") as file:
            page = file.read(4096)
        try:
            with open(os.path.realpath(store) + ".journal", "rb") as file:
                is_open = file.read(1) not in (b"", b"\0")
        except FileNotFoundError:
            is_open = False
    except OSError as error:
        raise Refused(f"{store}: {error.strerror}") from error
    if not any(page) and not is_open:
        return False
    if page.startswith(b"IRTREE01") and not is_open:
        raise Refused(f"{store}: a store of version 1: it begins with IRTREE01")
    if not page.startswith(b"IRTREE02") and not is_open:
        raise Refused(f"{store}: not a store: it doesn't begin with IRTREE02")
    return True


def exported(program, store):
    """Yields a feature for each place of a store, in the order of keys."""
    if not has_places(store):
        return
    hits = run(program, store, ["explain box -180 -90 180 90"])
    count = int(hits.within().split(" ")[1])
    found = [HIT.fullmatch(hits.within()) for _ in range(count)]
    shown = run(program, store, [f"show {hit['key']}" for hit in found])
    places = []
    for hit in found:
        place = PLACE.fullmatch(shown.within())
        if not place or any(place[part] != hit[part] for part in ("key", "lon", "lat")):
            raise Refused(f"{store}: the place {hit['key']} was changed by another run; export again")
        words = [(json.loads(word), int(impact)) for word, impact in shown.words(int(place["words"]))]
        places.append((words, json.loads(place["label"])))
    lost = unnamed = 0
    for hit, (words, _), line in zip(found, places, kept_lines(program, places)):
        label, counts = line or (None, Counter())
        text, is_whole = text_for(words, counts)
        lost += not is_whole
        unnamed += line is None
        automatic = hit["key"].startswith("#")
        properties = [("label", None if line is None else text_of(label)), ("text", text_of(text)), ("impacts", members(words)),
                      ("number", hit["key"][1:] if automatic else None)]
        yield feature(hit["lon"], hit["lat"], properties, None if automatic else hit["key"])
    if lost:
        print(f"to_geojson: {store}: no text gives the impacts of {lost} places; only their words are kept", file=sys.stderr)
    if unnamed:
        print(f"to_geojson: {store}: the labels of {unnamed} places can't be kept", file=sys.stderr)


def main():
    parser = argparse.ArgumentParser(description=__doc__, formatter_class=argparse.RawDescriptionHelpFormatter)
    parser.add_argument("--export", metavar="STORE", help="write all places of this store")
    parser.add_argument("--program", metavar="PATH", default=f"{TOP}/irtree", help="the program (irtree of this folder if absent)")
    options = parser.parse_args()
    try:
        if options.export:
            features = list(exported(options.program, options.export))
        else:
            features = list(features_of(Replies(line.decode("utf-8", "replace") for line in sys.stdin.buffer)))
    except Refused as refused:
        sys.exit(f"to_geojson: {refused}")
    try:
        collection(features, sys.stdout.buffer)
        sys.stdout.buffer.flush()
    except BrokenPipeError:
        os.dup2(os.open(os.devnull, os.O_WRONLY), sys.stdout.fileno())      # Python flushes once more at its end.
        sys.exit("to_geojson: standard output takes nothing more")


if __name__ == "__main__":
    main()

"""Tests of irtree.py against the built program: IRTREE=path/to/irtree_cli python3 -m unittest test_irtree (in this folder).

Expected values are those of docs/QUERIES.md, or of a plain scan in whole numbers, as docs/DEFINITIONS.md defines the queries.
With IRTREE_LARGE=1 the scan is over 100,000 places and 10,000 queries in place of 10,000 and 1,000, and a store is filled to its limit.
"""
import heapq
import inspect
import itertools
import math
import os
import random
import re
import signal
import subprocess
import sys
import tempfile
import textwrap
import threading
import time
import unittest
from decimal import Decimal as D
from pathlib import Path
from unittest import mock

sys.path.insert(0, str(Path(__file__).resolve().parent))
import irtree  # noqa: E402
from irtree import Auto, Group, Hit, Loaded, Pick, Place, Point, Skip, Store, Word  # noqa: E402

LARGE = os.environ.get("IRTREE_LARGE") == "1"
LONGEST = 3600 if LARGE else 300                    # seconds; a test that takes more has a deadlock
ORIGIN = (0, 0)
RESERVED = ["and", "or", "not", "where", "words", "explain", "scale"]


def units(n):
    """Whole units of 10^-7 degrees as degrees."""
    return D(n).scaleb(-7)


def label(text):
    """The first line of a text, cut to as many whole characters as have at most 63 bytes."""
    return text.split("\n")[0].encode()[:63].decode(errors="ignore")


def point(lon, lat):
    return Point(D(lon), D(lat))


class Case(unittest.TestCase):
    """A test with a folder of its own, which fails after LONGEST seconds."""

    def setUp(self):
        def late(number, frame):
            raise AssertionError(f"not done after {LONGEST} seconds")
        signal.signal(signal.SIGALRM, late)
        signal.alarm(LONGEST)
        self.addCleanup(signal.alarm, 0)
        folder = tempfile.TemporaryDirectory()
        self.addCleanup(folder.cleanup)
        self.folder = Path(folder.name)
        self.file = str(self.folder / "a.store")

    def store(self, path="-", **options):
        """An open store, which is closed at the test's end."""
        store = Store(path, **options)
        self.addCleanup(self.shut, store)
        return store

    def shut(self, store):
        try:
            store.close()
        except irtree.Error:
            pass

    def script(self, name, text):
        """A program of the folder."""
        path = self.folder / name
        path.write_text(text, encoding="utf-8")
        path.chmod(0o755)
        return str(path)

    def fake(self, *replies, status=0, errors=""):
        """A program that replies to the first `count`, then gives each line one of these replies, and then ends as they are used up."""
        return self.script("fake", textwrap.dedent(f"""\
            #!{sys.executable}
            import os, sys
            sys.stdin.buffer.readline()
            os.write(1, b"count 0\\n")
            for reply in {[reply.encode() for reply in replies]!r}:
                sys.stdin.buffer.readline()
                os.write(1, reply)
            os.write(2, {errors.encode()!r})
            os._exit({status})
            """))

    def hits(self, found):
        """The keys of hits, whose ranks must count from 1."""
        self.assertEqual([hit.rank for hit in found], list(range(1, len(found) + 1)))
        return [hit.key for hit in found]


class PlacesTest(Case):
    """The examples of the manual's section Places."""

    def test_a_place_is_put_shown_replaced_and_removed(self):
        store = self.store()
        self.assertIs(store.add("k", ORIGIN, "Café café bar"), False)
        self.assertEqual(store.show("k"), Place("k", point(0, 0), (("bar", 85), ("café", 170)), "Café café bar"))
        self.assertIs(store.add("k", (D(1), D(1))), True)
        self.assertEqual(store.show("k"), Place("k", point(1, 1), (), ""))
        self.assertIsNone(store.remove("k"))
        with self.assertRaises(irtree.Absent) as caught:
            store.remove("k")
        self.assertEqual((caught.exception.reply, caught.exception.line), ("absent", 'remove "k"'))
        self.assertEqual(store.count(), 0)

    def test_a_label_is_cut_at_a_whole_character(self):
        store = self.store()
        store.add("p", ORIGIN, "Pizza, pasta, pizza, pasta, pizza, pasta, pizza and pasta, café")
        self.assertEqual(store.show("p"), Place("p", point(0, 0), (("and", 26), ("café", 26), ("pasta", 102), ("pizza", 102)),
                                                "Pizza, pasta, pizza, pasta, pizza, pasta, pizza and pasta, caf"))

    def test_show_of_an_absent_key(self):
        with self.assertRaises(irtree.Absent):
            self.store().show("k")

    def test_a_store_in_a_file_keeps_its_places(self):
        with Store(self.file, cache=7, policy="halving") as store:
            store.add("k", ORIGIN, "cafe")
        with Store(Path(self.file), policy="words") as store:
            self.assertEqual(store.show("k").words, (("cafe", 255),))

    def test_places_can_be_compared_and_be_in_sets(self):
        store = self.store()
        store.add("k", ORIGIN, "cafe")
        self.assertEqual({store.show("k")}, {store.show("k")})


class QueriesTest(Case):
    """The examples of the manual's section Queries."""

    def two(self):
        store = self.store()
        store.add("a", ORIGIN, "cafe")
        store.add("b", (D(3), D(4)), "bar and cafe")
        return store

    def test_nearest(self):
        store = self.two()
        self.assertEqual(store.nearest(ORIGIN, 2), [Hit(1, "a", D(0)), Hit(2, "b", D(5))])
        self.assertEqual(store.nearest(ORIGIN, 9, where='"and"'), [Hit(1, "b", D(5))])
        self.assertEqual(store.nearest(ORIGIN, 9, where=Word("and"), explain=True), [Hit(1, "b", D(5), point=point(3, 4))])
        self.assertEqual(store.nearest(ORIGIN, 9, where=Word("pub")), [])

    def test_range(self):
        store = self.two()
        self.assertEqual(store.range(ORIGIN, D(1)), [Hit(1, "a", D(0))])
        for where in ("cafe and not (bar or pub)", Word("cafe") & ~(Word("bar") | Word("pub"))):
            self.assertEqual(store.range(ORIGIN, D(9), where=where), [Hit(1, "a", D(0))])
        self.assertEqual(store.range(ORIGIN, D(1), explain=True), [Hit(1, "a", D(0), point=point(0, 0))])

    def test_box(self):
        store = self.two()
        self.assertEqual(store.box(0, 0, D(3), D(4)), [Hit(1, "a"), Hit(2, "b")])
        self.assertEqual(store.box(0, 0, D(1), D(1), explain=True), [Hit(1, "a", point=point(0, 0))])
        self.assertEqual(store.box(0, 0, D(3), D(4), where=Word("bar")), [Hit(1, "b")])

    def test_top(self):
        store = self.store()
        store.add("p", (D(0), D("0.5")), "cafe")
        store.add("q", ORIGIN, "cafe bar")
        self.assertEqual(store.top(ORIGIN, 2, 500, D(1), ["cafe"]), [Hit(1, "q", cost=635000000000), Hit(2, "p", cost=637500000000)])
        self.assertEqual(store.top(ORIGIN, 1, 500, D(1), ["cafe"], explain=True),
                         [Hit(1, "q", D(0), 635000000000, point(0, 0), 128, 255)])

    def test_weights_by_pairs_and_by_a_mapping(self):
        store = self.store()
        store.add("q", ORIGIN, "cafe bar")
        for words in (["cafe", ("bar", 3)], {"cafe": 1, "bar": 3}, [("cafe", 1), ("bar", 3)]):
            hit = store.top(ORIGIN, 1, 0, D(1), words, explain=True)[0]
            self.assertEqual((hit.text, hit.text_max), (4 * 128, 4 * 255))

    def test_group(self):
        store = self.store()
        for key, lon, lat in [("a1", 1, 0), ("b1", -1, 0), ("c1", 0, -1), ("b2", "1.2", 0), ("c2", "1.1", 0)]:
            store.add(key, (D(lon), D(lat)), key[0])
        picks = (Pick(1, "a", "a1", D(1)), Pick(2, "b", "b2", D("1.2")), Pick(3, "c", "c2", D("1.1")))
        self.assertEqual(store.group(ORIGIN, ["a", "b", "c"]), Group(D("1.4"), picks))
        self.assertIsNone(store.group(ORIGIN, ["a", "pub"]))
        self.assertEqual(store.group(ORIGIN, ["a"], explain=True), Group(D(1), (Pick(1, "a", "a1", D(1), point(1, 0)),)))

    def test_gather_pays_for_a_place_once(self):
        store = self.store()
        for key, lon, lat, text in [("m", 0, 2, "a b c"), ("a1", 1, 0, "a"), ("b1", 0, 1, "b"), ("c1", -1, 0, "c")]:
            store.add(key, (D(lon), D(lat)), text)
        picks = tuple(Pick(rank, word, "m", D(2)) for rank, word in enumerate("abc", 1))
        self.assertEqual(store.gather(ORIGIN, ["a", "b", "c"]), Group(D(2), picks))
        self.assertEqual(store.gather(ORIGIN, ["b"], explain=True), Group(D(1), (Pick(1, "b", "b1", D(1), point(0, 1)),)))
        self.assertEqual(store.gather(ORIGIN, ["a"], scale=500).cost, D("0.5"))
        self.assertIsNone(store.gather(ORIGIN, ["a", "pub"]))

    def test_rare_words_count_more(self):
        store = self.store()
        store.add("p", (D(0), D("0.5")), "cafe")
        store.add("q", ORIGIN, "cafe bar")
        hits = [Hit(1, "q", cost=1905000000000), Hit(2, "p", cost=4462500000000)]
        self.assertEqual(store.top_by_rarity(ORIGIN, 2, 500, D(1), ["cafe", "bar"]), hits)
        self.assertEqual(store.top_by_rarity(ORIGIN, 2, 500, D(1), ["pub"]), [])

    def test_longitudes_meet_at_180_degrees(self):
        store = self.store()
        store.add("e", (D("179.9"), 0), "a")
        store.add("f", (D("-179.8"), 0), "b")
        at = D("-179.9"), 0
        self.assertEqual(store.nearest(at, 2), [Hit(1, "f", D("0.1")), Hit(2, "e", D("0.2"))])
        self.assertEqual(self.hits(store.range(at, D("0.2"))), ["f", "e"])
        self.assertEqual(store.top(at, 1, 1000, 1, ["a"], explain=True)[0].distance, D("0.2"))
        self.assertEqual(store.group(at, ["a", "b"]).cost, D("0.5"))
        self.assertEqual(self.hits(store.box(D("179.9"), 0, D(180), 0)), ["e"])

    def test_a_scale_is_how_much_longitudes_count(self):
        store = self.store()
        store.add("g", (D(3), D(4)), "a")
        store.add("h", (D(-3), D(4)), "b")
        for scale, away, apart in [(None, "5", "6"), (1000, "5", "6"), (500, "4.2720018", "3"), (0, "4", "0")]:
            near = [Hit(1, "g", D(away)), Hit(2, "h", D(away))]
            self.assertEqual(store.nearest(ORIGIN, 2, scale=scale), near)
            self.assertEqual(store.nearest(ORIGIN, 2, scale=scale, where=Word("a")), near[:1])
            self.assertEqual(store.range(ORIGIN, D(away), scale=scale), near)
            self.assertEqual(store.range(ORIGIN, D(away) - D("0.0000001"), scale=scale), [])
            self.assertEqual(store.top(ORIGIN, 1, 1000, 1, ["a"], scale=scale, explain=True)[0].distance, D(away))
            self.assertEqual(store.group(ORIGIN, ["a", "b"], scale=scale).cost, D(away) + D(apart))

    def test_a_tie_goes_to_the_lesser_key_and_automatic_keys_come_last(self):
        feature = '{"type":"Feature","geometry":{"type":"Point","coordinates":[0,0]},"properties":{}}'
        irtree.load(self.file, ('{"type":"FeatureCollection","features":[%s,%s]}' % (feature, feature)).encode())
        store = self.store(self.file)
        for key in ("é", "z", "#9", "A"):
            store.add(key, ORIGIN)
        self.assertEqual(self.hits(store.nearest(ORIGIN, 9)), ["#9", "A", "z", "é", Auto(1), Auto(2)])
        self.assertEqual(store.show(Auto(2)).key, Auto(2))
        store.remove(Auto(2))
        with self.assertRaises(irtree.Absent):
            store.show(Auto(2))


class NumbersTest(Case):
    """Numbers in and out."""

    def test_ints_are_ten_millionths(self):
        store = self.store()
        for n in (0, 1, -1, 9_999_999, -10_000_000, 1_800_000_000, -1_800_000_000):
            store.add("k", (n, 0))
            self.assertEqual(store.show("k").point, Point(units(n), D(0)))

    def test_a_decimal_is_rounded_half_away_from_zero_by_the_program(self):
        store = self.store()
        for given, kept in [("0.00000005", 1), ("-0.00000005", -1), ("0.00000004999", 0), ("12.56830001", 125683000), ("1E+1", 10**8),
                            ("-0", 0), ("1E-10", 0), ("180.00000004", 1_800_000_000), ("0.1", 1_000_000)]:
            store.add("k", (D(given), 0))
            self.assertEqual(store.show("k").point.lon, units(kept), given)

    def test_a_point_that_came_back_can_be_given(self):
        store = self.store()
        store.add("k", (D("12.5683"), D("-55.7")))
        self.assertEqual(store.nearest(store.show("k").point, 1), [Hit(1, "k", D(0))])

    def test_other_types_are_refused_and_nothing_is_sent(self):
        store = self.store()
        for wrong in (0.5, True, "1", None, 1j):
            for call in (lambda: store.add("k", (wrong, 0)), lambda: store.add("k", (0, wrong)), lambda: store.range(ORIGIN, wrong),
                         lambda: store.box(0, 0, wrong, 0), lambda: store.top(ORIGIN, 1, 1, wrong, ["a"])):
                with self.assertRaisesRegex(TypeError, "Decimal"):
                    call()
        for wrong in (1.0, True, "1", D(1)):
            for call in (lambda: store.nearest(ORIGIN, wrong), lambda: store.nearest(ORIGIN, 1, scale=wrong),
                         lambda: store.top(ORIGIN, 1, wrong, 1, ["a"]),
                         lambda: store.top(ORIGIN, 1, 1, 1, {"a": wrong}), lambda: Auto(wrong)):
                with self.assertRaisesRegex(TypeError, "int"):
                    call()
        self.assertEqual(store.count(), 0)


class RefusalsTest(Case):
    """Each refusal of the manual's section What is not done."""

    def test_each_reason_that_a_call_can_have(self):
        store, where = self.store(), "a and ("
        calls = [
            (irtree.BadLength, lambda: store.add("k", ORIGIN, "x" * 65_536)),
            (irtree.BadMissing, lambda: store.nearest(ORIGIN, 1, where="")),
            (irtree.BadMissing, lambda: store.nearest(ORIGIN, 1, where=where)),
            (irtree.BadMissing, lambda: store.group(ORIGIN, [])),
            (irtree.BadNumber, lambda: store.add("k", (D("NaN"), 0))),
            (irtree.BadNumber, lambda: store.add("k", (D("-Infinity"), 0))),
            (irtree.BadNumber, lambda: store.add("k", (D("0." + "1" * 63), 0))),
            (irtree.BadNumber, lambda: store.nearest(ORIGIN, 10**20)),
            (irtree.BadNumber, lambda: store.nearest(ORIGIN, -1)),
            (irtree.BadNumber, lambda: store.nearest(ORIGIN, 1, scale=-1)),
            (irtree.BadRange, lambda: store.add("k", (D("180.0000001"), 0))),
            (irtree.BadRange, lambda: store.add("k", (0, -900_000_001))),
            (irtree.BadRange, lambda: store.add("k", (D("1E+999999999"), 0))),
            (irtree.BadRange, lambda: store.box(1, 0, 0, 0)),
            (irtree.BadRange, lambda: store.box(0, 1, 0, 0)),
            (irtree.BadRange, lambda: store.range(ORIGIN, -1)),
            (irtree.BadRange, lambda: store.range(ORIGIN, D("100000.0000001"))),
            (irtree.BadRange, lambda: store.nearest(ORIGIN, 0)),
            (irtree.BadRange, lambda: store.nearest(ORIGIN, 1001)),
            (irtree.BadRange, lambda: store.range(ORIGIN, 1, scale=1001)),
            (irtree.BadRange, lambda: store.nearest(ORIGIN, 1, scale=1001)),
            (irtree.BadRange, lambda: store.top(ORIGIN, 1, 500, 1, ["a"], scale=1001)),
            (irtree.BadRange, lambda: store.group(ORIGIN, ["a"], scale=1001)),
            (irtree.BadRange, lambda: store.gather(ORIGIN, ["a"], scale=1001)),
            (irtree.BadRange, lambda: store.top_by_rarity(ORIGIN, 1, 500, 0, ["a"])),
            (irtree.BadRange, lambda: store.top(ORIGIN, 1, 1001, 1, ["a"])),
            (irtree.BadRange, lambda: store.top(ORIGIN, 1, 500, 0, ["a"])),
            (irtree.BadRange, lambda: store.top(ORIGIN, 1, 500, D("402.4922360"), ["a"])),
            (irtree.BadRange, lambda: store.top(ORIGIN, 1, 500, 1, {"a": 21})),
            (irtree.BadRange, lambda: store.top(ORIGIN, 1, 500, 1, {"a": 0})),
            (irtree.BadKey, lambda: store.add("", ORIGIN)),
            (irtree.BadKey, lambda: store.add(Auto(1), ORIGIN)),
            (irtree.BadKey, lambda: store.show(Auto(2**64))),
            (irtree.BadKey, lambda: store.show(Auto(-1))),
            (irtree.BadWord, lambda: store.group(ORIGIN, ["a", "A"])),
            (irtree.BadWord, lambda: store.group(ORIGIN, ["a b"])),
            (irtree.BadWord, lambda: store.gather(ORIGIN, ["a", "a"])),
            (irtree.BadWord, lambda: store.top_by_rarity(ORIGIN, 1, 500, 1, ["a", "a"])),
            (irtree.BadWord, lambda: store.top(ORIGIN, 1, 500, 1, ["a", ("a", 2)])),
            (irtree.BadWord, lambda: store.nearest(ORIGIN, 1, where=Word(""))),
            (irtree.BadWord, lambda: store.nearest(ORIGIN, 1, where=Word("x" * 33))),
            (irtree.BadExpression, lambda: store.nearest(ORIGIN, 1, where="and")),
            (irtree.BadExtra, lambda: store.nearest(ORIGIN, 1, where="a b")),
            (irtree.BadExtra, lambda: store.group(ORIGIN, list("abcdefghi"))),
        ]
        for refusal, call in calls:
            with self.assertRaises(refusal) as caught:
                call()
            self.assertIsInstance(caught.exception, irtree.Bad)
            self.assertEqual(caught.exception.reply, "bad " + refusal.__name__[3:].lower())
        self.assertEqual(store.count(), 0)

    def test_refusals_that_no_call_can_have_or_that_take_long(self):
        for reply, refusal in irtree.REFUSALS.items():
            with Store("-", program=self.fake(reply + "\n")) as store:
                with self.assertRaises(refusal) as caught:
                    store.add("k", ORIGIN)
                self.assertEqual(caught.exception.reply, reply)

    @unittest.skipUnless(LARGE, "IRTREE_LARGE=1: fills a store")
    def test_a_full_store(self):
        for first in range(0, 1_000_000, 250_000):
            features = ",".join(f'{{"type":"Feature","id":"k{n}","geometry":{{"type":"Point","coordinates":[0,{n}e-7]}},"properties":{{}}}}'
                                for n in range(first, first + 250_000))
            loaded = irtree.load(self.file, f'{{"type":"FeatureCollection","features":[{features}]}}'.encode(), batch=10_000)
            self.assertEqual(loaded, Loaded(250_000, ()))
        with Store(self.file) as store:
            self.assertEqual(store.count(), 1_000_000)
            with self.assertRaises(irtree.Full):
                store.add("new", ORIGIN)
            self.assertIs(store.add("k7", ORIGIN), True)
            store.remove("k7")
            self.assertIs(store.add("new", ORIGIN), False)


class HostileTest(Case):
    """Keys, texts and words that would change a line if they were put into it as they are."""

    KEYS = ['"', '\\', '\\"', '" 0 0 x', 'a\nremove "b"', "a\rb", "\r", "\n", "\0", "\x1f", "\x7f", "\u2028", "\x85", "#1", "#", "(", ")",
            " ", "\t", " a ", "a b", "é", "e\u0301", "😀", "\ufeff", "\ufffd", "a*2", "-", "--", "= 1", "none", "add",
            *RESERVED]

    def test_each_key_is_its_own(self):
        store = self.store()
        for n, key in enumerate(self.KEYS):
            self.assertIs(store.add(key, (n, 0), "x"), False, key)
        self.assertEqual(store.count(), len(self.KEYS))
        self.assertEqual(self.hits(store.box(0, 0, 1000, 0)), sorted(self.KEYS, key=str.encode))
        for n, key in enumerate(self.KEYS):
            self.assertEqual(store.show(key), Place(key, Point(units(n), D(0)), (("x", 255),), "x"))
            self.assertEqual(store.nearest((n, 0), 1)[0].key, key)
            store.remove(key)
        self.assertEqual(store.count(), 0)

    def test_a_key_has_1_to_64_bytes(self):
        store = self.store()
        for key in ("x" * 64, "é" * 32, "😀" * 16, "\n" * 64):
            store.add(key, ORIGIN)
            self.assertEqual(store.show(key).key, key)
        for key in ("", "x" * 65, "é" * 33, "x" * 255, "x" * 256, "x" * 60_000):
            with self.assertRaises(irtree.BadKey):
                store.add(key, ORIGIN)
        self.assertEqual(store.count(), 4)

    def test_half_of_a_surrogate_pair_is_refused_everywhere(self):
        store = self.store()
        for half in ("\ud83d", "\ude00", "a\udcffb"):
            for call in (lambda: store.add(half, ORIGIN), lambda: store.add("k", ORIGIN, half), lambda: store.show(half),
                         lambda: store.nearest(ORIGIN, 1, where=Word(half)), lambda: store.nearest(ORIGIN, 1, where=half),
                         lambda: store.group(ORIGIN, [half]), lambda: store.top(ORIGIN, 1, 1, 1, {half: 2})):
                with self.assertRaises(irtree.LoneSurrogate):
                    call()
        self.assertEqual(store.count(), 0)

    def test_a_text_cannot_have_a_second_line(self):
        store = self.store()
        for text in ("cafe\nadd b 0 0", "cafe\r\nadd b 0 0", "cafe\r", "\n"):
            with self.assertRaises(irtree.LineBreak):
                store.add("a", ORIGIN, text)
        self.assertEqual(store.count(), 0)
        store.add("a", ORIGIN, "cafe\nadd\r\nb\r0 0", join_lines=True)
        self.assertEqual(store.show("a"), Place("a", point(0, 0), (("0", 102), ("add", 51), ("b", 51), ("cafe", 51)), "cafe add b 0 0"))
        self.assertEqual(store.count(), 1)

    def test_a_text_is_taken_as_it_is(self):
        store = self.store()
        for text, words in [("", []), (" \t ", []), ('"cafe" (bar)', ["bar", "cafe"]), ("# cafe", ["cafe"]), ("cafe\0bar", ["bar", "cafe"]),
                            ("where cafe", ["cafe", "where"]), ("\\u0061", ["u0061"]), ("x" * 32, ["x" * 32]), ("x" * 33, []),
                            ("x" * 255, []), ("x" * 256, []), ("a " * 127 + "a", ["a"]), ("a " * 128, ["a"]), ("É", ["é"])]:
            store.add("k", ORIGIN, text)
            shown = store.show("k")
            self.assertEqual([word for word, _ in shown.words], words, text)
            self.assertEqual(shown.label, label(text.lstrip(" \t")), text)

    def test_a_label_has_any_characters(self):
        store = self.store()
        texts = ['"a \\"b\\"" \\', "\x01\x1f\x7f\x85\u2028", 'x" 2 "', "é" * 40, "x" + "é" * 40, "東京" * 20, "😀" * 20, "xyz" + "😀" * 20]
        for text in texts + ["x" * ascii + character for character in "xé京😀" for ascii in range(58, 65)]:
            store.add("k", ORIGIN, text)
            self.assertEqual(store.show("k").label, label(text), text)

    def test_a_line_has_at_most_65536_bytes(self):
        store = self.store()
        room = 65_536 - len('add "k" 0.0000000 0.0000000 ')
        store.add("k", ORIGIN, "x" * room)
        with self.assertRaises(irtree.BadLength):
            store.add("k", ORIGIN, "x" * (room + 1))
        with self.assertRaises(irtree.BadLength):
            store.add("k", ORIGIN, "x" * 5_000_000)
        self.assertEqual(store.count(), 1)

    def test_a_filter_given_as_a_string_stays_on_its_line(self):
        store = self.store()
        store.add("a", ORIGIN, "cafe")
        for where in ("cafe\nremove a", "cafe\r\nremove a", "\n", "cafe\r"):
            with self.assertRaises(irtree.LineBreak):
                store.nearest(ORIGIN, 1, where=where)
        for where in ("cafe where bar", "cafe remove a", '"cafe'):
            with self.assertRaises(irtree.Bad):
                store.nearest(ORIGIN, 1, where=where)
        self.assertEqual(store.count(), 1)

    def test_a_word_cannot_have_a_filter_in_it(self):
        store = self.store()
        store.add("a", ORIGIN, "cafe")
        for word in ('cafe" or "bar', "cafe or bar", "not cafe", "cafe)(bar", "cafe\nremove bar"):
            with self.assertRaises(irtree.BadWord):
                store.nearest(ORIGIN, 1, where=Word(word))
            with self.assertRaises(irtree.BadWord):
                store.group(ORIGIN, [word])
        for word in ("(cafe", "cafe)", "cafe\n", '"cafe"', "#cafe", "cafe*"):
            self.assertEqual(self.hits(store.nearest(ORIGIN, 1, where=Word(word))), ["a"])
        self.assertEqual(store.nearest(ORIGIN, 1, where=Word('\\" or \\"')), [])    # its one word is `or`
        self.assertEqual(store.count(), 1)

    def test_reserved_words_are_words(self):
        store = self.store()
        for n, word in enumerate(RESERVED):
            store.add(word, (n, 0), word)
        for n, word in enumerate(RESERVED):
            self.assertEqual(self.hits(store.nearest(ORIGIN, 9, where=Word(word))), [word])
            self.assertEqual(self.hits(store.nearest(ORIGIN, 9, where=~Word(word))), RESERVED[:n] + RESERVED[n + 1:])
            self.assertEqual(self.hits(store.top(ORIGIN, 9, 500, 1, [word])), [word])
            self.assertEqual(self.hits(store.top(ORIGIN, 9, 500, 1, {word: 2})), [word])
        self.assertEqual([pick.key for pick in store.group(ORIGIN, RESERVED).picks], RESERVED)

    def test_a_weighted_word_is_written_bare(self):
        store = self.store()
        store.add("a", ORIGIN, 'cafe צה"ל')
        self.assertEqual(store.top(ORIGIN, 1, 0, 1, {"Cafe!": 20}, explain=True)[0].text_max, 20 * 255)
        for word in ("", "a b", "a\tb", "(cafe", "cafe)", 'צה"ל'):
            with self.assertRaises(irtree.WeightedWord):
                store.top(ORIGIN, 1, 0, 1, {word: 2})
        for word in ("cafe*3", "*", "a\0b"):
            with self.assertRaises(irtree.BadWord):
                store.top(ORIGIN, 1, 0, 1, {word: 2})
        with self.assertRaises(irtree.LineBreak):
            store.top(ORIGIN, 1, 0, 1, {"cafe\ncount": 2})
        self.assertEqual(self.hits(store.top(ORIGIN, 1, 0, 1, {'צה"ל': 1})), ["a"])

    def test_types_of_texts(self):
        store = self.store()
        for call in (lambda: store.add(b"k", ORIGIN), lambda: store.add(1, ORIGIN), lambda: store.add("k", ORIGIN, b"x"),
                     lambda: store.add("k", ORIGIN, None), lambda: store.show(1), lambda: Word(b"a"), lambda: store.group(ORIGIN, "ab"),
                     lambda: store.group(ORIGIN, [1]), lambda: store.top(ORIGIN, 1, 1, 1, "ab"), lambda: store.nearest(ORIGIN, 1, where=5),
                     lambda: Word("a") & "b or c", lambda: "a" | Word("b")):
            self.assertRaises(TypeError, call)
        self.assertEqual(store.count(), 0)


class FiltersTest(Case):
    """Filters made of words."""

    def test_the_words_of_python_are_refused(self):
        with self.assertRaisesRegex(TypeError, "&"):
            Word("a") and Word("b")
        with self.assertRaises(TypeError):
            not Word("a")
        with self.assertRaises(ValueError):
            irtree.And(())

    def test_a_filter_has_at_most_64_words(self):
        store = self.store()
        some = Word("w0")
        for n in range(1, 64):
            some = some | Word(f"w{n}")
        self.assertEqual(store.nearest(ORIGIN, 1, where=some), [])
        with self.assertRaises(irtree.BadExpression):
            store.nearest(ORIGIN, 1, where=some & Word("x"))

    def test_a_filter_has_at_most_32_levels(self):
        def deep(levels):
            some = Word("a")
            for level in range(levels):
                some = (some | Word("b")) & Word("c") if level % 2 else (~some if level % 4 else some & Word("d"))
            return some

        def denied(levels):
            some = Word("a")
            for _ in range(levels):
                some = ~some
            return some
        store = self.store()
        store.add("k", ORIGIN, "a")
        self.assertEqual(self.hits(store.nearest(ORIGIN, 1, where=denied(32))), ["k"])
        with self.assertRaises(irtree.BadExpression):
            store.nearest(ORIGIN, 1, where=denied(33))
        self.assertEqual(store.nearest(ORIGIN, 1, where=deep(28)), [])

    def test_parentheses_are_as_few_as_they_can_be(self):
        a, b, c = Word("a"), Word("b"), Word("c")
        for filter, text in [(a & b & c, '"a" and "b" and "c"'), (a & (b & c), '"a" and "b" and "c"'), (a & b | c, '"a" and "b" or "c"'),
                             ((a | b) & c, '("a" or "b") and "c"'), (~a & ~~b, 'not "a" and not not "b"'), (~(a & b), 'not ("a" and "b")'),
                             (~(a | b) | (b | c), 'not ("a" or "b") or "b" or "c"'), (Word('"\\\n'), '"\\"\\\\\\n"')]:
            self.assertEqual(irtree._filter(filter), text)

    def test_random_filters_mean_what_python_means(self):
        rng = random.Random(5)
        letters = "abcde"
        texts = ["".join(letter + " " for letter in letters if n >> letters.index(letter) & 1) for n in range(32)]

        def some(depth):
            """A filter, and a function of a set of words."""
            kind = rng.choice("wnao" if depth else "w")
            if kind == "w":
                letter = rng.choice(letters)
                return Word(letter), lambda words: letter in words
            left, holds = some(depth - 1)
            if kind == "n":
                return ~left, lambda words: not holds(words)
            right, also = some(depth - 1)
            if kind == "a":
                return left & right, lambda words: holds(words) and also(words)
            return left | right, lambda words: holds(words) or also(words)
        store = self.store()
        for n, text in enumerate(texts):
            store.add(f"{n:02}", (n, 0), text)
        for _ in range(300):
            where, holds = some(5)
            expected = [f"{n:02}" for n, text in enumerate(texts) if holds(text.split())]
            self.assertEqual(self.hits(store.nearest(ORIGIN, 99, where=where)), expected, where)


class EndsTest(Case):
    """Ends of the program, with the statuses and fixed lines of the manual."""

    def ended(self, call, status, line, advice="", kind=irtree.Ended):
        with self.assertRaises(kind) as caught:
            call()
        self.assertIs(type(caught.exception), kind)
        self.assertEqual((caught.exception.status, caught.exception.line), (status, line))
        self.assertIn(advice, "\n".join(caught.exception.advice))
        self.assertIn(line, str(caught.exception))
        return caught.exception

    def test_a_store_that_cannot_be_opened(self):
        letter = self.folder / "letter.txt"
        letter.write_text("Dear reader,\n" * 1000)
        self.ended(lambda: Store(letter), 7, "irtree: not a store", str(letter))
        self.assertEqual(letter.read_text(), "Dear reader,\n" * 1000)
        self.ended(lambda: Store(self.folder / "no" / "a.store"), 3, "irtree: disk", "make its folder, or name another store")
        self.ended(lambda: Store(self.folder), 3, "irtree: disk", "name a file in a folder")
        with Store(self.file):
            self.ended(lambda: Store(self.file), 3, "irtree: disk", "another process has the store open; wait for it to end")

    def test_options_that_are_refused(self):
        usage = "usage: irtree STORE run|load|verify|make|upgrade [options]"
        self.ended(lambda: Store("-", cache=65_537), 2, usage, "--cache")
        self.ended(lambda: Store("-", policy="best"), 2, usage, "best")

    def test_a_name_that_begins_with_a_hyphen_or_has_an_lf(self):
        self.addCleanup(os.chdir, os.getcwd())
        os.chdir(self.folder)
        for name in ("-x.store", "--help", "a\nb.store", "a b.store"):
            with Store(name) as store:
                store.add("k", ORIGIN)
            self.assertTrue((self.folder / name).exists())

    def test_a_store_stays_its_file_if_the_caller_changes_its_folder(self):
        self.addCleanup(os.chdir, os.getcwd())
        os.chdir(self.folder)
        with Store("a.store", program=os.path.relpath(irtree.find_program())) as store:
            os.chdir("/")
            store.load(LoadTest.TEXT)
            self.assertEqual(store.count(), 1)
        self.assertTrue(Path(self.file).exists())

    def test_a_program_that_was_killed(self):
        store = self.store(self.file)
        store.add("k", ORIGIN)
        os.kill(store.pid, signal.SIGKILL)
        end = self.ended(store.count, -9, "")
        self.assertIn("SIGKILL", str(end))
        self.assertEqual(end.owed, 1)
        for call in (store.count, lambda: store.pid):
            with self.assertRaisesRegex(irtree.Closed, "SIGKILL"):
                call()
        store.close()
        with Store(self.file) as again:
            self.assertEqual(again.count(), 1)

    def test_a_program_that_was_killed_is_seen_when_the_store_is_closed(self):
        store = self.store()
        os.kill(store.pid, signal.SIGKILL)
        self.ended(store.close, -9, "")

    def test_an_exception_of_the_block_is_the_one_that_is_raised(self):
        with self.assertRaises(ZeroDivisionError):
            with Store("-") as store:
                os.kill(store.pid, signal.SIGKILL)
                1 / 0

    def test_a_program_killed_in_a_pipeline_has_stored_what_it_acknowledged(self):
        store = self.store(self.file)
        threading.Timer(0.2, os.kill, (store.pid, signal.SIGKILL)).start()
        with self.assertRaises(irtree.Ended) as caught:
            with store.pipeline() as p:
                for n in itertools.count():
                    p.add(f"k{n}", (n % 10**9, 0), "cafe")
        self.assertEqual(caught.exception.status, -9)
        done = p.results
        self.assertEqual(done, [False] * len(done))
        with Store(self.file) as again:
            self.assertIn(again.count(), (len(done), len(done) + 1))

    def test_a_limit_on_the_size_of_a_file(self):
        limited = self.script("limited", f'#!/bin/sh\nulimit -f 400\nexec "{irtree.find_program()}" "$@"\n')
        store, replies = self.store(self.file, program=limited), []
        with self.assertRaises(irtree.Ended) as caught:
            with store.pipeline() as p:
                for n in range(5_000):
                    replies.append(p.add(f"k{n}", (n, n), f"word{n}"))
        end = caught.exception
        self.assertEqual((end.status, end.line), (3, "irtree: disk"))
        self.assertIn("File too large (os error 27); raise the limit on the size of a file, and run again", end.advice[0])
        done = len(p.results)
        self.assertLess(0, done)
        self.assertIs(replies[0].result(), False)
        with self.assertRaises(irtree.Ended):
            replies[done].result()
        with Store(self.file) as again:
            self.assertIn(again.count(), (done, done + 1))

    def test_a_program_that_ends_while_replies_are_owed(self):
        store = self.store(program=self.fake("ok\n", "ok\n", status=8, errors="irtree: limit no-room\nwhy\nwhat to do\n"))
        with self.assertRaises(irtree.Ended) as caught:
            with store.pipeline() as p:
                replies = [p.add(f"k{n}", ORIGIN) for n in range(5)]
        end = caught.exception
        self.assertEqual((end.status, end.line, end.advice, end.owed), (8, "irtree: limit no-room", ("why", "what to do"), 3))
        self.assertEqual(p.results, [False, False])
        self.assertIs(replies[1].result(), False)
        with self.assertRaises(irtree.Ended):
            replies[2].result()

    def test_a_program_that_ends_well_too_early(self):
        store = self.store(program=self.fake())
        self.assertEqual(self.ended(store.count, 0, "").owed, 1)

    def test_a_reply_that_was_cut(self):
        for part in ("o", "ok", "= 2\n", '= 2\n1 "a" 0.0000000\n', '= 2\n1 "a" 0.0000000\n2 "b', "place "):
            store = self.store(program=self.fake(part, status=5, errors="irtree: sink\n"))
            self.assertEqual(self.ended(store.count, 5, "irtree: sink", kind=irtree.CutShort).part, part)

    def test_what_is_no_reply(self):
        for reply in ("no\n", "\n", "ok\n", "= 1\n1 a 0.0000000\n", "= x\n", "=\n", "count x\n", "\x00\n", "bad luck\n",
                      '= 1\n2 "a" 0.0000000\n', '= 1\n1 "a" 0.0\n', 'place "a" 0.0000000 0.0000000 0\n', "place\n",
                      'place "a" 0.0000000 0.0000000 x ""\n', 'place "a" 0.0000000 0.0000000 0 x\n'):
            store = self.store(program=self.fake(reply))
            with self.assertRaises(irtree.UnknownReply):
                store.nearest(ORIGIN, 1)
            with self.assertRaises(irtree.Closed):
                store.count()

    def test_more_replies_than_lines(self):
        store = self.store(program=self.fake("count 1\ncount 2\n", "count 3\n"))
        with self.assertRaises(irtree.UnknownReply):
            store.count()
            store.count()

    def test_remarks_of_the_start_script_are_no_fixed_line(self):
        remark = "irtree: the sources are newer than the built program, which runs all the same; ./irtree-build proves and builds it anew\n"
        store = self.store(program=self.fake(status=7, errors=remark + "irtree: journal 4096\nadvice\n"))
        self.assertEqual(self.ended(store.count, 7, "irtree: journal 4096").advice, ("advice",))

    def test_an_interrupted_call_ends_the_program(self):
        hangs = self.script("hangs", "#!/bin/sh\nread line\necho count 0\nexec sleep 999\n")
        store = self.store(program=hangs)
        process = store._process

        def interrupt(number, frame):
            raise KeyboardInterrupt
        self.addCleanup(signal.signal, signal.SIGUSR1, signal.signal(signal.SIGUSR1, interrupt))
        threading.Timer(0.2, os.kill, (os.getpid(), signal.SIGUSR1)).start()
        with self.assertRaises(KeyboardInterrupt):
            store.count()
        self.assertEqual(process.returncode, -9)
        with self.assertRaisesRegex(irtree.Closed, "KeyboardInterrupt"):
            store.count()

    def test_a_closed_store(self):
        store = self.store()
        store.close()
        store.close()
        with self.assertRaisesRegex(irtree.Closed, "close was called"):
            store.count()
        with self.assertRaises(irtree.Closed):
            with store.pipeline() as p:
                p.count()

    def test_a_run_that_took_all_the_lines_it_takes(self):
        with mock.patch.object(irtree, "SCRIPT_MAX", 200):
            with Store(self.file) as store:
                first = store.pid
                with store.pipeline() as p:
                    for n in range(40):
                        p.add(f"k{n}", ORIGIN, "cafe")
                self.assertEqual(p.results, [False] * 40)
                self.assertNotEqual(store.pid, first)
                self.assertEqual(store.count(), 40)
                with self.assertRaises(irtree.ScriptFull):
                    store.add("k", ORIGIN, "x" * 200)
            with Store("-") as store:
                with self.assertRaises(irtree.ScriptFull):
                    for n in range(40):
                        store.add(f"k{n}", ORIGIN, "cafe")


class PipelineTest(Case):
    """Many lines ahead of their replies."""

    def test_results_are_in_order_and_refusals_in_their_places(self):
        store = self.store()
        with store.pipeline() as p:
            added = p.add("a", ORIGIN, "cafe")
            with self.assertRaises(irtree.NotYet):
                added.result()
            p.show("b")
            p.nearest(ORIGIN, 1)
            p.range(ORIGIN, 1)
            p.box(0, 0, 1, 1)
            p.top(ORIGIN, 1, 1000, 1, ["cafe"])
            p.group(ORIGIN, ["pub"])
            p.nearest(ORIGIN, 0)
            p.remove("a")
            counted = p.count()
        self.assertIs(added.result(), False)
        self.assertEqual(counted.result(), 0)
        results = p.results
        self.assertIsInstance(results[1], irtree.Absent)
        self.assertIsInstance(results[7], irtree.BadRange)
        near = [Hit(1, "a", D(0))]
        self.assertEqual(results[:1] + results[2:7] + results[8:], [False, near, near, [Hit(1, "a")], [Hit(1, "a", cost=0)], None, None, 0])

    def test_a_call_of_the_store_within_the_block_comes_after_the_lines_before_it(self):
        store = self.store()
        with store.pipeline() as p:
            added = p.add("a", ORIGIN)
            self.assertEqual(store.count(), 1)
            self.assertIs(added.result(), False)
            p.add("b", ORIGIN)
        self.assertEqual(store.count(), 2)

    def test_lines_before_an_exception_of_the_block_are_carried_out(self):
        store = self.store()
        with self.assertRaises(irtree.LineBreak):
            with store.pipeline() as p:
                p.add("a", ORIGIN)
                p.add("b", ORIGIN, "x\ny")
        self.assertEqual(p.results, [False])
        self.assertEqual(store.count(), 1)

    def test_its_calls_take_what_those_of_a_store_take(self):
        for name in ("add", "remove", "show", "count", "range", "box", "nearest", "top", "top_by_rarity", "group", "gather"):
            of_store, of_pipeline = (inspect.signature(getattr(kind, name)) for kind in (Store, irtree.Pipeline))
            self.assertEqual(str(of_store.parameters), str(of_pipeline.parameters))
            self.assertEqual(f"Reply[{of_store.return_annotation}]", of_pipeline.return_annotation)

    def test_an_empty_pipeline(self):
        store = self.store()
        with store.pipeline() as p:
            pass
        self.assertEqual(p.results, [])

    def test_long_lines_and_long_replies_at_once(self):
        store = self.store()
        with store.pipeline() as p:
            for n in range(1_000):
                p.add(f"k{n}", (n, 0), "x " * 30_000 if n % 100 == 0 else "x")
            asked = [p.nearest(ORIGIN, 1000) for _ in range(300)]
        for reply in asked:
            self.assertEqual(len(reply.result()), 1_000)

    def test_threads_share_a_store(self):
        store, failed = self.store(), []

        def work(name):
            try:
                for n in range(50):
                    self.assertIs(store.add(f"{name}-{n}", (n, 0), name), False)
                    self.assertEqual(store.show(f"{name}-{n}").words, ((name, 255),))
                with store.pipeline() as p:
                    replies = [p.remove(f"{name}-{n}") for n in range(25)] + [p.count()]
                self.assertEqual([reply.result() for reply in replies[:-1]], [None] * 25)
            except BaseException as error:
                failed.append(error)
        threads = [threading.Thread(target=work, args=(f"t{n}",)) for n in range(8)]
        for thread in threads:
            thread.start()
        for thread in threads:
            thread.join()
        self.assertEqual(failed, [])
        self.assertEqual(store.count(), 8 * 25)


class Scan:
    """A plain scan over lists of places, in whole units of 10^-7 degrees, as docs/DEFINITIONS.md defines the queries.

    A filter is a pair: what it means for a place's words, and words of which each place that passes has one (None if it needs none).
    A scale is the thousandths that a step of longitude counts.
    """

    def __init__(self):
        self.places = {}                            # key: (x, y, {word: impact}, key)
        self.holders = {}                           # word: the places that have it

    def add(self, key, x, y, words):
        place = x, y, {word: 1 + 254 * words.count(word) // len(words) for word in words}, key
        self.places[key] = place
        for word in set(words):
            self.holders.setdefault(word, []).append(place)

    def having(self, words):
        """The places that have one of the words, or all places."""
        if words is None:
            return self.places.values()
        return {place[3]: place for word in words for place in self.holders.get(word, ())}.values()

    def square(self, at, place, scale):
        """The square of a distance in thousandths of a unit. Longitudes go the shorter way round."""
        gap = abs(place[0] - at[0])
        return (scale * min(gap, 3_600_000_000 - gap)) ** 2 + (1000 * (place[1] - at[1])) ** 2

    def distance(self, at, place, scale):
        return math.isqrt(self.square(at, place, scale)) // 1000

    def point(self, key):
        x, y, _, _ = self.places[key]
        return Point(units(x), units(y))

    def near(self, found, explain):
        return [Hit(rank, key, units(distance), point=self.point(key) if explain else None)
                for rank, (distance, _, key) in enumerate(sorted(found), 1)]

    def inside(self, west, south, east, north, filter):
        """The places in a box that pass a filter."""
        holds, needed = filter
        return [place for place in self.having(needed)
                if west <= place[0] <= east and south <= place[1] <= north and holds(place[2])]

    def range(self, at, radius, scale, filter, explain):
        close = self.inside(-1_800_000_000, at[1] - radius, 1_800_000_000, at[1] + radius, filter)
        found = [(self.distance(at, place, scale), place[3].encode(), place[3]) for place in close]
        return self.near([hit for hit in found if hit[0] <= radius], explain)

    def nearest(self, at, k, scale, filter, explain):
        holds, needed = filter
        squares = [(self.square(at, place, scale), place[3]) for place in self.having(needed) if holds(place[2])]
        last = max((math.isqrt(square) // 1000 for square, _ in heapq.nsmallest(k, squares)), default=0)
        close = [(math.isqrt(square) // 1000, key.encode(), key) for square, key in squares if square < (1000 * (last + 1)) ** 2]
        return self.near(close, explain)[:k]

    def box(self, west, south, east, north, filter, explain):
        found = [place[3] for place in self.inside(west, south, east, north, filter)]
        return [Hit(rank, key, point=self.point(key) if explain else None) for rank, key in enumerate(sorted(found, key=str.encode), 1)]

    def top(self, at, k, alpha, reach, weights, scale, explain):
        most, found = 255 * sum(weights.values()), []
        for place in self.having(weights):
            text, key = sum(weight * place[2].get(word, 0) for word, weight in weights.items()), place[3]
            distance = self.distance(at, place, scale)
            found.append((alpha * distance * most + (1000 - alpha) * reach * (most - text), key.encode(), key, distance, text))
        hits = []
        for rank, (cost, _, key, distance, text) in enumerate(sorted(found)[:k], 1):
            more = (units(distance), cost, self.point(key), text, most) if explain else (None, cost)
            hits.append(Hit(rank, key, *more))
        return hits

    def by_rarity(self, at, k, alpha, reach, words, scale):
        weights = {}
        for word in words:
            live, holders = len(self.places), len(self.holders.get(word, []))
            weights[word] = 1 + max(e for e in range(20) if holders << e <= live) if holders else 1
        return self.top(at, k, alpha, reach, weights, scale, False)

    def chosen(self, at, words, scale, explain, price):
        best = None
        for choice in itertools.product(*[self.holders.get(word, []) for word in words]):
            offer = price(choice), [place[3].encode() for place in choice], choice
            best = offer if best is None or offer < best else best
        if best is None:
            return None
        picks = [Pick(rank, word, place[3], units(self.distance(at, place, scale)), self.point(place[3]) if explain else None)
                 for rank, (word, place) in enumerate(zip(words, best[2]), 1)]
        return Group(units(best[0]), tuple(picks))

    def group(self, at, words, scale, explain):
        def price(choice):
            between = [self.distance(one, other, scale) for one, other in itertools.combinations(choice, 2)]
            return max(self.distance(at, place, scale) for place in choice) + max(between, default=0)
        return self.chosen(at, words, scale, explain, price)

    def gather(self, at, words, scale, explain):
        def price(choice):
            return sum(self.distance(at, place, scale) for place in {place[3]: place for place in choice}.values())
        return self.chosen(at, words, scale, explain, price)


class ScanTest(Case):
    """All queries beside the scan, by a pipeline."""

    PLACES, QUERIES = (100_000, 10_000) if LARGE else (10_000, 1_000)
    COMMON = [f"c{n}" for n in range(PLACES // 500)]

    def words(self, rng):
        """The words of a text: some of many places, and one of five."""
        return rng.choices(self.COMMON, k=rng.randint(0, 5)) + [f"r{rng.randrange(self.PLACES // 5)}"]

    def point(self, rng):
        """A point of a coarse grid, so that there are ties, one at most a degree from the 180th meridian, or any point."""
        kind = rng.choice(["grid", "seam", "any"])
        if kind == "grid":
            return rng.randint(-18, 18) * 10**8, rng.randint(-9, 9) * 10**8
        lon = rng.choice([-1, 1]) * rng.randint(1_790_000_000 if kind == "seam" else 0, 1_800_000_000)
        return lon, rng.randint(-900_000_000, 900_000_000)

    def filled(self, rng, scan, store):
        """Puts the places into the scan and the store."""
        ends = ["", "é", "😀", "\ue000", '"', "\\", "\n", " "]
        with store.pipeline() as p:
            for n in range(self.PLACES):
                key, (x, y), words = f"{rng.choice('abc')}{n:06}{rng.choice(ends)}", self.point(rng), self.words(rng)
                scan.add(key, x, y, words)
                p.add(key, (x, y), " ".join(words))
        self.assertEqual(p.results, [False] * self.PLACES)
        self.assertEqual(store.count(), self.PLACES)

    def filter(self, rng):
        """A filter as it is asked for, and as the scan takes it."""
        a, b, c = rng.choice(self.COMMON), rng.choice(self.COMMON), rng.choice(self.COMMON)
        return rng.choice([
            (None, (lambda words: True, None)),
            (~Word(a), (lambda words: a not in words, None)),
            (Word(a), (lambda words: a in words, [a])),
            (Word(a) & Word(b), (lambda words: a in words and b in words, [a])),
            (Word(a) & ~(Word(b) | Word(c)), (lambda words: a in words and not (b in words or c in words), [a])),
            (f'{a} or "{b}" and not {c}', (lambda words: a in words or b in words and c not in words, [a, b])),
        ])

    def ask(self, rng, p, scan):
        """Asks for something, and returns the reply to come and the one that is expected."""
        at, explain, (where, filter) = self.point(rng), rng.random() < 0.5, self.filter(rng)
        scale = rng.choice([None, 0, 1, 500, 564, 999, 1000])
        counts = 1000 if scale is None else scale
        kind = rng.choice(["range", "box", "nearest", "top", "idf", "group", "gather"])
        if kind == "range":
            radius = rng.choice([0, 10**7, 10**8])
            return p.range(at, radius, scale=scale, where=where, explain=explain), lambda: scan.range(at, radius, counts, filter, explain)
        if kind == "box":
            x, y = self.point(rng)
            box = min(at[0], x), min(at[1], y), max(at[0], x), min(max(at[1], y), min(at[1], y) + 10**8)
            return p.box(*box, where=where, explain=explain), lambda: scan.box(*box, filter, explain)
        if kind == "nearest":
            k = rng.choice([1, 10, 100])
            return p.nearest(at, k, scale=scale, where=where, explain=explain), lambda: scan.nearest(at, k, counts, filter, explain)
        if kind == "top":
            weights = {word: rng.randint(1, 20) for word in rng.sample(self.COMMON, rng.randint(0, 2)) + self.words(rng)[-1:]}
            k, alpha, reach = rng.choice([1, 10, 50]), rng.choice([0, 300, 1000]), rng.choice([1, 10**7, 4_024_922_359])
            reply = p.top(at, k, alpha, reach, weights, scale=scale, explain=explain)
            return reply, lambda: scan.top(at, k, alpha, reach, weights, counts, explain)
        if kind == "idf":
            words = list(dict.fromkeys(rng.sample(self.COMMON, rng.randint(0, 2)) + self.words(rng)[-1:]))
            k, alpha, reach = rng.choice([1, 10, 50]), rng.choice([0, 300, 1000]), rng.choice([1, 10**7, 4_024_922_359])
            return p.top_by_rarity(at, k, alpha, reach, words, scale=scale), lambda: scan.by_rarity(at, k, alpha, reach, words, counts)
        words = list(dict.fromkeys(self.words(rng)[-1] for _ in range(rng.randint(1, 3))))
        if kind == "gather":
            return p.gather(at, words, scale=scale, explain=explain), lambda: scan.gather(at, words, counts, explain)
        return p.group(at, words, scale=scale, explain=explain), lambda: scan.group(at, words, counts, explain)

    def test_queries_give_what_the_scan_gives(self):
        rng, scan, store = random.Random(11), Scan(), self.store()
        began = time.monotonic()
        self.filled(rng, scan, store)
        filled = time.monotonic()
        with store.pipeline() as p:
            asked = [self.ask(rng, p, scan) for _ in range(self.QUERIES)]
        done = time.monotonic()
        for n, (reply, expected) in enumerate(asked):
            self.assertEqual(reply.result(), expected(), p._replies[n]._question.line)
        hits = sum(len(result) for result in p.results if isinstance(result, list))
        print(f"{self.PLACES} adds in {filled - began:.1f} s, {self.QUERIES} queries with {hits} hits in {done - filled:.1f} s, "
              f"the scan in {time.monotonic() - done:.1f} s", file=sys.stderr)


class LoadTest(Case):
    """The manual's section Loading GeoJSON."""

    TEXT = b"""{"type":"FeatureCollection","features":[
     {"type":"Feature","geometry":{"type":"Point","coordinates":[12.57,55.68]},"properties":{"name":"Bar"}},
     {"type":"Feature","geometry":null,"properties":{}}]}"""

    def test_the_example_as_bytes_and_as_a_file(self):
        file = self.folder / "places.geojson"
        file.write_bytes(self.TEXT)
        for source in (self.TEXT, bytearray(self.TEXT), file, str(file)):
            self.assertEqual(irtree.load("-", source), Loaded(1, (Skip(1, "no-geometry"),)))
        irtree.load(self.file, self.TEXT)
        with Store(self.file) as store:
            self.assertEqual(store.show(Auto(1)), Place(Auto(1), point("12.57", "55.68"), (("bar", 255),), "Bar"))

    def test_each_reason_to_skip(self):
        def feature(geometry, id="null"):
            return f'{{"type":"Feature","id":{id},"geometry":{geometry},"properties":{{}}}}'
        point = '{"type":"Point","coordinates":[0,0]}'
        features = ["{}", feature("null"), feature('{"type":"LineString"}'), feature('{"type":"Point","coordinates":[0]}'),
                    feature('{"type":"Point","coordinates":[181,0]}'), feature(point, '""'), feature(point, '"k"')]
        loaded = irtree.load("-", ('{"type":"FeatureCollection","features":[%s]}' % ",".join(features)).encode())
        reasons = ["not-feature", "no-geometry", "not-point", "bad-position", "out-of-range", "bad-id"]
        self.assertEqual(loaded, Loaded(1, tuple(Skip(index, reason) for index, reason in enumerate(reasons))))

    def test_options(self):
        text = b'{"type":"Feature","id":"x","geometry":{"type":"Point","coordinates":[1,2]},"properties":{"a \\"b\\"":"one","-c":"two"}}'
        for name, word in [('a "b"', "one"), ("-c", "two")]:
            self.assertEqual(irtree.load(self.file, text, batch=1, text=name, cache=0, policy="halving"), Loaded(1, ()))
            with Store(self.file) as store:
                self.assertEqual(store.show("x"), Place("x", Point(D(1), D(2)), ((word, 255),), word))

    def test_a_label_is_the_first_line_of_the_first_string(self):
        for properties, expected in [
                ('"n":7,"a":"One\\ntwo","b":"Three"', "One"), ('"a":"One\\r\\ntwo"', "One\r"), ('"a":"","b":"Two"', ""),
                ('"b":"Two","a":"One"', "Two"), ('"l":["One"],"n":2', ""), ('"a":" \\t One"', " \t One")]:
            text = f'{{"type":"Feature","id":"x","geometry":{{"type":"Point","coordinates":[0,0]}},"properties":{{{properties}}}}}'
            irtree.load(self.file, text.encode())
            with Store(self.file) as store:
                self.assertEqual(store.show("x").label, expected, properties)

    def test_an_open_store_loads(self):
        with Store(self.file) as store:
            store.add("k", ORIGIN)
            self.assertEqual(store.load(self.TEXT, batch=10), Loaded(1, (Skip(1, "no-geometry"),)))
            self.assertEqual(store.count(), 2)
            with self.assertRaises(irtree.LoadEnded):
                store.load(b"{")
            self.assertEqual(store.count(), 2)
            with self.assertRaises(FileNotFoundError):
                store.load(str(self.folder / "none"))
            self.assertEqual(store.count(), 2)
        with self.assertRaises(ValueError):
            self.store().load(self.TEXT)
        with self.assertRaises(irtree.Closed):
            store.load(self.TEXT)

    def test_a_text_that_is_refused(self):
        for text, line in [(b'{"a":\xff}', "irtree: input not-utf8 5"), (b"[1,]", "irtree: input syntax 3"),
                           (b"[" * 65, "irtree: input too-deep 64"), (b"[]", "irtree: input not-features")]:
            with self.assertRaises(irtree.LoadEnded) as caught:
                irtree.load(self.file, text)
            self.assertEqual((caught.exception.status, caught.exception.line), (6, line))
            self.assertEqual(caught.exception.loaded, Loaded(0, ()))
            self.assertTrue(caught.exception.advice)

    def test_a_load_that_ends_has_what_it_reported(self):
        for status, cut in [(8, "stored 2000\n"), (0, "stored 2000\nloaded 2"), (-9, "stored 2000\nsto")]:
            end = "os.kill(os.getpid(), 9)" if status < 0 else f"os._exit({status})"
            printed = ("skip 3 bad-id\n" + cut).encode()
            fake = self.script("loads", f"#!{sys.executable}\nimport os\nos.write(1, {printed!r})\n{end}\n")
            with self.assertRaises(irtree.LoadEnded) as caught:
                irtree.load("-", self.TEXT, program=fake)
            self.assertEqual((caught.exception.status, caught.exception.loaded), (status, Loaded(2000, (Skip(3, "bad-id"),))))

    def test_a_check_names_a_broken_page(self):
        irtree.load(self.file, self.TEXT)
        self.assertIsNone(irtree.verify(self.file, cache=0))
        with open(self.file, "r+b") as file:
            file.seek(39)
            file.write(b"\3")
        self.assertEqual(irtree.verify(self.file), irtree.Broken(0, 14))
        with open(self.file, "r+b") as file:
            file.seek(64)
            file.write(b"\1")
        with self.assertRaises(irtree.Ended) as caught:
            irtree.verify(self.file)
        self.assertEqual((caught.exception.status, caught.exception.line), (7, "irtree: damaged 0 1"))

    def test_a_store_that_another_process_has(self):
        with Store(self.file):
            with self.assertRaises(irtree.LoadEnded) as caught:
                irtree.load(self.file, self.TEXT)
        self.assertEqual(caught.exception.status, 3)


class ProgramTest(Case):
    """Where the program is looked for."""

    def test_the_argument_comes_before_the_variable(self):
        fake = self.script("fake", "#!/bin/sh\n")
        with mock.patch.dict(os.environ, {"IRTREE": "/no/such/program"}):
            self.assertEqual(irtree.find_program(fake), fake)
            with self.assertRaises(irtree.ProgramNotFound):
                irtree.find_program()
        with mock.patch.dict(os.environ, {"IRTREE": fake}):
            self.assertEqual(irtree.find_program(), fake)

    def repository(self):
        """A folder that looks like a repository without the built program."""
        cli = self.folder / "crates" / "irtree_cli"
        (cli / "out").mkdir(parents=True)
        (self.folder / "clients" / "python").mkdir(parents=True)
        return self.script("irtree", "#!/bin/sh\n"), cli / "out" / "irtree_cli"

    def test_the_start_script_of_a_repository_is_used_once_the_program_is_built(self):
        start, built = self.repository()
        bin = self.folder / "bin"
        bin.mkdir()
        (bin / "irtree").write_text("#!/bin/sh\n")
        (bin / "irtree").chmod(0o755)
        with mock.patch.object(irtree, "__file__", str(self.folder / "clients" / "python" / "irtree.py")):
            with mock.patch.dict(os.environ, {"IRTREE": "", "PATH": str(bin)}):
                self.assertEqual(irtree.find_program(), str(bin / "irtree"))
                built.write_text("")
                built.chmod(0o755)
                self.assertEqual(Path(irtree.find_program()).resolve(), Path(start).resolve())
            built.unlink()
            with mock.patch.dict(os.environ, {"IRTREE": "", "PATH": str(self.folder)}):
                with self.assertRaises(irtree.ProgramNotFound):
                    irtree.find_program()
                with self.assertRaisesRegex(irtree.ProgramNotFound, "irtree-build"):
                    irtree.find_program(start)

    def test_a_program_that_cannot_be_started(self):
        with self.assertRaises(irtree.ProgramNotFound):
            Store("-", program=self.script("empty", "\0\0"))
        with self.assertRaises(irtree.ProgramNotFound):
            Store("-", program=self.folder / "none")


class DocsTest(Case):
    """The example of docs/QUERIES.md. Its distances were computed by hand, from the points of examples/ogr2ogr.geojson."""

    TOP = Path(irtree.__file__).resolve().parents[2]

    @unittest.skipUnless((TOP / "docs" / "QUERIES.md").exists(), "the client was copied alone")
    def test_the_example_prints_what_is_printed_there(self):
        section = (self.TOP / "docs" / "QUERIES.md").read_text(encoding="utf-8").split("## From Python\n")[1].split("\n## ")[0]
        blocks = [textwrap.dedent(block) for block in re.findall(r"(?:^    .*\n|^\n(?=    ))+", section, re.M)]
        (self.folder / "examples").symlink_to(self.TOP / "examples")
        run = subprocess.run([sys.executable, "-c", blocks[0]], cwd=self.folder, capture_output=True, text=True,
                             env={**os.environ, "IRTREE": irtree.find_program(), "PYTHONPATH": str(self.TOP / "clients" / "python")})
        self.assertEqual((run.stdout.strip(), run.stderr), (blocks[1].strip(), ""))
        self.assertEqual(run.stdout, "4\n1 #2 0.0002236\n2 molen 0.0021540\n0.0075144\n")


if __name__ == "__main__":
    unittest.main()

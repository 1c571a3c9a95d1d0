#!/usr/bin/env python3
"""Tests of tools/to_geojson.py, picture.py and store_check.py, beside the built program: IRTREE names it, or ./irtree-build has built it.

usage: [IRTREE=PATH] python3 tools/test_tools.py
"""
import json
import os
import random
import re
import shutil
import subprocess
import sys
import tempfile
import unittest
import xml.etree.ElementTree as xml

TOOLS = os.path.dirname(os.path.abspath(__file__))
TOP = os.path.dirname(TOOLS)
PROGRAM = os.environ.get("IRTREE", f"{TOP}/crates/irtree_cli/out/irtree_cli")
sys.path[:0] = [TOOLS, f"{TOP}/bench"]
from places import geojson, places  # noqa: E402
from store_file import Store, key_text  # noqa: E402
from to_geojson import PLACE, repeats  # noqa: E402
from tree_search import Nearest, Top, best_first, cheapest_group, degrees, filter_of, mindist  # noqa: E402

ODD_TEXTS = ["Café \"Bølgen\" \\ naïve, STRASSE Straße", "", "... !", "one one one two", "\u0363 \u0364x", "a\u0363b 3.14 can't wi-fi",
             "  \u0363\n\u0365", " ".join(f"w{i}" for i in range(90)), "東京 カフェ ไทย", "Joe's Bar, 3.14 & 12:30", "e\u0301te\u0301 हिन्दी", "one\r\ntwo", "\none", " \tone two",
             " ".join(["many"] * 3000 + [f"w{i}" for i in range(63)] + ["last"] * 40)]
ODD_KEYS = ["#7", "a b", "\"q\"", "é\n\t\\", "0" * 64, "ключ", "\u0001"]


def tool(name, *words, given=b""):
    return subprocess.run([sys.executable, f"{TOOLS}/{name}.py", *words], input=given, capture_output=True)


def irtree(store, action, given=b"", *options):
    done = subprocess.run([PROGRAM, store, action, *options], input=given, capture_output=True)
    assert done.returncode == 0, done
    return done.stdout.decode("utf-8")


def asked(store, lines):
    return irtree(store, "run", "".join(f"{line}\n" for line in lines).encode("utf-8"))


def feature(key, x, y, text):
    named = {} if key is None else {"id": key}
    return {"type": "Feature", **named, "geometry": {"type": "Point", "coordinates": [x, y]}, "properties": {"text": text}}


def on_map(x, y):
    """The nearest point of the map, as a line has it."""
    return f"{min(max(x, -180), 180):.7f} {min(max(y, -90), 90):.7f}"


def queries(count, words, points, rng):
    """So many lines of queries, of each kind in turn."""
    for i in range(count):
        x, y = rng.choice(points)
        at, some = on_map(x + rng.uniform(-1, 1), y + rng.uniform(-1, 1)), [json.dumps(word) for word in rng.sample(words, 3)]
        where = rng.choice(["", f" where {some[0]}", f" where not {some[0]}", f" where {some[0]} and {some[1]}",
                            f" where {some[0]} or not ({some[1]} and {some[2]})"])
        scale = rng.choice(["", " scale 564"])
        yield [f"range {at} {rng.uniform(0, 20):.3f}{scale}{where}", f"nearest {at} {rng.randint(1, 30)}{scale}{where}",
               f"box {on_map(x - 9, y - 9)} {on_map(x + 5, y + 3)}{where}",
               f"top {at} {rng.randint(1, 30)} {rng.randint(0, 1000)} {rng.uniform(0.01, 9):.3f}{scale} words "
               f"{' '.join(some[:rng.randint(1, 3)])}",
               f"group {at}{scale} words {' '.join(some[:2])}"][i % 5]


class WithStore(unittest.TestCase):
    """A folder of its own, in which `make` makes the store that all tests of a class read."""

    @classmethod
    def setUpClass(cls):
        if not os.access(PROGRAM, os.X_OK):
            raise unittest.SkipTest("the program isn't built: ./irtree-build builds it, or IRTREE names it")
        cls.room = tempfile.TemporaryDirectory(prefix="test_tools.")
        cls.store = f"{cls.room.name}/a.store"
        cls.make()

    @classmethod
    def tearDownClass(cls):
        cls.room.cleanup()

    def path(self, name):
        return f"{self.room.name}/{name}"


class Export(WithStore):
    @classmethod
    def make(cls):
        rng = random.Random(1)
        odd = [feature(rng.choice([None, f"o{i}"]), i % 90 + 0.1234567, -i % 50, text) for i, text in enumerate(ODD_TEXTS * 3)]
        odd += [feature(key, i, i, "key") for i, key in enumerate(ODD_KEYS)]
        odd += [feature(None, 5, 5, "tie"), feature(None, 5, 5, "tie")]
        irtree(cls.store, "make", b"", "--count=480")
        irtree(cls.store, "load", geojson(places(1000 - 480 - len(odd))))
        irtree(cls.store, "load", json.dumps({"type": "FeatureCollection", "features": odd}).encode())
        asked(cls.store, ["remove #3", "remove #1", "add x -180 90 one two two", "remove x"])
        exported = tool("to_geojson", "--export", cls.store, "--program", PROGRAM)
        assert exported.returncode == 0, exported
        cls.warned = exported.stderr.decode()
        cls.text = exported.stdout
        cls.features = json.loads(cls.text)["features"]
        cls.copy = f"{cls.room.name}/copy.store"
        cls.loaded = irtree(cls.copy, "load", cls.text)
        numbers = [each["properties"]["number"] for each in cls.features if "number" in each["properties"]]
        cls.renamed = {f"#{new}": f"#{old}" for new, old in enumerate(numbers, 1)}

    @classmethod
    def lost(cls, each):
        """Whether an export couldn't keep the label of a place."""
        return "label" not in each["properties"]

    def with_kept_labels(self, text, keys):
        """Replies to `show` without the labels of places whose labels the export couldn't keep."""
        lost = {key for key, each in zip(keys, self.features) if self.lost(each)}
        places = ((line, PLACE.fullmatch(line)) for line in text.split("\n"))
        return "\n".join(line[:place.start("label")] if place and place["key"] in lost else line for line, place in places)

    def with_old_keys(self, text):
        """Replies of the copy with the automatic keys of the store."""
        lines = (line.split(" ") for line in text.split("\n"))
        return "\n".join(" ".join(self.renamed.get(part, part) if i < 3 else part for i, part in enumerate(parts)) for parts in lines)

    def test_an_export_has_each_place_and_loads_whole(self):
        self.assertEqual(len(self.features), 998)
        self.assertEqual(asked(self.store, ["count"]), "count 998\n")
        self.assertTrue(self.loaded.endswith("loaded 998 skipped 0\n"))
        self.assertGreater(len(self.renamed), 50)
        self.assertNotEqual(self.renamed["#1"], "#1")

    def test_points_words_impacts_and_labels_are_kept(self):
        keys = [json.dumps(each["id"]) if "id" in each else f"#{each['properties']['number']}" for each in self.features]
        new = {old: new for new, old in self.renamed.items()}
        before = asked(self.store, [f"show {key}" for key in keys])
        after = asked(self.copy, [f"show {new.get(key, key)}" for key in keys])
        self.assertFalse("absent" in before)
        self.assertTrue(self.with_kept_labels(before, keys) == self.with_kept_labels(self.with_old_keys(after), keys))

    def test_few_labels_are_lost(self):
        lost = sum(map(self.lost, self.features))
        self.assertEqual(self.warned, f"to_geojson: {self.store}: the labels of {lost} places can't be kept\n")
        self.assertLess(lost, 10)

    def test_an_export_of_the_copy_is_the_same_except_for_automatic_keys(self):
        again = json.loads(tool("to_geojson", "--export", self.copy, "--program", PROGRAM).stdout)["features"]
        first = json.loads(self.text)["features"]
        for each in first + again:
            each["properties"].pop("number", None)
        for each, same in zip(first, again):
            if self.lost(each):
                each["properties"] = same["properties"] = {"impacts": each["properties"]["impacts"]}
        self.assertEqual(first, again)

    def test_two_hundred_queries_have_the_same_replies(self):
        rng = random.Random(2)
        words = sorted({word for each in self.features for word in each["properties"]["impacts"]})
        frequent = sorted(words, key=lambda word: -sum(word in each["properties"]["impacts"] for each in self.features))[:150]
        points = [each["geometry"]["coordinates"] for each in self.features]
        lines = [f"explain {line}" for line in queries(200, frequent, points, rng)] + ["explain nearest 5 5 9 where tie"]
        before, after = asked(self.store, lines), self.with_old_keys(asked(self.copy, lines))
        self.assertTrue(before == after)
        self.assertGreater(before.count("\n"), 1500)
        self.assertFalse(any(line.startswith("bad") for line in before.split("\n")))

    def test_one_collection_has_the_hits_of_all_queries(self):
        lines = ["count", "explain group 0 0 words place a1", "explain top 0 0 3 500 1 words a1", "explain box 0 0 9 9", "show m0"]
        out = asked(self.store, lines)
        done = tool("to_geojson", given=out.encode())
        found = json.loads(done.stdout)["features"]
        self.assertEqual(sum(line.startswith("place") or " at " in line for line in out.split("\n")), len(found))
        self.assertEqual({each["properties"]["query"] for each in found}, {1, 2, 3, 4})


class Replies(unittest.TestCase):
    def properties(self, replies):
        return [each["properties"] for each in json.loads(tool("to_geojson", given=replies.encode()).stdout)["features"]]

    def test_each_kind_of_reply(self):
        for replies, properties in [
            ('= 1\n1 "a \\"b\\"" 0.0009219 at 12.6041000 -0.7003000\n', {"query": 1, "rank": 1, "key": 'a "b"', "distance": 0.0009219}),
            ('= 1\n1 #12 at 12.6041000 55.7003000\n', {"query": 1, "rank": 1, "key": "#12", "automatic": True}),
            ('ok\n= 1\n1 "#12" at 1.0000000 2.0000000\n= 0\nnone\n', {"query": 1, "rank": 1, "key": "#12"}),
            ('= 1\n1 "k" 39226267500 at 1.0000000 2.0000000 dist 0.0009219 text 51 of 765\n',
             {"query": 1, "rank": 1, "key": "k", "distance": 0.0009219, "cost": 39226267500, "text": 51, "of": 765}),
            ('= 1 0.5000000\n1 "café" "k" 0.2500000 at 1.0000000 2.0000000\n',
             {"query": 1, "rank": 1, "key": "k", "word": "café", "distance": 0.25, "group_cost": 0.5}),
            ('place "k" 1.0000000 2.0000000 2 "Café \\"café\\", bar"\n"bar" 85\n"café" 170\n',
             {"query": 1, "key": "k", "label": 'Café "café", bar', "impacts": {"bar": 85, "café": 170}}),
        ]:
            self.assertEqual(self.properties(replies), [properties])

    def test_coordinates_keep_their_digits(self):
        out = tool("to_geojson", given=b'= 1\n1 "k" at -179.9999999 0.0000001\n').stdout
        self.assertIn(b'"coordinates":[-179.9999999,0.0000001]', out)

    def test_what_has_no_points_is_refused_or_named(self):
        for replies, reason in [('= 1\n1 "k" 0.5000000\n', "ask by explain"), ('= 2\n1 "k" at 1.0000000 2.0000000\n', "end within a reply"),
                                ("= 1\nok\n", "isn't a line of a query's reply")]:
            done = tool("to_geojson", given=replies.encode())
            self.assertEqual((done.returncode, done.stdout), (1, b""))
            self.assertIn(reason, done.stderr.decode())
        done = tool("to_geojson", given=b"bad word\n")
        self.assertEqual((done.returncode, json.loads(done.stdout)["features"]), (0, []))
        self.assertIn("line 1: the reply is 'bad word'", done.stderr.decode())

    def test_repeats_give_the_impacts_of_each_text(self):
        rng = random.Random(3)
        for size in [1, 2, 3, 5, 20, 63, 64] * 6:
            times = [rng.choice((1, 1, 2, 3, 50, 4000)) for _ in range(size)]
            total = sum(times) + (rng.choice((0, 5, 900)) if size == 64 else 0)
            impacts = tuple(1 + 254 * count // total for count in times)
            found, further = repeats(impacts)
            least = sum(found) + further
            self.assertEqual(tuple(1 + 254 * count // least for count in found), impacts)
            self.assertLessEqual(least, total)
        self.assertIsNone(repeats((1, 1)))


def below(store, page):
    """The places below a node, and the pages of the node and of all below it."""
    node = store.nodes[page]
    if node.level == 0:
        return [store.places[slot.key] for slot in node.slots], [page]
    parts = [below(store, slot.child) for slot in node.slots]
    return [place for part in parts for place in part[0]], [page] + [page for part in parts for page in part[1]]


def may_hold(tree, held):
    """Whether a place with some of these words may meet a filter."""
    name, *parts = tree
    if name in ("has", "not"):
        return name == "not" or held(parts[0]) > 0
    return (all if name == "and" else any)(may_hold(part, held) for part in parts)


class Pictures(WithStore):
    @classmethod
    def make(cls):
        irtree(cls.store, "load", geojson(places(900, 5)), "--policy=halving")
        cls.read = Store(cls.store)
        counts = {word: sum(n in place.words for place in cls.read.places.values()) for word, n in cls.read.numbers.items()}
        cls.words = [word for word in sorted(counts, key=lambda word: -counts[word]) if word.isascii()][:60]

    def point(self, rng):
        """The point of a place, or a point on one side of the 180th meridian, where longitudes meet."""
        x, y = rng.choice(list(self.read.places.values())).point
        return rng.choice([(x, y), (x, y), (1_800_000_000, y), (-1_800_000_000, y)])

    def bound_and_chance(self, page, at, ask, scale, top):
        """By the places below a node alone: the least cost that their rectangle and greatest impacts allow, and whether one may answer."""
        found, _ = below(self.read, page)
        xs, ys = zip(*(place.point for place in found))

        def greatest(word):
            return max(self.read.impact_in(place, word) for place in found)

        chance = any(map(greatest, ask.weights)) if top else ask.tree is None or may_hold(ask.tree, greatest)
        return ask.cost(mindist((min(xs), min(ys), max(xs), max(ys)), at, scale), greatest), chance

    def agrees(self, line, at, k, ask, scale, top=False):
        hits, opened = best_first(self.read, at, k, ask, scale)
        pages = [opening.page for opening in opened]
        self.assertEqual(len(set(pages)), len(pages))
        printed = asked(self.store, [line]).split("\n")[1:-1]
        found = [f"{rank} {key_text(hit.key)} {hit.cost if top else degrees(hit.cost)}" for rank, hit in enumerate(hits, 1)]
        self.assertEqual(found, printed)
        parents = {slot.child: page for page, node in self.read.nodes.items() if node.level for slot in node.slots}
        leaves = {slot.key: page for page, node in self.read.nodes.items() if not node.level for slot in node.slots}
        for hit in hits:
            self.assertIn(leaves[hit.key], pages)
        for page, node in self.read.nodes.items():
            bound, chance = self.bound_and_chance(page, at, ask, scale, top)
            is_due = chance and (len(hits) < k or bound <= hits[-1].cost or page == self.read.root)
            is_reached = page == self.read.root or parents[page] in pages
            self.assertEqual(page in pages, is_due and is_reached, (line, page, node.level, bound, hits[-1:]))

    def test_opened_are_exactly_the_nodes_whose_bound_is_at_most_the_last_cost(self):
        rng = random.Random(4)
        for i in range(24):
            at, k, (a, b, c) = self.point(rng), rng.choice((1, 3, 10)), rng.sample(self.words, 3)
            scale = rng.choice((0, 1, 500, 564, 999, 1000))
            where = ["", a, f"not {a}", f"{a} and not ({b} or {c})", f"{a} or {b} and {c}", "nobodyhasthis"][i % 6]
            head = f"{degrees(at[0])} {degrees(at[1])} {k}"
            ask = Nearest(filter_of(where) if where else None)
            self.agrees(f"nearest {head} scale {scale}{' where ' + where if where else ''}", at, k, ask, scale)
            alpha = rng.choice((0, 300, 1000))
            ask = Top(alpha, 15_000_000, [a, f"{b}*7"])
            self.agrees(f"top {head} {alpha} 1.5 scale {scale} words {a} {b}*7", at, k, ask, scale, top=True)

    @unittest.skipUnless(shutil.which("strace"), "strace isn't installed")
    def test_opened_are_exactly_the_nodes_that_the_program_reads(self):
        rng = random.Random(6)
        for i in range(12):
            (x, y), k, (a, b) = self.point(rng), rng.choice((1, 3, 10)), rng.sample(self.words, 2)
            where, head = ["", a, f"not {a}", f"{a} and not {b}"][i % 4], f"{degrees(x)} {degrees(y)} {k}"
            scale = rng.choice((0, 564, 1000))
            if i % 3:
                line = f"nearest {head} scale {scale}{' where ' + where if where else ''}"
                ask = Nearest(filter_of(where) if where else None)
            else:
                line, ask = f"top {head} 500 1.5 scale {scale} words {a} {b}*3", Top(500, 15_000_000, [a, f"{b}*3"])
            trace = ["strace", "-f", "-e", "trace=pread64", "-o", self.path("trace"), PROGRAM, self.store, "run", "--cache", "0"]
            subprocess.run(trace, input=f"{line}\n".encode("utf-8"), stdout=subprocess.DEVNULL, check=True)
            with open(self.path("trace"), encoding="utf-8", errors="replace") as file:
                read = {int(at) // 4096 for at in re.findall(r", 4096, (\d+)\) ", file.read())}
            pages = {opening.page for opening in best_first(self.read, (x, y), k, ask, scale)[1]}
            self.assertEqual(read & set(self.read.nodes), pages, line)

    def test_a_group_is_the_programs(self):
        rng = random.Random(5)
        for _ in range(12):
            (x, y), words, scale = self.point(rng), rng.sample(self.words, 3), rng.choice((0, 564, 1000))
            cost, keys = cheapest_group(self.read, (x, y), words, scale)
            head, *picks, _ = asked(self.store, [f"group {degrees(x)} {degrees(y)} scale {scale} words {' '.join(words)}"]).split("\n")
            self.assertEqual(head, f"= 3 {degrees(cost)}")
            self.assertEqual([pick.split(" ")[2] for pick in picks], [key_text(key) for key in keys])

    def test_each_picture_is_svg_with_its_query_as_title(self):
        a, b = self.words[5:7]
        for title, options in [("The tree of a.store", []), ("The file of a.store, page by page", ["--strip"]),
                               (f"nearest -12.5 -50 5 where {a} and not ({b})",
                                ["--nearest", "-12.5", "-50", "5", "--where", a, "and not", f"({b})"]),
                               (f"top 1 2 5 500 1 words {a}*2", ["--top", "1", "2", "5", "500", "1", f"{a}*2"]),
                               ("nearest 0 0 3 where nobody", ["--nearest", "0", "0", "3", "--where", "nobody"]),
                               (f"nearest 180 0 3 scale 564 where {a}", ["--nearest", "180", "0", "3", "--scale", "564", "--where", a]),
                               (f"group -180 2 scale 0 words {a} {b}", ["--group", "-180", "2", a, b, "--scale", "0"]),
                               (f"group 1 2 words {a} {b}", ["--group", "1", "2", a, b])]:
            done = tool("picture", self.store, self.path("out.svg"), *options)
            self.assertEqual((done.returncode, done.stderr), (0, b""), title)
            root = xml.parse(self.path("out.svg")).getroot()
            self.assertEqual(root.find("{http://www.w3.org/2000/svg}title").text, title)
            self.assertLess(os.path.getsize(self.path("out.svg")), 400_000)

    def test_the_pictures_of_the_docs_are_what_their_commands_make(self):
        irtree(self.path("places.store"), "load", geojson(places(2000)), "--policy=halving")
        pages = ""
        for name in ("README.md", "docs/ARCHITECTURE.md"):
            with open(f"{TOP}/{name}", encoding="utf-8") as file:
                pages += file.read()
        commands = re.findall(r"^    python3 tools/picture.py (places.store) (docs/pictures/\w+.svg) (.*)$", pages, re.M)
        self.assertEqual(sorted(picture for _, picture, _ in commands), ["docs/pictures/nearest.svg", "docs/pictures/pages.svg"])
        for store, picture, options in commands:
            tool("picture", self.path(store), self.path("again.svg"), *options.split())
            with open(self.path("again.svg"), "rb") as again, open(f"{TOP}/{picture}", "rb") as shown:
                self.assertTrue(again.read() == shown.read(), picture)

    def test_an_export_passes_on_why_a_run_ends(self):
        store = self.path("damaged.store")
        with open(self.store, "rb") as whole, open(store, "wb") as file:
            file.write(whole.read().replace(b"IRTREE02", b"IRTREE02\xff", 1))
        done = tool("to_geojson", "--export", store, "--program", PROGRAM)
        lines = done.stderr.decode().split("\n")
        self.assertEqual((done.returncode, done.stdout, lines[1]), (1, b"", "irtree: damaged 0 1"))
        self.assertEqual(lines[0], f"to_geojson: {store}: the run ended with status 7")

    def refuses(self, done, reason, out):
        self.assertEqual((done.returncode, done.stdout), (1, b""), reason)
        self.assertIn(reason, done.stderr.decode())
        self.assertNotIn("Traceback", done.stderr.decode())
        self.assertFalse(os.path.exists(out))

    def test_what_is_no_store_is_refused_and_stays_as_it_is(self):
        letter, cut, out = self.path("letter.txt"), self.path("cut.store"), self.path("none.svg")
        with open(letter, "wb") as file:
            file.write(b"a letter\n" * 1000)
        with open(cut, "wb") as file, open(self.store, "rb") as whole:
            file.write(whole.read()[:40_000])
        older = self.path("older.store")
        with open(older, "wb") as file, open(self.store, "rb") as whole:
            file.write(whole.read().replace(b"IRTREE02", b"IRTREE01", 1))
        named = (older, "a store of version 1")
        for path, reason in [(letter, "not a store"), (self.path("absent"), "No such file"), (cut, "not a whole store"), named]:
            self.refuses(tool("picture", path, out), reason, out)
        for path, reason in [(letter, "not a store"), (self.path("absent"), "No such file"), named]:
            self.refuses(tool("to_geojson", "--export", path, "--program", PROGRAM), reason, out)
        self.assertEqual(sorted(name for name in os.listdir(self.room.name) if name[:6] in ("letter", "absent")), ["letter.txt"])
        with open(letter, "rb") as file:
            self.assertEqual(file.read(), b"a letter\n" * 1000)

    def test_a_store_in_use_or_with_an_open_journal_is_refused(self):
        store, out = self.path("open.store"), self.path("none.svg")
        child = subprocess.Popen([PROGRAM, store, "run"], stdin=subprocess.PIPE, stdout=subprocess.PIPE)
        child.stdin.write(b"add a 1 2 cafe\n")
        child.stdin.flush()
        self.assertEqual(child.stdout.readline(), b"ok\n")
        self.refuses(tool("picture", store, out), "another process has the store open", out)
        self.refuses(tool("to_geojson", "--export", store, "--program", PROGRAM), "another process has the store open", out)
        child.kill()
        child.communicate()
        self.refuses(tool("picture", store, out), "the journal has records", out)
        exported = tool("to_geojson", "--export", store, "--program", PROGRAM)
        self.assertEqual([each["id"] for each in json.loads(exported.stdout)["features"]], ["a"])
        self.assertEqual(tool("picture", store, self.path("a.svg")).returncode, 0)

    def test_wrong_parts_of_a_query_are_refused(self):
        out = self.path("none.svg")
        for options, reason in [("--nearest 181 0 1", "isn't within 180"), ("--nearest 0 x 1", "isn't a number"),
                                ("--nearest 0 0 0", "K is '0'"), ("--nearest 0 0 1 --scale 1001", "SCALE is '1001'"),
                                ("--nearest 0 0 1 --where a and", "lacks a word"), ("--nearest 0 0 1 --where (a", "lacks a parenthesis"),
                                ("--nearest 0 0 1 --where a b", "goes on after its end"), ("--top 0 0 1", "--top takes"),
                                ("--top 0 0 1 500 1 a*x", "WEIGHT is 'x'"), ("--top 0 0 1 500 0 a", "REACH"), ("--group 0 0 nobody", "none"),
                                ("--top 0 0 1 500 1 a A*2", "a word comes twice"), ("--group 0 0 a A", "a word comes twice"),
                                ("--nearest nan 0 1", "isn't a number"), ("--nearest inf 0 1", "isn't a number")]:
            self.refuses(tool("picture", self.store, out, *options.split()), reason, out)


class Checks(unittest.TestCase):
    """The second opinion on whether a store is whole, beside the program's."""

    def test_both_have_one_opinion_on_changed_bytes(self):
        with tempfile.TemporaryDirectory() as folder:
            store = f"{folder}/small.store"
            asked(store, [f"add k{i} {i}.5 {i} café {'bar' if i % 3 else 'pub'} word{i}" for i in range(40)] + [f"remove k{i}" for i in range(9)])
            self.assertTrue(tool("store_check", store).stdout.startswith(b"whole\n"))
            done = tool("store_check", "--against", PROGRAM, store, "997")
            self.assertEqual((done.returncode, done.stderr), (0, b""), done.stdout)
            self.assertTrue(done.stdout.endswith(b" 0 on which the two disagree\n"), done.stdout)


if __name__ == "__main__":
    unittest.main()

"""Tests the finder over a small store, with the built program: python3 -m unittest examples/finder/test_finder.py

IRTREE names the program, if it isn't that of this repository.
"""
import http.client
import json
import os
import re
import signal
import subprocess
import sys
import tempfile
import threading
import unittest
from concurrent.futures import ThreadPoolExecutor
from decimal import Decimal
from pathlib import Path
from urllib.parse import urlencode

HERE = Path(__file__).resolve().parent
sys.path.insert(0, str(HERE))
import finder  # noqa: E402
import irtree  # noqa: E402  (finder has put its folder on the path)

IMAGE = '<img src=x onerror="alert(1)">'
PLACES = [
    ("bolgen", "12.6041", "55.7003", "Café Bølgen coffee and cake"),
    ("fyret", "12.6083", "55.7021", "Nordre Fyr lighthouse café"),
    ("kajen", "12.6012", "55.6990", "Kajen sushi bar"),
    ("molen", "12.6070", "55.7013", "Molen pier and bar"),
    (IMAGE, "12.7", "55.8", "<script>alert(2)</script>"),
]
QUESTION = {"do": "nearest", "words": "", "at": "12.6050 55.7005", "k": "10", "alpha": "500", "reach": "0.01"}
WORDS_BEYOND_SIGNS = re.compile(r"[^\W_]")


def question(**fields):
    return "/ask?" + urlencode({**QUESTION, **fields})


def need_program():
    """Skips a class of tests if there is no built program to run."""
    try:
        irtree.find_program()
    except irtree.ProgramNotFound as error:
        raise unittest.SkipTest(str(error)) from error


class Served:
    """A server of the finder over a new store with these places, until the end of the block."""

    def __enter__(self):
        self.folder = tempfile.TemporaryDirectory()
        self.path = Path(self.folder.name) / "small.store"
        with irtree.Store(self.path) as store:
            for key, lon, lat, text in PLACES:
                store.add(key, (Decimal(lon), Decimal(lat)), text)
        self.store = irtree.Store(self.path, cache=0)
        self.server = finder.serve(self.store)
        self.port = self.server.server_port
        self.thread = threading.Thread(target=self.server.serve_forever, args=(0.05,))
        self.thread.start()
        return self

    def __exit__(self, *error):
        self.server.shutdown()
        self.thread.join()
        self.server.server_close()
        self.store.close()
        self.folder.cleanup()

    def get(self, path, method="GET", hosts=None, headers=()):
        """Returns the status, the headers and the body of the reply to one request."""
        connection = http.client.HTTPConnection("127.0.0.1", self.port, timeout=20)
        try:
            connection.putrequest(method, path, skip_host=True)
            for name, value in [("Host", host) for host in hosts or [f"127.0.0.1:{self.port}"]] + list(headers):
                connection.putheader(name, value)
            connection.endheaders()
            reply = connection.getresponse()
            return reply.status, reply.headers, reply.read().decode()
        finally:
            connection.close()

    def ask(self, **fields):
        status, _, body = self.get(question(**fields))
        return status, json.loads(body)


class FinderTest(unittest.TestCase):
    @classmethod
    def setUpClass(cls):
        need_program()
        cls.served = Served().__enter__()
        cls.addClassCleanup(cls.served.__exit__)

    def keys(self, **fields):
        status, reply = self.served.ask(**fields)
        self.assertEqual(status, 200, reply)
        return [hit["key"] for hit in reply["hits"]]

    def test_each_question_finds_its_places(self):
        for fields, keys in [
            ({"words": "café"}, ["bolgen", "fyret"]),
            ({"words": "CAFÉ -lighthouse"}, ["bolgen"]),
            ({"words": "bar and"}, ["molen"]),
            ({"words": "café", "k": "1"}, ["bolgen"]),
            ({"words": "", "k": "2"}, ["bolgen", "molen"]),
            ({"words": "nothing"}, []),
            ({"do": "top", "words": "café bar*2", "k": "3"}, ["bolgen", "molen", "kajen"]),
            ({"do": "group", "words": "café sushi lighthouse"}, ["bolgen", "kajen", "fyret"]),
            ({"do": "group", "words": "café nothing"}, []),
            ({"at": "12.7, 55.8", "k": "1", "words": "script"}, [IMAGE]),
        ]:
            with self.subTest(fields=fields):
                self.assertEqual(self.keys(**fields), keys)

    def test_a_hit_has_its_point_its_distance_and_its_words(self):
        _, reply = self.served.ask(words="sushi")
        self.assertEqual(reply, {"said": "1 place.", "hits": [
            {"rank": 1, "key": "kajen", "at": [12.6012, 55.699], "distance": 0.0040853, "note": "0.0040853° away",
             "words": ["bar", "kajen", "sushi"]}]})

    def test_the_map_has_all_places(self):
        status, _, body = self.served.get("/ask?do=map")
        self.assertEqual((status, json.loads(body)["said"]), (200, "5 places"))
        self.assertEqual(sorted(json.loads(body)["dots"]), sorted([float(lon), float(lat)] for _, lon, lat, _ in PLACES))

    def test_a_wrong_request_is_refused(self):
        port, good = self.served.port, question(words="café")
        for path, status, more in [
            (good, 200, {}),
            (good, 200, {"hosts": [f"localhost:{port}"]}),
            (good, 200, {"headers": [("Sec-Fetch-Site", "same-origin")]}),
            ("/?words=caf%C3%A9", 200, {}),
            ("/nothing", 404, {}),
            ("/ask/", 404, {}),
            ("/../finder.py", 404, {}),
            ("/finder.py", 404, {}),
            (f"http://127.0.0.1:{port}/ask?do=map", 404, {}),
            (good, 403, {"hosts": ["evil.example"]}),
            (good, 403, {"hosts": [f"evil.example:{port}"]}),
            (good, 403, {"hosts": [f"127.0.0.1.evil.example:{port}"]}),
            (good, 403, {"hosts": [f"127.0.0.1:{port}", "evil.example"]}),
            (good, 403, {"hosts": [""]}),
            ("/", 403, {"hosts": ["evil.example"]}),
            (good, 403, {"headers": [("Sec-Fetch-Site", "cross-site")]}),
            (good, 403, {"headers": [("Sec-Fetch-Site", "same-site")]}),
            (good, 501, {"method": "POST"}),
            (good, 501, {"method": "PUT"}),
            ("/ask", 400, {}),
            ("/ask?", 400, {}),
            ("/ask?do=map&do=map", 400, {}),
            (good + "&k=1", 400, {}),
            (good + "&more=1", 400, {}),
            (good.replace("&k=10", ""), 400, {}),
            (good + "x" * 2000, 400, {}),
            (question(words="x" * 301), 400, {}),
            (question(do="add"), 400, {}),
            (question(at="12"), 400, {}),
            (question(at="12 55 1"), 400, {}),
            (question(at="12 55 where x"), 400, {}),
            (question(at="nan inf"), 400, {}),
            (question(at="1e5 1"), 400, {}),
            (question(at="181 0"), 400, {}),
            (question(at="١٢ ٥٥"), 400, {}),
            (question(k="0"), 400, {}),
            (question(k="101"), 400, {}),
            (question(k="-1"), 400, {}),
            (question(do="top", words="a", alpha="1001"), 400, {}),
            (question(do="top", words="a", reach="0"), 400, {}),
            (question(do="top", words=""), 400, {}),
            (question(do="top", words="a b c d e f g h i"), 400, {}),
            (question(do="top", words="a*21"), 400, {}),
            (question(do="group", words="a a"), 400, {}),
        ]:
            with self.subTest(path=path, **more):
                self.assertEqual(self.served.get(path, **more)[0], status)

    def test_a_refusal_of_the_program_is_a_sentence(self):
        for fields, part in [
            ({"words": "wi-fi"}, "single words"), ({"do": "group", "words": "a a"}, "none of them twice"),
            ({"do": "top", "words": "a b c d e f g h i"}, "at most eight"), ({"do": "top"}, "at least one"), ({"at": "0 91"}, "-90 to 90"),
        ]:
            with self.subTest(fields=fields):
                status, reply = self.served.ask(**fields)
                self.assertEqual((status, reply["wrong"]), (400, True))
                self.assertIn(part, reply["said"])

    def test_hostile_words_stay_words(self):
        for words in ['"', '" or "bar', 'x" where "bar', "<script>alert(1)</script>", IMAGE, "a\nremove bolgen", "a\rremove bolgen", "a\0b",
                      "a\\", "\\ud83d", "(", ")", "( bar )", "and", "or not", "where", "#1", "*", "*2", '"bar"*2', "bar*2*2", "-", "--bar",
                      "\u2028", "\u2029", "\ud7ff", "\ufeff", "🙂", "x" * 300, "%0aremove bolgen"]:
            for do in ("nearest", "top", "group"):
                with self.subTest(do=do, words=words):
                    status, reply = self.served.ask(do=do, words=words)
                    self.assertIn(status, (200, 400))
                    self.assertIsInstance(reply["said"], str)
                    if status == 200 and WORDS_BEYOND_SIGNS.search(words) is None and words.strip():
                        self.assertEqual(reply["hits"], [])
        self.assertEqual(self.served.store.count(), len(PLACES))
        self.assertEqual(self.keys(words="café"), ["bolgen", "fyret"])

    def test_what_looks_like_html_stays_in_json(self):
        status, headers, body = self.served.get(question(words="script"))
        self.assertEqual((status, headers["Content-Type"], headers["X-Content-Type-Options"]), (200, "application/json", "nosniff"))
        self.assertEqual(json.loads(body)["hits"][0]["key"], IMAGE)

    def test_the_page_sets_nothing_as_html_and_loads_nothing(self):
        status, headers, page = self.served.get("/")
        self.assertEqual(status, 200)
        for name in ["innerHTML", "outerHTML", "insertAdjacentHTML", "document.write", "createContextualFragment", "DOMParser", "setHTML",
                     "srcdoc", "eval(", "Function(", "javascript:", "import(", " src=", "@import", "url("]:
            self.assertNotIn(name, page)
        self.assertEqual(re.findall(r"https?://[^\"'` ]*", page), ["http://www.w3.org/2000/svg"])     # a name, which is never loaded
        self.assertEqual(re.findall(r"<[a-z][^>]*\s(?:on[a-z]+|style)=", page), [])
        policy = headers["Content-Security-Policy"]
        for rule in ["default-src 'none'", "script-src 'sha256-", "frame-ancestors 'none'", "require-trusted-types-for 'script'"]:
            self.assertIn(rule, policy)
        self.assertNotIn("unsafe", policy)

    def test_questions_at_once_get_each_their_own_reply(self):
        wanted = {"café": ["bolgen", "fyret"], "sushi": ["kajen"], "pier": ["molen"]}
        with ThreadPoolExecutor(12) as pool:
            for word, keys in pool.map(lambda turn: (turn, self.keys(words=turn)), list(wanted) * 20):
                self.assertEqual(keys, wanted[word])

    def test_only_this_machine_is_served(self):
        self.assertEqual(self.served.server.server_address[0], "127.0.0.1")


class EndTest(unittest.TestCase):
    setUpClass = classmethod(lambda cls: need_program())

    def test_a_program_that_is_killed_is_reported(self):
        with Served() as served:
            self.assertEqual(served.ask(words="sushi")[0], 200)
            os.kill(served.store.pid, signal.SIGKILL)
            for _ in range(2):
                self.assertEqual(served.ask(words="sushi"), (503, {
                    "wrong": True, "said": "irtree ended with signal SIGKILL.\nThen start the finder again."}))
            self.assertEqual(served.get("/")[0], 200)

    def test_a_store_that_is_cut_short_is_reported_with_the_advice(self):
        with Served() as served:
            os.truncate(served.path, 4096)
            status, reply = served.ask(words="sushi")
            self.assertEqual((status, reply["wrong"]), (503, True))
            self.assertRegex(reply["said"], r"^irtree ended with status 3\.\nirtree: disk\n.*cut short.*take the store and its journal")

    def run_finder(self, *words):
        return subprocess.Popen([sys.executable, HERE / "finder.py", *words], stdout=subprocess.PIPE, stderr=subprocess.PIPE, text=True)

    def test_it_runs_from_the_command_line_until_it_is_interrupted(self):
        with tempfile.TemporaryDirectory() as folder, self.run_finder(Path(folder) / "new.store") as run:
            try:
                line = run.stdout.readline()
                self.assertRegex(line, r"^http://127\.0\.0\.1:\d+/ shows .*; Ctrl-C ends it\n$")
                run.send_signal(signal.SIGINT)
                self.assertEqual(run.communicate(timeout=20)[1], "")
            finally:
                run.kill()

    def test_a_store_that_cannot_be_opened_is_reported_with_the_advice(self):
        with self.run_finder("/nothing/is/here.store") as run:
            errors = run.communicate(timeout=20)[1]
        self.assertEqual(run.returncode, 1)
        self.assertRegex(errors, r"^finder: irtree ended with status 3; irtree: disk.*No such file.*make its folder")


if __name__ == "__main__":
    unittest.main()

#!/usr/bin/env python3
"""A store finder to look at: one page, for this machine alone, that asks a store of irtree and draws what it finds.

usage: python3 examples/finder/finder.py STORE [--port PORT]      (README.md beside this file has more)
"""
import argparse
import base64
import hashlib
import json
import re
import sys
import threading
from decimal import Decimal
from http.server import BaseHTTPRequestHandler, ThreadingHTTPServer
from pathlib import Path
from urllib.parse import parse_qsl

HERE = Path(__file__).resolve().parent
sys.path.insert(0, str(HERE.parents[1] / "clients" / "python"))
import irtree  # noqa: E402

DOTS = 10_000        # how many places the map draws at most, so that a browser draws them in a moment
REQUEST = 2_000      # how many characters a request has at most
FIELDS = {           # what each field of a question looks like, and what to say if it doesn't
    "do": (r"nearest|top|group", "The question is none of nearest, top and group."),
    "words": (r"[^\x00-\x1f\x7f]{0,300}", "The words are one line of at most 300 characters."),
    "at": (r"-?\d{1,3}(\.\d{1,20})?[ ,]+-?\d{1,2}(\.\d{1,20})?", "The point is two numbers in degrees: longitude, then latitude."),
    "k": (r"[1-9]\d?|100", "K is a whole number from 1 to 100."),        # each hit takes a line `show` more
    "alpha": (r"\d{1,4}", "Alpha is a whole number from 0 to 1000."),
    "reach": (r"\d{1,3}(\.\d{1,20})?", "Reach is a number of degrees, such as 0.01."),
}
SENTENCES = {        # what a refusal of the program means here
    "bad word": "Write single words of at most 32 bytes without signs in them, none of them twice.",
    "bad range": "Longitude is -180 to 180, latitude -90 to 90, Alpha 0 to 1000, Reach 0.0000001 to 402, a word's weight 1 to 20.",
    "bad missing": "Write at least one word.", "bad extra": "Write at most eight words.",
}


class Wrong(Exception):
    """A request that isn't carried out: a status of HTTP, and a sentence for the reader."""


class Finder:
    """Carries out questions on one open store, one after the other, whichever thread they come from."""

    def __init__(self, store):
        self.store, self.lock, self.ended = store, threading.Lock(), None
        everywhere = store.box(Decimal(-180), Decimal(-90), Decimal(180), Decimal(90), explain=True)
        dots = [[float(hit.point.lon), float(hit.point.lat)] for hit in everywhere[::1 + len(everywhere) // DOTS]]
        self.map = {"dots": dots, "said": f"{len(everywhere):,} places" + f", {len(dots):,} of them drawn" * (len(dots) < len(everywhere))}

    def reply(self, query):
        """Returns the reply to the query of a URL, as a value for JSON. Raises `Wrong`."""
        pairs = parse_qsl(query, keep_blank_values=True)
        if pairs == [("do", "map")]:
            return self.map
        if sorted(name for name, _ in pairs) != sorted(FIELDS):
            raise Wrong(400, f"A question has each of these once: {', '.join(FIELDS)}.")
        for name, value in pairs:
            if not re.fullmatch(FIELDS[name][0], value, re.ASCII):
                raise Wrong(400, FIELDS[name][1])
        with self.lock:
            try:
                if not self.ended:
                    return self.found(**dict(pairs))
            except (irtree.Refused, irtree.CantSend) as error:
                raise Wrong(400, f"{SENTENCES.get(getattr(error, 'reply', ''), 'This cannot be asked.')} (irtree: {error})") from error
            except irtree.Ended as end:
                self.ended = "\n".join([str(end).split(";")[0] + ".", *filter(None, [end.line]), *end.advice])
            raise Wrong(503, f"{self.ended}\nThen start the finder again.")

    def found(self, do, words, at, k, alpha, reach):
        """Asks one question, and shows the place of each hit."""
        point, words, k, more = [Decimal(part) for part in re.split("[ ,]+", at)], words.split(), int(k), ""
        if do == "nearest":
            parts = [~irtree.Word(word[1:]) if word[0] == "-" else irtree.Word(word) for word in words]
            hits = self.store.nearest(point, k, where=irtree.And(tuple(parts)) if parts else None, explain=True)
            notes = [f"{hit.distance:f}° away" for hit in hits]
        elif do == "top":
            weighed = [(word, re.fullmatch(r"(.+)\*([0-9]{1,3})", word)) for word in words]
            words = [(match[1], int(match[2])) if match else word for word, match in weighed]
            hits = self.store.top(point, k, int(alpha), Decimal(reach), words, explain=True)
            notes = [f"{hit.distance:f}° away, words {hit.text} of {hit.text_max}, cost\u00a0{hit.cost:,}" for hit in hits]
        else:
            group = self.store.group(point, words, explain=True)
            hits, more = (group.picks, f", which cost {group.cost:f}° together") if group else ((), ": a word is in no place")
            notes = [f"for {hit.word}, {hit.distance:f}° away" for hit in hits]
        with self.store.pipeline() as shown:
            places = [shown.show(hit.key) for hit in hits]
        rows = [{"rank": hit.rank, "key": str(hit.key), "at": [float(hit.point.lon), float(hit.point.lat)], "note": note,
                 "distance": float(hit.distance), "words": [word for word, _ in sorted(place.result().words, key=lambda pair: -pair[1])]}
                for hit, note, place in zip(hits, notes, places)]
        return {"hits": rows, "said": f"{len(rows) or 'No'} place{'s' * (len(rows) != 1)}{more}."}


def serve(store, port=0):
    """Returns a server of the page on 127.0.0.1, at this port or at a free one. Its `serve_forever` runs it."""
    finder, page = Finder(store), (HERE / "finder.html").read_bytes()
    script, style = [base64.b64encode(hashlib.sha256(part).digest()).decode() for part in
                     re.search(rb"<style>(.*)</style>.*<script>(.*)</script>", page, re.S).group(2, 1)]
    headers = {"Content-Security-Policy": f"default-src 'none'; script-src 'sha256-{script}'; style-src 'sha256-{style}'; img-src data:; "
               "connect-src 'self'; base-uri 'none'; form-action 'none'; frame-ancestors 'none'; require-trusted-types-for 'script'",
               "X-Content-Type-Options": "nosniff", "Referrer-Policy": "no-referrer", "Cache-Control": "no-store"}

    class Handler(BaseHTTPRequestHandler):
        timeout = 20                                  # seconds to wait for a slow request
        log_message = lambda *words: None             # keeps questions out of the terminal  # noqa: E731

        def do_GET(self):
            try:
                status, kind, body = 200, *self.content()
            except Wrong as wrong:
                status, kind, body = wrong.args[0], "application/json", json.dumps({"wrong": True, "said": wrong.args[1]}).encode()
            self.send_response(status)
            for name, value in {"Content-Type": kind, "Content-Length": str(len(body)), **headers}.items():
                self.send_header(name, value)
            self.end_headers()
            self.wfile.write(body)

        def content(self):
            """The type and the bytes of what is asked for, if this machine's own browser asks by the page's own address."""
            here = self.headers.get_all("Host") in [[f"{name}:{self.server.server_port}"] for name in ("127.0.0.1", "localhost")]
            if not here or self.headers.get("Sec-Fetch-Site", "none") not in ("none", "same-origin"):
                raise Wrong(403, "The page is for this machine alone, at 127.0.0.1 or localhost, and no other site may ask here.")
            if len(self.path) > REQUEST or not self.path.isascii():
                raise Wrong(400, f"A request has at most {REQUEST} characters, all of them ASCII.")
            path, _, query = self.path.partition("?")
            if path == "/":
                return "text/html; charset=utf-8", page
            if path == "/ask":
                return "application/json", json.dumps(finder.reply(query)).encode()
            raise Wrong(404, "Nothing is here; the page is at /.")

    return ThreadingHTTPServer(("127.0.0.1", port), Handler)


if __name__ == "__main__":
    parser = argparse.ArgumentParser(description="Serves a page that asks a store of irtree, for this machine alone.")
    parser.add_argument("store", help="the file of the store")
    parser.add_argument("--port", type=int, default=0, help="the port; a free one if absent")
    given = parser.parse_args()
    try:
        with irtree.Store(given.store) as opened, serve(opened, given.port) as server:
            print(f"http://127.0.0.1:{server.server_port}/ shows {given.store}; Ctrl-C ends it", flush=True)
            server.serve_forever()
    except KeyboardInterrupt:
        pass
    except (irtree.Error, OSError, OverflowError) as error:
        sys.exit(f"finder: {error}")

#!/usr/bin/env python3
"""Lists phrases that the pages and the doc comments of this repository avoid, and lines of prose that are too long.

It reads README.md, CONTRIBUTING.md, docs/*.md, bench/README.md, clients/*/README.md, crates/*/README.md, and the `///` and `//!`
lines of crates/*/src/**/*.rt. Names in backticks, code blocks, block quotes and text in quotation marks are skipped. Each hit is a line
`file:line: phrase: text`; the status is then 1. Where there is no hit it prints nothing, and the status is 0.

usage: python3 tools/plain_english.py [FILE ..]    (no FILE: all of them)
"""
import bisect
import re
import sys
from pathlib import Path

TOP = Path(__file__).resolve().parent.parent
WIDEST = 140                                        # columns of a line of prose; rows of tables may be wider
PAGES = ["README.md", "CONTRIBUTING.md", "docs/*.md", "bench/README.md", "clients/*/README.md", "crates/*/README.md"]
CODE, NAME = "\u25a1", "\u25a0"                      # what a name in backticks is replaced by, letter by letter: NAME for `None`, `Ok`, ..
DETERMINERS = r"the|of|its|their|these|those|no|all|both|whose|few|many|most|such|other|same|as|with|by|for|are|k|and|or|but"

# `answers` is a verb after one of these, whatever follows, or before an object if no determiner comes first.
SUBJECTS = r"it|which|who|never|always|also|tree|engine|call|program|run|query|line|station|SQLite|irtree|Python"
OBJECTS = r"how|what|whether|that|which|the|a|an|it|each|every|no|nothing|damage"

# Words that begin a condition after `where`, and verbs that make one of what follows. PLACES are phrases that are none, LEFT what comes
# before a `behind` of things that are left.
THINGS = rf"it|they|there|that|this|these|one|no|none|nothing|any|both|memory|[{CODE}{NAME}]+"
FACTS = r"is|are|was|were|isn't|aren't|wasn't|has|have|hasn't|does|doesn't|can|can't|may|needs|fails|failed|breaks|lives|holds"
DENIED = r"isn't|aren't|wasn't|doesn't|don't|didn't|can't|hasn't|haven't"
PLACES = re.compile(r"where (it|they) (lies?|belongs?|goes|comes? from|is stored|are stored|was found|is kept)\b|where a degree of longitude\b", re.I)

LEFT = re.compile(r"\b(leave|leaves|leaving|left)( \S+){0,3} $", re.I)

PHRASES = [(name, re.compile(pattern, re.I)) for name, pattern in [
    ("want of memory", r"\bwant of memory\b"),
    ("front of", r"\b(a|any|each|every|no|some|that|whose|longest) front of\b|\bfronts of\b"),
    ("is told", r"\b(is|isn't) told\b"),
    ("are told", r"\b(are|aren't) told\b"),
    ("tells", r"\btells\b"),
    ("answers", rf"\b({SUBJECTS}) answers\b|(?<!\w)(?!({DETERMINERS})\b)[\w'\]{CODE}{NAME}]+ answers (?=({OBJECTS})\b|[{CODE}{NAME}])|"
                rf"\b(and|or|but) answers (?=(how|what|whether|that|each|every)\b|[{CODE}{NAME}])"),
    ("answered", r"\banswered\b"),
    ("stands", r"\b(stands?|stood)\b(?!-)"),
    ("behind", r"\bbehind\b(?! (a|the|one|this|that) (trait|call|interface)\b)"),
    ("said", r"\bsaid\b"),
    ("but for", r"\bbut for\b"),
    ("where", r"\b(exactly|only|just|also|even|never|none|nothing|not|except|true|false|0) where\b|"
              rf"{NAME},? where\b|"
              rf", where ({THINGS}) ({FACTS})\b|"
              rf"\bwhere (no|nothing|none|memory|there (is|are|was|were))\b|"
              rf"\bwhere (\S+ ){{1,4}}({DENIED})\b|"
              r"(?:^|(?<=[.:;?!] ))where (?!to\b|from\b)[^.:;?!]*,"),
]]


def plain(text):
    """The text with names in backticks, links' targets and text in quotation marks blanked out, letter by letter."""
    text = re.sub(r"(`+)(?!`).+?(?<!`)\1(?!`)", lambda name: (NAME if name[0].strip("`")[:1].isupper() else CODE) * len(name[0]), text)
    text = re.sub(r"\]\([^)]*\)", lambda link: "]" + " " * (len(link[0]) - 1), text)
    return re.sub(r'"[^"]{1,200}"', lambda quote: " " * len(quote[0]), text)


def paragraphs(lines):
    """The paragraphs of Markdown, code and quotes left out, as lists of (number, line, its columns, 0 for a row of a table)."""
    found, fenced, code, blank = [[]], False, False, True
    for number, line, columns in lines:
        bare = line.strip()
        if bare.startswith("```"):
            fenced = not fenced
            found.append([])
            continue
        if bare:
            code = line.startswith("    ") and (blank or code)
        if not bare or fenced or code or bare.startswith(">"):
            found.append([])
        elif bare.startswith("|") or bare.startswith("#"):
            found.extend([[(number, line, 0)], []])
        else:
            if re.match(r"([-*+]|\d+\.) ", bare):
                found.append([])
            found[-1].append((number, line, columns))
        blank = not bare
    return [paragraph for paragraph in found if paragraph]


def hits(lines):
    """Each hit of a page as (number of its line, phrase, the text around it)."""
    for paragraph in paragraphs(lines):
        starts, whole = [], ""
        for number, line, columns in paragraph:
            if columns > WIDEST:
                yield number, f"{columns} columns", line.strip()[:80] + " .."
            starts.append(len(whole))
            whole += line.strip() + " "
        text = plain(whole)
        heading = whole.startswith("#")
        cells = re.split(r"(\|)", text) if text.startswith("|") else [text]
        at = 0
        for cell in cells:
            lead = len(cell) - len(cell.lstrip())
            for name, pattern in PHRASES:
                for hit in pattern.finditer(cell.strip()):
                    if name == "where" and (heading or PLACES.match(cell.strip(), hit.start() + hit[0].lower().rfind("where"))):
                        continue
                    if name == "behind" and LEFT.search(cell.strip()[:hit.start()]):
                        continue
                    place = at + lead + hit.start()
                    line = bisect.bisect_right(starts, place) - 1
                    yield paragraph[line][0], name, whole[max(0, place - 40):place + 60].strip()
            at += len(cell)


def documents(names):
    """Each file's name and its lines of Markdown, each with its number and its columns; of code those of doc comments, else empty ones."""
    for name in names or sorted({str(path.relative_to(TOP)) for glob in PAGES + ["crates/*/src/**/*.rt"] for path in TOP.glob(glob)}):
        lines = (TOP / name).read_text(encoding="utf-8").splitlines()
        if name.endswith(".rt"):
            comments = [re.match(r"\s*//(?:/(?!/)|!) ?(.*)", line) for line in lines]
            yield name, [(n, it[1] if it else "", len(line)) for n, (it, line) in enumerate(zip(comments, lines), 1)]
        else:
            yield name, [(n, line, len(line)) for n, line in enumerate(lines, 1)]


def main():
    """Prints the hits; the status says whether there were any."""
    found = False
    for name, lines in documents(sys.argv[1:]):
        for number, phrase, text in sorted(set(hits(lines))):
            found = True
            print(f"{name}:{number}: {phrase}: {text}")
    return 1 if found else 0


if __name__ == "__main__":
    sys.exit(main())

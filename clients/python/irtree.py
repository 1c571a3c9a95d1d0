"""Asks irtree from Python. This is one file, needs Python 3.9 or later and its standard library, and can be copied.

    from decimal import Decimal
    from irtree import Store, Word

    with Store("city.store") as store:
        store.add("bolgen", (Decimal("12.6041"), Decimal("55.7003")), "Café Bølgen, coffee and cake")
        for hit in store.nearest((Decimal("12.6"), Decimal("55.7")), 10, where=Word("café") & ~Word("bar")):
            print(hit.rank, hit.key, hit.distance)

A `Store` starts the program as `irtree STORE run`, sends it lines and reads their replies. docs/QUERIES.md is the manual of both.

Numbers. A longitude, a latitude, a radius or a reach is a `Decimal` in degrees, or an `int` in ten-millionths of a degree (units of
10^-7 degrees). A float is refused with `TypeError`, since it would have to be rounded. What comes back is `Decimal`, with seven decimals.

Keys. A text key is a `str`. The automatic keys that a load gives (`#7`) are `Auto(7)`.

Refusals. A line that the program refuses raises a subclass of `Refused`: `Absent`, `Full`, `Worn`, or `Bad` with a subclass for each
reason. The store stays open. A text, key or word that can't be sent raises a subclass of `CantSend`, and nothing is sent.

Ends. When the program ends before it should, the call raises `Ended`: it has the status, the fixed line of standard error, and the lines
of advice after it. `CutShort` is an `Ended` in the midst of a reply. After that the store is closed, and other calls raise `Closed`.

Threads. A store starts no thread. Threads may share a store: each call holds a lock until it has its reply, and a pipeline holds it to its
end. A call that an exception interrupts, such as Ctrl-C, ends the program at once. What was acknowledged before is stored, and lines whose
replies weren't read may have been carried out.
"""
from __future__ import annotations

import json
import os
import re
import selectors
import shutil
import signal
import subprocess
import tempfile
import threading
from collections import deque
from dataclasses import dataclass
from decimal import Decimal
from pathlib import Path
from typing import Any, BinaryIO, Callable, Deque, Generic, Iterable, List, Mapping, NamedTuple, Optional, Tuple, Type, TypeVar, Union

T = TypeVar("T")

# How many bytes of lines one run of the program takes (docs/QUERIES.md). A store in a file is opened anew before there would be more.
SCRIPT_MAX = 268_435_456

# How many bytes of lines a pipeline collects before it sends them: as many as a pipe commonly holds.
SEND_SIZE = 65_536

# How ./irtree begins its remarks on the build. They aren't lines of the program, and come before them.
REMARKS = ("irtree: the sources are newer than the built program", "irtree: the unproved build")

# The program's lines before that of its end: that a check begins, and how many pages it has read.
_BEGUN = re.compile(r".*: (a check of all its pages begins|[0-9]+ pages read so far); .*")


# What can go wrong.


class Error(Exception):
    """Whatever this module raises, except for arguments of a wrong type or form (`TypeError`, `ValueError`)."""


class ProgramNotFound(Error):
    """The program irtree isn't there, or isn't built."""


class Closed(Error):
    """The store is closed: by `close`, because the program ended, or because an exception interrupted a call."""


class UnknownReply(Error):
    """The program printed what isn't a reply to the line. It was ended, and the store is closed."""


class NotYet(Error):
    """The reply hasn't come yet: the block of the pipeline is still running."""


class ScriptFull(Error):
    """The line would be beyond the 268,435,456 bytes that one run takes, and the store is in memory.

    It wasn't sent. The store stays open.
    """


class CantSend(Error, ValueError):
    """An argument can't be written in a line of a script. Nothing was sent; the store stays open."""


class LineBreak(CantSend):
    """The text has an LF or a CR, which would end the line."""


class LoneSurrogate(CantSend):
    """The text has half of a surrogate pair, for which UTF-8 has no form."""


class WeightedWord(CantSend):
    """A word with a weight has a space, tab, parenthesis or quotation mark; a script can write such a word only without a weight."""


class Refused(Error):
    """The program refused a line. Nothing was changed; the store stays open.

    `reply` is the program's reply, and `line` the line that was sent.
    """

    def __init__(self, reply: str, line: str) -> None:
        super().__init__(f"{reply}: {line if len(line) <= 200 else line[:200] + ' ..'}")
        self.reply = reply
        self.line = line


class Absent(Refused):
    """No place has this key."""


class Full(Refused):
    """1,000,000 places live, and the key is new. Replace a place that is there, or remove one."""


class Worn(Refused):
    """2^40 updates were made. Begin a new store."""


class Bad(Refused):
    """The line has no meaning. Its subclasses have the reasons; each is the manual's `bad REASON`."""


class BadUtf8(Bad):
    """The line isn't UTF-8."""


class BadLength(Bad):
    """The line has more than 65,536 bytes."""


class BadCommand(Bad):
    """The line begins with no command."""


class BadMissing(Bad):
    """The line ends too early, as after an empty filter."""


class BadNumber(Bad):
    """A number isn't one, such as `Decimal("NaN")`, or has too many digits."""


class BadRange(Bad):
    """A number is out of its limits, or a box has its east before its west or its north below its south."""


class BadKey(Bad):
    """The key has no bytes or more than 64, or is automatic if a place is added, or its number isn't below 2^64."""


class BadWord(Bad):
    """A text that is not one word, has more than 32 bytes, or comes twice in `top`, `group` or `gather`."""


class BadExpression(Bad):
    """The filter goes wrong, or has more than 64 words or 32 levels of `not` and parentheses."""


class BadExtra(Bad):
    """The line goes on after its end, as with more than eight words in `top`, `group` or `gather`."""


REFUSALS: Mapping[str, Type[Refused]] = {
    "absent": Absent, "full": Full, "worn": Worn, "bad utf8": BadUtf8, "bad length": BadLength, "bad command": BadCommand,
    "bad missing": BadMissing, "bad number": BadNumber, "bad range": BadRange, "bad key": BadKey, "bad word": BadWord,
    "bad expression": BadExpression, "bad extra": BadExtra,
}


class Ended(Error):
    """The program ended before it should. What it acknowledged before is stored, unless the store was in memory.

    `status` is its exit status, or -N if signal N ended it. `line` is the fixed line of standard error ("" if there is none), and `advice`
    has the lines after it: what is wrong with which file, and what to do. `owed` counts the lines that got no whole reply. At most the
    first of them was carried out.
    """

    def __init__(self, status: int, line: str, advice: Tuple[str, ...], owed: int, more: str = "") -> None:
        cause = f"status {status}" if status >= 0 else f"signal {signal_name(-status)}"
        lines = [f"irtree ended with {cause}", *([line] if line else []), *advice]
        lines += [f"lines without a whole reply: {owed}"] if owed else []
        super().__init__("; ".join(lines) + more)
        self.status = status
        self.line = line
        self.advice = advice
        self.owed = owed


class CutShort(Ended):
    """The program ended in the midst of a reply, of which `part` came. An update whose reply was cut is stored."""

    def __init__(self, status: int, line: str, advice: Tuple[str, ...], owed: int, part: str) -> None:
        super().__init__(status, line, advice, owed, f"; the last reply was cut after {part[-60:]!r}")
        self.part = part


class LoadEnded(Ended):
    """A load ended before its last line. `loaded` has what it reported by then, which is stored."""

    def __init__(self, status: int, line: str, advice: Tuple[str, ...], loaded: Loaded) -> None:
        super().__init__(status, line, advice, 0, f"; {loaded.stored} places are stored")
        self.loaded = loaded


def signal_name(number: int) -> str:
    """The name of a signal, or its number if it has none."""
    try:
        return signal.Signals(number).name
    except ValueError:
        return str(number)


# What goes in and comes out.


@dataclass(frozen=True)
class Auto:
    """An automatic key, `#number`, which a load gives to a feature without an id."""

    number: int

    def __post_init__(self) -> None:
        _whole(self.number, "the number of an automatic key")

    def __str__(self) -> str:
        return f"#{self.number}"


Key = Union[str, Auto]
Degrees = Union[Decimal, int]
PathName = Union[str, "os.PathLike[str]"]


class Point(NamedTuple):
    """A longitude and a latitude in degrees. It can be given wherever a point is wanted."""

    lon: Decimal
    lat: Decimal


@dataclass(frozen=True)
class Place:
    """A place. `words` has its words with their impacts (1 to 255), ordered by the words' bytes; `dict(place.words)` looks them up.

    `label` is the first line of its text, cut to as many whole characters as have at most 63 bytes of UTF-8.
    """

    key: Key
    point: Point
    words: Tuple[Tuple[str, int], ...]
    label: str


@dataclass(frozen=True)
class Hit:
    """A place that a query found. What its query doesn't report is None.

    `distance` is in degrees: of `range` and `nearest`, and of `top` with `explain=True`. `cost` is what `top` orders by, a whole number
    without a unit. `point` comes with `explain=True`. So do, in `top`, `text` and `text_max`: how well the words fit, and the most that
    they could.
    """

    rank: int
    key: Key
    distance: Optional[Decimal] = None
    cost: Optional[int] = None
    point: Optional[Point] = None
    text: Optional[int] = None
    text_max: Optional[int] = None


@dataclass(frozen=True)
class Pick:
    """The place of a group for one word. `distance` is in degrees from the query's point; `point` comes with `explain=True`."""

    rank: int
    word: str
    key: Key
    distance: Decimal
    point: Optional[Point] = None


@dataclass(frozen=True)
class Group:
    """The answer of `group` or `gather`: its cost in degrees, and a pick for each word in the order of the words."""

    cost: Decimal
    picks: Tuple[Pick, ...]


@dataclass(frozen=True)
class Skip:
    """An item that a load passed over: its index from 0, and the reason in the manual's word, such as `not-point`."""

    index: int
    reason: str


@dataclass(frozen=True)
class Loaded:
    """What a load did: how many places it stored, and which items it passed over."""

    stored: int
    skipped: Tuple[Skip, ...]


@dataclass(frozen=True)
class Broken:
    """What a check found: a page of a store, and the number of a rule of the format that it breaks."""

    page: int
    rule: int


class Expr:
    """A filter: `Word("a") & ~(Word("b") | Word("c"))`. It can only be made of words, so no text can change its form."""

    def __and__(self, other: Expr) -> And:
        if not isinstance(other, Expr):
            return NotImplemented
        return And(_parts(And, self) + _parts(And, other))

    def __or__(self, other: Expr) -> Or:
        if not isinstance(other, Expr):
            return NotImplemented
        return Or(_parts(Or, self) + _parts(Or, other))

    def __invert__(self) -> Not:
        return Not(self)

    def __bool__(self) -> bool:
        raise TypeError("join filters by & and |, and negate them by ~: `and`, `or` and `not` would drop a part")


@dataclass(frozen=True)
class Word(Expr):
    """The places that have this word."""

    text: str

    def __post_init__(self) -> None:
        _string(self.text, "a word")


@dataclass(frozen=True)
class Not(Expr):
    """The places that don't pass this filter."""

    part: Expr


@dataclass(frozen=True)
class And(Expr):
    """The places that pass all of these filters, of which there is at least one."""

    parts: Tuple[Expr, ...]

    def __post_init__(self) -> None:
        _some(self.parts)


@dataclass(frozen=True)
class Or(Expr):
    """The places that pass one of these filters, of which there is at least one."""

    parts: Tuple[Expr, ...]

    def __post_init__(self) -> None:
        _some(self.parts)


Where = Union[Expr, str, None]
Words = Union[Mapping[str, int], Iterable[Union[str, Tuple[str, int]]]]


def _parts(kind: type, expr: Expr) -> Tuple[Expr, ...]:
    """The parts of an expression of this kind, or the expression itself."""
    return expr.parts if isinstance(expr, (And, Or)) and isinstance(expr, kind) else (expr,)


def _some(parts: Tuple[Expr, ...]) -> None:
    """Refuses to join nothing."""
    if not parts:
        raise ValueError("a filter joins at least one part")


# Writing lines.


def _string(value: Any, what: str) -> str:
    """The value, which must be a str."""
    if not isinstance(value, str):
        raise TypeError(f"{what} is a str, not {type(value).__name__}")
    return value


def _whole(value: Any, what: str) -> str:
    """A whole number in digits."""
    if not isinstance(value, int) or isinstance(value, bool):
        raise TypeError(f"{what} is an int, not {type(value).__name__}")
    return str(value)


def _degrees(value: Any, what: str) -> str:
    """A number of degrees: a Decimal as it is, or an int of ten-millionths with seven decimals. The program rounds the former."""
    if isinstance(value, Decimal):
        return str(value)
    if isinstance(value, int) and not isinstance(value, bool):
        whole, part = divmod(abs(value), 10**7)
        return f"{'-' if value < 0 else ''}{whole}.{part:07d}"
    raise TypeError(f"{what} is a Decimal in degrees or an int in ten-millionths of a degree, not {type(value).__name__}: "
                    'use Decimal("12.5683"), or Decimal(repr(x)) for a float x')


def _point(point: Tuple[Degrees, Degrees]) -> str:
    """LON LAT."""
    lon, lat = point
    return f"{_degrees(lon, 'a longitude')} {_degrees(lat, 'a latitude')}"


def _literal(text: str) -> str:
    """A JSON string literal, which has no control character."""
    return json.dumps(text, ensure_ascii=False)


def _key(key: Key) -> str:
    """KEY: a text as a literal, an automatic key as `#N`."""
    return str(key) if isinstance(key, Auto) else _literal(_string(key, "a key"))


def _filter(expr: Expr) -> str:
    """A filter with as few parentheses as it takes, since 32 levels of them are the limit. All words are literals."""
    if isinstance(expr, Word):
        return _literal(expr.text)
    if isinstance(expr, Not):
        return "not " + _within(expr.part, (Word, Not))
    if isinstance(expr, And):
        return " and ".join(_within(part, (Word, Not, And)) for part in expr.parts)
    if isinstance(expr, Or):
        return " or ".join(_within(part, (Word, Not, And, Or)) for part in expr.parts)
    raise TypeError(f"a filter is made of Word, Not, And and Or, not {type(expr).__name__}")


def _within(expr: Expr, bare: Tuple[type, ...]) -> str:
    """A part of a filter, in parentheses unless it is of one of these kinds."""
    return _filter(expr) if isinstance(expr, bare) else f"({_filter(expr)})"


def _scale(scale: Optional[int]) -> str:
    """The part of a line with a scale of longitudes, if there is one."""
    return "" if scale is None else f" scale {_whole(scale, 'a scale')}"


def _where(where: Where) -> str:
    """The end of a line with a filter, if there is one."""
    if where is None:
        return ""
    return " where " + (where if isinstance(where, str) else _filter(where))


def _group_words(words: Iterable[str]) -> str:
    """The words of a group, each as a literal."""
    if isinstance(words, str):
        raise TypeError("words are a list of words, not one str")
    return " ".join(_literal(_string(word, "a word")) for word in words)


def _top_words(words: Words) -> str:
    """The words of a top query: literals, or bare with a weight."""
    if isinstance(words, str):
        raise TypeError("words are a list or a mapping to weights, not one str")
    items: Iterable[Union[str, Tuple[str, int]]] = words.items() if isinstance(words, Mapping) else words
    return " ".join(_term(item, 1) if isinstance(item, str) else _term(*item) for item in items)


def _term(word: str, weight: int) -> str:
    """WORD*WEIGHT. The program takes a weight only after a bare word; without one a word counts 1."""
    digits = _whole(weight, "a weight")
    if weight == 1:
        return _literal(_string(word, "a word"))
    if not _string(word, "a word") or re.search(r'[ \t()"]', word):
        raise WeightedWord(f"a word with a weight has no space, tab, parenthesis or quotation mark, and isn't empty: {word!r}")
    return f"{word}*{digits}"


def _bytes(line: str) -> bytes:
    """A line as bytes, with its LF. Every line is made here, so that none can have a second line in it."""
    if "\n" in line or "\r" in line:
        raise LineBreak("a line can't have an LF or a CR in it; `add` replaces them by spaces with join_lines=True")
    try:
        return line.encode() + b"\n"
    except UnicodeEncodeError as error:
        raise LoneSurrogate(f"half of a surrogate pair can't be sent: {line[error.start:error.end]!r}") from None


# Reading replies.

_TEXT = r'("(?:[^"\\]|\\.)*")'
_NAME = r'("(?:[^"\\]|\\.)*"|#[0-9]+)'
_DEGREES = r"(-?[0-9]+\.[0-9]{7})"
_AT = rf"(?: at {_DEGREES} {_DEGREES})?"
_COUNT = re.compile(r"count ([0-9]+)")
_PLACE = re.compile(rf"place {_NAME} {_DEGREES} {_DEGREES} ([0-9]+) {_TEXT}")
_IMPACT = re.compile(rf"{_TEXT} ([0-9]+)")
_BOX = re.compile(rf"([0-9]+) {_NAME}{_AT}")
_NEAR = re.compile(rf"([0-9]+) {_NAME} {_DEGREES}{_AT}")
_TOP = re.compile(rf"([0-9]+) {_NAME} ([0-9]+)(?: at {_DEGREES} {_DEGREES} dist {_DEGREES} text ([0-9]+) of ([0-9]+))?")
_PICK = re.compile(rf"([0-9]+) {_TEXT} {_NAME} {_DEGREES}{_AT}")
_COST = re.compile(rf"= [0-9]+ {_DEGREES}")


def _fields(pattern: re.Pattern[str], line: str) -> Tuple[Any, ...]:
    """The fields of a line of a reply."""
    match = pattern.fullmatch(line)
    if match is None:
        raise ValueError(line)
    return match.groups()


def _text_of(literal: str) -> str:
    """The text of a literal."""
    return literal[1:-1] if "\\" not in literal else json.loads(literal)


def _named(name: str) -> Key:
    """The key of a reply."""
    return Auto(int(name[1:])) if name.startswith("#") else _text_of(name)


def _place_at(lon: Optional[str], lat: Optional[str]) -> Optional[Point]:
    """The point of an explained reply, else None."""
    return None if lon is None or lat is None else Point(Decimal(lon), Decimal(lat))


def _rows_after(header: str) -> int:
    """How many lines of a reply follow its first one."""
    words = header.split(" ", 2)
    if words[0] == "=":
        return int(words[1])
    return int(_fields(_PLACE, header)[3]) if words[0] == "place" else 0


# Each of these makes the result of a line from the first line of its reply and those after it. `ValueError` and `LookupError` mean that
# the lines are no such reply.


def _read_added(header: str, rows: List[str]) -> bool:
    return {"ok": False, "ok replaced": True}[header]


def _read_removed(header: str, rows: List[str]) -> None:
    return {"ok": None}[header]


def _read_count(header: str, rows: List[str]) -> int:
    return int(_fields(_COUNT, header)[0])


def _read_place(header: str, rows: List[str]) -> Place:
    name, lon, lat, _, label = _fields(_PLACE, header)
    words = tuple((_text_of(word), int(impact)) for word, impact in (_fields(_IMPACT, row) for row in rows))
    return Place(_named(name), Point(Decimal(lon), Decimal(lat)), words, _text_of(label))


def _read_box(header: str, rows: List[str]) -> List[Hit]:
    found = []
    for row in rows:
        rank, name, lon, lat = _fields(_BOX, row)
        found.append(Hit(int(rank), _named(name), point=_place_at(lon, lat)))
    return _counted(header, found)


def _read_near(header: str, rows: List[str]) -> List[Hit]:
    found = []
    for row in rows:
        rank, name, distance, lon, lat = _fields(_NEAR, row)
        found.append(Hit(int(rank), _named(name), Decimal(distance), point=_place_at(lon, lat)))
    return _counted(header, found)


def _read_top(header: str, rows: List[str]) -> List[Hit]:
    found = []
    for row in rows:
        rank, name, cost, lon, lat, distance, text, most = _fields(_TOP, row)
        if lon is None:
            found.append(Hit(int(rank), _named(name), cost=int(cost)))
        else:
            point = Point(Decimal(lon), Decimal(lat))
            found.append(Hit(int(rank), _named(name), Decimal(distance), int(cost), point, int(text), int(most)))
    return _counted(header, found)


def _counted(header: str, hits: List[Hit]) -> List[Hit]:
    """The hits, if the first line counts them and they are in order."""
    if header != f"= {len(hits)}" or any(hit.rank != rank for rank, hit in enumerate(hits, 1)):
        raise ValueError(header)
    return hits


def _read_group(header: str, rows: List[str]) -> Optional[Group]:
    if header == "none":
        return None
    cost = _fields(_COST, header)[0]
    picks = []
    for row in rows:
        rank, word, name, distance, lon, lat = _fields(_PICK, row)
        picks.append(Pick(int(rank), _text_of(word), _named(name), Decimal(distance), _place_at(lon, lat)))
    return Group(Decimal(cost), tuple(picks))


# Questions: a line, and how its reply is read. There is a function for each call.


@dataclass(frozen=True)
class Question(Generic[T]):
    """A line and how its reply is read. `Store` and `Pipeline` make these; they differ in when the reply is read."""

    line: bytes
    read: Callable[[str, List[str]], T]


def _add(key: str, point: Tuple[Degrees, Degrees], text: str, join_lines: bool) -> Question[bool]:
    """The line of an add."""
    if join_lines:
        text = _string(text, "a text").replace("\r\n", " ").replace("\n", " ").replace("\r", " ")
    return Question(_bytes(f"add {_key(key)} {_point(point)} {_string(text, 'a text')}"), _read_added)


def _remove(key: Key) -> Question[None]:
    return Question(_bytes(f"remove {_key(key)}"), _read_removed)


def _show(key: Key) -> Question[Place]:
    return Question(_bytes(f"show {_key(key)}"), _read_place)


def _count() -> Question[int]:
    return Question(b"count\n", _read_count)


def _explained(explain: bool) -> str:
    return "explain " if explain else ""


def _range(point: Tuple[Degrees, Degrees], radius: Degrees, scale: Optional[int], where: Where, explain: bool) -> Question[List[Hit]]:
    line = f"{_explained(explain)}range {_point(point)} {_degrees(radius, 'a radius')}{_scale(scale)}{_where(where)}"
    return Question(_bytes(line), _read_near)


def _box(sides: Tuple[Degrees, Degrees, Degrees, Degrees], where: Where, explain: bool) -> Question[List[Hit]]:
    degrees = " ".join(_degrees(side, "a side of a box") for side in sides)
    return Question(_bytes(f"{_explained(explain)}box {degrees}{_where(where)}"), _read_box)


def _nearest(point: Tuple[Degrees, Degrees], k: int, scale: Optional[int], where: Where, explain: bool) -> Question[List[Hit]]:
    line = f"{_explained(explain)}nearest {_point(point)} {_whole(k, 'k')}{_scale(scale)}{_where(where)}"
    return Question(_bytes(line), _read_near)


def _top(point: Tuple[Degrees, Degrees], k: int, alpha: int, reach: Degrees, words: Words, scale: Optional[int],
         explain: bool) -> Question[List[Hit]]:
    numbers = f"{_whole(k, 'k')} {_whole(alpha, 'alpha')} {_degrees(reach, 'a reach')}{_scale(scale)}"
    return Question(_bytes(f"{_explained(explain)}top {_point(point)} {numbers} words {_top_words(words)}"), _read_top)


def _top_by_rarity(point: Tuple[Degrees, Degrees], k: int, alpha: int, reach: Degrees, words: Iterable[str],
                   scale: Optional[int]) -> Question[List[Hit]]:
    numbers = f"{_whole(k, 'k')} {_whole(alpha, 'alpha')} {_degrees(reach, 'a reach')}{_scale(scale)}"
    return Question(_bytes(f"top {_point(point)} {numbers} idf words {_group_words(words)}"), _read_top)


def _chosen(command: str, point: Tuple[Degrees, Degrees], words: Iterable[str], scale: Optional[int],
            explain: bool) -> Question[Optional[Group]]:
    return Question(_bytes(f"{_explained(explain)}{command} {_point(point)}{_scale(scale)} words {_group_words(words)}"), _read_group)


def _group(point: Tuple[Degrees, Degrees], words: Iterable[str], scale: Optional[int], explain: bool) -> Question[Optional[Group]]:
    return _chosen("group", point, words, scale, explain)


def _gather(point: Tuple[Degrees, Degrees], words: Iterable[str], scale: Optional[int], explain: bool) -> Question[Optional[Group]]:
    return _chosen("gather", point, words, scale, explain)


class Reply(Generic[T]):
    """The reply to one line of a pipeline. It comes when the pipeline's block ends, or before."""

    def __init__(self, question: Question[T]) -> None:
        self._question = question
        self._value: Optional[T] = None
        self._error: Optional[Error] = None
        self.done = False

    def result(self) -> T:
        """Returns what the call would return, or raises what it would raise; `NotYet` if the reply hasn't come."""
        if not self.done:
            raise NotYet("the block of the pipeline is still running")
        if self._error is not None:
            raise self._error
        return self._value  # type: ignore[return-value]

    def _outcome(self) -> Union[T, Error, None]:
        """The result, or the error instead of raising it."""
        return self._value if self._error is None else self._error

    def _take(self, header: str, rows: List[str]) -> None:
        """Reads the lines of the reply."""
        refusal = REFUSALS.get(header)
        if refusal is not None:
            self._error = refusal(header, self._question.line[:-1].decode())
        else:
            self._value = self._question.read(header, rows)
        self.done = True

    def _fail(self, error: Error) -> None:
        """No reply will come."""
        self._error = error
        self.done = True


# The program.


def find_program(program: Optional[PathName] = None) -> str:
    """Returns the path of the program: the one given, else `$IRTREE`, else ./irtree of this file's repository, else irtree on the PATH.

    ./irtree of a repository whose program isn't built is passed over, or refused if it was given: it reads all its input before it replies.
    """
    given = program or os.environ.get("IRTREE")
    if given:
        return os.path.abspath(_named_program(os.fspath(given)))
    folders = Path(__file__).resolve().parents
    beside = folders[2] / "irtree" if len(folders) > 2 else None
    if beside is not None and (folders[2] / "crates" / "irtree_cli").is_dir() and not _is_unbuilt(beside):
        return str(beside)
    found = shutil.which("irtree")
    if found is not None and not _is_unbuilt(Path(found)):
        return os.path.abspath(found)
    raise ProgramNotFound("irtree isn't found: build it by ./irtree-build, or name it by the argument `program`, by IRTREE or on the PATH")


def _named_program(name: str) -> str:
    """The path of a program that was named."""
    found = shutil.which(name)
    if found is None:
        raise ProgramNotFound(f"no program is at {name!r}")
    if _is_unbuilt(Path(found)):
        raise ProgramNotFound(f"the program isn't built: ./irtree-build beside {found!r} builds it")
    return found


def _is_unbuilt(path: Path) -> bool:
    """Whether this is ./irtree of a repository without the built program."""
    cli = path.resolve().parent / "crates" / "irtree_cli"
    return cli.is_dir() and path.resolve().name == "irtree" and not os.access(cli / "out" / "irtree_cli", os.X_OK)


def _store_word(store: PathName) -> str:
    """STORE on the command line: `-` for a store in memory, else the whole path, which stays right if the caller changes its folder."""
    name = os.fspath(store)
    return name if name == "-" else os.path.join(os.getcwd(), name)


def _options(**values: Optional[object]) -> List[str]:
    """The options that have a value."""
    return [f"--{name}={value}" for name, value in values.items() if value is not None]


def _end_lines(errors: bytes) -> Tuple[str, Tuple[str, ...]]:
    """The fixed line of standard error, and the lines of advice after it."""
    lines = errors.decode("utf-8", "replace").rstrip("\n").split("\n")
    lines = [line for line in lines if not line.startswith(REMARKS) and not _BEGUN.fullmatch(line)]
    return (lines[0], tuple(lines[1:])) if lines else ("", ())


class Store:
    """A store: the program run on it, until `close` or the end of the `with` block.

    `path` is the file of the store, or "-" for a store in memory. `cache` is how many pages of 4,096 bytes are kept in memory, `policy` is
    "quadratic", "halving" or "words", and `program` is the program's path (`find_program` says where it is looked for otherwise).

    A store that can't be opened raises `Ended` here. One process at a time has a store.
    """

    def __init__(self, path: PathName, *, cache: Optional[int] = None, policy: Optional[str] = None,
                 program: Optional[PathName] = None) -> None:
        self.path = path
        self._store = _store_word(path)
        self._cache, self._policy, self._program = cache, policy, find_program(program)
        self._lock = threading.RLock()
        self._process: Optional[subprocess.Popen[bytes]] = None
        self._why_closed = "close was called"
        self._start()

    def __enter__(self) -> Store:
        return self

    def __exit__(self, kind: Any, error: Optional[BaseException], trace: Any) -> None:
        try:
            self.close()
        except Error:
            if error is None:
                raise

    @property
    def pid(self) -> int:
        """The number of the process."""
        return self._running().pid

    def close(self) -> None:
        """Ends the program and waits for it. Raises `Ended` if its status isn't 0. A store that is closed stays so."""
        with self._lock:
            if self._process is None:
                return
            self._drain()
            status, line, advice = self._finish("close was called")
            if status != 0:
                raise Ended(status, line, advice, 0)

    # Places.

    def add(self, key: str, point: Tuple[Degrees, Degrees], text: str = "", *, join_lines: bool = False) -> bool:
        """Puts a place with the words and the label of the text at the key. Returns whether it replaced a place. By then it is stored.

        A text with an LF or a CR raises `LineBreak`, or has each replaced by a space with `join_lines=True`.
        """
        return self._now(_add(key, point, text, join_lines))

    def remove(self, key: Key) -> None:
        """Takes a place out. Raises `Absent` if there is none."""
        self._now(_remove(key))

    def show(self, key: Key) -> Place:
        """Returns the place at a key. Raises `Absent` if there is none."""
        return self._now(_show(key))

    def count(self) -> int:
        """Returns how many places there are."""
        return self._now(_count())

    # Queries. Each returns a list of hits, which is empty if there is none.
    #
    # Longitudes meet at 180 degrees. `scale` (0 to 1000) is how much a step of longitude counts in a distance, in thousandths. Without it
    # a step counts in full. Where a degree of longitude is half as long as one of latitude, as at latitude 60, it is 500.

    def range(self, point: Tuple[Degrees, Degrees], radius: Degrees, *, scale: Optional[int] = None, where: Where = None,
              explain: bool = False) -> List[Hit]:
        """Returns the places at most `radius` from the point, nearest first. `scale` is how much longitudes count, in thousandths."""
        return self._now(_range(point, radius, scale, where, explain))

    def box(self, west: Degrees, south: Degrees, east: Degrees, north: Degrees, *, where: Where = None, explain: bool = False) -> List[Hit]:
        """Returns the places in the box, its border included, by key."""
        return self._now(_box((west, south, east, north), where, explain))

    def nearest(self, point: Tuple[Degrees, Degrees], k: int, *, scale: Optional[int] = None, where: Where = None,
                explain: bool = False) -> List[Hit]:
        """Returns the k nearest places. `scale` is how much longitudes count, in thousandths."""
        return self._now(_nearest(point, k, scale, where, explain))

    def top(self, point: Tuple[Degrees, Degrees], k: int, alpha: int, reach: Degrees, words: Words, *, scale: Optional[int] = None,
            explain: bool = False) -> List[Hit]:
        """Returns the k places of least cost that have one of the words.

        `alpha` (0 to 1000) is how much the distance counts, in thousandths; the text counts as much as a distance of `reach`. `words` is a
        list of 1 to 8 words and of pairs of a word and its weight, or a mapping of words to weights. A weight is 1 to 20. `scale` is how
        much longitudes count, in thousandths.
        """
        return self._now(_top(point, k, alpha, reach, words, scale, explain))

    def top_by_rarity(self, point: Tuple[Degrees, Degrees], k: int, alpha: int, reach: Degrees, words: Iterable[str], *,
                      scale: Optional[int] = None) -> List[Hit]:
        """Returns the same with weights by rarity: a word that few live places have counts more than one that many have.

        `words` are 1 to 8 words without weights. The program gives each a weight of 1 to 20 by how many places have it at the time.
        """
        return self._now(_top_by_rarity(point, k, alpha, reach, words, scale))

    def group(self, point: Tuple[Degrees, Degrees], words: Iterable[str], *, scale: Optional[int] = None,
              explain: bool = False) -> Optional[Group]:
        """Returns the cheapest places that have all the words between them, or None if no place has one of the words.

        `scale` is how much longitudes count, in thousandths, also between two places of the group.
        """
        return self._now(_group(point, words, scale, explain))

    def gather(self, point: Tuple[Degrees, Degrees], words: Iterable[str], *, scale: Optional[int] = None,
               explain: bool = False) -> Optional[Group]:
        """Returns the places that have all the words between them with the least sum of distances, or None if no place has one of the words.

        A place that has several of the words counts once. `scale` is how much longitudes count, in thousandths.
        """
        return self._now(_gather(point, words, scale, explain))

    def pipeline(self) -> Pipeline:
        """Returns a pipeline, for many lines without waiting for each reply."""
        return Pipeline(self)

    def load(self, source: Union[PathName, bytes], *, batch: Optional[int] = None, text: Optional[str] = None) -> Loaded:
        """Loads a GeoJSON text into this store, as the function `load` does. The program's run is ended before and begun anew after it."""
        if self._store == "-":
            raise ValueError("a store in memory ends with its run, so nothing can be loaded into it")
        with self._lock:
            self._running()
            self.close()
            try:
                return load(self._store, source, batch=batch, text=text, cache=self._cache, policy=self._policy, program=self._program)
            finally:
                self._start()

    # Lines and replies.

    def _running(self) -> subprocess.Popen[bytes]:
        """The process, or `Closed`."""
        if self._process is None:
            raise Closed(f"the store is closed: {self._why_closed}")
        return self._process

    def _start(self) -> None:
        """Starts the program, and asks it for one count: so a store that can't be opened is refused here."""
        words = [self._program, self._store, "run", *_options(cache=self._cache, policy=self._policy)]
        self._errors: BinaryIO = tempfile.TemporaryFile()
        # Python ignores SIGXFSZ. If the program inherits that, it reports a file that is too large, and isn't ended by the signal.
        try:
            self._process = subprocess.Popen(words, stdin=subprocess.PIPE, stdout=subprocess.PIPE, stderr=self._errors, bufsize=0,
                                             restore_signals=False)
        except OSError as error:
            self._errors.close()
            raise ProgramNotFound(f"the program {self._program!r} can't be started: {error}") from error
        assert self._process.stdin is not None and self._process.stdout is not None
        self._input, self._output = self._process.stdin, self._process.stdout
        os.set_blocking(self._input.fileno(), False)
        self._selector = selectors.DefaultSelector()
        self._selector.register(self._output, selectors.EVENT_READ)
        self._waits_to_write = False
        self._sent = 0                              # bytes of lines, those not written yet too
        self._unsent = bytearray()                  # lines that aren't written yet
        self._owed: Deque[Reply[Any]] = deque()     # replies that haven't come, in order
        self._lines: Deque[str] = deque()           # whole lines of replies that haven't been read
        self._tail = b""                            # the beginning of a line
        self._at_end = False                        # the program has closed its output
        self._now(_count())

    def _now(self, question: Question[T]) -> T:
        """Sends a line and waits for its reply."""
        with self._lock:
            reply = self._ask(question)
            self._drain()
            return reply.result()

    def _ask(self, question: Question[T]) -> Reply[T]:
        """Adds a line to those that will be sent, and sends them if they are many."""
        self._running()
        if self._sent + len(question.line) > SCRIPT_MAX:
            self._begin_anew(len(question.line))
        reply = Reply(question)
        self._owed.append(reply)
        self._unsent += question.line
        self._sent += len(question.line)
        if len(self._unsent) >= SEND_SIZE:
            while self._unsent:
                self._exchange()
        return reply

    def _begin_anew(self, length: int) -> None:
        """Ends the run, which takes no more lines, and begins another on the same file."""
        if self._store == "-" or len(b"count\n") + length > SCRIPT_MAX:
            raise ScriptFull(f"one run takes {SCRIPT_MAX} bytes of lines")
        self.close()
        self._start()

    def _drain(self) -> None:
        """Sends all lines and reads all replies."""
        while self._owed:
            self._exchange()

    def _exchange(self) -> None:
        """Writes what the program takes, waits until it can go on, and reads what it printed: so neither side waits for the other."""
        if self._at_end:
            raise self._over()
        try:
            self._write()
            self._wait_to_write(bool(self._unsent))
            for key, _ in self._selector.select():
                if key.fileobj is self._output:
                    self._read()
            self._settle()
        except (ValueError, LookupError) as error:
            self._kill("the program printed what is no reply")
            raise UnknownReply(f"the program printed what is no reply to its line: {error}") from error
        except BaseException as error:
            # It isn't known which lines were sent and which replies were read, so no more of them can be matched.
            self._kill(f"a call was interrupted by {type(error).__name__}")
            raise

    def _write(self) -> None:
        """Writes as much as the pipe takes. Nothing more can be sent to a program that has ended; its last replies can still be read."""
        try:
            if self._unsent:
                del self._unsent[:os.write(self._input.fileno(), self._unsent[:SEND_SIZE])]
        except BlockingIOError:
            pass
        except BrokenPipeError:
            self._unsent.clear()

    def _wait_to_write(self, wanted: bool) -> None:
        """Makes the next wait one for room in the pipe, too, or for replies alone."""
        if wanted and not self._waits_to_write:
            self._selector.register(self._input, selectors.EVENT_WRITE)
        elif self._waits_to_write and not wanted:
            self._selector.unregister(self._input)
        self._waits_to_write = wanted

    def _read(self) -> None:
        """Reads a piece of the program's output, and cuts it into lines."""
        piece = os.read(self._output.fileno(), SEND_SIZE)
        self._at_end = not piece
        *lines, self._tail = (self._tail + piece).split(b"\n")
        self._lines.extend(line.decode() for line in lines)

    def _settle(self) -> None:
        """Gives each whole reply to its line."""
        while self._lines:
            if not self._owed:
                raise ValueError(self._lines[0])
            rows = _rows_after(self._lines[0])
            if len(self._lines) <= rows:
                return
            header = self._lines.popleft()
            self._owed[0]._take(header, [self._lines.popleft() for _ in range(rows)])
            self._owed.popleft()

    def _over(self) -> Ended:
        """The end of a program whose replies are owed."""
        part = "".join(line + "\n" for line in self._lines) + self._tail.decode("utf-8", "replace")
        owed, self._owed = self._owed, deque()
        status, line, advice = self._finish("")
        ended = CutShort(status, line, advice, len(owed), part) if part else Ended(status, line, advice, len(owed))
        self._why_closed = str(ended)
        for reply in owed:
            reply._fail(ended)
        return ended

    def _kill(self, why: str) -> None:
        """Ends the program at once. What it acknowledged is stored, also if the acknowledgement wasn't read."""
        if self._process is None:
            return
        self._process.kill()
        owed, self._owed = self._owed, deque()
        self._finish(why)
        for reply in owed:
            reply._fail(Closed(f"the store is closed: {why}"))

    def _finish(self, why: str) -> Tuple[int, str, Tuple[str, ...]]:
        """Closes the streams and waits for the program's end. Returns its status, its fixed line and the lines of advice."""
        process = self._running()
        self._process, self._why_closed = None, why
        self._selector.close()
        self._input.close()
        status = process.wait()
        self._output.close()
        with self._errors as errors:
            errors.seek(0)
            return (status, *_end_lines(errors.read()))


class Pipeline:
    """Sends many lines without waiting for each reply: `with store.pipeline() as p: ..`.

    Its calls are those of `Store`, and each returns a `Reply`. When the block ends, all replies have come: `p.results` has them in order, a
    refusal in its place as the exception, and `reply.result()` returns or raises one. Refusals raise nothing by themselves.

    If the program ends, `Ended` is raised and `p.results` has the replies that came. If the block raises, its lines are carried out all the
    same, and their replies read. Other threads wait for the end of the block.
    """

    def __init__(self, store: Store) -> None:
        self._store = store
        self._replies: List[Reply[Any]] = []

    def __enter__(self) -> Pipeline:
        self._store._lock.acquire()
        return self

    def __exit__(self, kind: Any, error: Optional[BaseException], trace: Any) -> None:
        try:
            if self._store._process is not None:
                self._store._drain()
        except Error:
            if error is None:
                raise
        finally:
            self._store._lock.release()

    @property
    def results(self) -> List[Any]:
        """What came, in the order of the lines: values, and refusals as exceptions."""
        return [reply._outcome() for reply in self._replies if reply.done and not isinstance(reply._error, (Ended, Closed))]

    def _later(self, question: Question[T]) -> Reply[T]:
        """Sends a line, now or soon."""
        reply = self._store._ask(question)
        self._replies.append(reply)
        return reply

    def add(self, key: str, point: Tuple[Degrees, Degrees], text: str = "", *, join_lines: bool = False) -> Reply[bool]:
        """As `Store.add`."""
        return self._later(_add(key, point, text, join_lines))

    def remove(self, key: Key) -> Reply[None]:
        """As `Store.remove`."""
        return self._later(_remove(key))

    def show(self, key: Key) -> Reply[Place]:
        """As `Store.show`."""
        return self._later(_show(key))

    def count(self) -> Reply[int]:
        """As `Store.count`."""
        return self._later(_count())

    def range(self, point: Tuple[Degrees, Degrees], radius: Degrees, *, scale: Optional[int] = None, where: Where = None,
              explain: bool = False) -> Reply[List[Hit]]:
        """As `Store.range`."""
        return self._later(_range(point, radius, scale, where, explain))

    def box(self, west: Degrees, south: Degrees, east: Degrees, north: Degrees, *, where: Where = None,
            explain: bool = False) -> Reply[List[Hit]]:
        """As `Store.box`."""
        return self._later(_box((west, south, east, north), where, explain))

    def nearest(self, point: Tuple[Degrees, Degrees], k: int, *, scale: Optional[int] = None, where: Where = None,
                explain: bool = False) -> Reply[List[Hit]]:
        """As `Store.nearest`."""
        return self._later(_nearest(point, k, scale, where, explain))

    def top(self, point: Tuple[Degrees, Degrees], k: int, alpha: int, reach: Degrees, words: Words, *, scale: Optional[int] = None,
            explain: bool = False) -> Reply[List[Hit]]:
        """As `Store.top`."""
        return self._later(_top(point, k, alpha, reach, words, scale, explain))

    def top_by_rarity(self, point: Tuple[Degrees, Degrees], k: int, alpha: int, reach: Degrees, words: Iterable[str], *,
                      scale: Optional[int] = None) -> Reply[List[Hit]]:
        """As `Store.top_by_rarity`."""
        return self._later(_top_by_rarity(point, k, alpha, reach, words, scale))

    def group(self, point: Tuple[Degrees, Degrees], words: Iterable[str], *, scale: Optional[int] = None,
              explain: bool = False) -> Reply[Optional[Group]]:
        """As `Store.group`."""
        return self._later(_group(point, words, scale, explain))

    def gather(self, point: Tuple[Degrees, Degrees], words: Iterable[str], *, scale: Optional[int] = None,
               explain: bool = False) -> Reply[Optional[Group]]:
        """As `Store.gather`."""
        return self._later(_gather(point, words, scale, explain))


def load(store: PathName, source: Union[PathName, bytes], *, batch: Optional[int] = None, text: Optional[str] = None,
         cache: Optional[int] = None, policy: Optional[str] = None, program: Optional[PathName] = None) -> Loaded:
    """Runs `irtree STORE load` on a GeoJSON text: the path of a file, or the text itself as bytes.

    `batch` is how many places are stored at a time, and `text` names the one property that is the text of a place. Raises `LoadEnded` if
    the text is refused or the load ends early, and `OSError` if the file can't be read. No other process, and no `Store`, may have the
    store.
    """
    words = [find_program(program), _store_word(store), "load", *_options(batch=batch, text=text, cache=cache, policy=policy)]
    if isinstance(source, (bytes, bytearray, memoryview)):
        run = subprocess.run(words, input=bytes(source), capture_output=True, restore_signals=False)
    else:
        with open(source, "rb") as file:
            run = subprocess.run(words, stdin=file, capture_output=True, restore_signals=False)
    loaded, is_whole = _read_load(run.stdout.decode("utf-8", "replace"))
    if run.returncode != 0 or not is_whole:
        raise LoadEnded(run.returncode, *_end_lines(run.stderr), loaded)
    return loaded


def verify(store: PathName, *, cache: Optional[int] = None, program: Optional[PathName] = None) -> Optional[Broken]:
    """Runs `irtree STORE verify`: `None` if the store is whole, and otherwise a page that breaks a rule.

    Raises `Ended` if the store can't be opened, or the check ends early. No other process, and no `Store`, may have the store.
    """
    words = [find_program(program), _store_word(store), "verify", *_options(cache=cache)]
    run = subprocess.run(words, stdin=subprocess.DEVNULL, capture_output=True, restore_signals=False)
    printed = run.stdout.decode("utf-8", "replace")
    if run.returncode == 0 and printed == "whole\n":
        return None
    broken = re.fullmatch(r"broken (\d+) (\d+)\n", printed)
    if run.returncode == 7 and broken:
        return Broken(int(broken[1]), int(broken[2]))
    raise Ended(run.returncode, *_end_lines(run.stderr), 0)


def _read_load(printed: str) -> Tuple[Loaded, bool]:
    """What a load reported, and whether its last line is there."""
    stored, is_whole = 0, False
    skipped: List[Skip] = []
    for line in printed.split("\n")[:-1]:
        words = line.split(" ")
        if words[0] == "skip":
            skipped.append(Skip(int(words[1]), words[2]))
        elif words[0] in ("stored", "loaded"):
            stored, is_whole = int(words[1]), words[0] == "loaded"
    return Loaded(stored, tuple(skipped)), is_whole

"""Searches ordered rows of whole numbers for SQL row patterns (MATCH_RECOGNIZE), by libmireladle.

A query has columns, a pattern, a DEFINE for each letter (one condition or a list of them, of which
all have to be true), a skip and measures. Prices that rise once or more and then fall, which is W1
of the bench sheet:


>>> price = col("price")
>>> query = Query(
...     columns=["price"],
...     pattern="A+ B",
...     define={"A": price > price.prev(), "B": price < price.prev()},
...     measures=[COUNT("A"), LAST("price", "B")],
... )
>>> report = query.search([100, 110, 120, 115, 130])
>>> for match in report:
...     print(match.number, match.rows, match.labels, match.measures)
1 range(1, 4) AAB {'COUNT(A)': 2, 'LAST(B.price)': 115}
>>> report.steps, report.whole
(12, True)

Comparisons are joined by `&`, `|` and `~`, each of them in parentheses. One that looks at a row
which is not there is unknown, and `~` of it too; a letter holds only where its condition is true.
So the first row, which has none before it, is not one that leaps:

>>> near = (price >= price.prev() - 10) & (price <= price.prev() + 10)
>>> leaps = Query(["price"], "A", {"A": ~near | (price == 999)})
>>> [match.first for match in leaps.search([100, 105, 120, 999, 118])]
[2, 3, 4]

A query or rows that the library refuses raise `Refused`, with the answer's number, and with the
offset in the pattern's text where it is wrong or ends too early:

>>> Query(["price"], "A{30,2}")
Traceback (most recent call last):
    ...
mireladle.Refused: refused 5: the pattern text is wrong at byte 5, counted from 0, behind 'A{30,'

A search that stops before its end raises nothing: the matches found by then stand in the report.

>>> stopped = query.search([100, 110, 120, 115, 130], steps=8)
>>> len(stopped), stopped.whole, stopped.ending
(1, False, <Answer.OUT_OF_STEPS: 16>)

Rows that come in lots go into a feed, which gives with each lot the matches that are new. In the end
they are those of one search of all rows:

>>> feed = query.feed(largest=1000)
>>> for lot in ([100, 110, 120], [115], [130]):
...     print([match.labels for match in feed.push(lot)])
[]
['AAB']
[]
>>> feed.finish().ending
<Answer.DONE: 0>

The release desk says of a bus's log whether the bus may leave: rows of time, event (1 offered,
2 refused, 3 accepted), base number and patch number, in order of time.

>>> log = [(540, 1, 7, 31), (545, 2, 7, 31), (560, 3, 7, 31)]
>>> desk(log)
Verdict(said=<Said.CLEARED: 1>, last_refusal=None)
>>> desk(log[:2])
Verdict(said=<Said.HELD: 2>, last_refusal=1)

The module needs Python 3.9 and the shared library libmireladle.so.1, which is loaded at the first
query: the file that the environment variable MIRELADLE_LIBRARY names, or else the one in this
module's folder, or else what the system's loader finds. include/mireladle.h tells the limits and
the pattern language. Tested, not proved: test_mireladle.py.
"""

from __future__ import annotations

import ctypes
import functools
import operator
import os
import struct
from array import array
from collections.abc import Mapping
from dataclasses import dataclass
from enum import IntEnum

__all__ = [
    "AVG", "COUNT", "FIRST", "LAST", "MAX", "MIN", "SUM",
    "Answer", "Feed", "Match", "PAST_LAST_ROW", "Query", "Refused", "Report", "Said", "TO_NEXT_ROW",
    "Tested", "Verdict", "col", "desk", "to_first", "to_last",
]

# ---- The C interface: what include/mireladle.h declares. test_mireladle.py compares the two.

SONAME = "libmireladle.so.1"
_U8, _U32, _U64, _SIZE = ctypes.c_uint8, ctypes.c_uint32, ctypes.c_uint64, ctypes.c_size_t
_I32, _I64 = ctypes.c_int32, ctypes.c_int64
_NO_LIMIT = 2**64 - 1


class Answer(IntEnum):
    """The library's answers: refusals, but for 0, the searches that stop, 13, 15 and 16, and 23.

    23 is that of a feed that waits for further rows.
    """

    DONE = 0
    QUERY_CUT = 1
    WRONG_RECORDS = 2
    WRONG_FIELD = 3
    TOO_DEEP = 4
    NO_PATTERN = 5
    EMPTY_REPETITION = 6
    TOO_MANY_PLACES = 7
    DEFINED_TWICE = 8
    MEASURE_LETTER = 9
    WRONG_ROWS = 10
    NOTES_SHORT = 11
    TRAIL_SHORT = 12
    STOPPED = 13
    PATTERN_ENDS = 14
    NO_SKIP_ROW = 15
    OUT_OF_STEPS = 16
    LOOKS_AHEAD = 17
    NO_NUMBER = 20
    OUT_OF_ORDER = 21
    WAITING = 23


class Said(IntEnum):
    """What the release desk says of a log; a bus may leave by CLEARED alone."""

    CLEARED = 1
    HELD = 2
    UNREADABLE = 3


_WITH_REPORT = {Answer.DONE, Answer.STOPPED, Answer.NO_SKIP_ROW, Answer.OUT_OF_STEPS,
                Answer.WAITING}

_WORDS = {
    1: "the query breaks off inside a record",
    2: "a record of the query is unknown, missing, repeated, misplaced or one too many "
       "(one pattern, at most 26 DEFINEs and 8 measures)",
    3: "a record of the query has the wrong length or a field outside its values (1 to 8 columns "
       "and none beyond them, 256 bytes of pattern, letters A to Z, 1 to 8 comparisons in a "
       "DEFINE, offsets up to 64)",
    4: "more than 8 parentheses are open somewhere in the pattern",
    5: "the pattern text is wrong",
    6: "more than 3 repetitions without upper bound, each of something that can match without "
       "taking a row, are nested in one another",
    7: "the pattern, with its repetitions written out, has more than 256 places",
    8: "a letter has two DEFINEs",
    9: "a measure or the skip names a letter that is not in the pattern",
    10: "the entries are not whole rows, or there are more than 4,096 rows",
    11: "the notes are too short",
    12: "the trail is too short",
    14: "the pattern text ends where it could go on to a pattern",
    17: "the query looks ahead, so that rows which are still to come could change what was found",
    20: "the depot-by-month table takes no further partition",
    21: "the call is out of order: the end was declared before it, or it has fewer rows than a call "
        "before it",
}


class _Result(ctypes.Structure):
    _fields_ = [(name, _U64) for name in ("answer", "matches", "labels", "steps", "offset")]


class _Room(ctypes.Structure):
    _fields_ = [(name, _U64) for name in ("answer", "places", "rows", "pairs", "offset", "factor")]


class _Verdict(ctypes.Structure):
    _fields_ = [(name, _U64) for name in ("answer", "verdict", "found", "row")]


class _Tested(ctypes.Structure):
    _fields_ = [(name, _U64) for name in ("answer", "holds", "judged", "offset")]


class _Feed(ctypes.Structure):
    _fields_ = [(name, _U64) for name in ("largest", "allowance", "present", "begun", "answer",
                                          "row", "matches", "labels", "steps", "opened")]


_WITH_A_LOT = [ctypes.POINTER(_Feed), ctypes.c_char_p, _SIZE, ctypes.POINTER(_I32), _SIZE, _U64,
               ctypes.POINTER(_U8), _SIZE, ctypes.POINTER(_U32), _SIZE,
               ctypes.POINTER(_I64), _SIZE, ctypes.POINTER(_U8), _SIZE]

# Each function that is called: the struct that it returns, if any, and its arguments. A pointer
# stands before the length of what it points to, but for that to a feed.
_FUNCTIONS = {
    "mireladle_room": (
        _Room,
        [ctypes.c_char_p, _SIZE, ctypes.POINTER(_I32), _SIZE],
    ),
    "mireladle_test": (
        _Tested,
        [ctypes.c_char_p, _SIZE, ctypes.POINTER(_I32), _SIZE, _U8, _SIZE],
    ),
    "mireladle_search_within": (
        _Result,
        [ctypes.c_char_p, _SIZE, ctypes.POINTER(_I32), _SIZE, _U64,
         ctypes.POINTER(_U8), _SIZE, ctypes.POINTER(_U32), _SIZE,
         ctypes.POINTER(_I64), _SIZE, ctypes.POINTER(_U8), _SIZE],
    ),
    "mireladle_begin": (None, [ctypes.POINTER(_Feed), _U64, _U64]),
    "mireladle_more": (_Result, _WITH_A_LOT),
    "mireladle_last": (_Result, _WITH_A_LOT),
    "mireladle_desk": (
        _Verdict,
        [ctypes.POINTER(_I32), _SIZE,
         ctypes.POINTER(_U8), _SIZE, ctypes.POINTER(_U32), _SIZE,
         ctypes.POINTER(_I64), _SIZE, ctypes.POINTER(_U8), _SIZE],
    ),
}


def _library_path():
    named = os.environ.get("MIRELADLE_LIBRARY")
    if named:
        return named
    beside = os.path.join(os.path.dirname(os.path.abspath(__file__)), SONAME)
    return beside if os.path.exists(beside) else SONAME


@functools.lru_cache(maxsize=None)
def _library():
    path = _library_path()
    try:
        library = ctypes.CDLL(path)
        for name, (result, arguments) in _FUNCTIONS.items():
            function = getattr(library, name)
            function.restype, function.argtypes = result, arguments
    except (OSError, AttributeError) as fault:
        raise OSError(
            f"{SONAME} cannot be loaded ({fault}): install it, name its file in the environment "
            f"variable MIRELADLE_LIBRARY, or put it beside {os.path.abspath(__file__)}"
        ) from fault
    return library


class Refused(ValueError):
    """The library refused a query or rows.

    `answer` is the answer, an `Answer` and so a number. `offset` is, on 5, the byte of the
    pattern's text at which it is wrong, counted from 0; on 14 its length; otherwise None.
    """

    def __init__(self, answer, offset=None, detail=""):
        known = answer in _WORDS
        self.answer = Answer(answer) if known else answer
        self.offset = offset
        self._detail = detail
        words = _WORDS[answer] if known else "the library is of another version"
        super().__init__(f"refused {int(answer)}: {words}{detail}")

    def __reduce__(self):
        return Refused, (self.answer, self.offset, self._detail)


# ---- A query's parts.


class Column:
    """A column at some row, and a number that is added to it. Comparing it makes a comparison."""

    __hash__ = None

    def __init__(self, key, offset=0, number=0):
        self._key, self._offset, self._number = key, offset, number

    def prev(self, rows=1):
        """The column so many rows back, as SQL's PREV."""
        return self._moved(rows, -1)

    def next(self, rows=1):
        """The column so many rows on, as SQL's NEXT."""
        return self._moved(rows, 1)

    def _moved(self, rows, direction):
        rows = operator.index(rows)
        if rows < 0 or self._offset:
            raise ValueError("prev and next take one number of rows, 0 or more, and only once")
        return Column(self._key, direction * rows, self._number)

    def __add__(self, number):
        return Column(self._key, self._offset, self._number + operator.index(number))

    __radd__ = __add__

    def __sub__(self, number):
        return self + -operator.index(number)

    def __eq__(self, right):
        return Comparison(self, 1, right)

    def __ne__(self, right):
        return Comparison(self, 2, right)

    def __lt__(self, right):
        return Comparison(self, 3, right)

    def __le__(self, right):
        return Comparison(self, 4, right)

    def __gt__(self, right):
        return Comparison(self, 5, right)

    def __ge__(self, right):
        return Comparison(self, 6, right)

    def _unjoined(self, *_):
        raise TypeError("a column cannot be joined: put each comparison in parentheses, as in "
                        "(a > 1) & (b < 2)")

    __and__ = __rand__ = __or__ = __ror__ = __invert__ = _unjoined


def col(key):
    """The column with this name, or with this index from 0, at the row that a letter is tested at."""
    return Column(key if isinstance(key, str) else operator.index(key))


_AND, _OR, _NOT = 1, 2, 3


class Condition:
    """Comparisons joined by `&`, `|` and `~`, as SQL joins them by AND, OR and NOT."""

    def __init__(self, entries):
        # In postfix: comparisons, and the numbers of joins.
        self._entries = entries

    def _joined(self, other, join):
        if not isinstance(other, Condition):
            return NotImplemented
        return Condition(self._entries + other._entries + [join])

    def __and__(self, other):
        return self._joined(other, _AND)

    def __or__(self, other):
        return self._joined(other, _OR)

    def __invert__(self):
        return Condition(self._entries + [_NOT])

    def __bool__(self):
        raise TypeError("conditions have no truth value here: join them by `&`, `|` and `~`, each "
                        "comparison in parentheses, without `and`, `or`, `not` or `a < b < c`")

    def _conjunction(self):
        """The comparisons, if nothing but AND joins them; otherwise None."""
        comparisons = [entry for entry in self._entries if isinstance(entry, Comparison)]
        ands = self._entries.count(_AND)
        return comparisons if len(comparisons) + ands == len(self._entries) else None

    def _record(self, letter, index_of):
        """The DEFINE of a letter: kind 3 where AND alone joins the comparisons, else kind 6."""
        comparisons = self._conjunction()
        if comparisons is None:
            kind, count = _CONDITION, len(self._entries)
            body = [_packed("<B", entry) if isinstance(entry, int)
                    else _packed("<B", 0) + entry._bytes(index_of) for entry in self._entries]
        else:
            kind, count = _DEFINE, len(comparisons)
            body = [comparison._bytes(index_of) for comparison in comparisons]
        if count > (_MOST_COMPARISONS if kind == _DEFINE else _MOST_ENTRIES):
            compared = sum(isinstance(entry, Comparison) for entry in self._entries)
            raise Refused(Answer.WRONG_FIELD, None, (
                f": the DEFINE of {letter} has {compared} comparisons, and {len(self._entries)} "
                "entries with its ANDs, ORs and NOTs, of which 16 are possible where there is an "
                "OR or a NOT"))
        return _record(kind, _packed("<BB", _letter(letter), count) + b"".join(body))


_MOST_COMPARISONS, _MOST_ENTRIES = 8, 16


class Comparison(Condition):
    """A column against a number or against another column plus a number."""

    def __init__(self, left, operation, right):
        if not isinstance(right, Column):
            right = Column(None, 0, operator.index(right))
        self._left, self._operation, self._right = left, operation, right

    @property
    def _entries(self):
        return [self]

    def _bytes(self, index_of):
        left, right = self._left, self._right
        # Sums are exact, so a number that is added on the left may be taken off on the right.
        number = right._number - left._number
        kind, column = (0, 0) if right._key is None else (1, index_of(right._key))
        return _packed("<BbBBBbHi", index_of(left._key), left._offset, self._operation,
                       kind, column, right._offset, 0, number)


def _all(conditions):
    """The condition that all of these are true."""
    entries = []
    for count, condition in enumerate(conditions):
        if not isinstance(condition, Condition):
            raise TypeError(f"a DEFINE is a condition or a list of them, not {condition!r}")
        entries += condition._entries + [_AND] * (count > 0)
    return Condition(entries)


@dataclass(frozen=True)
class Measure:
    """A measure over the rows of a match, or over those with its letter. Made by COUNT to AVG."""

    function: str
    column: object = None
    letter: object = None

    def _bytes(self, index_of):
        column = 0 if self.column is None else index_of(self.column)
        letter = _letter(self.letter) if self.letter is not None else 0
        return _packed("<BBBB", _MEASURES.index(self.function) + 1, letter, column, 0)

    def _title(self):
        parts = [str(part) for part in (self.letter, self.column) if part is not None]
        return f"{self.function}({'.'.join(parts) or '*'})"


_MEASURES = ["COUNT", "SUM", "MIN", "MAX", "FIRST", "LAST", "AVG"]


def COUNT(letter=None):
    """How many rows the match has, or how many with this letter."""
    return Measure("COUNT", None, letter)


def _over_column(function, words):
    def measure(column, letter=None):
        if isinstance(column, Column):
            if column._offset or column._number:
                raise ValueError("a measure is over a column alone")
            column = column._key
        return Measure(function, column, letter)

    measure.__name__ = measure.__qualname__ = function
    measure.__doc__ = f"{words} of a column over the match's rows, or over those with this letter."
    return measure


SUM = _over_column("SUM", "The sum")
MIN = _over_column("MIN", "The least entry")
MAX = _over_column("MAX", "The greatest entry")
FIRST = _over_column("FIRST", "The first entry")
LAST = _over_column("LAST", "The last entry")
AVG = _over_column("AVG", "The sum divided by the count, cut toward zero to a whole number,")


@dataclass(frozen=True)
class Skip:
    """Where the search goes on behind a match that takes rows."""

    mode: int
    letter: object = None

    def _bytes(self):
        letter = _letter(self.letter) if self.letter is not None else 0
        return _packed("<BB", self.mode, letter)


PAST_LAST_ROW = Skip(0)
TO_NEXT_ROW = Skip(1)


def to_first(letter):
    """Go on at the match's first row with this letter."""
    return Skip(2, letter)


def to_last(letter):
    """Go on at the match's last row with this letter."""
    return Skip(3, letter)


# ---- A query's bytes. What they cannot carry is a ValueError; all else the library judges.

_SHAPE, _PATTERN, _DEFINE, _SKIP, _MEASURE, _CONDITION = 1, 2, 3, 4, 5, 6


def _packed(layout, *values):
    try:
        return struct.pack(layout, *values)
    except struct.error as fault:
        raise ValueError(f"a number of the query does not fit its field: {fault}") from None


def _record(kind, body):
    return _packed("<HH", len(body), kind) + body


def _records(data):
    """The kinds and bodies of the records of a query that the library accepts."""
    at = 0
    while at < len(data):
        length, kind = struct.unpack_from("<HH", data, at)
        yield kind, data[at + 4:at + 4 + length]
        at += 4 + length


def _letter(text):
    if not isinstance(text, str) or len(text) != 1 or not text.isascii():
        raise ValueError(f"a letter is one of A to Z, not {text!r}")
    return ord(text)


class Query:
    """A query that the library accepts, with names for its columns and titles for its measures.

    `columns` are the names of the rows' columns, or their number. `define` has a condition or a
    list of conditions for a letter; a letter without one holds at every row. `measures` are a list
    of measures, whose titles are as SQL writes them, or a dict of titles and measures.
    `bytes` is the query as include/mireladle.h describes it.
    """

    def __init__(self, columns, pattern, define=None, skip=PAST_LAST_ROW, measures=()):
        names = _names(columns)

        def index_of(key):
            if isinstance(key, str):
                if key not in names:
                    raise ValueError(f"no column is called {key!r}: there are {', '.join(names)}")
                return names.index(key)
            return operator.index(key)

        if not isinstance(measures, Mapping):
            measures = [(measure._title(), measure) for measure in measures]
        titles, asked = zip(*dict(measures).items()) if measures else ((), ())
        if len(titles) < len(measures):
            raise ValueError("two measures are the same; in a dict each has a title of its own")
        data = [_record(_SHAPE, _packed("<BB", len(names), 0)),
                _record(_PATTERN, pattern.encode())]
        for letter, condition in (define or {}).items():
            if not isinstance(condition, Condition):
                condition = _all(condition)
            data.append(condition._record(letter, index_of))
        data.append(_record(_SKIP, skip._bytes()))
        data += [_record(_MEASURE, measure._bytes(index_of)) for measure in asked]
        self._take(b"".join(data), names, titles)

    @classmethod
    def from_bytes(cls, data, columns=None, titles=None):
        """The query with these bytes; columns and measures are numbered where no names are given."""
        query = cls.__new__(cls)
        query._take(bytes(data), columns, titles)
        return query

    def _take(self, data, columns, titles):
        room = _library().mireladle_room(data, len(data), None, 0)
        if room.answer:
            raise _refused(room, data)
        records = list(_records(data))
        shape = next(body for kind, body in records if kind == _SHAPE)
        skip = next(body for kind, body in records if kind == _SKIP)
        measures = sum(kind == _MEASURE for kind, _ in records)
        self.bytes = data
        self.columns = _names(shape[0] if columns is None else columns)
        self.titles = tuple(map(str, range(measures)) if titles is None else titles)
        self._overlaps = skip[0] != PAST_LAST_ROW.mode
        if len(self.columns) != shape[0] or len(set(self.titles)) != measures:
            raise ValueError(f"the query has {shape[0]} columns and {measures} measures, and each "
                             "has a name of its own")

    def search(self, rows, steps=None):
        """All matches in these rows, which are one partition in order.

        A row is a sequence with an entry for each column, or a mapping with one for each name; of a
        single column it may be the entry itself. Rows may also lie in a buffer of 32-bit numbers,
        such as an `array('i')` or an array of NumPy, row by row. `steps` is how many steps the
        search may take; where that is too few the report says so.
        """
        entries = _entries(rows, self.columns)
        count = len(entries)
        given = (self.bytes, len(self.bytes), entries, count)
        allowance = _allowance(steps)
        room = _library().mireladle_room(*given)
        if room.answer:
            raise _refused(room, self.bytes, f" ({count} entries, {len(self.columns)} to a row)")
        width = self._width()
        lent = self._lent(room.pairs, room.rows)
        result = _library().mireladle_search_within(*given, allowance, *_sized(lent))
        if result.answer not in _WITH_REPORT:
            raise _refused(result, self.bytes)
        numbers, labels = lent[2][:result.matches * width], bytes(lent[3][:result.labels]).decode()
        return Report(Answer(result.answer), result.steps, self._matches(numbers, labels, width))

    def feed(self, largest=4096, steps=None):
        """A search of these rows in lots, as they come: see `Feed`."""
        return Feed(self, largest, steps)

    def _width(self):
        """Numbers that a match takes in the report."""
        return 3 + 2 * len(self.titles)

    def _lent(self, pairs, n):
        """Buffers for so many pairs, and for every match in n rows."""
        return (
            (_U8 * ((pairs + 7) // 8))(),
            (_U32 * pairs)(),
            (_I64 * (n * self._width()))(),
            (_U8 * (n * (n + 1) // 2 if self._overlaps else n))(),
        )

    def test(self, rows, letter, row):
        """Whether a letter holds at a row, counted from 0, and how many comparisons that took.

        A DEFINE that lists comparisons is judged up to the first that is not met:

        >>> a = col("a")
        >>> query = Query(["a"], "A", {"A": [a > 0, a > a.prev(), a < 9]})
        >>> query.test([5, 7, 6], "A", 2)
        Tested(holds=False, judged=2)
        """
        entries = _entries(rows, self.columns)
        row = operator.index(row)
        if not 0 <= row < 2**64:
            raise ValueError(f"rows count from 0, and there is none with the number {row}")
        tested = _library().mireladle_test(self.bytes, len(self.bytes), entries, len(entries),
                                           _letter(letter), row)
        if tested.answer:
            detail = f" ({len(entries)} entries, {len(self.columns)} to a row)"
            raise _refused(tested, self.bytes, detail)
        return Tested(bool(tested.holds), tested.judged)

    def _matches(self, numbers, labels, width):
        matches, taken = [], 0
        for at in range(0, len(numbers), width):
            number, first, rows = numbers[at:at + 3]
            results = zip(numbers[at + 3:at + width:2], numbers[at + 4:at + width:2])
            values = (value if there else None for there, value in results)
            measures = dict(zip(self.titles, values))
            matches.append(Match(number, first, labels[taken:taken + rows], measures))
            taken += rows
        return matches


def _allowance(steps):
    allowance = _NO_LIMIT if steps is None else operator.index(steps)
    if not 0 <= allowance <= _NO_LIMIT:
        raise ValueError(f"steps are 0 to 2^64 - 1, not {steps}")
    return allowance


class Feed:
    """A search whose rows come in lots, up to `largest` of them, in `steps` steps over all lots.

    `push` searches on with a lot, and `finish` declares that no further row comes. Each gives a
    report of the matches that are new; these are numbered on, and their rows count from the first
    row of the first lot. The report's `ending` is WAITING while further rows may come and DONE at
    the end, and its `steps` are those of all lots so far. A search that stops stays so: later
    reports have the same ending and no match.

    A query that looks ahead, by a `$` or by `next`, is refused with LOOKS_AHEAD, since a later row
    could undo a match; more rows than `largest` are refused with WRONG_ROWS, and what comes after
    `finish` with OUT_OF_ORDER. A refusal changes nothing: the feed can go on with other rows. All
    buffers are made at the beginning, for `largest` rows.
    """

    def __init__(self, query, largest=4096, steps=None):
        self.query = query
        self.largest = operator.index(largest)
        allowance = _allowance(steps)
        if not 0 <= self.largest <= _NO_LIMIT:
            raise ValueError(f"the largest number of rows is 0 to 4,096, not {largest}")
        room = _library().mireladle_room(query.bytes, len(query.bytes), None, 0)
        # What is larger is refused by the first call.
        n = min(self.largest, _MOST_ROWS)
        self._lent = query._lent(room.places * room.factor * (n + 1), n)
        self._entries = array("i")
        self._state = _Feed()
        self._handed = (0, 0)
        _library().mireladle_begin(self._state, self.largest, allowance)
        # Without a row nothing but the query and the largest number can be refused.
        self._report(_library().mireladle_more, 0)

    @property
    def present(self):
        """How many rows there are so far."""
        return self._state.present

    def push(self, rows):
        """Searches on with these rows, of any form that `Query.search` takes; what is new."""
        came = _entries(rows, self.query.columns)
        self._entries.frombytes(memoryview(came).cast("B"))
        columns = len(self.query.columns)
        try:
            return self._report(_library().mireladle_more, self.present + len(came) // columns)
        finally:
            # A call that is refused, or that comes behind a stop, takes none of its rows.
            del self._entries[self.present * columns:]

    def finish(self):
        """Declares that no further row comes; what is new by that."""
        return self._report(_library().mireladle_last, self.present)

    def _report(self, call, present):
        query, (matches, labels) = self.query, self._handed
        count = len(self._entries)
        result = call(self._state, query.bytes, len(query.bytes),
                      (_I32 * count).from_buffer(self._entries), count, present,
                      *_sized(self._lent))
        if result.answer not in _WITH_REPORT:
            raise self._refused(result, present)
        self._handed = (result.matches, result.labels)
        width = query._width()
        numbers = self._lent[2][matches * width:result.matches * width]
        letters = bytes(self._lent[3][labels:result.labels]).decode()
        return Report(Answer(result.answer), result.steps, query._matches(numbers, letters, width))

    def _refused(self, result, present):
        if result.answer == Answer.LOOKS_AHEAD:
            return Refused(result.answer, None, f": {_ahead(self.query.bytes)}")
        most = min(self.largest, _MOST_ROWS)
        rows = max(present, self.largest if self.largest > _MOST_ROWS else 0)
        detail = f" ({rows} rows, and the feed takes at most {most})" if rows > most else (
            f" ({len(self._entries)} entries, {len(self.query.columns)} to a row)")
        return _refused(result, self.query.bytes, detail)


_MOST_ROWS = 4096


def _ahead(data):
    """What of a query looks ahead, in words."""
    text = next(body for kind, body in _records(data) if kind == _PATTERN)
    if b"$" in text:
        return f"its pattern has a `$` at byte {text.index(b'$')}, counted from 0"
    for kind, body in _records(data):
        if kind in (_DEFINE, _CONDITION) and body[0] in text:
            rows = max((offset for comparison in _comparisons(kind, body[2:])
                        for offset in struct.unpack("<xb3xb6x", comparison)), default=0)
            if rows > 0:
                return f"{chr(body[0])} reads " + ("the next row" if rows == 1 else f"{rows} rows on")
    return "by what is not known"


def _comparisons(kind, entries):
    """The comparisons of a DEFINE, 12 bytes each; of kind 6 a byte 0 stands before each."""
    at = 0
    while at < len(entries):
        if kind == _CONDITION:
            at += 1
            if entries[at - 1]:
                continue
        yield entries[at:at + 12]
        at += 12


@dataclass(frozen=True)
class Tested:
    """Whether a letter holds at a row, and how many of its comparisons were judged.

    They are judged up to and with the first that is not met. 0 are where a letter has no DEFINE, or
    one with OR or NOT.
    """

    holds: bool
    judged: int


@dataclass(frozen=True)
class Match:
    """A match: its number from 1, its first row, a letter for each row, and its measures' results.

    A measure over no rows is None, but for COUNT.
    """

    number: int
    first: int
    labels: str
    measures: dict

    @property
    def rows(self):
        """The numbers of the match's rows, counted from 0."""
        return range(self.first, self.first + len(self.labels))


@dataclass(frozen=True)
class Report:
    """The matches of a search, its steps, and how it ended: with DONE all matches are there.

    Of a feed's lot they are the matches that are new.
    """

    ending: Answer
    steps: int
    matches: list

    @property
    def whole(self):
        """Whether the search went through all rows."""
        return self.ending == Answer.DONE

    def __iter__(self):
        return iter(self.matches)

    def __len__(self):
        return len(self.matches)


# ---- The release desk.

_LOG = ("time", "event", "base", "patch")
_LOG_ROWS, _DESK_PLACES, _DESK_NUMBERS = 4096, 6, 3


@dataclass(frozen=True)
class Verdict:
    """What the desk says of a log, and, where it is held, the row of its last refusal, from 0.

    `last_refusal` is None where there is no refusal, and where the log is not held.
    """

    said: Said
    last_refusal: object = None

    @property
    def cleared(self):
        """Whether the bus may leave."""
        return self.said == Said.CLEARED

    def __bool__(self):
        raise TypeError("a verdict has no truth value, since it is there for a bus that is held "
                        "too: look at `.cleared`")


def desk(rows):
    """The verdict on a bus's log, whose rows are in order of time.

    A row has time, event, base and patch, in that order or by these names, and rows may lie in a
    buffer, as those of a search. The library's answer for more than 4,096 rows, and for a buffer
    whose last row is not whole, is raised as `Refused`.
    """
    entries = _entries(rows, _LOG)
    n = min(len(entries) // len(_LOG), _LOG_ROWS)
    pairs = _DESK_PLACES * (n + 1)
    lent = (_U8 * ((pairs + 7) // 8))(), (_U32 * pairs)(), (_I64 * _DESK_NUMBERS)(), (_U8 * n)()
    said = _library().mireladle_desk(entries, len(entries), *_sized(lent))
    if said.answer:
        # There is room enough, so that no search stops: another number is another library's.
        detail = f" ({len(entries)} entries, {len(_LOG)} to a row)"
        raise Refused(said.answer, None, detail if said.answer == Answer.WRONG_ROWS else "")
    return Verdict(Said(said.verdict), said.row if said.found else None)


def _sized(lent):
    """Buffers, each with its length behind it."""
    return [part for buffer in lent for part in (buffer, len(buffer))]


def _names(columns):
    if isinstance(columns, int):
        columns = map(str, range(columns))
    names = tuple(columns)
    if isinstance(columns, str) or len(set(names)) != len(names):
        raise ValueError("columns are a number or a list of names, each of which stands there once")
    return names


def _refused(returned, data, detail=""):
    """The refusal for a struct of the library; data is the query."""
    answer, offset = returned.answer, returned.offset
    if answer not in (Answer.NO_PATTERN, Answer.PATTERN_ENDS):
        return Refused(answer, None, detail if answer == Answer.WRONG_ROWS else "")
    text = next(body for kind, body in _records(data) if kind == _PATTERN)
    front = text[:offset].decode(errors="replace")
    where = f" at byte {offset}, counted from 0" if answer == Answer.NO_PATTERN else ""
    return Refused(answer, offset, f"{where}, behind {front!r}")


def _entries(rows, names):
    """The rows' entries as numbers of 32 bits, row by row."""
    if isinstance(rows, (str, bytes, bytearray)):
        raise TypeError("rows are numbers, not text or bytes")
    try:
        view = memoryview(rows)
    except TypeError:
        view = None
    if view is not None and view.format == "i" and view.c_contiguous:
        if view.ndim > 1 and view.shape[1:] != (len(names),):
            raise ValueError(f"the rows have the shape {view.shape}, not (.., {len(names)})")
        layout = _I32 * (view.nbytes // 4)
        return layout.from_buffer_copy(view) if view.readonly else layout.from_buffer(view)
    entries = array("i")
    for number, row in enumerate(rows):
        if isinstance(row, Mapping):
            cells = [row[name] for name in names]
        else:
            cells = [row] if len(names) == 1 and not hasattr(row, "__len__") else list(row)
        if len(cells) != len(names):
            raise ValueError(f"row {number} has {len(cells)} entries, not {len(names)}")
        for name, cell in zip(names, cells):
            try:
                entries.append(operator.index(cell))
            except (TypeError, OverflowError):
                raise ValueError(f"row {number}, column {name}: {cell!r} is not a whole number "
                                 "of 32 bits") from None
    return (_I32 * len(entries)).from_buffer(entries)

#!/usr/bin/env python3
"""The tests of mireladle.py, and the examples in its text and in README.md. The module's
declarations are compared with include/mireladle.h, the bytes of W1 with examples/w1.c, and the
matches of random queries with what the program prints. Run in any folder; the shared library is
that of target/shared, or the one that MIRELADLE_LIBRARY names. The last line is
`N passed, M failed`.
"""

import ctypes
import doctest
import functools
import operator
import os
import pickle
import random
import re
import struct
import subprocess
import sys
import unittest
from array import array

HERE = os.path.dirname(os.path.abspath(__file__))
ROOT = os.path.dirname(HERE)
PROGRAM = os.path.join(ROOT, "target", "bin", "mireladle")
os.environ.setdefault("MIRELADLE_LIBRARY",
                      os.path.join(ROOT, "target", "shared", "libmireladle.so.1"))
sys.path.insert(0, HERE)

import mireladle  # noqa: E402
from mireladle import (  # noqa: E402
    AVG, COUNT, FIRST, LAST, MAX, MIN, PAST_LAST_ROW, SUM, TO_NEXT_ROW,
    Answer, Feed, Query, Refused, Said, Tested, Verdict, col, desk, to_first, to_last)

A = col("a")
W1_ROWS = [100, 110, 120, 115, 130]


def read(*path):
    with open(os.path.join(ROOT, *path), encoding="utf-8") as file:
        return file.read()


def w1(**changed):
    parts = {
        "columns": ["price"],
        "pattern": "A+ B",
        "define": {"A": col("price") > col("price").prev(),
                   "B": col("price") < col("price").prev()},
        "measures": [COUNT("A"), LAST("price", "B")],
    }
    return Query(**{**parts, **changed})


def found(report):
    return [(match.first, match.labels) for match in report]


class TheHeader(unittest.TestCase):
    header = read("include", "mireladle.h")

    def test_structs(self):
        structs = (mireladle._Result, mireladle._Room, mireladle._Verdict, mireladle._Tested,
                   mireladle._Feed)
        for struct_type in structs:
            name = "mireladle" + struct_type.__name__.lower()
            body = re.search(rf"struct {name} {{(.*?)\n}};", self.header, re.S).group(1)
            declared = re.findall(r"^ +(\w+) (\w+);", body, re.M)
            self.assertEqual({kind for kind, _ in declared}, {"uint64_t"})
            self.assertEqual([field for _, field in declared],
                             [field for field, _ in struct_type._fields_])

    def test_answers(self):
        body = re.search(r"enum mireladle_answer {(.*?)\n};", self.header, re.S).group(1)
        declared = re.findall(r"^ +MIRELADLE_(\w+) = (\d+),?$", body, re.M)
        self.assertEqual([(name, int(number)) for name, number in declared],
                         [(answer.name, answer.value) for answer in Answer])

    def test_verdicts(self):
        body = re.search(r"enum mireladle_said {(.*?)\n};", self.header, re.S).group(1)
        declared = re.findall(r"^ +MIRELADLE_(\w+) = (\d+),?$", body, re.M)
        self.assertEqual([(name, int(number)) for name, number in declared],
                         [(said.name, said.value) for said in Said])
        pairs = re.search(r"MIRELADLE_DESK_PAIRS\(n\) \((\d+) \* \(\(n\) \+ 1\)\)", self.header)
        numbers = re.search(r"MIRELADLE_DESK_NUMBERS (\d+)", self.header)
        self.assertEqual((int(pairs.group(1)), int(numbers.group(1))),
                         (mireladle._DESK_PLACES, mireladle._DESK_NUMBERS))

    def test_every_answer_is_told(self):
        self.assertEqual(set(Answer), set(mireladle._WORDS) | mireladle._WITH_REPORT)

    def test_functions(self):
        kinds = {"const uint8_t *": ctypes.c_char_p, "size_t ": ctypes.c_size_t,
                 "const int32_t *": ctypes.POINTER(ctypes.c_int32), "uint64_t ": ctypes.c_uint64,
                 "uint8_t ": ctypes.c_uint8,
                 "uint8_t *": ctypes.POINTER(ctypes.c_uint8),
                 "uint32_t *": ctypes.POINTER(ctypes.c_uint32),
                 "int64_t *": ctypes.POINTER(ctypes.c_int64),
                 "struct mireladle_feed *": ctypes.POINTER(mireladle._Feed)}
        for name, (result, arguments) in mireladle._FUNCTIONS.items():
            declared = re.search(rf"^(?:struct )?(\w+) {name}\((.*?)\);", self.header, re.S | re.M)
            returned = "mireladle" + result.__name__.lower() if result else "void"
            self.assertEqual(declared.group(1), returned)
            said = [re.fullmatch(r"(.*[ *])\w+", part.strip()).group(1)
                    for part in declared.group(2).split(",")]
            self.assertEqual([kinds[kind] for kind in said], arguments)


class Queries(unittest.TestCase):
    def test_the_bytes_are_those_of_the_c_example(self):
        text = re.search(r"query\[\] = {(.*?)};", read("examples", "w1.c"), re.S).group(1)
        items = re.findall(r"0x[0-9A-F]+|\d+|'.'", re.sub(r"/\*.*?\*/", "", text))
        expected = bytes(ord(item[1]) if item[0] == "'" else int(item, 0) for item in items)
        self.assertEqual(w1().bytes, expected)

    def test_comparisons(self):
        def packed(comparison):
            return comparison._bytes({"a": 0, "b": 1}.__getitem__)

        b = col("b")
        cases = [
            (A == 7, (0, 0, 1, 0, 0, 0, 7)),
            (A != -7, (0, 0, 2, 0, 0, 0, -7)),
            (A < b, (0, 0, 3, 1, 1, 0, 0)),
            (A <= b + 2, (0, 0, 4, 1, 1, 0, 2)),
            (A.next(3) > b.prev(2) - 1, (0, 3, 5, 1, 1, -2, -1)),
            (5 <= A, (0, 0, 6, 0, 0, 0, 5)),
            (A + 3 >= 2 + b, (0, 0, 6, 1, 1, 0, -1)),
        ]
        for comparison, (left, offset, operation, kind, right, moved, number) in cases:
            self.assertEqual(packed(comparison), struct.pack(
                "<BbBBBbHi", left, offset, operation, kind, right, moved, 0, number))

    def test_conditions(self):
        def defined(condition):
            return Query(["a"], "A", {"A": condition}).bytes[11:-6]

        one, two, three = A == 1, A.prev() < 2, A != 3
        packed = [comparison._bytes({"a": 0}.__getitem__) for comparison in (one, two, three)]
        listed = [b"\0" + entry for entry in packed]
        a, b, c = listed
        cases = [
            (one & two & three, 3, 3, packed),
            (one & (two & three), 3, 3, packed),
            ([one, two & three], 3, 3, packed),
            (one | two, 6, 3, [a, b, b"\2"]),
            (~one, 6, 2, [a, b"\3"]),
            (~~one, 6, 3, [a, b"\3\3"]),
            (one | two & three, 6, 5, [a, b, c, b"\1\2"]),
            ((one | two) & three, 6, 5, [a, b, b"\2", c, b"\1"]),
            ([one | two, ~three], 6, 6, [a, b, b"\2", c, b"\3\1"]),
        ]
        for condition, kind, count, parts in cases:
            body = bytes([ord("A"), count]) + b"".join(parts)
            self.assertEqual(defined(condition), struct.pack("<HH", len(body), kind) + body)

    def test_what_is_no_condition(self):
        for wrong in (lambda: not (A > 1),
                      lambda: A > 1 | A,
                      lambda: 1 & A,
                      lambda: ~A,
                      lambda: (A > 1) & 5,
                      lambda: (A > 1) | A,
                      lambda: Query(["a"], "A", {"A": [A > 1, True]}),
                      lambda: Query(["a"], "A", {"A": True})):
            with self.assertRaises(TypeError):
                wrong()

    def test_what_is_no_comparison(self):
        with self.assertRaises(TypeError):
            1 < A < 5
        with self.assertRaises(TypeError):
            Query(["a"], "A", {"A": A > 1 and A < 5})
        with self.assertRaises(TypeError):
            A > 1.5
        with self.assertRaises(TypeError):
            col(None)
        with self.assertRaises(ValueError):
            A.prev(-1)
        with self.assertRaises(ValueError):
            A.prev().prev()

    def test_what_the_bytes_cannot_carry(self):
        for wrong in (lambda: Query(["a"], "A", {"A": A > 2**31}),
                      lambda: Query(["a"], "A", {"A": A > A.prev(200)}),
                      lambda: Query(["a"], "A", {"AB": A > 1}),
                      lambda: Query(["a"], "A", {"Ä": A > 1}),
                      lambda: Query(["a"], "A", {"A": col("b") > 1}),
                      lambda: Query(["a", "a"], "A"),
                      lambda: Query("ab", "A"),
                      lambda: Query(["a"], "A" * 70000),
                      lambda: Query(["a"], "A", measures=[COUNT(), COUNT()]),
                      lambda: LAST(A.prev())):
            with self.assertRaises(ValueError) as caught:
                wrong()
            self.assertNotIsInstance(caught.exception, Refused)

    def test_from_bytes(self):
        query = w1()
        same = Query.from_bytes(query.bytes, query.columns, query.titles)
        self.assertEqual(same.search(W1_ROWS), query.search(W1_ROWS))
        bare = Query.from_bytes(bytearray(query.bytes))
        self.assertEqual((bare.columns, bare.titles), (("0",), ("0", "1")))
        self.assertEqual(bare.search(W1_ROWS).matches[0].measures, {"0": 2, "1": 115})
        for names, titles in ((["a", "b"], None), (None, ["t"]), (None, ["t", "t"])):
            with self.assertRaises(ValueError):
                Query.from_bytes(query.bytes, names, titles)


class Refusals(unittest.TestCase):
    def refused(self, answer, offset, call, *arguments, **named):
        with self.assertRaises(Refused) as caught:
            call(*arguments, **named)
        self.assertEqual((caught.exception.answer, caught.exception.offset), (answer, offset))
        self.assertTrue(str(caught.exception).startswith(f"refused {answer}: "))
        return str(caught.exception)

    def test_each(self):
        self.refused(1, None, Query.from_bytes, w1().bytes[:-1])
        self.refused(2, None, Query.from_bytes, b"")
        self.refused(2, None, Query, 1, "A", measures={str(k): COUNT() for k in range(9)})
        self.refused(3, None, Query, 0, "A")
        self.refused(3, None, Query, 9, "A")
        self.refused(3, None, Query, 1, "A", {"a": col(0) > 1})
        self.refused(3, None, Query, 1, "A", {"A": []})
        self.refused(3, None, Query, 1, "A", {"A": col(0) > col(0).prev(65)})
        said = self.refused(3, None, Query, 1, "A", {"A": [col(0) > 1] * 9})
        self.assertIn("DEFINE of A has 9 comparisons, and 17 entries", said)
        any_of_8 = functools.reduce(operator.or_, [col(0) == k for k in range(8)])
        self.assertEqual(len(Query(1, "A", {"A": ~any_of_8}).search([7, 8])), 1)
        said = self.refused(3, None, Query, 1, "A", {"A": ~~any_of_8})
        self.assertIn("DEFINE of A has 8 comparisons, and 17 entries", said)
        self.refused(4, None, Query, 1, "(" * 9 + "A" + ")" * 9)
        self.refused(6, None, Query, 1, "((((A*)*)*)*)*")
        self.refused(7, None, Query, 1, "(A{99}){3}")
        self.refused(9, None, Query, 1, "A", measures=[COUNT("B")])
        self.refused(9, None, Query, 1, "A", skip=to_first("B"))
        twice = bytearray(w1().bytes)
        twice[twice.index(b"B\x01")] = ord("A")
        self.refused(8, None, Query.from_bytes, twice)

    def test_rounds_without_a_row(self):
        above = {"A": col(0) > 0}
        found = Query(1, "(A*)*", above).search([1, 1, 0])
        self.assertEqual([(m.first, m.labels) for m in found], [(0, "AA"), (2, "")])
        self.assertEqual(found.steps, 14)
        found = Query(1, "(A??)*", above).search([1])
        self.assertEqual([(m.first, m.labels) for m in found], [(0, "")])
        self.assertEqual(len(Query(1, "(((A*)*)*)*").search([1])), 1)

    def test_patterns(self):
        said = self.refused(5, 5, Query, 1, "A{30,2}")
        self.assertEqual(said, "refused 5: the pattern text is wrong at byte 5, counted from 0, "
                               "behind 'A{30,'")
        said = self.refused(14, 3, Query, 1, "A (")
        self.assertEqual(said, "refused 14: the pattern text ends where it could go on to a "
                               "pattern, behind 'A ('")
        self.refused(14, 0, Query, 1, "")
        self.refused(5, 1, Query, 1, "AÄ")
        self.refused(5, 1, Query, 1, "A\0")

    def test_rows(self):
        said = self.refused(10, None, w1().search, [0] * 4097)
        self.assertIn("(4097 entries, 1 to a row)", said)
        self.refused(10, None, Query(2, "A").search, array("i", [1, 2, 3]))
        self.assertEqual(len(Query(1, "A").search([0] * 4096)), 4096)

    def test_a_refusal_goes_to_another_process(self):
        for refusal in (Refused(5, 2, " at byte 2"), Refused(10), Refused(99)):
            same = pickle.loads(pickle.dumps(refusal))
            self.assertEqual((same.answer, same.offset, str(same)),
                             (refusal.answer, refusal.offset, str(refusal)))
        self.assertEqual(str(Refused(99)), "refused 99: the library is of another version")


class Searches(unittest.TestCase):
    def test_w1(self):
        report = w1().search(W1_ROWS)
        self.assertEqual((report.ending, report.steps, report.whole), (Answer.DONE, 12, True))
        self.assertEqual(report.matches, [
            mireladle.Match(1, 1, "AAB", {"COUNT(A)": 2, "LAST(B.price)": 115})])

    def test_letters(self):
        rising = [A > 0, A > A.prev(), A < 9]
        query = Query(["a"], "A", {"A": rising, "B": ~(A > A.prev()), "C": A.prev() == 6})
        rows = [5, 7, 9, -1, 6]
        tested = [query.test(rows, "A", row) for row in range(5)]
        self.assertEqual(tested, [Tested(False, 2), Tested(True, 3), Tested(False, 3),
                                  Tested(False, 1), Tested(True, 3)])
        self.assertEqual([query.test(rows, "B", row) for row in range(5)],
                         [Tested(holds, 0) for holds in (False, False, False, True, False)])
        # A letter without DEFINE, and rows behind the last.
        self.assertEqual(query.test(rows, "Z", 0), Tested(True, 0))
        self.assertEqual(query.test(rows, "C", 5), Tested(True, 1))
        self.assertEqual(query.test(rows, "A", 2**64 - 1), Tested(False, 1))
        self.assertEqual(query.test([], "A", 0), Tested(False, 1))
        for wrong in (-1, 2**64):
            with self.assertRaises(ValueError):
                query.test(rows, "A", wrong)
        with self.assertRaises(Refused) as caught:
            query.test([0] * 4097, "A", 0)
        self.assertEqual(caught.exception.answer, 10)

    def test_three_truths(self):
        def found(condition):
            return [match.first for match in Query(["a"], "A", {"A": condition}).search([5, 5, 6])]

        same = A == A.prev()
        self.assertEqual(found(same), [1])
        self.assertEqual(found(~same), [2])
        self.assertEqual(found(same | ~same), [1, 2])
        self.assertEqual(found(~(same & (A == 7))), [0, 1, 2])
        self.assertEqual(found(~same | (A == 5)), [0, 1, 2])
        self.assertEqual(found(~(A == A.next()) & ~(A < 5)), [1])

    def test_measures(self):
        query = Query(["a", "b"], "A+ B*", {"A": A < 10, "B": col("b") > 0}, measures=[
            COUNT(), SUM("a"), MIN(A, "A"), MAX("a"), FIRST(1), LAST("b", "B"), AVG("a"),
            COUNT("B")])
        matches = query.search([(-3, 0), (-4, 0), (20, 0), (2, 1), (11, 5)]).matches
        self.assertEqual([list(match.measures.values()) for match in matches],
                         [[2, -7, -4, -3, 0, None, -3, 0], [2, 13, 2, 11, 1, 5, 6, 1]])
        self.assertEqual(list(matches[0].measures), [
            "COUNT(*)", "SUM(a)", "MIN(A.a)", "MAX(a)", "FIRST(1)", "LAST(B.b)", "AVG(a)",
            "COUNT(B)"])
        titled = w1(measures={"risen": COUNT("A"), "again": COUNT("A")}).search(W1_ROWS)
        self.assertEqual(titled.matches[0].measures, {"risen": 2, "again": 2})

    def test_skips(self):
        define = {"D": A < A.prev(), "U": A > A.prev()}
        rows = [9, 5, 7, 8, 3, 4]
        for skip, expected in (
                (PAST_LAST_ROW, [(0, "SDUU")]),
                (to_last("U"), [(0, "SDUU"), (3, "SDU")]),
                (to_first("U"), [(0, "SDUU"), (3, "SDU")]),
                (TO_NEXT_ROW, [(0, "SDUU"), (3, "SDU")])):
            report = Query(["a"], "S D+ U+", define, skip).search(rows)
            self.assertEqual((found(report), report.ending), (expected, Answer.DONE), skip)
        rising = {"U": A > A.prev()}
        for skip, expected in (
                (to_first("U"), [(0, "SUUU"), (1, "SUU"), (2, "SU")]),
                (to_last("U"), [(0, "SUUU")])):
            self.assertEqual(found(Query(["a"], "S U+", rising, skip).search([1, 2, 3, 4])), expected)

    def test_searches_that_stop(self):
        report = Query(["a"], "A B?", {"B": A > 100}, to_first("B")).search([1, 2, 3])
        self.assertEqual((found(report), report.ending), ([(0, "A")], Answer.NO_SKIP_ROW))
        self.assertFalse(report.whole)
        for steps, ending in ((0, 16), (11, 16), (12, 0), (2**64 - 1, 0)):
            report = w1().search(W1_ROWS, steps=steps)
            self.assertEqual((report.ending, report.steps), (ending, min(steps, 12)))
        for steps in (-1, 2**64):
            with self.assertRaises(ValueError):
                w1().search(W1_ROWS, steps=steps)

    def test_overlapping_labels_have_room(self):
        report = Query(1, "A+", skip=TO_NEXT_ROW).search([0] * 300)
        self.assertEqual(found(report), [(k, "A" * (300 - k)) for k in range(300)])
        self.assertTrue(report.whole)

    def test_empty_matches_and_no_rows(self):
        self.assertEqual(found(Query(1, "()").search([5, 6])), [(0, ""), (1, "")])
        for rows in ([], (), array("i"), iter([])):
            report = w1().search(rows)
            self.assertEqual((len(report), report.whole, report.steps), (0, True, 0))

    def test_forms_of_rows(self):
        expected = w1().search(W1_ROWS)
        for rows in (tuple(W1_ROWS), iter(W1_ROWS), [(r,) for r in W1_ROWS],
                     [{"price": r, "other": "x"} for r in W1_ROWS], array("i", W1_ROWS),
                     array("q", W1_ROWS), memoryview(array("i", W1_ROWS)).toreadonly(),
                     memoryview(array("i", [k for r in W1_ROWS for k in (r, 0)]))[::2]):
            self.assertEqual(w1().search(rows), expected)
        two = Query(["a", "b"], "A", {"A": A > col("b")})
        flat = array("i", [1, 2, 4, 3, 5, 6])
        square = memoryview(flat).cast("B").cast("i", (3, 2))
        for rows in (flat, square, [(1, 2), [4, 3], {"b": 6, "a": 5}]):
            self.assertEqual(found(two.search(rows)), [(1, "A")])
        with self.assertRaises(ValueError):
            w1().search(square)
        self.assertEqual(flat, array("i", [1, 2, 4, 3, 5, 6]))

    def test_wrong_rows(self):
        for cell in (2**31, -2**31 - 1, 1.0, None, "7"):
            with self.assertRaisesRegex(ValueError, "row 1, column a: "):
                Query(["a", "b"], "A").search([(1, 2), (cell, 3)])
        Query(["a"], "A").search([2**31 - 1, -2**31])
        with self.assertRaisesRegex(ValueError, "row 1 has 1 entries, not 2"):
            Query(["a", "b"], "A").search([(1, 2), (3,)])
        for rows in ("12", b"12", bytearray(4), 7):
            with self.assertRaises(TypeError):
                Query(["a"], "A").search(rows)


class Lots(unittest.TestCase):
    def fed(self, query, rows, ends, steps=None):
        """All matches, the steps and the ending of rows in lots that end at these rows."""
        feed = query.feed(len(rows), steps)
        matches, begin = [], 0
        for end in ends:
            report = feed.push(rows[begin:end])
            self.assertNotEqual(report.ending, Answer.DONE)
            self.assertFalse(report.whole)
            matches += report.matches
            begin = end
        report = feed.finish()
        return matches + report.matches, report.steps, report.ending

    def test_every_cutting_of_w1(self):
        one = w1().search(W1_ROWS)
        for bits in range(2**5):
            ends = [row for row in range(5) if bits >> row & 1] + [5]
            fed = self.fed(w1(), W1_ROWS, ends)
            self.assertEqual(fed, (one.matches, one.steps, one.ending))

    def test_random_cuttings_of_random_queries(self):
        chance = random.Random(35)
        fed = matches = ahead = 0
        while fed < 300:
            columns = chance.randint(1, 3)
            try:
                query = some_query(chance, columns)
                query.feed(0)
            except Refused as refused:
                ahead += refused.answer == Answer.LOOKS_AHEAD
                continue
            rows = [[chance.randint(-3, 3) for _ in range(columns)]
                    for _ in range(chance.randrange(30))]
            ends = sorted(chance.randint(0, len(rows)) for _ in range(chance.randrange(5)))
            steps = chance.choice([None, None, chance.randrange(200)])
            one = query.search(rows, steps)
            self.assertEqual(self.fed(query, rows, ends + [len(rows)], steps),
                             (one.matches, one.steps, one.ending))
            fed += 1
            matches += len(one)
        self.assertGreater(matches, 200)
        self.assertGreater(ahead, 50)

    def test_a_match_comes_with_its_last_row(self):
        feed = Feed(w1(), 5)
        lots = [[match.rows for match in feed.push([price])] for price in W1_ROWS]
        self.assertEqual(lots, [[], [], [], [range(1, 4)], []])
        self.assertEqual((feed.present, feed.largest), (5, 5))
        self.assertEqual(feed.push([]).ending, Answer.WAITING)

    def test_refusals_change_nothing(self):
        feed = w1().feed(3)
        feed.push([100])
        with self.assertRaisesRegex(Refused, "4 rows, and the feed takes at most 3") as raised:
            feed.push([1, 2, 3])
        self.assertEqual(raised.exception.answer, Answer.WRONG_ROWS)
        with self.assertRaises(ValueError):
            feed.push([110, "x"])
        two = Query(["a", "b"], "A").feed(3)
        with self.assertRaisesRegex(Refused, r"\(3 entries, 2 to a row\)"):
            two.push(array("i", [1, 2, 3]))
        self.assertEqual((feed.present, two.present), (1, 0))
        self.assertEqual(found(feed.push(array("i", [110, 90]))), [(1, "AB")])
        self.assertEqual(feed.finish().ending, Answer.DONE)
        for late in (feed.finish, lambda: feed.push([1]), lambda: feed.push([])):
            with self.assertRaises(Refused) as raised:
                late()
            self.assertEqual(raised.exception.answer, Answer.OUT_OF_ORDER)
        for largest in (4097, 2**64 - 1):
            with self.assertRaisesRegex(Refused, "refused 10: .*takes at most 4096"):
                w1().feed(largest)
        for largest in (-1, 2**64):
            with self.assertRaises(ValueError):
                w1().feed(largest)

    def test_what_looks_ahead(self):
        for pattern, condition, words in (
                ("A B $", A > 1, "its pattern has a `\\$` at byte 4, counted from 0$"),
                ("A", A.next() > 1, "A reads the next row$"),
                ("A", [A > 1, A.prev() < A.next(9)], "A reads 9 rows on$"),
                ("A", (A > 1) | ~(A.next(2) == A.next(3)), "A reads 3 rows on$")):
            with self.assertRaisesRegex(Refused, "refused 17: the query looks ahead.*: " + words):
                Query(["a"], pattern, {"A": condition}).feed()
        Query(["a"], "B", {"A": A.next() > 1}).feed()

    def test_a_search_that_stops_stays_so(self):
        feed = Query(1, "A").feed(4, steps=3)
        for rows, matches in (([7, 8], [(0, "A")]), ([9], []), ([0] * 9, [])):
            report = feed.push(rows)
            self.assertEqual((found(report), report.steps, report.ending),
                             (matches, 3, Answer.OUT_OF_STEPS))
        self.assertEqual(feed.present, 2)
        self.assertEqual(feed.finish().ending, Answer.OUT_OF_STEPS)


def by_hand(log):
    """The desk's verdict by the request's words, from the last row backwards."""
    if any(event not in (1, 2, 3) for _, event, _, _ in log):
        return Verdict(Said.UNREADABLE)
    refusals = [row for row, (_, event, _, _) in enumerate(log) if event == 2]
    held = Verdict(Said.HELD, refusals[-1] if refusals else None)
    if not log or log[-1][1] != 3:
        return held
    for before, row in zip(log[-2::-1], log[:0:-1]):
        if before[2:] != row[2:] or before[1] == 3:
            return held
        if before[1] == 1:
            return Verdict(Said.CLEARED)
    return held


class TheDesk(unittest.TestCase):
    cleared = [(0, 1, 7, 31), (0, 2, 7, 31), (0, 3, 7, 31)]

    def test_each_verdict(self):
        self.assertTrue(desk(self.cleared).cleared)
        self.assertEqual(desk(self.cleared[:2]), Verdict(Said.HELD, 1))
        self.assertEqual(desk([]), Verdict(Said.HELD, None))
        self.assertEqual(desk([(0, 4, 7, 31)] + self.cleared), Verdict(Said.UNREADABLE, None))
        for verdict in (desk([]), desk(self.cleared)):
            with self.assertRaises(TypeError):
                bool(verdict)

    def test_random_logs(self):
        chance, found = random.Random(14), set()
        for _ in range(5000):
            log = [(chance.randrange(9), chance.choice([1, 1, 2, 2, 3]), 7, 31)
                   for _ in range(chance.randrange(5))] + self.cleared[:1] + self.cleared[-1:]
            for _ in range(chance.randrange(3)):
                at = chance.randrange(len(log))
                log[at] = log[at][0], chance.choice([1, 2, 3, 3, 3, 0]), *chance.choice(
                    [(7, 31), (7, 31), (7, 31), (7, 30), (-7, 31)])
            verdict = desk(log)
            self.assertEqual(verdict, by_hand(log), log)
            found.add(verdict.said)
        self.assertEqual(found, set(Said))

    def test_forms_of_rows(self):
        flat = array("i", [entry for row in self.cleared for entry in row])
        named = [dict(zip(("time", "event", "base", "patch"), row)) for row in self.cleared]
        for rows in (flat, named, iter(self.cleared), tuple(map(list, self.cleared))):
            self.assertTrue(desk(rows).cleared)
        for rows in ([(1, 7, 31)], [(0, 1, 7, 2**31)], [(0, "1", 7, 31)], [(0, 1.0, 7, 31)]):
            with self.assertRaises(ValueError):
                desk(rows)

    def test_refusals(self):
        longest = self.cleared[:1] + self.cleared[1:2] * 4094 + self.cleared[2:]
        self.assertTrue(desk(longest).cleared)
        for rows in (longest + self.cleared, array("i", [0, 1, 7, 31, 0, 3, 7])):
            with self.assertRaises(Refused) as caught:
                desk(rows)
            self.assertEqual(caught.exception.answer, Answer.WRONG_ROWS)


class Loading(unittest.TestCase):
    def run_with(self, **environment):
        code = "import mireladle; print(mireladle.Query(1, 'A').search([1]).steps)"
        environment = {**os.environ, "PYTHONPATH": HERE, **environment}
        return subprocess.run([sys.executable, "-c", code], env=environment, text=True,
                              capture_output=True, check=False)

    def test_by_the_system(self):
        folder = os.path.dirname(os.environ["MIRELADLE_LIBRARY"])
        ran = self.run_with(MIRELADLE_LIBRARY="", LD_LIBRARY_PATH=folder)
        self.assertEqual((ran.stdout, ran.stderr), ("2\n", ""))

    def test_a_library_that_is_not_there(self):
        ran = self.run_with(MIRELADLE_LIBRARY=os.path.join(HERE, "nothing.so"))
        self.assertRegex(ran.stderr, r"OSError: libmireladle\.so\.1 cannot be loaded \(.*nothing")
        self.assertEqual(ran.returncode, 1)

    def test_another_library(self):
        ran = self.run_with(MIRELADLE_LIBRARY="libc.so.6")
        self.assertRegex(ran.stderr, r"OSError: .*mireladle_room")


def some_pattern(chance, depth):
    if depth == 0 or chance.random() < 0.4:
        return chance.choice("ABC")
    inner = some_pattern(chance, depth - 1)
    other = some_pattern(chance, depth - 1)
    return chance.choice([f"{inner} {other}", f"({inner} | {other})", f"({inner})?",
                          f"({inner}){{1,2}}", f"({inner})+", f"({inner})*?"])


def some_query(chance, columns):
    def side():
        return col(chance.randrange(columns)), chance.randrange(3)

    def comparison():
        (left, back), (right, on) = side(), side()
        right = chance.choice([right.next(on) + chance.randint(-2, 2), chance.randint(-3, 3)])
        left = left.prev(back)
        return chance.choice([left == right, left != right, left < right, left <= right,
                              left > right, left >= right])

    def condition(comparisons):
        if comparisons == 1:
            made = comparison()
        else:
            left = chance.randint(1, comparisons - 1)
            left, right = condition(left), condition(comparisons - left)
            made = chance.choice([left & right, left | right])
        return ~made if chance.random() < 0.2 else made

    define = {letter: [condition(chance.randint(1, 3)) for _ in range(chance.randint(1, 2))]
              for letter in "ABC" if chance.random() < 0.7}
    pattern = some_pattern(chance, 3)
    skip = chance.choice([PAST_LAST_ROW, TO_NEXT_ROW, to_first("B"), to_last("A")])
    measures = {
        str(k): chance.choice([COUNT(), COUNT("A"), SUM(0), MIN(0, "A"), MAX(0), FIRST(0, "A"),
                               LAST(columns - 1), AVG(0)])
        for k in range(chance.randrange(4))}
    return Query(columns, pattern, define, skip, measures)


def printed(report):
    lines = [f"{'matches' if report.whole else 'stopped'} {len(report)} steps {report.steps}"]
    for match in report:
        results = ["null" if result is None else str(result) for result in match.measures.values()]
        lines.append(" ".join([str(match.number), str(match.first), str(len(match.labels)),
                               match.labels or "-", *results]))
    return "\n".join(lines) + "\n"


class AgainstTheProgram(unittest.TestCase):
    def test_random_queries(self):
        chance = random.Random(27)
        reports = matches = refusals = 0
        while reports < 200:
            columns = chance.randint(1, 3)
            try:
                query = some_query(chance, columns)
            except Refused:
                refusals += 1
                continue
            rows = [[chance.randint(-3, 3) for _ in range(columns)]
                    for _ in range(chance.randrange(30))]
            entries = [cell for row in rows for cell in row]
            given = (struct.pack("<H", len(query.bytes)) + query.bytes
                     + struct.pack(f"<{len(entries)}i", *entries))
            ran = subprocess.run([PROGRAM], input=given, capture_output=True, check=True)
            report = query.search(rows)
            self.assertEqual(printed(report), ran.stdout.decode(), query.bytes)
            reports += 1
            matches += len(report)
        # Not all that was compared was empty, and not all that was made was refused.
        self.assertGreater(matches, 200)
        self.assertGreater(refusals, 0)


def load_tests(loader, tests, pattern):
    tests.addTests(doctest.DocTestSuite(mireladle))
    tests.addTests(doctest.DocFileSuite(os.path.join(ROOT, "README.md"), module_relative=False))
    return tests


if __name__ == "__main__":
    ran = unittest.main(exit=False, verbosity=1).result
    wrong = len(ran.failures) + len(ran.errors)
    sys.stderr.flush()
    print(f"{ran.testsRun - wrong} passed, {wrong} failed")
    sys.exit(wrong > 0)

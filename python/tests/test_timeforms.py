"""Tries the package, the rows of the conformance tables among all. The values are from README.md, from the tables and by hand."""
import array
import copy
import datetime
import doctest
import importlib.util
import io
import itertools
import os
import pickle
import random
import re
import sys
import unittest
from concurrent.futures import ThreadPoolExecutor

import timeforms
from timeforms import FORMS, ConversionError, Form, Interval, convert, replies, total

TABLES = os.path.join(os.path.dirname(os.path.abspath(__file__)), "..", "..", "crates", "conformance", "data")


def spelled(field):
    """The bytes that a field of a table spells, where `\\x0A` is one byte."""
    return re.sub(rb"\\x([0-9A-F]{2})", lambda code: bytes([int(code[1], 16)]), field)


def rows():
    """The line and the reply of each row of a table of lines, which has three fields."""
    for table in sorted(os.listdir(TABLES)):
        with open(os.path.join(TABLES, table), "rb") as file:
            for row in file.read().split(b"\n"):
                fields = row.split(b"\t")
                if len(fields) == 3 and not row.startswith(b"#"):
                    yield spelled(fields[0]), spelled(fields[1])


def reply_to(line):
    """The reply to a line, by `convert`."""
    try:
        from_, to, *text = line.decode().split(" ", 2)
        return convert(from_, to, "".join(text)).encode()
    except ConversionError as error:
        return b"refused " + ("Line" if error.cause == "NoSuchForm" else error.cause).encode()
    except ValueError:
        return b"refused Line"


class Rows(unittest.TestCase):
    def test_each_text(self):
        for line, reply in rows():
            self.assertEqual(reply_to(line), reply, line)

    def test_all_lines(self):
        lines, wanted = zip(*rows())
        self.assertEqual(replies(b"".join(line + b"\n" for line in lines)), b"".join(reply + b"\n" for reply in wanted))


class Texts(unittest.TestCase):
    def refused(self, cause, *words):
        with self.assertRaises(ConversionError) as refused:
            convert(*words)
        self.assertEqual(refused.exception.cause, cause)

    def test_causes(self):
        self.refused("Syntax", "PgIso", "PgIso", "P")
        self.refused("NoSuchMoment", "IsoDate", "IsoDate", "2015-09-31")
        self.refused("Range", "FileTime", "FileTime", "18446744073709551616")
        self.refused("Kind", "Toml", "FileTime", "12:00:00")
        self.refused("Precision", "Fancy", "PgIso", "1ns")
        self.refused("Ambiguous", "Fancy", "Fancy", "30d")
        self.refused("NoSuchForm", "pgiso", "PgIso", "P1D")
        self.refused("NoSuchForm", "PgIso", "", "P1D")
        self.refused("NotUtf8", "PgIso", "PgIso", "\ud800")
        self.refused("NoSuchForm", "PgIso", "\ud800", "\ud800")
        self.refused("Syntax", "PgIso", "PgIso", "P1D\0")
        self.refused("Syntax", "PgIso", "PgIso", "")

    def test_long_text(self):
        zeros = "0" * (16 << 20)
        self.assertEqual(convert("PgIso", "PgIso", f"P{zeros}1D"), "P1D")
        self.refused("Syntax", "PgIso", "PgIso", f"P{zeros}1d")
        self.assertEqual(replies(f"PgIso PgIso P{zeros}1D".encode()), b"P1D\n")

    def test_lines(self):
        self.assertEqual(replies(b""), b"")
        self.assertEqual(replies(b"\n"), b"refused Line\n")
        self.assertEqual(replies(b"PgIso PgIso P1Y1Y\nPgIso PgIso \xff\nPgIso PgIso P"), b"P2Y\nrefused Line\nrefused Syntax\n")
        self.assertEqual(replies(b"Fancy Postgres 36h\r\nPgIso PgIso P1D\r\n"), b"1 day 12:00:00\nrefused Syntax\n")
        self.assertEqual(replies(b"\n" * 100_000), b"refused Line\n" * 100_000)

    def test_forms(self):
        forms = "FileTime IsoDateTime IsoDate IsoDuration Toml Fancy PgIso Postgres PgVerbose PgSql IsoStrict Unix PgTimestamp HttpDate MailDate XsdDuration"
        self.assertEqual(FORMS, tuple(forms.split()))
        self.assertEqual(tuple(form.value for form in Form), FORMS)
        self.assertEqual(convert(Form.PgIso, Form.Postgres, "P1D"), "1 day")
        self.assertEqual((f"{Form.PgIso}", str(Form.PgIso), f"{Form.PgIso:>6}"), ("PgIso", "PgIso", " PgIso"))
        self.assertEqual((timeforms.version(), timeforms.__version__), ("1.1.0", "1.1.0"))

    def test_what_is_no_text(self):
        for words in [("PgIso", "PgIso", b"P1D"), ("PgIso", "PgIso", None), ("PgIso", "PgIso", 1), (6, "PgIso", "P1D"), (None, 7, "P1D")]:
            with self.assertRaises(TypeError):
                convert(*words)
        for lines in ("PgIso PgIso P1D", 3, None, [1]):
            with self.assertRaises(TypeError):
                replies(lines)
        line = b"PgIso PgIso P1D\n"
        for lines in (bytearray(line), memoryview(line), array.array("B", line), memoryview(line[::-1])[::-1]):
            self.assertEqual(replies(lines), b"P1D\n")

    def test_messages(self):
        for error, message in [
            (("Postgres", "PgIso", "1 dya"), "'1 dya' is no Postgres: Syntax"),
            (("Fancy", "Fancy", "30d"), "'30d' in Fancy would be read as another value: Ambiguous"),
            (("PgIso", "PgIso", "P" * 50), f"'{'P' * 40}'... is no PgIso: Syntax"),
            (("pgiso", "PgIso", "P"), "there is no such form for this call, 'pgiso' or 'PgIso': NoSuchForm"),
        ]:
            with self.assertRaises(ConversionError) as refused:
                convert(*error)
            self.assertEqual(str(refused.exception), message)
            again = pickle.loads(pickle.dumps(refused.exception))
            self.assertEqual((again.cause, str(again)), (refused.exception.cause, message))
        with self.assertRaises(ConversionError) as refused:
            convert("Toml", "FileTime", "12:00:00")
        error = refused.exception
        self.assertEqual((error.cause, error.from_, error.to, error.text), ("Kind", "Toml", "FileTime", "12:00:00"))

    def test_examples(self):
        numpy = importlib.util.find_spec("numpy")
        found = doctest.DocTestFinder().find(timeforms, module=False, globs={**vars(timeforms), "datetime": datetime})
        tests = {test.name: test for test in found}
        runner = doctest.DocTestRunner(optionflags=doctest.IGNORE_EXCEPTION_DETAIL)
        for name, test in tests.items():
            if numpy or name != "timeforms.to_timedelta64":
                self.assertEqual(runner.run(test).failed, 0, name)
        for name in timeforms.__all__:
            thing = getattr(timeforms, name)
            parts = vars(thing) if isinstance(thing, type) and not issubclass(thing, tuple) else {}
            calls = [part for part in parts if not part.startswith("_") and callable(getattr(thing, part)) and part not in FORMS]
            for path in [name] * callable(thing) + [f"{name}.{call}" for call in calls]:
                self.assertTrue(tests[f"timeforms.{path}"].examples, f"{path} has no example")

    def test_threads(self):
        def answers(number):
            return [convert("Fancy", "PgIso", f"{number}h") for _ in range(2000)], replies(b"Fancy PgIso %dh\n" % number * 2000)

        with ThreadPoolExecutor(8) as pool:
            for number, (each, lines) in enumerate(pool.map(answers, range(1, 9)), 1):
                self.assertEqual(each, [f"PT{number}H"] * 2000)
                self.assertEqual(lines, b"PT%dH\n" % number * 2000)


class Intervals(unittest.TestCase):
    SOME = Interval(14, -3, 14_706_000_000)

    def refused(self, cause, call, *words):
        with self.assertRaises(ConversionError) as refused:
            call(*words)
        self.assertEqual(refused.exception.cause, cause)

    def test_texts(self):
        for form, text in [
            ("PgIso", "P1Y2M-3DT4H5M6S"),
            ("Postgres", "1 year 2 mons -3 days 04:05:06"),
            ("PgVerbose", "@ 1 year 2 mons -3 days 4 hours 5 mins 6 secs"),
            ("PgSql", "+1-2 -3 +4:05:06"),
            ("IsoStrict", "P1Y2M-3DT4H5M6S"),
        ]:
            self.assertEqual(Interval.parse(text, form), self.SOME)
            self.assertEqual(self.SOME.text(form), text)
        least = Interval(-(2**31), -(2**31), -(2**63))
        self.assertEqual(least.text(), "P-178956970Y-8M-2147483648DT-2562047788H-54.775808S")
        self.assertEqual(Interval.parse(least.text()), least)

    def test_refusals(self):
        self.refused("NoSuchForm", Interval.parse, "1h", "Fancy")
        self.refused("NoSuchForm", self.SOME.text, "Fancy")
        self.refused("Syntax", Interval.parse, "P")
        self.refused("Range", Interval.parse, "P2147483648D")
        self.refused("NotUtf8", Interval.parse, "P1D\udfff")
        for parts in [(2**31,), (0, -(2**31) - 1), (0, 0, 2**63), (0, 0, -(2**63) - 1)]:
            with self.assertRaises(OverflowError):
                Interval(*parts)
        for parts in [(1.0,), ("1",), (None,), (1, 2, 3, 4)]:
            with self.assertRaises(TypeError):
                Interval(*parts)
        for text in (b"P1D", None, 1):
            with self.assertRaises(TypeError):
                Interval.parse(text)

    def test_arithmetic(self):
        a, b = Interval(1, 2, 3), Interval(4, 5, 6)
        self.assertEqual(a + b, Interval(5, 7, 9))
        self.assertEqual(a - b, Interval(-3, -3, -3))
        self.assertEqual((-a, +a, 3 * a, a * -1), (Interval(-1, -2, -3), a, Interval(3, 6, 9), -a))
        self.assertEqual((sum([]), sum([a, b, a])), (0, Interval(6, 9, 12)))
        self.assertEqual(total([]), Interval())
        for call in (lambda: a + 0, lambda: 1 + a, lambda: a + (1, 2, 3), lambda: a - 1, lambda: a * 1.5, lambda: a * a, lambda: a < 1):
            self.assertRaises(TypeError, call)
        most, least = Interval(2**31 - 1), Interval(0, 0, -(2**63))
        for call in (lambda: most + Interval(1), lambda: -least, lambda: least - Interval(0, 0, 1), lambda: 2 * most, lambda: total([most, a])):
            self.assertRaises(OverflowError, call)
        self.assertEqual(total([most, most, -most]), most)

    def test_values(self):
        a = Interval(1, 2, 3)
        self.assertEqual((a == (1, 2, 3), a != (1, 2, 3), isinstance(a, tuple)), (False, True, False))
        self.assertEqual(len({a, Interval(1, 2, 3), Interval(1, 2, 4)}), 2)
        self.assertEqual((bool(a), bool(Interval()), bool(Interval(0, 0, -1))), (True, False, True))
        self.assertEqual((pickle.loads(pickle.dumps(a)), copy.copy(a), copy.deepcopy(a)), (a, a, a))
        self.assertEqual((repr(a), repr(Interval()), str(Interval(1, 2, 3_000_000))),
                         ("Interval(months=1, days=2, microseconds=3)", "Interval()", "P1M2DT3S"))
        self.assertRaises(AttributeError, setattr, a, "months", 2)
        self.assertRaises(AttributeError, setattr, a, "weeks", 2)
        self.assertRaises(AttributeError, delattr, a, "months")

    def test_order(self):
        # a month counts 30 days and a day 24 hours; those that are as long as each other go by months, days and microseconds
        day = 86_400_000_000
        column = [Interval(-1), Interval(0, 0, 30 * day - 1), Interval(0, 0, 30 * day), Interval(0, 30), Interval(1), Interval(0, 31)]
        self.assertEqual(sorted(reversed(column)), column)
        self.assertEqual((min(column), max(column)), (column[0], column[-1]))
        for before, behind in zip(column, column[1:]):
            self.assertTrue(before < behind and behind > before and before <= behind and behind >= before and before != behind)

    def test_timedeltas(self):
        self.assertEqual(Interval(0, -3, 1).to_timedelta(), datetime.timedelta(days=-3, microseconds=1))
        with self.assertRaises(ValueError):
            self.SOME.to_timedelta()
        with self.assertRaises(OverflowError):
            Interval(0, 2**31 - 1, 0).to_timedelta()
        for length, parts in [
            (datetime.timedelta(hours=36), (0, 1, 43_200_000_000)),
            (datetime.timedelta(hours=-36), (0, -1, -43_200_000_000)),
            (datetime.timedelta(microseconds=-1), (0, 0, -1)),
            (datetime.timedelta.max, (0, 999_999_999, 86_399_999_999)),
        ]:
            self.assertEqual(Interval.from_timedelta(length), Interval(*parts))
            self.assertEqual(Interval.from_timedelta(length).to_timedelta(), length)
        self.assertRaises(TypeError, Interval.from_timedelta, 3)


class Exact(unittest.TestCase):
    """What the library answers beside whole numbers of any size, at the edges and at random."""

    BITS = (32, 32, 64)

    @staticmethod
    def parts(interval):
        return interval.months, interval.days, interval.microseconds

    def same(self, call, wanted):
        """Whether a call answers the interval of these parts, or raises where a part leaves its bits."""
        if all(-(1 << bits - 1) <= part < 1 << bits - 1 for part, bits in zip(wanted, self.BITS)):
            self.assertEqual(self.parts(call()), wanted)
        else:
            self.assertRaises(OverflowError, call)

    def both(self, a, b):
        a_parts, b_parts = self.parts(a), self.parts(b)
        added = tuple(map(sum, zip(a_parts, b_parts)))
        self.same(lambda: a + b, added)
        self.same(lambda: sum([a, b]), added)
        self.same(lambda: total(iter([a, b])), added)
        self.same(lambda: a - b, tuple(one - other for one, other in zip(a_parts, b_parts)))
        keys = [((30 * months + days) * 86_400_000_000 + rest, months, days, rest) for months, days, rest in (a_parts, b_parts)]
        self.assertEqual((a < b, a <= b, a > b, a >= b, a == b, a != b),
                         (keys[0] < keys[1], keys[0] <= keys[1], keys[0] > keys[1], keys[0] >= keys[1], a_parts == b_parts, a_parts != b_parts))
        if a == b:
            self.assertEqual(hash(a), hash(b))

    def one(self, a):
        parts = self.parts(a)
        self.same(lambda: -a, tuple(-part for part in parts))
        for times in (-(2**64), -1, 0, 1, 2, 2**31):
            self.same(lambda: a * times, tuple(part * times for part in parts))
        self.assertEqual(self.parts(Interval(*parts)), parts)

    def test_edges(self):
        edges = [(-(1 << bits - 1), -1, 0, 1, (1 << bits - 1) - 1) for bits in self.BITS]
        some = [Interval(*parts) for parts in itertools.product(*edges)]
        for a in some:
            self.one(a)
            for b in some:
                self.both(a, b)

    def test_random(self):
        chance = random.Random(37)
        some = [Interval(*(chance.choice((1, -1)) * chance.getrandbits(chance.randint(1, bits - 1)) for bits in self.BITS)) for _ in range(3000)]
        day = 86_400_000_000
        for a, b in zip(some, some[1:]):
            self.one(a)
            self.both(a, b)
            months, days = a.months % 1000, a.days % 1000
            self.both(Interval(months, days, 5), Interval(months - 1, days + 29, day + 5 + chance.randint(-1, 1)))

    def test_timedeltas(self):
        chance = random.Random(37)
        least, most = datetime.timedelta.min, datetime.timedelta.max
        step, day = datetime.timedelta(microseconds=1), datetime.timedelta(days=1)
        some = [least, least + step, most, most - step, day, -day, day - step, step - day, step, -step, 0 * step]
        some += [chance.randint(-(2**chance.randint(1, 66)), 2**chance.randint(1, 66)) * step for _ in range(3000)]
        for length in some:
            sign = -1 if length < 0 * step else 1
            wanted = (0, sign * (abs(length // step) // 86_400_000_000), sign * (abs(length // step) % 86_400_000_000))
            self.assertEqual(self.parts(Interval.from_timedelta(length)), wanted, length)


class Columns(unittest.TestCase):
    def test_rows(self):
        asked = {}
        for line, reply in rows():
            try:
                from_, to, text = line.decode().split(" ", 2)
            except ValueError:
                continue
            if from_ in FORMS and to in FORMS:
                asked.setdefault((from_, to), []).append((text, reply.decode()))
        for (from_, to), column in asked.items():
            empty = timeforms.convert_all(from_, to, [""], errors="cause")
            texts, wanted = [text for text, _ in column], [reply[8:] if reply.startswith("refused ") else reply for _, reply in column]
            self.assertEqual(timeforms.convert_all(from_, to, texts, errors="cause"), wanted)
            self.assertEqual(timeforms.convert_all(from_, to, [*texts, None], errors="cause"), [*wanted, None])
            # with bytes the library is asked for a column, and before for lines
            self.assertEqual(timeforms.convert_all(from_, to, [*texts, None, b""], errors="cause"), [*wanted, None, *empty])

    def test_texts_like_lines(self):
        texts = ("P1D\nPgIso PgIso P3D", "\n", "P1D\n", "\nP1D", "P1D\r", "\x1c", "\x85", "\u2028", "\0", "P1D\u00e9", "refused Syntax", "")
        for cell, cause in [*((text, "Syntax") for text in texts), ("P\ud800", "NotUtf8"), ("\udfff\n", "NotUtf8")]:
            for column in ([cell, "P2D"], ["P2D", cell], ["P2D", None, cell], [None, cell, cell]):
                wanted = [cause if text == cell else text for text in column]
                self.assertEqual(timeforms.convert_all("PgIso", "PgIso", column, "cause"), wanted)
                with self.assertRaises(ConversionError) as refused:
                    timeforms.convert_all(Form.PgIso, Form.PgIso, column)
                self.assertEqual((refused.exception.cause, refused.exception.text), (cause, cell))
        # an empty text is zero in Postgres, and a missing cell beside it stays missing
        self.assertEqual(timeforms.convert_all("Postgres", "PgIso", ["", None, "?"], "none"), ["PT0S", None, None])
        self.assertRaises(TypeError, timeforms.convert_all, "PgIso", "PgIso", ["P1D", None, 3])

    def test_bad_cells(self):
        column = ["P1D", None, b"P2D", "P1D\nPgIso PgIso P3D", "\n", "P\ud800", b"\xff", "", "P" + "0" * 1_000_000 + "1D", "1 dya"]
        causes = ["P1D", None, "P2D", "Syntax", "Syntax", "NotUtf8", "NotUtf8", "Syntax", "P1D", "Syntax"]
        self.assertEqual(timeforms.convert_all("PgIso", "PgIso", column, "cause"), causes)
        nones = [None if cause in ("Syntax", "NotUtf8") else cause for cause in causes]
        self.assertEqual(timeforms.convert_all("PgIso", "PgIso", iter(column), "none"), nones)
        with self.assertRaises(ConversionError) as refused:
            timeforms.convert_all("PgIso", "PgIso", column)
        self.assertEqual((refused.exception.cause, refused.exception.text), ("Syntax", column[3]))
        for first, column in [(b"-", [None, b"-", "x"]), ("x", ["x", b"-"]), ("P\n", ["P1D", "P\n", "x"]), ("y", ["P1D", "y", 3])]:
            with self.assertRaises(ConversionError) as refused:
                timeforms.convert_all("PgIso", "PgIso", column)
            self.assertEqual(refused.exception.text, first)
        self.assertRaises(TypeError, timeforms.convert_all, "PgIso", "PgIso", ["P1D", 3, "x"])
        nan = timeforms.convert_all("PgIso", "PgIso", [float("nan"), "P1D"])
        self.assertTrue(nan[0] != nan[0] and nan[1] == "P1D")
        for cells in ([1], [1.5], [["P1D"]], "P1D", b"P1D", None, 3):
            self.assertRaises(TypeError, timeforms.convert_all, "PgIso", "PgIso", cells)
        self.assertEqual(timeforms.convert_all("PgIso", "PgIso", []), [])
        self.assertRaises(ConversionError, timeforms.convert_all, "pgiso", "PgIso", [])
        self.assertRaises(ValueError, timeforms.convert_all, "PgIso", "PgIso", [], "ignore")

    def test_buffers(self):
        data, offsets = b"P1Y1YP1D\n\xc3P3W", array.array("I", [0, 5, 5, 9, 10, 13])
        wanted = (b"2 years21 days", [0, 7, 7, 7, 7, 14], [0, -1, -1, -102, 0])
        for given in (data, bytearray(data), memoryview(data)):
            for places in (offsets, array.array("i", offsets), memoryview(offsets.tobytes()).cast("I")):
                column = timeforms.convert_column("PgIso", "Postgres", given, places)
                self.assertEqual((column.data, list(column.offsets), list(column.codes)), wanted)
        # offsets that fall, leave the data or are negative, and good ones between them
        column = timeforms.convert_column("PgIso", "PgIso", b"P1DP2", array.array("i", [3, 0, 3, 6, 0, 3, -1, 4, 5, 2**31 - 1, -(2**31)]))
        self.assertEqual((column.data, list(column.codes)), (b"P1DP1D", [-104, 0, -104, -104, 0, -104, -104, -1, -104, -104]))
        for places in (array.array("I"), array.array("I", [0]), array.array("I", [7])):
            self.assertEqual(timeforms.convert_column("PgIso", "PgIso", b"", places), (b"", array.array("I", [0]), array.array("i")))
        for places in (array.array("Q", [0, 3]), array.array("f", [0, 3]), b"\0\0\0\0", [0, 3], None):
            self.assertRaises(TypeError, timeforms.convert_column, "PgIso", "PgIso", b"P1D", places)
        for given in ("P1D", None, 3):
            self.assertRaises(TypeError, timeforms.convert_column, "PgIso", "PgIso", given, offsets)
        self.assertRaises(ConversionError, timeforms.convert_column, "PgIso", "pgiso", data, offsets)
        # more answers than one call has room for: 30,000 of 52 bytes
        text = b"P-178956970Y-8M-2147483648DT-2562047788H-54.775808S"
        count = 30_000
        column = timeforms.convert_column("PgIso", "PgIso", text * count, array.array("I", range(0, len(text) * (count + 1), len(text))))
        self.assertEqual((column.data, list(column.offsets)), (text * count, list(range(0, len(text) * (count + 1), len(text)))))

    def test_ends_and_sums(self):
        column = timeforms.intervals(["P1M", None, "P30D", "PT1H", "-", "P1M"], errors="none")
        order = [Interval(microseconds=3_600_000_000), Interval(days=30), Interval(1), Interval(1)]
        self.assertEqual((column.sorted(), column.min(), column.max()), (order, order[0], order[-1]))
        self.assertEqual((column.sum(), column.intervals()), (total(order), [Interval(1), Interval(days=30), order[0], Interval(1)]))
        none = timeforms.intervals([None])
        self.assertEqual((none.sorted(), none.sum()), ([], Interval()))
        self.assertRaises(ValueError, none.min)
        self.assertRaises(ValueError, none.max)
        self.assertRaises(OverflowError, timeforms.intervals(["P2147483647D", "P1D"]).sum)
        chance = random.Random(37)
        some = [Interval(chance.randint(-3, 3), chance.randint(-90, 90), chance.randint(-3, 3) * 86_400_000_000) for _ in range(3000)]
        column = timeforms.intervals([str(interval) for interval in some])
        # the order of the library, which `Interval` asks for each pair
        self.assertEqual((column.sorted(), column.min(), column.max(), column.sum()), (sorted(some), min(some), max(some), total(some)))

    def test_threads(self):
        def answers(number):
            cells = [f"{number}h", None, b"1m", "?"] * 5000
            return timeforms.convert_all("Fancy", "PgIso", cells, "cause"), sum([Interval(number)] * 5000), sorted([Interval(number), Interval()])

        with ThreadPoolExecutor(8) as pool:
            for number, (column, whole, order) in enumerate(pool.map(answers, range(1, 9)), 1):
                self.assertEqual(column, [f"PT{number}H", None, "PT1M", "Syntax"] * 5000)
                self.assertEqual((whole, order), (Interval(5000 * number), [Interval(), Interval(number)]))

    def test_many_cells(self):
        long = [f"P-178956970Y-8M-{number}DT-2562047788H-54.775808S" for number in range(1, 20_001)]
        self.assertEqual(timeforms.convert_all("PgIso", "PgIso", long), long)
        cells = [f"P{number}D" for number in range(1, 100_001)]
        self.assertEqual(timeforms.convert_all("PgIso", "PgIso", cells), cells)
        cells[50_000] = None
        self.assertEqual(timeforms.convert_all("PgIso", "PgIso", cells), cells)

    def test_intervals(self):
        months, days, microseconds, valid = timeforms.intervals(["P1Y2M", None, "-", "PT1H"], errors="none")
        self.assertEqual((list(months), list(days), list(microseconds), list(valid)), ([14, 0, 0, 0], [0] * 4, [0, 0, 0, 3_600_000_000], [1, 0, 0, 1]))
        self.assertRaises(ConversionError, timeforms.intervals, ["-"])
        for cells in (["1h"], []):
            self.assertRaises(ConversionError, timeforms.intervals, cells, "Fancy", "none")
        for cells in ([3], [bytearray(b"P1D")], "P1D", b"P1D", None):
            self.assertRaises(TypeError, timeforms.intervals, cells)
        bad = [None, float("nan"), b"P2D", b"\xff", "P\ud800", "P1D\n", "", "\0", "P" + "0" * 1_000_000 + "3D", "P2147483648D"]
        column = timeforms.intervals(iter(bad), errors="none")
        self.assertEqual((list(column.days), list(column.valid)), ([0, 0, 2, 0, 0, 0, 0, 0, 3, 0], [0, 0, 1, 0, 0, 0, 0, 0, 1, 0]))
        for cell, cause in [(b"\xff", "NotUtf8"), ("P\ud800", "NotUtf8"), ("P1D\n", "Syntax"), (b"P", "Syntax"), ("P2147483648D", "Range")]:
            with self.assertRaises(ConversionError) as refused:
                timeforms.intervals([None, "P1D", cell, "x"])
            self.assertEqual((refused.exception.cause, refused.exception.text), (cause, cell))

    @unittest.skipUnless(importlib.util.find_spec("pandas"), "there is no pandas")
    def test_pandas(self):
        import numpy
        import pandas

        column = pandas.Series(["36h", None, float("nan"), "1h"], index=[3, 1, 2, 0], name="took")
        answered = timeforms.convert_all("Fancy", "Postgres", column)
        self.assertEqual((answered.name, list(answered.index)), ("took", [3, 1, 2, 0]))
        self.assertEqual(list(answered.dropna()), ["1 day 12:00:00", "01:00:00"])
        self.assertEqual(list(answered.isna()), [False, True, True, False])
        typed = timeforms.convert_all("Fancy", "Postgres", column.astype("string"))
        self.assertEqual((str(typed.dtype), typed[3], typed.isna().sum()), ("string", "1 day 12:00:00", 2))
        table = timeforms.convert_all("Fancy", "PgIso", numpy.array([["1h", "2h"], ["3h", "4h"]]))
        self.assertEqual(table.tolist(), [["PT1H", "PT2H"], ["PT3H", "PT4H"]])
        spans = timeforms.to_timedelta64(pandas.Series(["P1DT1H", None]))
        self.assertEqual((spans[0], numpy.isnat(spans[1])), (numpy.timedelta64(25, "h"), True))
        self.assertRaises(ValueError, timeforms.to_timedelta64, ["P1M"])
        self.assertEqual(timeforms.intervals(numpy.array(["P1D"])).days.dtype, numpy.dtype("int32"))
        missing = [None, numpy.nan, pandas.NA, pandas.NaT, "P1D", b"P2D"]
        self.assertEqual(timeforms.convert_all("PgIso", "PgIso", missing)[4:], ["P1D", "P2D"])
        self.assertEqual(timeforms.intervals(pandas.Series(missing)).valid.tolist(), [False] * 4 + [True] * 2)
        self.assertEqual(numpy.isnat(timeforms.to_timedelta64(missing)).tolist(), [True] * 4 + [False] * 2)
        self.assertEqual(timeforms.convert_all("PgIso", "PgIso", pandas.Series([], dtype=object)).tolist(), [])
        for table in (pandas.DataFrame({"P1D": ["P1D"]}), numpy.array([1, 2]), pandas.Series([1.5])):
            self.assertRaises(TypeError, timeforms.convert_all, "PgIso", "PgIso", table)
        with self.assertRaises(OverflowError):
            timeforms.to_timedelta64(["P2147483647DT1H"])
        self.assertEqual((Interval(1) * numpy.int64(3), numpy.int64(3) * Interval(1)), (Interval(3), Interval(3)))


class Recurrences(unittest.TestCase):
    def test_instants(self):
        utc = datetime.timezone.utc
        days = [datetime.datetime(2024, 1, 31, tzinfo=utc), datetime.datetime(2024, 2, 29, tzinfo=utc), datetime.datetime(2024, 3, 31, tzinfo=utc)]
        self.assertEqual(list(timeforms.recur("R2/2024-01-31T00:00:00Z/P1M")), days)
        self.assertEqual(list(timeforms.recur("R000/2024-01-31T00:00:00Z/P1M")), days[:1])
        half = list(timeforms.recur("R1/2024-01-31T02:30:00.5+02:30/PT0.000001S"))
        self.assertEqual(half, [datetime.datetime(2024, 1, 31, 0, 0, 0, part, utc) for part in (500_000, 500_001)])
        # the years of `datetime` begin with 1
        eve = list(timeforms.recur("R1/0000-12-31T23:59:59Z/PT1S"))
        self.assertEqual(eve, ["0000-12-31T23:59:59.000+00:00", datetime.datetime(1, 1, 1, tzinfo=utc)])
        late = timeforms.recur("R9/9999-12-31T00:00:00Z/P1D")
        self.assertEqual(next(late), datetime.datetime(9999, 12, 31, tzinfo=utc))
        with self.assertRaises(ConversionError) as refused:
            next(late)
        self.assertEqual(refused.exception.cause, "Range")

    def test_what_is_refused(self):
        for text, cause in [
            ("", "Syntax"),
            ("R/2024-01-31T00:00:00Z/P1M", "Syntax"),
            ("R-1/2024-01-31T00:00:00Z/P1M", "Syntax"),
            ("R1/2024-01-31T00:00:00Z", "Syntax"),
            ("R1/2024-02-30T00:00:00Z/P1M", "NoSuchMoment"),
            ("R1/2024-01-31T00:00:00Z/", "Syntax"),
            ("R1/2024-01-31T00:00:00Z/P2147483648D", "Range"),
            ("R1/\ud800/P1M", "NotUtf8"),
            ("R1/2024-01-31T00:00:00Z/\ud800", "NotUtf8"),
            ("R1/2024-01-31T00:00:00Z/P1M\n", "Syntax"),
        ]:
            with self.assertRaises(ConversionError) as refused:
                timeforms.recur(text)
            self.assertEqual(refused.exception.cause, cause, text)
        for text in (None, b"R1/2024-01-31T00:00:00Z/P1M", 3, float("nan")):
            self.assertRaises(TypeError, timeforms.recur, text)
        for digits in ("4294967296", "9" * 1_000_000):
            self.assertRaises(OverflowError, timeforms.recur, f"R{digits}/2024-01-31T00:00:00Z/P1M")
        self.assertEqual(next(timeforms.recur("R4294967295/2024-01-31T00:00:00Z/P1M")).day, 31)


def whole_inputs():
    """The input, the words, the output and the status of each row of the table of the command `schedule`."""
    with open(os.path.join(TABLES, "schedule.tsv"), "rb") as file:
        for row in file.read().split(b"\n"):
            fields = row.split(b"\t")
            if len(fields) == 5 and not row.startswith(b"#"):
                given = re.sub(rb"\{(.*?)\*(\d+)\}", lambda many: many[1] * int(many[2]), fields[0])
                given, out = (spelled(field.replace(rb"\t", b"\t").replace(rb"\n", b"\n")) for field in (given, fields[2]))
                yield given, fields[1].decode(), out.decode(), int(fields[3])


def reported(lines):
    """The output and the status of the command `schedule`, by the call."""
    try:
        return "".join(f"{slot.start} {slot.end} {slot.line}\n" for slot in timeforms.schedule(lines)), 0
    except timeforms.ScheduleClash as clash:
        return f"clash {clash.first.line} {clash.second.line}\n", 7
    except timeforms.ScheduleFault as fault:
        part = "" if fault.part == "line" else f"{fault.part} "
        return f"line {fault.line} {part}{fault.cause}\n", 8


class Schedules(unittest.TestCase):
    HOUR = 36_000_000_000

    def test_rows(self):
        tried, programs = 0, []
        for given, words, out, status in whole_inputs():
            if words != "schedule" or status == 5:
                programs.append((words, status))
                continue
            tried += 1
            # an open file of bytes has the lines of the command
            self.assertEqual(reported(io.BytesIO(given)), (out, status), given[:200])
            lines = given.split(b"\n")
            lines = lines[:-1] if lines[-1] == b"" else lines
            self.assertEqual(reported(lines), (out, status), given[:200])
            texts = [line.decode("utf-8", "surrogateescape") for line in lines]
            self.assertEqual(reported(iter(texts)), (out, status), given[:200])
        # further words, and an input beyond the program's limit, are the program's alone
        self.assertEqual(programs, [("schedule", 5), ("schedule x", 2), ("schedule ", 2), ("Schedule", 2), ("SCHEDULE", 2)])
        self.assertEqual(tried, 143)

    def test_faults(self):
        good = "1970-01-01T00:00:00Z\t1h"
        for line, part, cause, text in [
            ("", "line", "Line", ""),
            (b"\xff\t1h\n", "line", "Line", b"\xff\t1h\n"),
            ("\ud800\t1h", "line", "Line", "\ud800\t1h"),
            ("1970-01-01T00:00:00Z\t1h\n\n", "line", "Line", "1970-01-01T00:00:00Z\t1h\n\n"),
            ("\n" + good, "line", "Line", "\n" + good),
            (b"1970-01-01\t1h", "start", "Kind", "1970-01-01"),
            ("\0\t1h\0", "start", "Syntax", "\0"),
            ("1970-01-01T00:00:00Z\t0\r\n", "length", "Syntax", "0\r"),
            ("1970-01-01T00:00:00Z\t1h\0", "length", "Syntax", "1h\0"),
            ("1970-01-01T00:00:00Z\t0s\n", "length", "Empty", "0s"),
            ("1970-01-01T00:00:00Z\t1ns", "length", "Precision", "1ns"),
        ]:
            with self.assertRaises(timeforms.ScheduleFault) as refused:
                # the first line that has a fault, though two slots clash and a later one has a fault too
                timeforms.schedule([good, good, line, "x"])
            fault = refused.exception
            self.assertEqual((fault.line, fault.part, fault.cause, fault.text), (3, part, cause, text))
            self.assertIsInstance(fault, ConversionError)
            again = pickle.loads(pickle.dumps(fault))
            self.assertEqual((type(again), again.line, again.part, again.text, str(again)), (type(fault), 3, part, text, str(fault)))
        self.assertEqual(str(fault), "line 3: '1ns' is finer than FileTime: Precision")

    def test_what_is_no_line(self):
        self.assertEqual((timeforms.schedule([]), timeforms.schedule(iter(()))), ([], []))
        for lines in ("1970-01-01T00:00:00Z\t1h", b"", bytearray(b"\t"), memoryview(b"\t"), None, 3, [None], [3], [bytearray(b"\t")], [["\t"]]):
            self.assertRaises(TypeError, timeforms.schedule, lines)

    def test_slots(self):
        utc = datetime.timezone.utc
        late, early = "1970-01-01T01:00:00Z\t1h", b"1970-01-01T00:00:00.0000015Z\t1us\r\n"
        slots = timeforms.schedule([late, early])
        self.assertEqual(slots, [(116_444_736_000_000_015, 116_444_736_000_000_025, 2), (116_444_772_000_000_000, 116_444_808_000_000_000, 1)])
        self.assertEqual([slots[1].starts_at, slots[1].ends_at], [datetime.datetime(1970, 1, 1, hour, tzinfo=utc) for hour in (1, 2)])
        self.assertRaises(AttributeError, setattr, slots[0], "start", 0)
        last = timeforms.schedule(["9999-12-31T23:00:00Z\t1h"])[0]
        for slot, part, cause in [(slots[0], "starts_at", "Precision"), (slots[0], "ends_at", "Precision"), (last, "ends_at", "Range")]:
            with self.assertRaises(ConversionError) as refused:
                getattr(slot, part)
            self.assertEqual(refused.exception.cause, cause)
        with self.assertRaises(timeforms.ScheduleClash) as refused:
            timeforms.schedule([late, early, late])
        clash = pickle.loads(pickle.dumps(refused.exception))
        self.assertEqual((clash.first, clash.second), (slots[1], slots[1]._replace(line=3)))
        self.assertEqual((clash.cause, str(clash)), ("Clash", "lines 1 and 3 clash"))
        self.assertIsInstance(clash, ConversionError)

    def test_definition(self):
        # by all pairs: the least second place of a clash, and a first place that clashes with it
        chance, clashes = random.Random(37), 0
        for _ in range(3000):
            slots = [(chance.randrange(60), chance.randint(1, chance.choice((2, 20)))) for _ in range(chance.randrange(9))]
            order = sorted((start, line, start + length) for line, (start, length) in enumerate(slots, 1))
            pairs = [(j, i) for j in range(len(order)) for i in range(j) if order[i][0] < order[j][2] and order[j][0] < order[i][2]]
            out, status = reported(f"1601-01-01T00:00:{start:02}Z\t{length}s" for start, length in slots)
            if pairs:
                clashes += 1
                least = min(pairs)[0]
                self.assertIn((out, status), [(f"clash {order[i][1]} {order[j][1]}\n", 7) for j, i in pairs if j == least])
            else:
                wanted = "".join(f"{start * 10_000_000} {end * 10_000_000} {line}\n" for start, line, end in order)
                self.assertEqual((out, status), (wanted, 0))
        self.assertTrue(500 < clashes < 2500)

    def test_many_lines(self):
        count = 100_000
        first = datetime.datetime(2000, 1, 1)
        lines = [f"{(first + datetime.timedelta(hours=hour)).isoformat()}Z\t60m\n" for hour in range(count)]
        random.Random(37).shuffle(lines)
        slots = timeforms.schedule(lines)
        self.assertEqual([slot.start for slot in slots], [125_911_584_000_000_000 + hour * self.HOUR for hour in range(count)])
        self.assertEqual(sorted(slot.line for slot in slots), list(range(1, count + 1)))
        with self.assertRaises(timeforms.ScheduleClash) as refused:
            timeforms.schedule([*lines, lines[7]])
        self.assertEqual((refused.exception.first.line, refused.exception.second.line), (8, count + 1))


class Moments(unittest.TestCase):
    def test_moments(self):
        utc = datetime.timezone.utc
        for form, text, moment in [
            ("FileTime", "116444736000000010", datetime.datetime(1970, 1, 1, 0, 0, 0, 1, utc)),
            ("IsoDateTime", "2015-06-26T16:43:23.5+02:30", datetime.datetime(2015, 6, 26, 14, 13, 23, 500_000, utc)),
            ("IsoDate", "2015-06-26", datetime.date(2015, 6, 26)),
            ("Toml", "1979-05-27T00:32:00.999999-07:00", datetime.datetime(1979, 5, 27, 7, 32, 0, 999_999, utc)),
            ("Toml", "1979-05-27 07:32:00", datetime.datetime(1979, 5, 27, 7, 32)),
            ("Toml", "1979-05-27", datetime.date(1979, 5, 27)),
            ("Toml", "07:32:00.100", datetime.time(7, 32, 0, 100_000)),
            ("Toml", "9999-12-31T23:59:59.999999Z", datetime.datetime(9999, 12, 31, 23, 59, 59, 999_999, utc)),
        ]:
            found = timeforms.parse_datetime(text, form)
            self.assertEqual((type(found), found), (type(moment), moment))
        for form, text, cause in [
            ("FileTime", "116444736000000001", "Precision"),
            ("Toml", "0000-01-01", "Range"),
            ("Toml", "0001-01-01T00:00:00+00:01", "Range"),
            ("Toml", "9999-12-31T23:59:59-00:01", "Range"),
            ("Toml", "2016-12-31T23:59:60Z", "NoSuchMoment"),
            ("IsoDate", "2015-09-31", "NoSuchMoment"),
            ("PgIso", "P1D", "Kind"),
        ]:
            with self.assertRaises(ConversionError) as refused:
                timeforms.parse_datetime(text, form)
            self.assertEqual(refused.exception.cause, cause, text)

    def test_what_is_no_text(self):
        for text in (None, float("nan"), b"2015-06-26", 3, bytearray(b"1h")):
            self.assertRaises(TypeError, timeforms.parse_datetime, text)
            self.assertRaises(TypeError, timeforms.duration_from_text, text)
            self.assertRaises(TypeError, Interval.parse, text)
        for call in (timeforms.parse_datetime, timeforms.duration_from_text, Interval.parse):
            for text, cause in [("\udfff", "NotUtf8"), ("1h;", "Syntax"), ("2015-06-26\n", "Syntax"), ("0" * 1_000_000, "Syntax"), ("\0", "Syntax")]:
                with self.assertRaises(ConversionError) as refused:
                    call(text)
                self.assertEqual(refused.exception.cause, cause)
                self.assertLess(len(str(refused.exception)), 100)
        for number in (None, 1.5, "3", b"3"):
            for count in (timeforms.file_time_to_nanoseconds, timeforms.file_time_from_nanoseconds, timeforms.file_time_to_unix_time,
                          timeforms.file_time_from_unix_time, timeforms.duration_to_text, Interval):
                self.assertRaises(TypeError, count, number)

    def test_numbers(self):
        for call in [
            lambda: timeforms.file_time_to_nanoseconds(24_211_015_631_452_241),
            lambda: timeforms.file_time_to_nanoseconds(2**64),
            lambda: timeforms.file_time_from_nanoseconds(2**63),
            lambda: timeforms.file_time_from_unix_time(-11_644_473_601),
            lambda: timeforms.duration_to_text(0, 1_000_000_000),
            lambda: timeforms.duration_to_text(-1),
        ]:
            self.assertRaises(OverflowError, call)
        self.assertEqual(timeforms.file_time_to_unix_time(2**64 - 1), (1_833_029_933_770, 955_161_500))
        self.assertEqual(timeforms.file_time_from_unix_time(1_833_029_933_770, 955_161_599), 2**64 - 1)
        self.assertRaises(ConversionError, timeforms.duration_to_text, 30 * 86_400)
        self.assertRaises(ConversionError, timeforms.duration_from_text, "1.5h")
        self.assertRaises(TypeError, timeforms.duration_from_text, b"1h")


if __name__ == "__main__":
    unittest.main()

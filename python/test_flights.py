"""Tests of movements and radar tracks: rows and columns of every kind, and values that are none."""

import collections
import dataclasses
import datetime
import types
import unittest

from okubinrafo import Movement, Refused, Track, couple

TRACK_NAMES = ("date", "time", "class", "kind", "runway", "airport", "type")
NAMES = (*TRACK_NAMES, "circuit")
# An aeroplane that leaves before midnight, its circuit, a helicopter's; and the tracks behind midnight.
MOVEMENTS = [
    ("2026-03-31", "23:58:10", "V", "S", "06", "EHBK", "B738", "C"),
    ("2026-03-31", "23:58:10", "V", "S", "06", "EHBK", "B738", ""),
    ("2026-04-01", "00:09:00", "H", "L", "6", "EHBK", "EC35", "C"),
]
TRACKS = [
    ("2026-04-01", "00:04:00", "V", "S", "06", "EHBK", "B738"),
    ("2026-03-31", "23:59:00", "H", "L", "6", "EHBK", "EC35"),
    ("2026-04-01", "00:01:00", "V", "S", "06", "EHBK", "B738"),
]
ANSWER = [None, 2, 1]


def by_name(rows, names):
    return dict(zip(names, map(list, zip(*rows))))


class Frame:
    """Columns by name, as pandas has them: a KeyError for a name that is none."""

    def __init__(self, columns):
        self._columns = columns
        self.columns = list(columns)

    def __getitem__(self, name):
        return iter(self._columns[name])  # a column need only be gone through once

    def __iter__(self):
        return iter(self.columns)


class Records:
    """Columns by name, as numpy's structured arrays have them: a ValueError for a name that is none."""

    def __init__(self, columns):
        self._columns = columns
        self.dtype = types.SimpleNamespace(names=tuple(columns))

    def __getitem__(self, name):
        if name not in self._columns:
            raise ValueError(f"no field of name {name}")
        return self._columns[name]


class Index:
    """An integer that is no int, as numpy's are."""

    def __init__(self, value):
        self.value = value

    def __index__(self):
        return self.value


def numpys(name, value):
    """A value of numpy's by that type's name, which has its Python value in item()."""
    return type(name, (), {"__module__": "numpy", "item": lambda self: value})()


def with_value(name, value, rows=MOVEMENTS):
    """The second movement, with another value of this name."""
    row = list(rows[1])
    row[NAMES.index(name)] = value
    return [tuple(row)]


class Forms(unittest.TestCase):
    """The same flights in every form give the same answer."""

    def test_rows(self):
        self.assertEqual(couple(MOVEMENTS, TRACKS), ANSWER)
        self.assertEqual(couple(iter([list(row) for row in MOVEMENTS]), (tuple(row) for row in TRACKS)), ANSWER)
        both = (MOVEMENTS, NAMES), (TRACKS, TRACK_NAMES)
        mappings = [[dict(zip(names, row)) for row in rows] for rows, names in both]
        self.assertEqual(couple(*mappings), ANSWER)
        for row in mappings[0]:
            row["class_"] = row.pop("class")
        more = [collections.ChainMap({"id": 7, "remark": None}, row) for row in mappings[0]]
        self.assertEqual(couple(more, mappings[1]), ANSWER)

    def test_rows_with_attributes(self):
        movements = [Movement(7, *row) for row in MOVEMENTS]
        tracks = [Track(8, *row) for row in TRACKS]
        self.assertEqual(couple(movements, tracks), ANSWER)
        attributes = ["class_" if name == "class" else name for name in NAMES]
        kind = dataclasses.make_dataclass("Flight", ["remark", *attributes])
        self.assertEqual(couple([kind("", *row) for row in MOVEMENTS], tracks), ANSWER)

    def test_columns(self):
        movements, tracks = by_name(MOVEMENTS, NAMES), by_name(TRACKS, TRACK_NAMES)
        for form in (dict, Frame, Records, collections.OrderedDict):
            with self.subTest(form=form.__name__):
                self.assertEqual(couple(form(movements), form({"remark": None, **tracks})), ANSWER)
                self.assertEqual(couple(form(movements), TRACKS), ANSWER)

    def test_empty_lists(self):
        nothing, none = {name: [] for name in NAMES}, [None] * 3
        for empty in ([], (), iter(()), nothing, Frame(nothing)):
            self.assertEqual(couple(MOVEMENTS, empty), none)
        for empty in ([], nothing, Frame(nothing)):
            self.assertEqual(couple(empty, TRACKS), [])

    def test_numbers(self):
        def name(text):
            return int.from_bytes(text.encode(), "big")

        def spelled(row):
            date, time, letter, kind, *names = row
            hours, minutes, seconds = map(int, time.split(":"))
            at = int(date.replace("-", "")), hours * 3600 + minutes * 60 + seconds
            circuit = [{"": 0, "C": 5}[mark] for mark in names[3:]]
            return [*at, "VH".index(letter), "SL".index(kind), *map(name, names[:3]), *circuit]

        movements, tracks = ([spelled(row) for row in rows] for rows in (MOVEMENTS, TRACKS))
        self.assertEqual(couple(movements, tracks), ANSWER)
        self.assertEqual(couple([map(Index, row) for row in movements], tracks), ANSWER)


class Values(unittest.TestCase):
    """Each kind of value, in the second movement alone, which is to find its track."""

    def taken(self, name, *values):
        for value in values:
            with self.subTest(name=name, value=repr(value)):
                self.assertEqual(couple(with_value(name, value), TRACKS), [2])

    def not_taken(self, name, *values):
        for value in values:
            with self.subTest(name=name, value=repr(value)):
                self.assertEqual(couple(with_value(name, value), TRACKS), [None])

    def raises(self, error, name, *values):
        for value in values:
            with self.subTest(name=name, value=repr(value)), self.assertRaises(error):
                couple(with_value(name, value), TRACKS)

    def refused(self, name, *values):
        for value in values:
            with self.subTest(name=name, value=repr(value)), self.assertRaises(Refused) as caught:
                couple(with_value(name, value), TRACKS)
            self.assertEqual((caught.exception.number, caught.exception.line), (18, None))

    def test_dates(self):
        day = datetime.date(2026, 3, 31)
        self.taken("date", 20260331, day, datetime.datetime(2026, 3, 31, 12), Index(20260331))
        self.taken("date", numpys("datetime64", day))
        self.refused("date", 20260229, "2026-02-29", "0000-00-00", 0, 2**32 - 1, datetime.date(1899, 12, 31))
        self.raises(ValueError, "date", "20260331", "31-03-2026", "2026-3-31", "", "2026-03-31 ", "२०२६-03-31")
        self.raises(ValueError, "date", -1, 2**32)
        self.raises(ValueError, "date", datetime.datetime(2026, 3, 31, tzinfo=datetime.timezone.utc))
        self.raises(TypeError, "date", None, 20260331.0, float("nan"), b"2026-03-31", [20260331], object())

    def test_times(self):
        at, day = datetime.time(23, 58, 10), datetime.datetime(2020, 1, 1)
        since_midnight = datetime.timedelta(seconds=86_290)
        self.taken("time", 86_290, at, datetime.datetime.combine(day, at), since_midnight, Index(86_290))
        self.taken("time", numpys("timedelta64", since_midnight))
        self.refused("time", 86_400, 2**32 - 1, datetime.timedelta(days=1))
        self.raises(ValueError, "time", "24:00:00", "23:60:00", "23:58:60", "23:58", "9:58:10", "", -1, 2**32)
        self.raises(ValueError, "time", datetime.timedelta(seconds=-1), datetime.timedelta(milliseconds=500))
        self.raises(ValueError, "time", at.replace(microsecond=1), at.replace(tzinfo=datetime.timezone.utc))
        self.raises(TypeError, "time", None, 86_290.0, float("nan"), b"23:58:10", (86_290,))

    def test_classes_and_kinds(self):
        self.taken("class", 0, False, Index(0))
        self.not_taken("class", 1, "H", True)
        self.taken("kind", 0, False)
        self.not_taken("kind", 1, "L")
        for name in ("class", "kind"):
            self.refused(name, 2, 2**32 - 1)
            self.raises(ValueError, name, "", "v", "s", "VH", "0", " ", -1)
            self.raises(TypeError, name, None, 0.0, float("nan"), b"V", ["V"])

    def test_names(self):
        for name in ("runway", "airport", "type"):
            self.not_taken(name, "A", "9", "ZZZZ", "0606")
            self.raises(ValueError, name, "", "b738", "B738X", "0 6", "É", "06\n", "-")
            self.raises(TypeError, name, None, 6.0, float("nan"), b"06")
            # A number where the others are texts is no agreement that was missed: it is said.
            self.raises(TypeError, name, 6, 0x3036)
        numbers = by_name(MOVEMENTS, NAMES), by_name(TRACKS, TRACK_NAMES)
        for columns in numbers:
            columns["runway"] = [int(runway) for runway in columns["runway"]]
        self.assertEqual(couple(*numbers), ANSWER)
        for columns, value in ((numbers[0], -1), (numbers[1], 2**32)):
            columns["runway"][0] = value
            with self.assertRaises(ValueError):
                couple(*numbers)

    def test_circuits(self):
        self.taken("circuit", 0, False, None, float("nan"), Index(0), numpys("bool_", False))
        self.not_taken("circuit", 1, True, "C", 2, 2**32 - 1, Index(3), numpys("bool_", True), numpys("bool", True))
        self.raises(ValueError, "circuit", "c", "0", " ", "yes", -1, 2**32)
        self.raises(TypeError, "circuit", 0.0, b"C", [], object())

    def test_an_error_names_its_place(self):
        with self.assertRaisesRegex(ValueError, r"^tracks\[2\], time: a time as 23:58:10 is expected, not '0:01'$"):
            couple(MOVEMENTS, [*TRACKS[:2], ("2026-04-01", "0:01", *TRACKS[2][2:])])


class Shapes(unittest.TestCase):
    def test_wrong_shapes(self):
        columns = by_name(MOVEMENTS, NAMES)
        missing = {name: column for name, column in columns.items() if name != "circuit"}
        short = [row[:-1] for row in MOVEMENTS]
        wrong = ["text", b"bytes", None, 5, ["2026-03-31"], [None], [5], short, TRACKS, missing, Frame(missing)]
        wrong += [Records(missing), {**columns, "type": "B738"}, {**columns, "date": 20260331}, [*MOVEMENTS, ()]]
        wrong += [[dict(zip(NAMES[1:], row[1:])) for row in MOVEMENTS]]
        for movements in wrong:
            with self.subTest(movements=repr(movements)), self.assertRaises(TypeError):
                couple(movements, TRACKS)
        for tracks in ("text", 5, [5], MOVEMENTS, [row[:-1] for row in TRACKS]):
            with self.subTest(tracks=repr(tracks)), self.assertRaises(TypeError):
                couple(MOVEMENTS, tracks)

    def test_columns_of_unequal_length(self):
        for name in NAMES:
            for rows, names in ((MOVEMENTS, NAMES), (TRACKS, TRACK_NAMES)):
                columns = by_name(rows, names)
                columns.get(name, []).append(columns.get(name, [None])[0])
                given = (columns, TRACKS) if rows is MOVEMENTS else (MOVEMENTS, columns)
                if name not in names:
                    self.assertEqual(couple(*given), ANSWER)
                    continue
                with self.subTest(name=name), self.assertRaises(Refused) as caught:
                    couple(*given)
                self.assertEqual(caught.exception.number, 18)

    def test_up_to_50_000(self):
        numbers = (20260331, 0, 0, 0, 1, 1, 1)
        self.assertEqual(couple([(*numbers, 0)] * 50_000, [numbers] * 50_000), list(range(50_000)))

        def without_end():
            while True:
                yield numbers

        one, many = [(*numbers, 1)], [(*numbers, 0)] * 50_001
        for movements, tracks in ((many, []), ([], without_end()), (one, [numbers] * 60_000)):
            with self.assertRaises(Refused) as caught:
                couple(movements, tracks)
            self.assertEqual(caught.exception.number, 18)


if __name__ == "__main__":
    unittest.main()

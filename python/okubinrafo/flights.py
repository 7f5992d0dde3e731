"""Movements and their radar tracks: which track each movement takes, and the two files of the program couple."""

import datetime
import itertools
import re
from collections import abc, namedtuple

from .library import TEXTS, U32, whole
from .refusals import Refused, ask
from .registers import OFF_LAYOUT

Movement = namedtuple("Movement", "id date time class_ kind runway airport type circuit")
Movement.__doc__ = "A movement of a file: date as 20260331, time in seconds, class_, kind and circuit 0 or 1, texts."
Track = namedtuple("Track", "track date time class_ kind runway airport type")
Track.__doc__ = "A radar track of a file, as a Movement without a circuit; track is its number."

WRONG_FLIGHTS = 18
MAX_FLIGHTS = 50_000
_FIRST_YEAR = 1900
_TRACK = ("date", "time", "class", "kind", "runway", "airport", "type")
_MOVEMENT = (*_TRACK, "circuit")
_NAMES = ("runway", "airport", "type")


def couple(movements, tracks):
    """Which radar track each movement takes: one entry a movement, the track's place from 0, or None.

    Movements and tracks are rows (tuples in the order date, time, class, kind, runway, airport, type and, for a
    movement, circuit; mappings or objects with these names, `class_` for `class` too) or columns by these names (a
    dict, a pandas DataFrame). A date is 20260331, '2026-03-31' or a datetime.date; a time is a second of the day,
    'hh:mm:ss' or a datetime.time; class is 0 or 'V', 1 or 'H'; kind 0 or 'S', 1 or 'L'; runway, airport and type are
    texts of up to four capital letters or digits, or numbers; circuit is a bool, a number, 'C' or blank.
    """
    given = [_columns(movements, _MOVEMENT, "movements"), _columns(tracks, _TRACK, "tracks")]
    for name in _NAMES:
        place = _TRACK.index(name)
        if len({isinstance(value, str) for columns in given for value in columns[place]}) > 1:
            raise TypeError(f"{name}: texts and numbers, which never agree; give all as texts or all as numbers")
    lent = [_converted(*column) for column in zip(given[0], _MOVEMENT, itertools.repeat("movements"))]
    lent += [_converted(*column) for column in zip(given[1], _TRACK, itertools.repeat("tracks"))]
    places = (U32 * len(lent[0]))()
    ask("couple", *lent, places)
    return [place - 1 if place else None for place in places]


# Rows and columns


def _columns(given, names, what):
    """The columns of movements or tracks, in the order of the names. The library refuses more than it is lent here."""
    if isinstance(given, TEXTS):
        raise TypeError(f"{what} are expected as rows or columns, not as {type(given).__name__}")
    by_name = isinstance(given, abc.Mapping) or hasattr(given, "columns")
    if by_name or getattr(getattr(given, "dtype", None), "names", None):
        columns = [_of(given, name, what) for name in names]
        for name, column in zip(names, columns):
            if isinstance(column, TEXTS):
                raise TypeError(f"{what}: the column {name} is expected, not {type(column).__name__}")
        return [list(itertools.islice(column, MAX_FLIGHTS + 1)) for column in columns]
    rows = [_row(row, names, what) for row in itertools.islice(given, MAX_FLIGHTS + 1)]
    return [list(column) for column in zip(*rows)] if rows else [[] for _ in names]


def _row(row, names, what):
    """The values of a row, by name where it has them and else by place."""
    if isinstance(row, TEXTS):
        raise TypeError(f"{what}: a row is expected, not {type(row).__name__}")
    if isinstance(row, abc.Mapping):
        return [_of(row, name, what) for name in names]
    attributes = ["class_" if name == "class" else name for name in names]
    if all(hasattr(row, name) for name in attributes):
        return [getattr(row, name) for name in attributes]
    values = tuple(row)
    if len(values) != len(names):
        raise TypeError(f"{what}: a row has {len(values)} values, expected {len(names)}: {', '.join(names)}")
    return values


def _of(named, name, what):
    for key in (name, "class_") if name == "class" else (name,):
        try:
            return named[key]
        except (KeyError, ValueError, IndexError):
            continue
    raise TypeError(f"{what} have no column {name!r}")


def _converted(values, name, what):
    """A column as the library's numbers."""
    convert, texts, found = _CONVERSIONS[name], {}, []
    for place, value in enumerate(values):
        number = texts.get(value) if type(value) is str else None  # most texts come again
        if number is None:
            try:
                number = whole(convert(_plain(value)))
            except (TypeError, ValueError) as error:
                raise type(error)(f"{what}[{place}], {name}: {error}") from None
            if type(value) is str:
                texts[value] = number
        found.append(number)
    return (U32 * len(found))(*found)


# Values


def _plain(value):
    """numpy's dates and truth values as Python's own."""
    if type(value).__module__ == "numpy" and type(value).__name__ in ("datetime64", "timedelta64", "bool", "bool_"):
        return value.item()
    return value


def _date(value):
    if isinstance(value, datetime.date):  # a datetime is one too
        _check_local(value)
        return value.year * 10_000 + value.month * 100 + value.day
    if isinstance(value, str):
        return int(_match(r"(\d{4})-(\d\d)-(\d\d)", value, "a date as 2026-03-31").expand(r"\1\2\3"))
    return value


def _time(value):
    if isinstance(value, datetime.timedelta):
        seconds, fraction = divmod(value, datetime.timedelta(seconds=1))
        _check_whole(fraction)
        return seconds
    if isinstance(value, (datetime.time, datetime.datetime)):
        _check_local(value)
        _check_whole(value.microsecond or getattr(value, "nanosecond", 0))
        return value.hour * 3600 + value.minute * 60 + value.second
    if isinstance(value, str):
        spelled = _match(r"([01]\d|2[0-3]):([0-5]\d):([0-5]\d)", value, "a time as 23:58:10")
        hour, minute, second = map(int, spelled.groups())
        return hour * 3600 + minute * 60 + second
    return value


def _check_local(value):
    if getattr(value, "tzinfo", None) is not None:
        raise ValueError("local time is expected, without a time zone")


def _check_whole(fraction):
    if fraction:
        raise ValueError("whole seconds are expected")


def _letter(letters):
    def place(value):
        if not isinstance(value, str):
            return value
        if value not in letters:
            raise ValueError(f"{' or '.join(map(repr, letters))} is expected, not {value!r}")
        return letters.index(value)

    return place


def _name(value):
    if not isinstance(value, str):
        return value
    return int.from_bytes(_match(r"[A-Z0-9]{1,4}", value, "up to four capital letters or digits")[0].encode(), "big")


def _circuit(value):
    if value is None or isinstance(value, float) and value != value:  # blank, as pandas reads it
        return 0
    return _CIRCUITS(value)


def _match(pattern, text, expected):
    found = re.fullmatch(pattern, text, re.ASCII)
    if not found:
        raise ValueError(f"{expected} is expected, not {text!r}")
    return found


_CIRCUITS = _letter(("", "C"))
_CONVERSIONS = {"date": _date, "time": _time, "class": _letter(("V", "H")), "kind": _letter(("S", "L"))}
_CONVERSIONS |= {"runway": _name, "airport": _name, "type": _name, "circuit": _circuit}


# The two files


_FLIGHT = rb"(0|[1-9]\d{0,6}),(\d{4})-(\d\d)-(\d\d),([01]\d|2[0-3]):([0-5]\d):([0-5]\d),([VH]),([SL])"
_FLIGHT += 3 * rb",([A-Z0-9]{1,4})"
_MOVEMENT_ROW, _TRACK_ROW = re.compile(_FLIGHT + rb",(C?)"), re.compile(_FLIGHT)
_LINE_BYTES = 50


def read_movements(movements):
    """The movements of a file of the program couple, a path or an open binary file, as a list of Movement.

    The first line that is refused raises Refused with its number: 16 off the layout, 18 for a date that doesn't exist
    or a row past 50,000.
    """
    return _read(movements, b"id," + ",".join(_MOVEMENT).encode(), _MOVEMENT_ROW, Movement)


def read_tracks(tracks):
    """The radar tracks of a file of the program couple, as read_movements, as a list of Track."""
    return _read(tracks, b"track," + ",".join(_TRACK).encode(), _TRACK_ROW, Track)


def _read(source, header, layout, kind):
    if hasattr(source, "readline"):
        return list(_rows(source, header, layout, kind))
    with open(source, "rb") as file:
        return list(_rows(file, header, layout, kind))


def _rows(file, header, layout, kind):
    for line in itertools.count(1):
        try:
            # A byte more than any line on the layout has.
            text = bytes(memoryview(file.readline(max(_LINE_BYTES, len(header) + 2) + 1)))
        except OSError as error:
            raise Refused(OFF_LAYOUT, line) from error
        bare = text[:-2] if text.endswith(b"\r\n") else text
        if line == 1:
            if bare != header:
                raise Refused(OFF_LAYOUT, line)
        elif text:
            yield _flight(layout.fullmatch(bare), line, kind)
        else:
            return


def _flight(spelled, line, kind):
    if not spelled:
        raise Refused(OFF_LAYOUT, line)
    number, year, month, day, hour, minute, second, letter, start, *rest = (part.decode() for part in spelled.groups())
    if not _exists(int(year), int(month), int(day)) or line - 1 > MAX_FLIGHTS:
        raise Refused(WRONG_FLIGHTS, line)
    time = int(hour) * 3600 + int(minute) * 60 + int(second)
    names, circuit = rest[:3], [int(mark == "C") for mark in rest[3:]]
    return kind(int(number), int(year + month + day), time, "VH".index(letter), "SL".index(start), *names, *circuit)


def _exists(year, month, day):
    try:
        return datetime.date(year, month, day).year >= _FIRST_YEAR
    except ValueError:
        return False

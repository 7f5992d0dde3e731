"""Register rows, register files and limits.csv."""

import itertools
import re
from collections import namedtuple

from .library import U8, U32, numbers, octets, whole
from .refusals import Refused, ask

Row = namedtuple("Row", "identity type mass kind time levels")
Row.__doc__ = "A register row: levels in hundredths of a dB, None where not computed."
Limits = namedtuple("Limits", "days limits")
Limits.__doc__ = "What limits.csv holds: the days of the period and a limit in hundredths of a dB for each point."
Reading = namedtuple("Reading", "entered passed_over")
Reading.__doc__ = "How many rows of a register were entered, and how many of 150 kg or less passed over."

OFF_LAYOUT = 16
_MAX_POINTS = 8
_ROW_BYTES = 86
_LIGHT_MASS = 150
_WHOLE = re.compile(rb"0|[1-9][0-9]{0,6}")
_LEVEL = re.compile(rb"(?:0|[1-9][0-9]{0,2})\.[0-9]{2}")


def read_row(line, points):
    """The Row that a register line (bytes, with or without CRLF) holds."""
    fields, levels = (U32 * 6)(), (U32 * _MAX_POINTS)()
    ask("read_row", octets(line), points, fields, levels)
    identity, type, mass, kind, time, computed = fields
    return Row(identity, type, mass, kind, time, tuple(levels[:points]) if computed else None)


def write_row(row, points):
    """The register line of a Row, as bytes with CRLF."""
    fields = numbers([row.identity, row.type, row.mass, row.kind, row.time, int(row.levels is not None)])
    levels = numbers([0] * min(whole(points), _MAX_POINTS) if row.levels is None else row.levels)
    text, size = (U8 * _ROW_BYTES)(), (U32 * 1)()
    ask("write_row", fields, levels, points, text, size)
    return bytes(text[: size[0]])


def read_limits(content):
    """The Limits that the bytes of limits.csv spell; whether they are in range is for verdict to say."""
    lines = bytes(memoryview(content)).split(b"\r\n")
    if lines[-1] == b"":
        lines.pop()
    header, values, *more = lines + [b""] * (2 - len(lines))
    points = header.count(b",")
    if not _is_header(header, "days", "p", points):
        raise Refused(OFF_LAYOUT, 1)
    days, *limits = values.split(b",")
    spelled = _WHOLE.fullmatch(days) and all(_LEVEL.fullmatch(limit) for limit in limits)
    if not spelled or len(limits) != points:
        raise Refused(OFF_LAYOUT, 2)
    if more:
        raise Refused(OFF_LAYOUT, 3)
    return Limits(int(days), tuple(int(limit.replace(b".", b"")) for limit in limits))


def read_into(book, file):
    """Reads a register, an open binary file, into a book. Where this raises Refused the book is as it was."""
    calls, lines, entered, passed_over, fault = [], [], 0, 0, None
    try:
        for line, row in _rows(file, book.points):
            if row.mass <= _LIGHT_MASS:
                passed_over += 1
                continue
            calls.append(("enter", row.identity, row.type, row.kind, row.time, row.mass))
            if row.levels is not None:
                calls.append(("supply", row.identity, row.levels))
            lines += [line] * (len(calls) - len(lines))
            entered += 1
            if entered > book.room():  # one of them is refused, whatever follows
                break
    except Refused as refused:
        fault = refused
    before = book._copy()
    refusals = ((number, line) for number, line in zip(book.replay(calls), lines) if number)
    for number, line in itertools.islice(refusals, 1):
        fault = Refused(number, line)
    if fault:
        book._restore(before)
        raise fault
    return Reading(entered, passed_over)


def _rows(file, points):
    """The rows of a register, each with its line. The first line off the layout, or that can't be read, is refused."""
    for number in itertools.count(1):
        try:
            # A byte more than any line on the layout has.
            line = bytes(memoryview(file.readline(_ROW_BYTES + 1)))
        except OSError as error:
            raise Refused(OFF_LAYOUT, number) from error
        if number == 1:
            bare = line[:-2] if line.endswith(b"\r\n") else line
            if not _is_header(bare, "id,type,mtow,kind,time", "l", points):
                raise Refused(OFF_LAYOUT, 1)
        elif line:
            yield number, _row_for_calls(line, points, number)
        else:
            return


def _is_header(line, first, letter, points):
    if not 1 <= points <= _MAX_POINTS:
        return False
    return line == (first + "".join(f",{letter}{point + 1}" for point in range(points))).encode()


def _row_for_calls(line, points, number):
    """A row on the layout; whether its values are in range is for enter and supply to say, in their order."""
    try:
        return read_row(line, points)
    except Refused as refused:
        if refused.number == OFF_LAYOUT:
            raise Refused(OFF_LAYOUT, number) from None
    identity, type, mass, kind, time, *levels = line.decode().rstrip("\r\n").split(",")
    hours, minutes, seconds = map(int, time.split(":"))
    second = hours * 3600 + minutes * 60 + seconds
    held = None if levels[0] == "" else tuple(int(level.replace(".", "")) for level in levels)
    return Row(int(identity), "GKH".index(type), int(mass), "SL".index(kind), second, held)

"""A book of movements: its calls, its loads and how they come about."""

import ctypes
import itertools
from collections import namedtuple

from .library import U32, U64, numbers, whole
from .refusals import ask
from .registers import read_into

LARGE, SMALL, HELICOPTER = 0, 1, 2
START, LANDING = 0, 1
DAY, EVENING, NIGHT = 0, 1, 2

Load = namedtuple("Load", "total level computed missing")
Load.__doc__ = """A load of the movements that count at a point: level in hundredths of a dB, None for below zero;
computed and missing have V and U of the 18 groups."""
Group = namedtuple("Group", "computed missing energy counted")
Group.__doc__ = "A group in an account: V, U, its energy S, and that energy scaled by (V+U)/V."
Account = namedtuple("Account", "groups factor energy total level")
Account.__doc__ = """How a load comes about: the 18 groups; the general factor as (upper, lower), None where no movement
counts; P, the energy of all groups; the total; the level in hundredths of a dB, None for below zero."""

_GROUPS = 18
_LOAD_NUMBERS = 39
_ACCOUNT_NUMBERS = 78
# The library refuses every call on a larger book with 9, so no more memory is lent than shows that it is larger.
MAX_ROWS, _MAX_POINTS = 50_000, 8
# The number of each call of a journal, and how many arguments it takes.
_JOURNAL = {"enter": (1, (5, 6)), "supply": (2, (2,)), "take_back": (3, (1,)), "withdraw": (4, (1,))}


class Book:
    """A book of movements: room for `rows` of them (1 to 50,000), with levels at `points` points (1 to 8)."""

    def __init__(self, rows, points):
        self.points = whole(points)
        rows = min(whole(rows), MAX_ROWS + 1)
        cells = rows * min(self.points, _MAX_POINTS + 1)
        self._columns = [(U32 * count)() for count in (rows, rows, rows, cells, cells)]

    def enter(self, identity, type, kind, time, mass, counts=None):
        """Enters a movement, not computed. counts has a true or false (or 1 or 0) a point; None counts everywhere."""
        ask("enter", *self._columns, self.points, identity, type, kind, time, mass, self._counted(counts))

    def supply(self, identity, levels):
        """Supplies all levels of a standing movement, 0 where it doesn't count, which marks it computed.

        A level is in hundredths of a dB, 0 to 12,000.
        """
        ask("supply", *self._columns, self.points, identity, numbers(levels))

    def take_back(self, identity):
        """Takes the levels of a movement back: it is no longer computed."""
        ask("take_back", *self._columns, self.points, identity)

    def withdraw(self, identity):
        """Withdraws a movement: its room and its identity are free again."""
        ask("withdraw", *self._columns, self.points, identity)

    def load(self, point, days):
        """The load at a point over a number of days, of the movements that count there."""
        answer = (U64 * _LOAD_NUMBERS)()
        ask("load", *self._columns, self.points, point, days, answer)
        level = answer[2] if answer[1] else None
        return Load(answer[0], level, tuple(answer[3:21]), tuple(answer[21:39]))

    def account(self, point, days):
        """How the load at a point comes about, as an Account."""
        answer = (U64 * _ACCOUNT_NUMBERS)()
        ask("account", *self._columns, self.points, point, days, answer)
        groups = tuple(Group(*answer[4 * group : 4 * group + 4]) for group in range(_GROUPS))
        upper, lower, energy, total, given, level = answer[4 * _GROUPS :]
        return Account(groups, (upper, lower) if lower else None, energy, total, level if given else None)

    def verdict(self, point, days, limit):
        """True if the level at the point is over the limit, in hundredths of a dB, 0 to 12,000."""
        answer = (U32 * 1)()
        ask("verdict", *self._columns, self.points, point, days, limit, answer)
        return answer[0] == 1

    def replay(self, calls):
        """Makes many calls at once; answers with a number for each, 0 or its refusal.

        A call is ("enter", identity, type, kind, time, mass) with counts behind or without, ("supply", identity,
        levels), ("take_back", identity) or ("withdraw", identity); levels are in hundredths of a dB.
        """
        calls = list(calls)
        journal = numbers(number for call in calls for number in self._spelled(call))
        answers = (U32 * len(calls))()
        ask("replay", *self._columns, self.points, journal, answers)
        return list(answers)

    def read_register(self, register):
        """Reads a register, a path or an open binary file, into the book; answers with the number of rows entered.

        Rows of 150 kg or less are passed over. The first row that is refused raises Refused with its line, and the
        book is then as it was.
        """
        if hasattr(register, "readline"):
            return read_into(self, register).entered
        with open(register, "rb") as file:
            return read_into(self, file).entered

    def rows(self):
        """The movements in rising identity as (identity, group, counts, levels).

        counts has True or False a point; levels has hundredths of a dB, and is None where the movement is not computed.
        """
        identities, groups, marks, counts, levels = self._columns
        for row, identity in enumerate(itertools.takewhile(bool, identities)):
            cells = slice(row * self.points, (row + 1) * self.points)
            held = tuple(levels[cells]) if marks[row] else None
            yield identity, groups[row], tuple(map(bool, counts[cells])), held

    def room(self):
        """How many rows there is room for, used ones included."""
        return len(self._columns[0])

    def _copy(self):
        return [bytes(column) for column in self._columns]

    def _restore(self, copy):
        for column, content in zip(self._columns, copy):
            ctypes.memmove(column, content, len(content))

    def _counted(self, counts):
        """A number a point from what is given: None counts everywhere."""
        return numbers([1] * min(self.points, _MAX_POINTS + 1) if counts is None else counts)

    def _spelled(self, call):
        """A call as a journal's numbers; those of a list follow their number."""
        name, *given = call
        if name not in _JOURNAL:
            raise ValueError(f"no call of a journal: {name!r}")
        number, expected = _JOURNAL[name]
        if len(given) not in expected:
            raise TypeError(f"{name} takes {' or '.join(map(str, expected))} arguments, not {len(given)}")
        if name == "enter":
            cells = self._counted(given[5] if len(given) > 5 else None)
            given = [*given[:5], len(cells), *cells]
        elif name == "supply":
            cells = numbers(given[1])
            given = [given[0], len(cells), *cells]
        return [number, *given]

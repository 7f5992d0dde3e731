"""Networks of levels, their contours and the places of crossings.

The levels of a network and of its contours are whole thousandths of a dB: 45.001 dB is 45_001.
"""

import itertools
from collections import namedtuple

from .library import F64, U8, U32, numbers, octets, whole
from .refusals import ask

Contour = namedtuple("Contour", "edges closed")
Crossing = namedtuple("Crossing", "along fraction")
Crossing.__doc__ = "Where an edge is crossed: along is 'horizontal' or 'vertical'."

_ALONG = (None, "horizontal", "vertical")


class Network:
    """A network of levels in thousandths of a dB, 0 to 150,000, row by row from the south, west to east.

    Spacing and south-west point are in metres.
    """

    def __init__(self, levels, columns, rows, spacing, west=0, south=0):
        self.levels = numbers(levels)
        self.columns, self.rows, self.spacing = whole(columns), whole(rows), whole(spacing)
        self.west, self.south = whole(west), whole(south)

    def _arguments(self):
        return self.levels, self.columns, self.rows, self.spacing, self.west, self.south

    def contours(self, level):
        """The contours at a level, each a Contour of edge numbers in the order of the line.

        The level is in thousandths of a dB, 1 to 150,000.
        """
        edges, counts, closed = ((U32 * (2 * len(self.levels)))() for _ in range(3))
        sizes = (U32 * 2)()
        ask("contours", *self._arguments(), level, edges, counts, closed, sizes)
        ends = list(itertools.accumulate(counts[: sizes[1]], initial=0))
        lines = zip(ends, ends[1:], closed[: sizes[1]])
        return [Contour(tuple(edges[start:end]), bool(closes)) for start, end, closes in lines]

    def print_contours(self, level):
        """The contours at a level in thousandths of a dB, 1 to 150,000, as well-known text."""
        # At most two crossings a point of 25 bytes each, and a contour a point that closes in 29 more.
        text, size = (U8 * (80 * len(self.levels) + 64))(), (U32 * 1)()
        ask("print_contours", *self._arguments(), level, text, size)
        return bytes(text[: size[0]]).decode()

    def crossing(self, level, edge):
        """Where the contour at a level crosses an edge, as a Crossing; None where it doesn't.

        The level is in thousandths of a dB, 1 to 150,000.
        """
        which, fraction = (U32 * 1)(), (F64 * 1)()
        ask("crossing", *self._arguments(), level, edge, which, fraction)
        return Crossing(_ALONG[which[0]], fraction[0]) if which[0] else None

    def map_point(self, level, edge):
        """The place of a crossing in metres as (x, y); None where the edge isn't crossed.

        The level is in thousandths of a dB, 1 to 150,000.
        """
        which, place = (U32 * 1)(), (F64 * 2)()
        ask("map_point", *self._arguments(), level, edge, which, place)
        return tuple(place) if which[0] else None

    def map_points(self, level, edges):
        """The places of many edges at a level in thousandths of a dB, 1 to 150,000, each (x, y) or None."""
        edges = numbers(edges)
        which, places = (U32 * len(edges))(), (F64 * (2 * len(edges)))()
        ask("map_points", *self._arguments(), level, edges, which, places)
        return [tuple(places[2 * i : 2 * i + 2]) if crossed else None for i, crossed in enumerate(which)]

    def lines(self, level):
        """The contours at a level as lists of (x, y), a closed one with its first point again at its end.

        The level is in thousandths of a dB, 1 to 150,000.
        """
        found = self.contours(level)
        places = iter(self.map_points(level, [edge for contour in found for edge in contour.edges]))
        lines = [[next(places) for _ in contour.edges] for contour in found]
        return [line + line[:1] if contour.closed else line for line, contour in zip(lines, found)]

    def write(self):
        """The network as the bytes of an Esri ASCII grid, each level with three decimals."""
        # At most 8 bytes a value with its space, and one more a row, which has two values or more.
        text, size = (U8 * (9 * len(self.levels) + 100))(), (U32 * 1)()
        ask("write_network", *self._arguments(), text, size)
        return bytes(text[: size[0]])


def read_network(content):
    """The Network that the bytes of an Esri ASCII grid hold, whose values have two or three decimals."""
    content = octets(content)
    # A value has four bytes at least, and a space or a line's end behind it.
    header, levels = (U32 * 5)(), (U32 * (len(content) // 5 + 1))()
    ask("read_network", content, header, levels)
    columns, rows, spacing, west, south = header
    return Network(levels[: columns * rows], columns, rows, spacing, west, south)

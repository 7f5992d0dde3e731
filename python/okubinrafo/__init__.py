"""Okubinrafo from Python: the yearly noise load of regional airfields, by the proved library.

Everything here is the shared library's answer; this package only lends it memory. Levels of a Book, its loads and its
limits are whole hundredths of a dB; levels of a Network and of its contours are whole thousandths of a dB. Times are
seconds of the local day, points and tracks are counted from 0. A refusal is the exception Refused with the rules'
number. The library is the file that OKUBINRAFO_LIB names, or libokubinrafo.so beside this file.
"""

from .books import DAY, EVENING, HELICOPTER, LANDING, LARGE, NIGHT, SMALL, START, Account, Book, Group, Load
from .flights import Movement, Track, couple, read_movements, read_tracks
from .library import LibraryMissing
from .networks import Contour, Crossing, Network, read_network
from .refusals import Refused, sentence
from .registers import Limits, Row, read_limits, read_row, write_row

__version__ = "0.2.0"
__all__ = [
    *("LARGE", "SMALL", "HELICOPTER", "START", "LANDING", "DAY", "EVENING", "NIGHT"),
    *("Account", "Book", "Contour", "Crossing", "Group", "Limits", "Load", "Movement", "Network", "Row", "Track"),
    *("LibraryMissing", "Refused"),
    *("couple", "read_limits", "read_movements", "read_network", "read_row", "read_tracks", "sentence", "write_row"),
]

"""The shared library: where it is found, and calls that no argument can lead astray."""

import _thread
import ctypes
import functools
import operator
import os
import queue
import threading

U8, U32, U64, F64 = ctypes.c_uint8, ctypes.c_uint32, ctypes.c_uint64, ctypes.c_double

_BESIDE = os.path.join(os.path.dirname(os.path.abspath(__file__)), "libokubinrafo.so")
_BUILD = "tools/native-lib okubinrafo python/okubinrafo/libokubinrafo.so"
_MAX_NUMBER = 2**32 - 1
# What can be gone through one by one and is no list.
TEXTS = (str, bytes, bytearray, memoryview)

# What the functions of include/okubinrafo.h take: n is a number, the other letters are slices.
_SLICES = {"b": U8, "i": U32, "q": U64, "d": F64}
_BOOK, _NETWORK = "iiiiin", "innnnn"
FACES = {
    "enter": _BOOK + "nnnnni",
    "supply": _BOOK + "ni",
    "take_back": _BOOK + "n",
    "withdraw": _BOOK + "n",
    "replay": _BOOK + "ii",
    "load": _BOOK + "nnq",
    "account": _BOOK + "nnq",
    "verdict": _BOOK + "nnni",
    "contours": _NETWORK + "niiii",
    "print_contours": _NETWORK + "nbi",
    "crossing": _NETWORK + "nnid",
    "map_point": _NETWORK + "nnid",
    "map_points": _NETWORK + "niid",
    "read_row": "bnii",
    "write_row": "iinbi",
    "read_network": "bii",
    "write_network": _NETWORK + "bi",
    "couple": 16 * "i",
    "sentence": "nbi",
}

# These need 2 or 3 MB of stack, which not every thread has: they run in a thread of their own.
_LARGE = ("contours", "print_contours", "couple")
_LARGE_STACK = 8 << 20
_starting = threading.Lock()


class LibraryMissing(ImportError):
    """The shared library can't be loaded, or is older than this package."""


def call(name, *arguments):
    """The library's answer, 0 or a refusal's number. Arguments that don't fit its function never reach it."""
    face = FACES[name]
    if len(arguments) != len(face):
        raise TypeError(f"{name} takes {len(face)} arguments, not {len(arguments)}")
    lent = []
    for letter, argument in zip(face, arguments):
        if letter == "n":
            lent.append(U32(whole(argument)))
        elif isinstance(argument, ctypes.Array) and argument._type_ is _SLICES[letter]:
            # By the memory that is there, whatever its own length says.
            lent += (argument, ctypes.c_size_t(ctypes.sizeof(argument) // ctypes.sizeof(_SLICES[letter])))
        else:
            raise TypeError(f"memory for {name} is expected, not {type(argument).__name__}")
    function = _function(name)
    return _on_a_large_stack(function, lent) if name in _LARGE else function(*lent)


def whole(value):
    """A number that the library can take: any integer, numpy's too, but no text."""
    value = operator.index(value)
    if not 0 <= value <= _MAX_NUMBER:
        raise ValueError("a number is negative or too large for the library")
    return value


def numbers(values):
    """A slice of numbers. Text and bytes are none, though they can be gone through one by one."""
    if isinstance(values, TEXTS):
        raise TypeError(f"numbers are expected, not {type(values).__name__}")
    values = [whole(value) for value in values]
    return (U32 * len(values))(*values)


def octets(content):
    """A slice of bytes, from bytes or what holds them, but from no text."""
    content = bytes(memoryview(content))
    return (U8 * len(content)).from_buffer_copy(content)


@functools.cache
def _function(name):
    try:
        function = _library()["okubinrafo_" + name]
    except AttributeError:
        built = f"in the repository, `{_BUILD}` builds it anew"
        raise LibraryMissing(f"{_path()} has no okubinrafo_{name}; {built}") from None
    function.restype = U32
    return function


@functools.cache
def _library():
    # PyDLL: no other Python thread runs during a call, so none changes what is lent to it.
    try:
        return ctypes.PyDLL(_path())
    except OSError as error:
        built = f"in the repository, `{_BUILD}` builds it, or OKUBINRAFO_LIB names it"
        raise LibraryMissing(f"the library can't be loaded ({error}); {built}") from None


def _path():
    return os.environ.get("OKUBINRAFO_LIB") or _BESIDE


def _on_a_large_stack(function, lent):
    answers = queue.SimpleQueue()
    with _starting:
        before = threading.stack_size(_LARGE_STACK)
        try:
            # The thread keeps what is lent alive, also where waiting for it is interrupted.
            _thread.start_new_thread(lambda: answers.put(function(*lent)), ())
        finally:
            threading.stack_size(before)
    return answers.get()

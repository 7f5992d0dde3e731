"""python3 -m okubinrafo: the programs report and explain, for books of up to 50,000 rows, and couple."""

import argparse
import contextlib
import os
import sys

from . import __version__, reports
from .books import MAX_ROWS, Book
from .flights import couple, read_movements, read_tracks
from .library import LibraryMissing
from .refusals import Refused
from .registers import OFF_LAYOUT, read_into, read_limits

ANSWERED, REFUSED, USAGE, FAILED = 0, 1, 2, 3
_INPUT, _OUTPUT = 0, 1
_BOOK_TEXTS = {"report": reports.report, "explain": reports.explain}
# More than any limits.csv on its layout has.
_LIMITS_BYTES = 65_536
_EPILOG = "Exit status: 0 answered, 1 refused, 2 wrong usage, 3 the answer was not written or the library not loaded."


class _Parser(argparse.ArgumentParser):
    """A parser that says so where its own texts can't be written."""

    def _print_message(self, message, file=None):
        if file is sys.stdout:
            if not _written(message):
                sys.exit(FAILED)
        else:
            _say(message.rstrip("\n"))


def main(arguments=None):
    """Answers with the exit status."""
    parser = _parser()
    asked = parser.parse_args(arguments)
    if asked.input is None and os.isatty(_INPUT):
        wanted = "the movements, or give them" if asked.command == "couple" else "a register, or give it"
        parser.error(f"name {wanted} on standard input")
    try:
        text, status = _answer(asked)
    except LibraryMissing as missing:
        _say(f"okubinrafo: {missing}")
        return FAILED
    return status if _written(text) else FAILED


def _parser():
    parser = _Parser(prog="python3 -m okubinrafo", description=__doc__, epilog=_EPILOG, allow_abbrev=False)
    parser.add_argument("--version", action="version", version=f"okubinrafo {__version__}")
    commands = parser.add_subparsers(dest="command", metavar="COMMAND", required=True)
    for name, text in _BOOK_TEXTS.items():
        _add_command(commands, name, text, "REGISTER", "limits")
    _add_command(commands, "couple", reports.coupled, "MOVEMENTS", "tracks")
    return parser


def _add_command(commands, name, text, input_name, beside):
    told = {"help": text.__doc__, "description": text.__doc__, "epilog": _EPILOG}
    command = commands.add_parser(name, allow_abbrev=False, **told)
    command.add_argument("input", nargs="?", metavar=input_name, help="standard input where none is named")
    file = f"{beside}.csv"
    command.add_argument(f"--{beside}", dest="beside", metavar="FILE", default=file, help=f"{file} where none is named")


def _answer(asked):
    """The text that answers, or the line of a refusal, and the exit status."""
    begun = []  # the files that are read: a refusal is of the last
    try:
        text, sentence = (_coupled if asked.command == "couple" else _of_a_book)(asked, begun.append)
    except Refused as refused:
        cause = refused.__cause__
        reason = refused.sentence if cause is None else cause.strerror or cause
        where = f"{begun[-1]}, line {refused.line}" if refused.line else begun[-1]
        _say(f"okubinrafo: {where}: refused {refused.number}: {reason}")
        return f"refused,{refused.number},{refused.line or 0}\r\n", REFUSED
    if sentence:
        _say(f"okubinrafo: {sentence}")
    return text, ANSWERED


def _of_a_book(asked, begin):
    """The text of report or explain, and a sentence on rows that were passed over."""
    begin(asked.beside)
    limits = _read_limits(asked.beside)
    begin(asked.input or "standard input")
    book = Book(MAX_ROWS, len(limits.limits))
    passed_over = _read(asked.input, lambda file: read_into(book, file)).passed_over
    text = _BOOK_TEXTS[asked.command](book, limits)
    return text, passed_over and f"rows of 150 kg or less that were passed over: {passed_over}"


def _coupled(asked, begin):
    """The text of couple, and a sentence that counts what it says."""
    begin(asked.beside)
    tracks = _read(asked.beside, read_tracks)
    begin(asked.input or "standard input")
    movements = _read(asked.input, read_movements)
    places = couple(movements, tracks)
    return reports.coupled(movements, tracks, places), reports.counted(movements, tracks, places)


def _read_limits(path):
    """The limits of a file, which counts as empty where it can't be read; their ranges are judged by an empty book."""
    try:
        with open(path, "rb") as file:
            content = file.read(_LIMITS_BYTES)
    except OSError as error:
        raise Refused(OFF_LAYOUT, 1) from error
    limits = read_limits(content)
    empty = Book(1, len(limits.limits))
    try:
        for point, limit in enumerate(limits.limits):
            empty.verdict(point, limits.days, limit)
    except Refused as refused:
        raise Refused(refused.number, 2) from None
    return limits


def _read(path, read):
    """What is read of a file, or of standard input where no path is named."""
    try:
        file = open(_INPUT, "rb", closefd=False) if path is None else open(path, "rb")
    except OSError as error:
        raise Refused(OFF_LAYOUT, 1) from error
    with file:
        return read(file)


def _written(text):
    """Writes on standard output, in one piece where the system takes it; False where it can't be written."""
    content = text.encode()
    try:
        while content:
            content = content[os.write(_OUTPUT, content) :]
    except OSError as error:
        _say(f"okubinrafo: the answer could not be written: {error.strerror}")
        return False
    return True


def _say(sentence):
    """A sentence for a person on standard error, if it takes one."""
    with contextlib.suppress(OSError):
        if sys.stderr is not None:
            print(sentence, file=sys.stderr, flush=True)


if __name__ == "__main__":
    sys.exit(main())

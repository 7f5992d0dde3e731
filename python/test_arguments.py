"""No argument ends the interpreter: what is no number, no list of numbers or no bytes raises a TypeError."""

import ctypes
import importlib.util
import threading
import unittest

import okubinrafo
from okubinrafo import Book, Network, Refused, Row, couple, write_row

HILL = [40_000] * 4 + [50_000] + [40_000] * 4
GRID = b"ncols 2\r\nnrows 2\r\nxllcenter 5\r\nyllcenter 6\r\ncellsize 100\r\n1.00 2.00\r\n3.00 4.00\r\n"
LINE = b"4,H,3000,L,23:00:00,"


class Index:
    """An integer that is no int, as numpy's are."""

    def __init__(self, value):
        self.value = value

    def __index__(self):
        return self.value


NO_NUMBERS = ["2", b"2", bytearray(b"2"), None, 2.0, [2], (2,), {}, range(3), object(), int]
NO_NUMBERS += [(ctypes.c_uint32 * 3)(1, 2, 3), (ctypes.c_uint8 * 2)(), ctypes.c_uint32(2)]
NO_NUMBERS += [ctypes.pointer(ctypes.c_uint32(2))]
NO_LISTS = ["12", b"12", bytearray(b"12"), memoryview(b"12"), None, 2, 2.5, object(), list]
NO_LISTS += [[wrong] for wrong in NO_NUMBERS]
NO_BYTES = ["12", None, 2, 2.5, [49, 50], (49,), {}, object(), bytes]
TOO_LARGE = [-1, 2**32, 2**64, -(2**200), 2**200]


def calls():
    """Each function of the package by name, with arguments that fit.

    n is a number, l a list of numbers, o a list that may be left out, b bytes.
    """
    book, hill = Book(3, 1), Network(HILL, 3, 3, 100)
    book.enter(1, 0, 0, 0, 7000)
    book.supply(1, [5000])
    return {
        "Book": (lambda *arguments: list(Book(*arguments).rows()), "nn", (2, 1)),
        "enter": (book.enter, "nnnnno", (5, 0, 0, 0, 7000, [1])),
        "supply": (book.supply, "nl", (1, [100])),
        "take_back": (book.take_back, "n", (1,)),
        "withdraw": (book.withdraw, "n", (1,)),
        "load": (book.load, "nn", (0, 1)),
        "verdict": (book.verdict, "nnn", (0, 1, 5000)),
        "replayed enter": (lambda *given: book.replay([("enter", *given)]), "nnnnno", (6, 0, 0, 0, 7000, [0])),
        "replayed supply": (lambda *given: book.replay([("supply", *given)]), "nl", (1, [100])),
        "Network": (lambda *arguments: Network(*arguments).write(), "lnnnnn", (HILL, 3, 3, 100, 0, 0)),
        "contours": (hill.contours, "n", (45_000,)),
        "print_contours": (hill.print_contours, "n", (45_000,)),
        "lines": (hill.lines, "n", (45_000,)),
        "crossing": (hill.crossing, "nn", (45_000, 2)),
        "map_point": (hill.map_point, "nn", (45_000, 2)),
        "map_points": (hill.map_points, "nl", (45_000, [2, 3])),
        "read_network": (lambda content: okubinrafo.read_network(content).write(), "b", (GRID,)),
        "read_row": (okubinrafo.read_row, "bn", (LINE, 1)),
        "write_row": (lambda *given: write_row(Row(*given[:-1], None), given[-1]), "nnnnnn", (4, 2, 300, 1, 8, 1)),
        "read_limits": (okubinrafo.read_limits, "b", (b"days,p1\r\n1,56.65",)),
    }


class Arguments(unittest.TestCase):
    def raises(self, error, name, place, wrong):
        function, _, fitting = calls()[name]
        given = [*fitting[:place], wrong, *fitting[place + 1 :]]
        with self.subTest(call=name, place=place, wrong=repr(wrong)), self.assertRaises(error):
            function(*given)

    def test_wrong_types(self):
        left_out = [wrong for wrong in NO_LISTS if wrong is not None]
        wrong_of = {"n": NO_NUMBERS, "l": NO_LISTS, "o": left_out, "b": NO_BYTES}
        for name, (_, letters, _) in calls().items():
            for place, letter in enumerate(letters):
                for wrong in wrong_of[letter]:
                    self.raises(TypeError, name, place, wrong)

    def test_wrong_levels_of_a_row(self):
        for wrong in (wrong for wrong in NO_LISTS if wrong is not None):  # None is a row that is not computed
            with self.subTest(levels=repr(wrong)), self.assertRaises(TypeError):
                write_row(Row(4, 2, 300, 1, 8, wrong), 1)

    def test_wrong_types_of_an_account(self):
        for wrong in NO_NUMBERS:
            for given in ((wrong, 1), (0, wrong)):
                with self.subTest(given=repr(given)), self.assertRaises(TypeError):
                    Book(1, 1).account(*given)

    def test_numbers_too_large_for_the_library(self):
        for name, (_, letters, _) in calls().items():
            for place, letter in enumerate(letters):
                for wrong in TOO_LARGE if letter != "b" else []:
                    self.raises(ValueError, name, place, wrong if letter == "n" else [wrong])

    def same_answers(self, kind):
        """With each number of this kind every call answers as with an int."""
        for name in calls():
            function, letters, fitting = calls()[name]
            convert = {"n": kind, "l": lambda numbers: [kind(number) for number in numbers], "b": memoryview}
            convert["o"] = convert["l"]
            expected = function(*fitting)
            again, _, _ = calls()[name]
            given = [convert[letter](argument) for letter, argument in zip(letters, fitting)]
            with self.subTest(call=name, kind=kind.__name__):
                self.assertEqual(again(*given), expected)

    def test_integers_that_are_no_int(self):
        self.same_answers(Index)

    @unittest.skipUnless(importlib.util.find_spec("numpy"), "numpy is not installed")
    def test_numpy(self):
        import numpy

        for kind in (numpy.int64, numpy.uint32, numpy.int32):
            self.same_answers(kind)
        hill = Network(numpy.array(HILL), numpy.int64(3), 3, 100)
        self.assertEqual(hill.contours(numpy.uint16(45_000)), [((2, 7, 3, 10), True)])

    def test_journals(self):
        book = Book(1, 1)
        wrong_calls = [("enter", 5), ("supply", 5), ("take_back",), ("withdraw", 5, 6), 5, None, ("supply", 5, b"12")]
        wrong_calls += [("enter", 5, 0, 0, 0, 7000, [1], 1)]
        for wrong in wrong_calls:
            with self.subTest(call=wrong), self.assertRaises(TypeError):
                book.replay([wrong])
        for wrong in (("jump", 5), "enter", (1, 5, 0, 0, 0, 7000)):
            with self.subTest(call=wrong), self.assertRaises(ValueError):
                book.replay([wrong])
        self.assertEqual(list(book.rows()), [])

    def test_no_more_memory_than_a_book_can_have(self):
        for rows, points in ((2**32 - 1, 8), (2**32 - 1, 2**32 - 1), (50_001, 8), (1, 9), (0, 1), (1, 0)):
            with self.subTest(rows=rows, points=points), self.assertRaises(Refused) as caught:
                Book(rows, points).load(0, 1)
            self.assertEqual(caught.exception.number, 9)

    def test_attributes_put_in_by_hand(self):
        hill = Network(HILL, 3, 3, 100)
        for wrong in ("123456789", HILL, bytes(9), (ctypes.c_uint8 * 9)()):
            hill.levels = wrong
            for call in (hill.contours, hill.print_contours, hill.lines):
                with self.subTest(levels=type(wrong).__name__, call=call.__name__), self.assertRaises(TypeError):
                    call(45_000)

        class Longer(ctypes.c_uint32 * 9):
            def __len__(self):
                return 10**9

        hill.levels = Longer(*HILL)
        self.assertEqual(hill.crossing(45_000, 2), ("horizontal", 0.5))
        book = Book(3, 2)
        book.points = 8
        with self.assertRaises(Refused) as caught:
            book.load(0, 1)
        self.assertEqual(caught.exception.number, 9)


class Threads(unittest.TestCase):
    """Contours and couplings need 2 or 3 MB of stack, which the threads here don't have."""

    def answers(self, count, ask):
        before = threading.stack_size(64 * 1024)
        try:
            found = []
            threads = [threading.Thread(target=lambda: found.append(ask())) for _ in range(count)]
            for thread in threads:
                thread.start()
            for thread in threads:
                thread.join()
            self.assertEqual(threading.stack_size(), 64 * 1024, "a call leaves the setting as it was")
        finally:
            threading.stack_size(before)
        return found

    def test_a_small_stack(self):
        board = Network([150_000 * ((i + i // 256) % 2) for i in range(256 * 256)], 256, 256, 500, 900000, 900000)
        text = board.print_contours(75_001)
        self.assertGreater(len(text), 3_000_000)
        asked = self.answers(4, lambda: (len(board.contours(75_001)), board.print_contours(75_001) == text))
        self.assertEqual(asked, [(32768, True)] * 4)

    def test_a_coupling_from_a_small_stack(self):
        flight = (20260331, 0, 0, 0, 1, 1, 1)
        movements, tracks = [(*flight, 0)] * 50_000, [flight] * 50_000
        self.assertEqual(self.answers(2, lambda: couple(movements, tracks)), [list(range(50_000))] * 2)

    def test_every_other_call(self):
        """All functions in a thread of 64 KB, since only contours and couplings have a thread of their own."""
        def ask():
            answers = {}
            for name in calls():
                function, _, fitting = calls()[name]
                answers[name] = function(*fitting)
            return answers

        large = okubinrafo.read_network(Network([1] * 65536, 256, 256, 1).write())
        rows = [("enter", identity, 0, 0, 0, 7000) for identity in range(1, 50_001)]

        def ask_large():
            book = Book(50_000, 8)
            answers = sum(book.replay(rows)), book.replay([("supply", 1, [100] * 8)])
            return answers, book.load(7, 1).level, large.crossing(1, 0), len(large.write())

        self.assertEqual(self.answers(2, ask), [ask()] * 2)
        self.assertEqual(self.answers(1, ask_large), [ask_large()])


if __name__ == "__main__":
    unittest.main()

"""Tests of the Python package over the library that OKUBINRAFO_LIB names: the rules' numbers, and each refusal."""

import os
import tempfile
import unittest

import okubinrafo
from okubinrafo import Book, Network, Refused, Row

HEADER = "id,type,mtow,kind,time,l1\r\n"
ROWS = "1,G,70000,S,07:00:00,100.00\r\n2,G,70000,S,18:59:59,100.00\r\n3,G,70000,S,12:00:00,\r\n4,H,3000,L,23:00:00,\r\n"
HILL = [40_000] * 4 + [50_000] + [40_000] * 4


class Case(unittest.TestCase):
    def refused(self, number, call, *arguments):
        with self.assertRaises(Refused) as caught:
            call(*arguments)
        self.assertEqual(caught.exception.number, number)
        return caught.exception


class Books(Case):
    def document_book(self):
        book = Book(10, 1)
        book.enter(1, okubinrafo.LARGE, okubinrafo.START, 7 * 3600, 70000)
        book.enter(2, okubinrafo.LARGE, okubinrafo.START, 19 * 3600 - 1, 70000)
        book.enter(3, okubinrafo.LARGE, okubinrafo.START, 12 * 3600, 70000)
        book.enter(4, okubinrafo.HELICOPTER, okubinrafo.LANDING, 23 * 3600, 3000)
        book.supply(1, [10000])
        book.supply(2, [10000])
        return book

    def test_the_documents_load(self):
        load = self.document_book().load(0, 1)
        self.assertEqual((load.total, load.level), (4 * 10**10, 5666))
        self.assertEqual((load.computed[0], load.missing[0], load.missing[17]), (2, 1, 1))
        self.assertTrue(self.document_book().verdict(0, 1, 5665))
        self.assertFalse(self.document_book().verdict(0, 1, 5666))

    def test_an_empty_book_is_below_zero(self):
        self.assertEqual(Book(1, 8).load(7, 366), (0, None, (0,) * 18, (0,) * 18))

    def test_refusals(self):
        book = self.document_book()
        before = list(book.rows())
        self.refused(1, book.enter, 5, 1, 0, 0, 6000)
        self.refused(2, book.enter, 5, 0, 0, 0, 150)
        self.refused(3, book.enter, 100000, 0, 0, 0, 7000)
        self.refused(4, book.enter, 1, 0, 0, 0, 7000)
        self.refused(5, book.withdraw, 9)
        self.refused(7, book.supply, 1, [1, 2])
        self.refused(7, book.supply, 1, [])
        self.refused(8, book.take_back, 3)
        self.refused(9, book.load, 1, 1)
        self.refused(11, book.load, 0, 367)
        self.refused(15, book.verdict, 0, 1, 12001)
        self.refused(9, Book(1, 9).load, 0, 1)
        self.refused(9, Book(50_001, 1).load, 0, 1)
        self.assertEqual(list(book.rows()), before)
        full = Book(1, 1)
        full.enter(7, 0, 0, 0, 7000)
        self.refused(6, full.enter, 8, 0, 0, 0, 7000)
        self.assertIn("no unused row", str(self.refused(6, full.enter, 8, 0, 0, 0, 7000)))
        self.assertIn("none of them has levels", self.refused(10, full.load, 0, 1).sentence)

    def test_calls_one_by_one(self):
        book = Book(3, 2)
        book.enter(9, 1, 1, 0, 200)
        book.enter(4, 0, 0, 25200, 200)
        book.supply(9, [0, 12000])
        everywhere = (True, True)
        self.assertEqual(list(book.rows()), [(4, 0, everywhere, None), (9, 11, everywhere, (0, 12000))])
        book.take_back(9)
        book.withdraw(4)
        self.assertEqual(list(book.rows()), [(9, 11, everywhere, None)])

    def test_numbers_that_the_library_cannot_take(self):
        for wrong in (-1, 2**32):
            with self.assertRaises(ValueError):
                Book(1, 1).withdraw(wrong)
            with self.assertRaises(ValueError):
                Book(1, 1).supply(1, [wrong])

    def test_sentences(self):
        sentences = [okubinrafo.sentence(number) for number in range(1, 20)]
        self.assertEqual(len({sentence for sentence in sentences if sentence}), 19)
        self.assertEqual([okubinrafo.sentence(number) for number in (0, 20, 2**32 - 1)], ["", "", ""])
        refused = self.refused(3, Book(1, 1).withdraw, 0)
        self.assertEqual(refused.sentence, "the identity is not from 1 to 99,999")
        self.assertEqual(str(refused), "refused (3): the identity is not from 1 to 99,999")
        self.assertEqual(str(Refused(4, 17)), "refused (4, line 17): the identity already stands")

    def test_replay(self):
        book = Book(2, 1)
        entered, too_light = ("enter", 5, 0, 0, 0, 7000), ("enter", 5, 0, 0, 0, 1)
        supplied, withdrawn = ("supply", 5, [300]), ("withdraw", 5)
        calls = [entered, supplied, ("take_back", 6), withdrawn, too_light, ("enter", 8, 2, 0, 0, 7000)]
        self.assertEqual(book.replay(calls), [0, 0, 5, 0, 2, 0])
        self.assertEqual(list(book.rows()), [(8, 14, (True,), None)])
        self.assertEqual(book.replay([]), [])
        self.assertEqual(Book(50_000, 8).replay([("enter", 99_999, 0, 0, 0, 151)]), [0])


class Registers(Case):
    def read(self, text, rows=10):
        book = Book(rows, 1)
        with tempfile.TemporaryDirectory() as folder:
            path = os.path.join(folder, "register.csv")
            with open(path, "wb") as file:
                file.write(text.encode())
            try:
                return book, book.read_register(path)
            except Refused:
                self.assertEqual(list(book.rows()), [], "a refused register leaves the book as it was")
                raise

    def refused_at(self, number, line, text, rows=10):
        caught = self.refused(number, self.read, text, rows)
        self.assertEqual(caught.line, line)

    def test_the_documents_register(self):
        book, entered = self.read(HEADER + ROWS)
        self.assertEqual(entered, 4)
        self.assertEqual(book.load(0, 1).level, 5666)

    def test_rows_are_judged_in_the_reports_order(self):
        row = "7,G,70000,S,07:00:00,1.00\r\n"
        self.assertEqual(self.read(HEADER + "0,G,150,S,07:00:00,999.99")[1], 0)
        book, _ = self.read(HEADER + row + "7,G,100,S,07:00:00,2.00\r\n")
        self.assertEqual(list(book.rows()), [(7, 0, (True,), (100,))])
        self.refused_at(16, 1, "")
        self.refused_at(16, 1, HEADER.replace("\r", "") + row)
        self.refused_at(16, 3, HEADER + row + "\r\n")
        self.refused_at(16, 2, HEADER + row.replace("\r", "") + row)
        self.refused_at(4, 3, HEADER + row + "7,G,70000,S,07:00:00,999.99\r\nx")
        self.refused_at(7, 2, HEADER + "7,G,70000,S,07:00:00,120.01")
        self.refused_at(3, 2, HEADER + "0,G,70000,S,07:00:00,120.01")
        self.refused_at(1, 2, HEADER + "0,K,6000,S,07:00:00,")
        self.refused_at(6, 3, HEADER + row + row.replace("7,G", "8,G"), rows=1)

    def test_many_rows(self):
        rows = "".join(f"{identity},G,70000,S,07:00:00,60.00\r\n" for identity in range(1, 5001))
        book, entered = self.read(HEADER + rows, rows=5000)
        self.assertEqual((entered, book.load(0, 1).total), (5000, 5000 * 10**6))

    def test_rows_alone(self):
        line = b"4,H,3000,L,23:00:00,\r\n"
        self.assertEqual(okubinrafo.read_row(line, 1), Row(4, 2, 3000, 1, 82800, None))
        self.assertEqual(okubinrafo.write_row(Row(4, 2, 3000, 1, 82800, None), 1), line)
        longest = b"99999,G,1000000,S,07:00:00" + b",100.00" * 8 + b"\r\n"
        self.assertEqual(okubinrafo.write_row(okubinrafo.read_row(longest, 8), 8), longest)
        self.refused(16, okubinrafo.read_row, b"", 1)
        self.refused(16, okubinrafo.read_row, line, 9)
        self.refused(9, okubinrafo.write_row, Row(4, 2, 3000, 1, 82800, None), 9)


class Networks(Case):
    def test_the_documents_hill(self):
        hill = Network(HILL, 3, 3, 100)
        self.assertEqual(hill.contours(45_000), [((2, 7, 3, 10), True)])
        text = "MULTILINESTRING ((50.000 100.000, 100.000 50.000, 150.000 100.000, 100.000 150.000, 50.000 100.000))"
        self.assertEqual(hill.print_contours(45_000), text)
        line = [(50.0, 100.0), (100.0, 50.0), (150.0, 100.0), (100.0, 150.0), (50.0, 100.0)]
        self.assertEqual(hill.lines(45_000), [line])
        self.assertEqual(hill.print_contours(40_000), "MULTILINESTRING EMPTY")
        self.assertEqual((hill.contours(40_000), hill.lines(40_000)), ([], []))

    def test_crossings(self):
        hill = Network(HILL, 3, 3, 100, 1000, 2000)
        self.assertEqual(hill.crossing(45_000, 2), ("horizontal", 0.5))
        self.assertEqual(hill.crossing(40_001, 10), ("vertical", 0.9999))
        self.assertIsNone(hill.crossing(45_000, 0))
        self.assertEqual(hill.map_point(45_000, 10), (1100.0, 2150.0))
        self.assertIsNone(hill.map_point(45_000, 99))
        self.assertEqual(hill.map_points(45_000, [2, 0, 10, 99]), [(1050.0, 2100.0), None, (1100.0, 2150.0), None])
        self.assertEqual(hill.map_points(45_000, []), [])

    def test_the_longest_text_has_room(self):
        board = Network([150_000 * ((i + i // 256) % 2) for i in range(256 * 256)], 256, 256, 500, 900000, 900000)
        self.assertEqual(sum(len(contour.edges) for contour in board.contours(75_001)), 2 * 256 * 255)
        self.assertTrue(board.print_contours(75_001).endswith("))"))
        self.assertTrue(board.print_contours(75_000).startswith("MULTILINESTRING (("))
        for columns, rows in ((256, 256), (2, 256)):
            loud = Network([150_000] * (columns * rows), columns, rows, 500, 900000, 900000)
            self.assertEqual(list(okubinrafo.read_network(loud.write()).levels), list(loud.levels))

    def test_texts(self):
        header = b"ncols 2\r\nnrows 3\r\nxllcenter 5\r\nyllcenter 6\r\ncellsize 100\r\n"
        text = header + b"1.000 2.000\r\n0.000 0.001\r\n5.010 150.000\r\n"
        network = okubinrafo.read_network(text)
        self.assertEqual(list(network.levels), [5_010, 150_000, 0, 1, 1_000, 2_000])
        self.assertEqual((network.columns, network.rows, network.spacing), (2, 3, 100))
        self.assertEqual((network.west, network.south), (5, 6))
        self.assertEqual(network.write(), text)
        mixed = text.replace(b"2.000", b"2.00").replace(b"5.010", b"5.01")
        self.assertEqual(okubinrafo.read_network(mixed).write(), text)
        self.refused(17, okubinrafo.read_network, b"")
        self.refused(17, okubinrafo.read_network, text.replace(b"\r", b""))
        self.refused(12, okubinrafo.read_network, text.replace(b"nrows 3", b"nrows 2"))
        for value, number in ((b"-9999", 13), (b"150.001", 13), (b"2", 17), (b"2.0", 17), (b"2.0000", 17)):
            self.refused(number, okubinrafo.read_network, text.replace(b"2.000", value))

    def test_no_data_is_what_is_spelled_alike(self):
        header = b"ncols 2\r\nnrows 2\r\nxllcenter 5\r\nyllcenter 6\r\ncellsize 1\r\n"
        text = header + b"NODATA_value %b\r\n%b 1.00\r\n1.00 2.00"
        for spelling, value in ((b"0.00", b"0.000"), (b"0.000", b"0.00"), (b"-999.999", b"0.00"), (b"0", b"0.000")):
            self.assertEqual(list(okubinrafo.read_network(text % (spelling, value)).levels), [1000, 2000, 0, 1000])
        for spelling in (b"0.00", b"0.000", b"-0.001", b"7"):
            self.refused(13, okubinrafo.read_network, text % (spelling, spelling))
        self.refused(17, okubinrafo.read_network, text % (b"-1.0000", b"0.00"))

    def test_refusals(self):
        self.refused(12, Network(HILL, 3, 3, 0).contours, 45_000)
        self.refused(12, Network([], 2**31, 2, 1).print_contours, 45_000)
        self.refused(13, Network([150_001] * 9, 3, 3, 1).map_point, 45_000, 0)
        for call in ("contours", "print_contours", "lines"):
            self.refused(15, getattr(Network(HILL, 3, 3, 1), call), 0)
            self.refused(15, getattr(Network(HILL, 3, 3, 1), call), 150_001)
            self.refused(13, getattr(Network([150_001] * 9, 3, 3, 1), call), 150_000)
        self.assertEqual(Network([150_000] * 8 + [0], 3, 3, 1).contours(150_000), [((11, 5), False)])
        self.refused(15, Network(HILL, 3, 3, 1).crossing, 0, 0)
        self.assertIn("150.000", okubinrafo.sentence(13))
        self.assertIn("0.001 to 150.000", okubinrafo.sentence(15))
        self.refused(12, Network(HILL, 3, 2, 1).write)


if __name__ == "__main__":
    unittest.main()

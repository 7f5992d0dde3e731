"""Movements that count at some points: where they are entered, supplied and withdrawn, and the loads at each point."""

import io
import unittest

import okubinrafo
from okubinrafo import Book, Refused
from test_okubinrafo import Case

AIRCRAFT = (okubinrafo.LARGE, okubinrafo.START, 12 * 3600, 70_000)
LOUD = 10_000  # 100.00 dB, which is an energy of 10**10 by day


def answers(book, point):
    """What a book says of a point."""
    return book.load(point, 1), book.account(point, 1), book.verdict(point, 1, 5_000)


class Calls(Case):
    def test_where_a_movement_counts(self):
        book = Book(4, 3)
        book.enter(4, *AIRCRAFT)
        book.enter(2, *AIRCRAFT, counts=[True, False, True])
        book.enter(3, *AIRCRAFT, (0, 0, 1))
        book.enter(1, *AIRCRAFT, counts=None)
        counts = {identity: held for identity, _, held, _ in book.rows()}
        everywhere = (True, True, True)
        self.assertEqual(counts, {1: everywhere, 2: (True, False, True), 3: (False, False, True), 4: everywhere})

    def test_a_row_goes_with_its_yes_and_no(self):
        book = Book(3, 2)
        book.enter(5, *AIRCRAFT, [1, 0])
        book.enter(7, *AIRCRAFT, [0, 1])
        book.supply(7, [0, LOUD])
        book.withdraw(5)
        self.assertEqual(list(book.rows()), [(7, 0, (False, True), (0, LOUD))])
        book.enter(5, *AIRCRAFT, [0, 0])
        book.take_back(7)
        self.assertEqual(list(book.rows()), [(5, 0, (False, False), None), (7, 0, (False, True), None)])
        book.withdraw(5)
        book.withdraw(7)
        book.enter(9, *AIRCRAFT)
        self.assertEqual(list(book.rows()), [(9, 0, (True, True), None)])

    def test_not_one_yes_or_no_a_point(self):
        book = Book(3, 2)
        book.enter(5, *AIRCRAFT, [1, 0])
        before = list(book.rows())
        for wrong in ([], [1], [1, 0, 1], [1] * 8, [2, 0], [0, 2**32 - 1], (1, 1, 2)):
            with self.subTest(counts=wrong):
                self.assertIn("yes or no", self.refused(9, book.enter, 6, *AIRCRAFT, wrong).sentence)
                self.assertEqual(book.replay([("enter", 6, *AIRCRAFT, wrong)]), [9])
        self.refused(9, book.enter, 0, 9, 9, 0, 0, [1])  # before 1, 2, 3
        self.refused(1, book.enter, 0, 9, 9, 0, 0, [1, 1])
        self.refused(4, book.enter, 5, *AIRCRAFT, [1, 1])
        self.assertEqual(list(book.rows()), before)

    def test_a_level_where_a_movement_does_not_count(self):
        book = Book(3, 2)
        book.enter(5, *AIRCRAFT, [1, 0])
        self.assertIn("does not count", self.refused(19, book.supply, 5, [LOUD, 1]).sentence)
        self.refused(19, book.supply, 5, [0, 12_000])
        self.refused(7, book.supply, 5, [0, 12_001])
        self.refused(7, book.supply, 5, [0, 1, 1])
        self.refused(5, book.supply, 6, [LOUD, 1])
        self.refused(3, book.supply, 0, [LOUD, 1])
        self.assertEqual(list(book.rows()), [(5, 0, (True, False), None)])
        book.supply(5, [12_000, 0])
        self.refused(19, book.supply, 5, [0, 1])
        self.assertEqual(list(book.rows()), [(5, 0, (True, False), (12_000, 0))])

    def test_a_journal_is_its_calls_one_by_one(self):
        enters = [("enter", 5, *AIRCRAFT), ("enter", 6, *AIRCRAFT, [False, True]), ("enter", 7, *AIRCRAFT, None)]
        later = [("supply", 6, [1, LOUD]), ("supply", 6, [0, LOUD]), ("enter", 8, *AIRCRAFT, [1]), ("withdraw", 5)]
        book, other = Book(5, 2), Book(5, 2)
        self.assertEqual(book.replay(enters + later), [0, 0, 0, 19, 0, 9, 0])
        for name, *given in enters + later:
            try:
                getattr(other, name)(*given)
            except Refused:
                pass
        everywhere = (True, True)
        self.assertEqual(list(book.rows()), [(6, 0, (False, True), (0, LOUD)), (7, 0, everywhere, None)])
        self.assertEqual(list(other.rows()), list(book.rows()))

    def test_registers_count_everywhere(self):
        book = Book(3, 2)
        rows = b"1,G,70000,S,07:00:00,100.00,0.00\r\n2,G,70000,S,07:00:00,,\r\n"
        self.assertEqual(book.read_register(io.BytesIO(b"id,type,mtow,kind,time,l1,l2\r\n" + rows)), 2)
        self.assertEqual(list(book.rows()), [(1, 0, (True, True), (LOUD, 0)), (2, 0, (True, True), None)])

    def test_wrong_types(self):
        book = Book(1, 2)
        for wrong in ("11", b"11", 1, True, 1.0, [1.0, 1.0], [None, 1], ["1", "0"], object()):
            with self.subTest(counts=wrong), self.assertRaises(TypeError):
                book.enter(5, *AIRCRAFT, wrong)
        with self.assertRaises(ValueError):
            book.enter(5, *AIRCRAFT, [1, -1])
        self.assertEqual(list(book.rows()), [])


class Loads(Case):
    def test_a_load_is_of_those_that_count_there(self):
        book = Book(5, 3)
        book.enter(1, *AIRCRAFT)
        book.enter(2, *AIRCRAFT, [False, True, True])
        book.enter(3, *AIRCRAFT, [True, False, True])
        book.enter(4, okubinrafo.HELICOPTER, okubinrafo.LANDING, 0, 3_000, [False, False, True])
        book.supply(1, [LOUD, LOUD, LOUD])
        book.supply(2, [0, LOUD, LOUD])
        loads = [book.load(point, 1) for point in range(3)]
        self.assertEqual([load.computed[0] for load in loads], [1, 2, 2])
        self.assertEqual([load.missing[0] for load in loads], [1, 0, 1])
        self.assertEqual([load.missing[17] for load in loads], [0, 0, 1])
        self.assertEqual([load.total for load in loads], [2 * 10**10, 2 * 10**10, 4 * 10**10])
        self.assertEqual([book.account(point, 1).factor for point in range(3)], [(2, 2), (2, 2), (4, 3)])
        self.assertEqual([load.level for load in loads][2], 5666)
        self.assertEqual([book.verdict(point, 1, 5_500) for point in range(3)], [False, False, True])

    def test_where_it_does_not_count_it_changes_nothing(self):
        book = Book(3, 2)
        book.enter(5, *AIRCRAFT)
        book.supply(5, [LOUD, 9_000])
        before, elsewhere = answers(book, 0), answers(book, 1)
        for call, *given in (
            (book.enter, 4, okubinrafo.HELICOPTER, okubinrafo.START, 0, 3_000, [0, 1]),
            (book.supply, 4, [0, LOUD]),
            (book.take_back, 4),
        ):
            call(*given)
            self.assertEqual(answers(book, 0), before)
            self.assertNotEqual(answers(book, 1), elsewhere)
        book.withdraw(4)
        self.assertEqual((answers(book, 0), answers(book, 1)), (before, elsewhere))

    def test_a_movement_may_count_nowhere(self):
        book = Book(2, 2)
        empty = [answers(book, point) for point in range(2)]
        book.enter(5, *AIRCRAFT, [0, 0])
        self.assertEqual([answers(book, point) for point in range(2)], empty)
        self.refused(19, book.supply, 5, [0, 1])
        book.supply(5, [0, 0])
        self.assertEqual(list(book.rows()), [(5, 0, (False, False), (0, 0))])
        self.assertEqual([answers(book, point) for point in range(2)], empty)

    def test_none_computed_is_judged_at_the_point(self):
        book = Book(3, 3)
        book.enter(5, *AIRCRAFT, [1, 0, 0])
        book.enter(6, *AIRCRAFT, [0, 1, 0])
        book.supply(5, [LOUD, 0, 0])
        self.assertEqual(book.load(0, 1).total, 10**10)
        for call, *given in ((book.load, 1, 1), (book.account, 1, 1), (book.verdict, 1, 1, 5_000)):
            self.assertIn("movements count at the point", self.refused(10, call, *given).sentence)
        self.assertEqual((book.load(2, 1).total, book.load(2, 1).level, book.verdict(2, 1, 0)), (0, None, False))
        self.assertIsNone(book.account(2, 1).factor)

    def test_counts_everywhere_are_counts_of_ones(self):
        book, other = Book(4, 2), Book(4, 2)
        for identity, levels in ((1, [LOUD, 9_000]), (2, [5_000, 0]), (3, None)):
            book.enter(identity, *AIRCRAFT)
            other.enter(identity, *AIRCRAFT, [1, 1])
            if levels:
                book.supply(identity, levels)
                other.supply(identity, levels)
        self.assertEqual(list(book.rows()), list(other.rows()))
        self.assertEqual([answers(book, point) for point in range(2)], [answers(other, point) for point in range(2)])


if __name__ == "__main__":
    unittest.main()

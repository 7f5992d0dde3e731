//! From energy to level, on both edges of every level under 30.00 and of many above it, and about each power of ten.

use crate::compared::{account, load, verdict, Book};
use crate::library::Library;
use crate::rounds::{directed, Telling};
use reference::book::Columns;
use reference::calls::{ACCOUNT_NUMBERS, LOAD_NUMBERS};
use reference::level::table_b;

const DAY: u32 = 0;
const EVENING: u32 = 1;
const NIGHT: u32 = 2;

/// A book of computed movements, each by its group and level.
fn a_book(movements: &[(u32, u32)]) -> Book {
    let mut book = Columns::new(movements.len().max(1), 1);
    for (row, &(group, level)) in movements.iter().enumerate() {
        book.identities[row] = row as u32 + 1;
        book.groups[row] = group;
        book.marks[row] = 1;
        book.levels[row] = level;
    }
    book.everywhere()
}

/// A book with this total: movements by day with energies of 1, 10, 100 and so on to 10^12, and of 10^13 at night.
fn a_book_of(total: u64) -> Book {
    let mut movements = Vec::new();
    let mut rest = total;
    for tens in (0..=13).rev() {
        let (energy, movement) = (10u64.pow(tens), if tens == 13 { (NIGHT, 12_000) } else { (DAY, 1_000 * tens) });
        movements.extend((0..rest / energy).map(|_| movement));
        rest %= energy;
    }
    a_book(&movements)
}

/// The least total whose M is this.
fn total_of(mean: u64, days: u32) -> u64 {
    (u128::from(mean) * 86_400 * u128::from(days)).div_ceil(1_000) as u64
}

/// The largest M of level n.
fn most_of(n: usize) -> u64 {
    table_b()[n % 1_000] * 10u64.pow(n as u32 / 1_000) / 1_000
}

/// Total and level of a book, which both sides agree on.
fn loaded(library: &Library, book: &Book, days: u32) -> (u64, Option<u64>) {
    let (answer, numbers) = load(library, book, 0, days, &[0; LOAD_NUMBERS]);
    assert_eq!(answer, 0, "the book has a load");
    (numbers[0], (numbers[1] == 1).then_some(numbers[2]))
}

#[test]
fn both_edges_of_a_level() {
    const TELLING: Telling =
        &[("load", 6_000, &["0", "under 30.00"]), ("load", 1, &["below zero"]), ("verdict", 6_000, &["0"])];
    directed("both_edges_of_a_level", TELLING, || {
        let library = Library::from_environment();
        assert_eq!(loaded(&library, &a_book_of(total_of(999, 1)), 1).1, None, "M of 999 is below zero");
        assert_eq!(loaded(&library, &a_book_of(total_of(1_000, 1)), 1).1, Some(0), "M of 1,000 is 0.00");
        for n in (0..3_000).chain((3_000..10_000).step_by(41)) {
            let days = if n < 3_000 { 1 + n as u32 % 366 } else { 1 };
            let most = most_of(n);
            for (mean, expected) in [(most, n as u64), (most + 1, n as u64 + 1)] {
                let (total, book) = (total_of(mean, days), a_book_of(total_of(mean, days)));
                assert_eq!(loaded(&library, &book, days), (total, Some(expected)), "M of {mean} over {days} days");
            }
            let limit = n as u32;
            verdict(&library, &a_book_of(total_of(most, days)), 0, days, limit, &[7]);
            verdict(&library, &a_book_of(total_of(most + 1, days)), 0, days, limit, &[7]);
        }
    });
}

/// About 10^(q+3) of each decade q that a book can reach: from it, and but for q = 0 just under it, the level is 1000q.
#[test]
fn both_ends_of_a_decade() {
    directed("both_ends_of_a_decade", &[("load", 13 * 3 + 12 * 3, &["0"])], || {
        let library = Library::from_environment();
        let agrees = |mean: u64, expected: usize| {
            let level = loaded(&library, &a_book_of(total_of(mean, 1)), 1).1;
            assert_eq!(level, Some(expected as u64), "M of {mean}");
        };
        for q in 0..=12 {
            let (power, first) = (10u64.pow(q + 3), 1_000 * q as usize);
            agrees(power, first);
            agrees(most_of(first), first);
            agrees(most_of(first) + 1, first + 1);
            if 0 < first {
                agrees(power - 1, first);
                agrees(most_of(first - 1) + 1, first);
                agrees(most_of(first - 1), first - 1);
            }
        }
    });
}

/// The energies that the rules work by hand, by day, in the evening and at night.
#[test]
fn worked_energies() {
    directed("worked_energies", &[("load", 12, &["0"])], || {
        let library = Library::from_environment();
        for (group, level, energy) in [
            (DAY, 0, 1),
            (DAY, 500, 3),
            (DAY, 3_500, 3_162),
            (DAY, 6_500, 3_162_277),
            (DAY, 7_500, 31_622_770),
            (EVENING, 0, 3),
            (EVENING, 3_000, 3_162),
            (EVENING, 6_000, 3_162_277),
            (NIGHT, 2_500, 3_162),
            (NIGHT, 5_500, 3_162_277),
            (NIGHT, 6_500, 31_622_770),
            (NIGHT, 12_000, 10u64.pow(13)),
        ] {
            for aircraft_and_kind in 0..6 {
                let book = a_book(&[(3 * aircraft_and_kind + group, level)]);
                assert_eq!(loaded(&library, &book, 1).0, energy, "group {group}, level {level}");
            }
        }
    });
}

/// The rules's file, and the same without its W: the level goes by the whole total.
#[test]
fn movements_of_groups_without_levels() {
    directed("movements_of_groups_without_levels", &[("load", 2, &["0"])], || {
        let library = Library::from_environment();
        let mut book = a_book(&[(DAY, 10_000), (DAY, 10_000), (DAY, 0), (17, 0)]);
        book.marks[2..].fill(0);
        assert_eq!(loaded(&library, &book, 1), (40_000_000_000, Some(5_666)));
        book.identities[3] = 0;
        book.groups[3] = 0;
        book.counts[3] = 0;
        assert_eq!(loaded(&library, &book, 1), (30_000_000_000, Some(5_541)));
    });
}

/// The account of the rules' file: group 0 has V 2 and U 1, group 17 U 1, and room past the numbers is kept.
#[test]
fn account_of_the_rules_file() {
    directed("account_of_the_rules_file", &[("account", 1, &["0"])], || {
        let library = Library::from_environment();
        let mut book = a_book(&[(DAY, 10_000), (DAY, 10_000), (DAY, 0), (17, 0)]);
        book.marks[2..].fill(0);
        let mut expected = [0; ACCOUNT_NUMBERS + 1];
        expected[..4].copy_from_slice(&[2, 1, 20_000_000_000, 30_000_000_000]);
        expected[4 * 17 + 1] = 1;
        expected[72..].copy_from_slice(&[4, 3, 30_000_000_000, 40_000_000_000, 1, 5_666, 9]);
        assert_eq!(account(&library, &book, 0, 1, &[9; ACCOUNT_NUMBERS + 1]), (0, expected.to_vec()));
    });
}

//! Random calls on random books, sound and unsound. Here every movement counts at every point; `points` has the others.

use crate::compared::{account, change, compared_rounds, load, verdict, Book, Change};
use crate::drawn_books::{a_book, identity, mass, spell, spoil, time, Counting};
use crate::library::Library;
use crate::random::Random;
use crate::rounds::Telling;
use reference::book::Columns;
use reference::calls::{ACCOUNT_NUMBERS, LOAD_NUMBERS};
use reference::movement::Movement;

/// A load, its account and a verdict, the limit about the level where there is one.
pub fn ask(library: &Library, random: &mut Random, book: &Book) {
    let point = random.about(book.points.clamp(1, 8) - 1);
    let days = random.about(366);
    let more = if random.once_in(4) { random.pick(&[-100, -1, 2]) } else { 0 };
    let room = |numbers: usize| numbers.saturating_add_signed(more);
    let (answer, numbers) = load(library, book, point, days, &vec![3; room(LOAD_NUMBERS)]);
    account(library, book, point, days, &vec![4; room(ACCOUNT_NUMBERS)]);
    let level = if answer == 0 { numbers[2] as u32 } else { 5_000 };
    let limit = random.pick(&[level, level, level.saturating_sub(1), level + 1, 0, 12_000, 12_001, u32::MAX]);
    verdict(library, book, point, days, limit, &vec![9; random.pick(&[0, 1, 1, 1, 1, 2])]);
}

#[test]
fn sequences_of_calls() {
    const TELLING: Telling = &[
        ("enter", 1, &["0", "1", "2", "3", "4", "6"]),
        ("supply", 1, &["0", "3", "5", "7"]),
        ("take_back", 1, &["0", "3", "5", "8"]),
        ("withdraw", 1, &["0", "3", "5"]),
        ("replay", 1, &["0", "14", "16"]),
        ("load", 1, &["0", "9", "10", "11", "14"]),
        ("account", 1, &["0", "9", "10", "11", "14"]),
        ("verdict", 1, &["0", "9", "10", "11", "14", "15"]),
    ];
    compared_rounds("sequences_of_calls", 4_000, TELLING, |library, random| {
        let (rows, points) = (random.within(1, 14) as usize, random.within(1, 8));
        let mut book = Columns::new(rows, points);
        for _ in 0..random.within(1, 60) {
            let made = Counting::Everywhere.a_change(random, points, rows as u32 + 3);
            change(library, &mut book, &made);
            ask(library, random, &book);
        }
    });
}

#[test]
fn unsound_books() {
    const TELLING: Telling = &[
        ("enter", 1, &["0", "9"]),
        ("supply", 1, &["0", "9"]),
        ("take_back", 1, &["0", "9"]),
        ("withdraw", 1, &["0", "9"]),
        ("replay", 1, &["0", "9", "14", "16"]),
        ("load", 1, &["0", "9"]),
        ("account", 1, &["0", "9"]),
        ("verdict", 1, &["0", "9"]),
    ];
    compared_rounds("unsound_books", 20_000, TELLING, |library, random| {
        let (rows, points) = (random.within(0, 6), random.within(1, 8));
        let standing = random.within(0, rows) as usize;
        let mut book = a_book(random, rows as usize, standing, points, 12_000);
        spoil(random, &mut book);
        let made = Counting::Everywhere.a_change(random, points, rows + 3);
        change(library, &mut book, &made);
        ask(library, random, &book);
    });
}

#[test]
fn loads_of_all_sizes() {
    const TELLING: Telling = &[
        ("load", 50, &["0", "9", "10", "11", "14", "below zero", "under 30.00"]),
        ("account", 50, &["0", "9", "10", "11", "14"]),
        ("verdict", 50, &["0", "9", "10", "11", "14", "15"]),
    ];
    compared_rounds("loads_of_all_sizes", 3_000, TELLING, |library, random| {
        let rows = random.pick(&[1, 2, 30, 300]);
        let (standing, points) = (random.within(0, rows) as usize, random.within(1, 8));
        let highest = random.pick(&[1, 300, 6_000, 12_000]);
        let book = a_book(random, rows as usize, standing, points, highest);
        for _ in 0..3 {
            ask(library, random, &book);
        }
    });
}

/// All movements in one group at one level: the edges of every step from energy to level.
#[test]
fn every_level_by_itself() {
    const TELLING: Telling = &[("load", 100, &["0", "below zero", "under 30.00"]), ("verdict", 100, &["0"])];
    compared_rounds("every_level_by_itself", 120, TELLING, |library, random| {
        for _ in 0..100 {
            let mut book = Columns::new(1, 1);
            book.identities[0] = 1;
            book.groups[0] = random.within(0, 17);
            book.marks[0] = 1;
            book.counts[0] = 1;
            book.levels[0] = random.within(0, 12_000);
            let days = random.within(1, 366);
            let (_, numbers) = load(library, &book, 0, days, &[0; LOAD_NUMBERS]);
            for limit in [numbers[2] as u32, (numbers[2] as u32).saturating_sub(1)] {
                verdict(library, &book, 0, days, limit, &[5]);
            }
        }
    });
}

/// Calls on a large book, at least two of which move its rows.
pub fn change_large(library: &Library, random: &mut Random, counting: Counting, mut book: Book, standing: usize) {
    for _ in 0..8 {
        let made = counting.a_change(random, book.points, 99_999);
        change(library, &mut book, &made);
    }
    let taken = book.identities[random.within(0, standing as u32 - 1) as usize];
    change(library, &mut book, &Change::Withdraw { identity: taken });
    let movement = Movement { aircraft: 0, kind: 1, time: 0, mass: 7_000 };
    let entered = counting.enter(random, taken, movement, book.points);
    change(library, &mut book, &entered);
    let given = counting.levels(random, taken, book.points);
    change(library, &mut book, &Change::Supply { identity: taken, given });
    ask(library, random, &book);
}

/// Books of up to 50,000 rows, and of one more.
#[test]
fn large_books() {
    const TELLING: Telling = &[("enter", 1, &["0", "9"]), ("withdraw", 1, &["0", "9"]), ("load", 1, &["0", "9"])];
    compared_rounds("large_books", 12, TELLING, |library, random| {
        let rows = random.pick(&[2_000, 20_000, 49_999, 50_000, 50_000, 50_001]);
        let points = random.within(1, 8);
        let standing = random.pick(&[rows, rows - 1, rows / 2]);
        let book = a_book(random, rows, standing, points, 12_000);
        change_large(library, random, Counting::Everywhere, book, standing);
    });
}

/// The largest energies and counts that a book can hold: every product on the way must still fit.
#[test]
fn fullest_books() {
    const TELLING: Telling = &[("load", 1, &["0"]), ("account", 1, &["0"]), ("verdict", 1, &["0"])];
    compared_rounds("fullest_books", 12, TELLING, |library, random| {
        let rows = 50_000;
        let computed = random.pick(&[1, 2, 25_000, 49_999, 50_000]);
        let (own, other) = random.pick(&[(2, 2), (2, 17), (17, 2), (0, 0), (1, 1)]);
        let mut book = Columns::new(rows, 1);
        for row in 0..rows {
            book.identities[row] = row as u32 + 1;
            book.groups[row] = if row < computed { own } else { other };
            book.marks[row] = u32::from(row < computed);
            book.counts[row] = 1;
            book.levels[row] = if row < computed { random.pick(&[12_000, 12_000, 12_000, 11_999]) } else { 0 };
        }
        for days in [1, random.within(2, 366)] {
            let (_, numbers) = load(library, &book, 0, days, &[0; LOAD_NUMBERS]);
            account(library, &book, 0, days, &[0; ACCOUNT_NUMBERS]);
            verdict(library, &book, 0, days, (numbers[2] as u32).min(12_000), &[5]);
        }
    });
}

/// A register as one journal, in rising or in any order of identities, replayed into an empty book.
pub fn replay_register(library: &Library, random: &mut Random, counting: Counting) -> Book {
    let (rows, points) = (random.pick(&[500usize, 3_000]), random.within(1, 8));
    let rising = random.once_in(2);
    let mut journal = Vec::new();
    let mut calls = 0;
    for row in 0..random.within(0, rows as u32 + 5) {
        let identity = if rising { row + 1 } else { identity(random, 99_999) };
        let movement = Movement {
            aircraft: random.within(0, 2),
            kind: random.within(0, 1),
            time: time(random),
            mass: mass(random),
        };
        let entered = counting.enter(random, identity, movement, points);
        spell(&mut journal, &entered);
        let given = counting.levels(random, identity, points);
        spell(&mut journal, &Change::Supply { identity, given });
        calls += 2;
    }
    let mut book = Columns::new(rows, points);
    change(library, &mut book, &Change::Replay { journal, answers: vec![0; calls] });
    ask(library, random, &book);
    book
}

#[test]
fn large_journals() {
    const TELLING: Telling = &[("replay", 1, &["0"])];
    compared_rounds("large_journals", 8, TELLING, |library, random| {
        replay_register(library, random, Counting::Everywhere);
    });
}

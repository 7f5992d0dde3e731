//! Movements, books and loads.

use crate::compared::{account, change, load, verdict, write, Book, Change, Written};
use crate::library::Library;
use crate::rounds::{directed, Telling};
use reference::book::Columns;
use reference::calls::{ACCOUNT_NUMBERS, LOAD_NUMBERS};
use reference::movement::Movement;

/// A book in which identity 1 is computed and 2 isn't; as many of both as there is room for. Both count everywhere.
pub fn a_book(rows: usize, points: u32) -> Book {
    let mut book = Columns::new(rows, points);
    for row in 0..rows.min(2) {
        book.identities[row] = row as u32 + 1;
    }
    if rows > 0 {
        book.marks[0] = 1;
        book.levels[..points as usize].fill(6_000);
    }
    book.everywhere()
}

#[derive(Clone, Copy)]
struct Entered {
    identity: u32,
    aircraft: u32,
    kind: u32,
    time: u32,
    mass: u32,
}

const LARGE: Entered = Entered { identity: 7, aircraft: 0, kind: 0, time: 25_200, mass: 70_000 };

/// Movements about the ends of their ranges, and what *enter* answers.
const MOVEMENTS: [(Entered, u32); 25] = [
    (Entered { aircraft: 2, ..LARGE }, 0),
    (Entered { aircraft: 3, ..LARGE }, 1),
    (Entered { kind: 1, ..LARGE }, 0),
    (Entered { kind: 2, ..LARGE }, 1),
    (Entered { time: 0, ..LARGE }, 0),
    (Entered { time: 25_199, ..LARGE }, 0),
    (Entered { time: 68_399, ..LARGE }, 0),
    (Entered { time: 68_400, ..LARGE }, 0),
    (Entered { time: 82_799, ..LARGE }, 0),
    (Entered { time: 82_800, ..LARGE }, 0),
    (Entered { time: 86_399, ..LARGE }, 0),
    (Entered { time: 86_400, ..LARGE }, 1),
    (Entered { mass: 1_000_000, ..LARGE }, 0),
    (Entered { mass: 1_000_001, ..LARGE }, 1),
    (Entered { aircraft: 1, mass: 5_999, ..LARGE }, 0),
    (Entered { aircraft: 1, mass: 6_000, ..LARGE }, 1),
    (Entered { aircraft: 0, mass: 5_999, ..LARGE }, 0),
    (Entered { aircraft: 2, mass: 6_000, ..LARGE }, 0),
    (Entered { mass: 0, ..LARGE }, 2),
    (Entered { mass: 150, ..LARGE }, 2),
    (Entered { mass: 151, ..LARGE }, 0),
    (Entered { identity: 0, ..LARGE }, 3),
    (Entered { identity: 1, ..LARGE }, 0),
    (Entered { identity: 99_999, ..LARGE }, 0),
    (Entered { identity: 100_000, ..LARGE }, 3),
];

#[test]
fn ranges_of_a_movement() {
    const TELLING: Telling =
        &[("enter", 2, &["0", "1", "2", "3"]), ("replay", 20, &["0"]), ("write_row", 2, &["0", "1", "3"])];
    directed("ranges_of_a_movement", TELLING, || {
        let library = Library::from_environment();
        for (Entered { identity, aircraft, kind, time, mass }, expected) in MOVEMENTS {
            let movement = Movement { aircraft, kind, time, mass };
            let enter = Change::Enter { identity, movement, given: vec![1] };
            let mut book = Columns::new(2, 1);
            assert_eq!(change(&library, &mut book, &enter), expected, "{enter:?}");
            let period = match time {
                25_200..68_400 => 0,
                68_400..82_800 => 1,
                _ => 2,
            };
            if expected == 0 {
                assert_eq!(
                    (book.identities[0], book.groups[0]),
                    (identity, 6 * aircraft + 3 * kind + period),
                    "{enter:?}"
                );
            }
            let journal = vec![1, identity, aircraft, kind, time, mass, 1, 1];
            assert_eq!(change(&library, &mut Columns::new(2, 1), &Change::Replay { journal, answers: vec![99] }), 0);
            // A row is written without 2.
            let written =
                Written::Row { fields: &[identity, aircraft, mass, kind, time, 1], levels: &[6_000], points: 1 };
            let expected = if expected == 2 { 0 } else { expected };
            assert_eq!(write(&library, written, &[b'#'; 86], &[0]).0, expected, "{written:?}");
        }
    });
}

#[test]
fn ranges_of_a_call() {
    const TELLING: Telling = &[
        ("supply", 2, &["0", "3", "5", "7"]),
        ("take_back", 1, &["0", "3", "5", "8"]),
        ("withdraw", 1, &["0", "3", "5"]),
    ];
    directed("ranges_of_a_call", TELLING, || {
        let library = Library::from_environment();
        let mut book = a_book(3, 2);
        (book.identities[2], book.groups[2]) = (99_999, 17);
        let book = book.everywhere();
        let made =
            |made: Change, expected: u32| assert_eq!(change(&library, &mut book.clone(), &made), expected, "{made:?}");
        for (identity, given, expected) in [
            (1, vec![0, 12_000], 0),
            (1, vec![12_001, 0], 7),
            (1, vec![0, 12_001], 7),
            (1, vec![0], 7),
            (1, vec![0; 3], 7),
            (1, vec![], 7),
            (0, vec![0; 2], 3),
            (99_999, vec![0; 2], 0),
            (100_000, vec![0; 2], 3),
            (3, vec![0; 2], 5),
            (99_998, vec![0; 2], 5),
            (3, vec![0; 3], 7),
        ] {
            made(Change::Supply { identity, given }, expected);
        }
        for (identity, taken_back, withdrawn) in
            [(0, 3, 3), (1, 0, 0), (2, 8, 0), (3, 5, 5), (99_999, 8, 0), (100_000, 3, 3)]
        {
            made(Change::TakeBack { identity }, taken_back);
            made(Change::Withdraw { identity }, withdrawn);
        }
    });
}

/// Every call on a book; `refused` where the book has to be refused, and otherwise each is accepted.
pub fn every_call(library: &Library, book: &Book, refused: bool, what: &str) {
    let expected = if refused { 9 } else { 0 };
    let mut more = book.clone();
    let room = book.identities.iter().any(|&identity| identity == 0) || refused;
    let movement = Movement { aircraft: 0, kind: 0, time: 0, mass: 151 };
    let enter = Change::Enter { identity: 99_998, movement, given: vec![1; book.points as usize] };
    assert_eq!(change(library, &mut more, &enter), if room { expected } else { 6 }, "enter, {what}");
    let given = book.counts.iter().take(book.points as usize).map(|&yes| if yes == 0 { 0 } else { 7 }).collect();
    for made in [
        Change::Supply { identity: 1, given },
        Change::TakeBack { identity: 1 },
        Change::Replay { journal: vec![3, 1], answers: vec![99] },
        Change::Withdraw { identity: 1 },
    ] {
        assert_eq!(change(library, &mut book.clone(), &made), expected, "{made:?}, {what}");
    }
    assert_eq!(load(library, book, 0, 1, &[0; LOAD_NUMBERS]).0, expected, "load, {what}");
    assert_eq!(account(library, book, 0, 1, &[0; ACCOUNT_NUMBERS]).0, expected, "account, {what}");
    assert_eq!(verdict(library, book, 0, 1, 5_000, &[0]).0, expected, "verdict, {what}");
}

/// 0 and 9 points, 0 and 50,001 rows, with columns that fit.
#[test]
fn ranges_of_a_books_size() {
    const CALLS: &[&str] = &["0", "9"];
    const TELLING: Telling = &[
        ("enter", 3, CALLS),
        ("supply", 3, CALLS),
        ("take_back", 3, CALLS),
        ("withdraw", 3, CALLS),
        ("replay", 3, CALLS),
        ("load", 3, CALLS),
        ("account", 3, CALLS),
        ("verdict", 3, CALLS),
    ];
    directed("ranges_of_a_books_size", TELLING, || {
        let library = Library::from_environment();
        for points in 0..=9 {
            every_call(&library, &a_book(4, points), !(1..=8).contains(&points), &format!("{points} points"));
        }
        for rows in [0, 1, 2, 50_000, 50_001] {
            for points in [1, 8] {
                every_call(
                    &library,
                    &a_book(rows, points),
                    !(1..=50_000).contains(&rows),
                    &format!("{rows} rows of {points} points"),
                );
            }
        }
        let full = |rows: usize| Columns { identities: (1..=rows as u32).collect(), ..a_book(rows, 1) }.everywhere();
        every_call(&library, &full(50_000), false, "50,000 movements");
        every_call(&library, &full(50_001), true, "50,001 movements");
    });
}

/// One value of a row past its range, and columns that don't fit by one.
#[test]
fn ranges_of_a_books_values() {
    const TELLING: Telling = &[("enter", 4, &["0", "9"]), ("load", 4, &["0", "9"])];
    directed("ranges_of_a_books_values", TELLING, || {
        let library = Library::from_environment();
        type Spoil = fn(&mut Book);
        let cases: [(&str, bool, Spoil); 18] = [
            ("identity 99,999", false, |book| book.identities[1] = 99_999),
            ("identity 100,000", true, |book| book.identities[1] = 100_000),
            ("an identity twice", true, |book| book.identities[1] = 1),
            ("group 17", false, |book| book.groups[1] = 17),
            ("group 18", true, |book| book.groups[1] = 18),
            ("mark 1", false, |book| book.marks[1] = 1),
            ("mark 2", true, |book| book.marks[1] = 2),
            ("level 12,000", false, |book| book.levels[0] = 12_000),
            ("level 12,001", true, |book| book.levels[0] = 12_001),
            ("a level not computed", true, |book| book.levels[3] = 1),
            ("a group in an unused row", true, |book| book.groups[2] = 1),
            ("a mark in an unused row", true, |book| book.marks[3] = 1),
            ("a level in an unused row", true, |book| book.levels[7] = 1),
            ("an unused row between", true, |book| book.identities[..4].copy_from_slice(&[1, 0, 2, 0])),
            ("a group too many", true, |book| book.groups.push(0)),
            ("a mark too many", true, |book| book.marks.push(0)),
            ("a level too many", true, |book| book.levels.push(0)),
            ("a level too few", true, |book| book.levels.truncate(7)),
        ];
        for (what, refused, spoil) in cases {
            let mut book = a_book(4, 2);
            spoil(&mut book);
            every_call(&library, &book, refused, what);
        }
    });
}

#[test]
fn ranges_of_a_load() {
    const TELLING: Telling = &[
        ("load", 2, &["0", "9", "10", "11", "14"]),
        ("account", 2, &["0", "9", "10", "11", "14"]),
        ("verdict", 2, &["0", "9", "10", "11", "14", "15"]),
    ];
    directed("ranges_of_a_load", TELLING, || {
        let library = Library::from_environment();
        for points in [1, 2, 8] {
            let book = a_book(3, points);
            let mut missing = a_book(3, points);
            change(&library, &mut missing, &Change::TakeBack { identity: 1 });
            for (point, days, limit, loaded, judged) in [
                (points - 1, 1, 0, 0, 0),
                (points - 1, 366, 12_000, 0, 0),
                (points, 1, 0, 9, 9),
                (0, 0, 0, 11, 11),
                (0, 367, 0, 11, 11),
                (0, 1, 12_001, 0, 15),
                (points, 0, 12_001, 9, 9),
                (0, 0, 12_001, 11, 11),
            ] {
                let what = format!("point {point}, days {days}, limit {limit}");
                // Where nothing earlier is wrong, 10 is found, and room last.
                let none = |answer: u32| if answer == 0 { 10 } else { answer };
                assert_eq!(load(&library, &missing, point, days, &[]).0, none(loaded), "{what}, missing");
                assert_eq!(account(&library, &missing, point, days, &[]).0, none(loaded), "{what}, missing");
                assert_eq!(verdict(&library, &missing, point, days, limit, &[]).0, none(judged), "{what}, missing");
                assert_eq!(load(&library, &book, point, days, &[0; LOAD_NUMBERS]).0, loaded, "{what}");
                assert_eq!(account(&library, &book, point, days, &[0; ACCOUNT_NUMBERS]).0, loaded, "{what}");
                assert_eq!(verdict(&library, &book, point, days, limit, &[7]).0, judged, "{what}");
            }
            assert_eq!(load(&library, &book, 0, 1, &[0; LOAD_NUMBERS - 1]).0, 14);
            assert_eq!(account(&library, &book, 0, 1, &[0; ACCOUNT_NUMBERS - 1]).0, 14);
            assert_eq!(verdict(&library, &book, 0, 1, 0, &[]).0, 14);
        }
    });
}

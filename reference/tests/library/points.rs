//! Movements that count at some points, at all or at none: random calls, books, loads and journals.

use crate::books::{ask, change_large, replay_register};
use crate::compared::{account, change, compared_rounds, load, verdict, Book, Change};
use crate::drawn_books::{a_book_somewhere, aim, spell, spoil_counting, Counting};
use crate::library::Library;
use crate::random::Random;
use crate::rounds::{saw, Telling};
use reference::book::Columns;
use reference::calls::{ACCOUNT_NUMBERS, LOAD_NUMBERS};
use reference::movement::Movement;

/// What a point answers: the number of load, and the numbers of load, account and verdict.
type Told = (u32, Vec<u64>, Vec<u64>, Vec<u32>);

/// Asks for everything at a point.
fn told(library: &Library, book: &Book, point: u32, days: u32, limit: u32) -> Told {
    let (answer, loaded) = load(library, book, point, days, &[3; LOAD_NUMBERS]);
    let (_, explained) = account(library, book, point, days, &[4; ACCOUNT_NUMBERS]);
    (answer, loaded, explained, verdict(library, book, point, days, limit, &[5]).1)
}

/// Asks for everything at every point, and counts how the points of one book differ.
fn ask_every_point(library: &Library, random: &mut Random, book: &Book) {
    let days = random.within(1, 366);
    let mut points = Vec::new();
    for point in 0..book.points {
        let (answer, loaded) = load(library, book, point, days, &[0; LOAD_NUMBERS]);
        account(library, book, point, days, &[4; ACCOUNT_NUMBERS]);
        let level = loaded[2] as u32;
        let limit = random.pick(&[level, level.saturating_sub(1)]).min(12_000);
        points.push((answer, loaded[0], verdict(library, book, point, days, limit, &[5]).1));
    }
    let any = |answer: u32| points.iter().any(|point| point.0 == answer);
    let totals: Vec<u64> = points.iter().filter(|point| point.0 == 0).map(|point| point.1).collect();
    for (kind, holds) in [
        ("10 at one and not at another", any(0) && any(10)),
        ("0 at one and not at another", totals.contains(&0) && totals.iter().any(|&total| total > 0)),
        ("loads of their own", totals.iter().any(|&total| total > 0 && total != totals[0])),
        ("verdicts of their own", points.iter().any(|point| point.2 != points[0].2)),
    ] {
        if holds {
            saw("points", kind);
        }
    }
}

const WAYS: &[&str] = &["where nobody counts", "where some count", "where all count"];
const DIFFERENT: &[&str] =
    &["10 at one and not at another", "0 at one and not at another", "loads of their own", "verdicts of their own"];

#[test]
fn calls_counting_somewhere() {
    const TELLING: Telling = &[
        ("enter", 200, &["0", "1", "2", "3", "4", "6", "9"]),
        ("supply", 200, &["0", "3", "5", "7", "19"]),
        ("take_back", 200, &["0", "3", "5", "8"]),
        ("withdraw", 200, &["0", "3", "5"]),
        ("replay", 200, &["0", "14", "16"]),
        ("load", 200, &["0", "9", "10", "11", "14"]),
        ("account", 200, &["0", "9", "10", "11", "14"]),
        ("verdict", 200, &["0", "9", "10", "11", "14", "15"]),
        ("load", 1_000, WAYS),
        ("points", 200, DIFFERENT),
    ];
    compared_rounds("calls_counting_somewhere", 2_500, TELLING, |library, random| {
        let (rows, points) = (random.within(1, 14) as usize, random.within(1, 8));
        let counting = Counting::somewhere(random);
        let mut book = Columns::new(rows, points);
        for _ in 0..random.within(1, 60) {
            let made = counting.a_change(random, points, rows as u32 + 3);
            change(library, &mut book, &made);
            ask(library, random, &book);
        }
        ask_every_point(library, random, &book);
    });
}

const SPOILT: &[&str] = &[
    "a number too many",
    "a number too few",
    "a number over 1",
    "yes for no or no for yes",
    "those of another number of points",
    "another number of points, which the levels fit",
    "a level where its row doesn't count",
    "a yes in an unused row",
];

#[test]
fn columns_of_yes_and_no_spoilt() {
    const CALLS: &[&str] = &["0", "9"];
    const TELLING: Telling = &[
        ("enter", 100, CALLS),
        ("supply", 200, CALLS),
        ("take_back", 100, CALLS),
        ("withdraw", 200, CALLS),
        ("replay", 50, CALLS),
        ("load", 500, CALLS),
        ("account", 500, CALLS),
        ("verdict", 500, CALLS),
        ("spoilt", 400, SPOILT),
    ];
    compared_rounds("columns_of_yes_and_no_spoilt", 20_000, TELLING, |library, random| {
        let (rows, points) = (random.within(1, 6), random.within(1, 8));
        let standing = random.within(0, rows) as usize;
        let mut book = a_book_somewhere(random, rows as usize, standing, points, 12_000);
        if random.once_in(3) {
            saw("spoilt", "not at all");
        } else {
            spoil_counting(random, &mut book);
        }
        let mut made = Counting::somewhere(random).a_change(random, points, rows + 3);
        aim(random, &book, &mut made);
        change(library, &mut book, &made);
        ask(library, random, &book);
    });
}

#[test]
fn loads_counting_somewhere() {
    const TELLING: Telling = &[
        ("load", 500, &["0", "10", "below zero", "under 30.00"]),
        ("load", 500, WAYS),
        ("account", 500, &["0", "10"]),
        ("verdict", 500, &["0", "10"]),
        ("points", 200, DIFFERENT),
    ];
    compared_rounds("loads_counting_somewhere", 2_500, TELLING, |library, random| {
        let rows = random.pick(&[2, 10, 30, 300]);
        let (standing, points) = (random.within(1, rows) as usize, random.within(1, 8));
        let highest = random.pick(&[1, 6_000, 12_000, 12_000]);
        let book = a_book_somewhere(random, rows as usize, standing, points, highest);
        ask_every_point(library, random, &book);
    });
}

/// Books of up to 50,000 rows and one more, whose yes and no move with nearly all of them.
#[test]
fn most_rows_counting_somewhere() {
    const TELLING: Telling = &[
        ("enter", 4, &["0", "9"]),
        ("supply", 2, &["0"]),
        ("withdraw", 4, &["0"]),
        ("load", 3, &["0", "where some count"]),
    ];
    compared_rounds("most_rows_counting_somewhere", 10, TELLING, |library, random| {
        let rows = random.pick(&[2_000, 20_000, 50_000, 50_000, 50_001]);
        let points = random.within(1, 8);
        let standing = random.pick(&[rows, rows - 1, rows / 2]);
        let book = a_book_somewhere(random, rows, standing, points, 12_000);
        let counting = Counting::somewhere(random);
        change_large(library, random, counting, book, standing);
    });
}

/// A register with its yes and no as one journal; the loads of the book that it makes.
#[test]
fn journals_of_yes_and_no() {
    const TELLING: Telling = &[("replay", 8, &["0"]), ("load", 10, &["0", "where some count"])];
    compared_rounds("journals_of_yes_and_no", 12, TELLING, |library, random| {
        let counting = Counting::somewhere(random);
        let book = replay_register(library, random, counting);
        ask_every_point(library, random, &book);
    });
}

/// A journal cut after every number is 16 but where a call ends, and then the calls before are made.
#[test]
fn journals_cut_anywhere() {
    const TELLING: Telling = &[("replay", 500, &["0", "14", "16"])];
    compared_rounds("journals_cut_anywhere", 150, TELLING, |library, random| {
        let (rows, points) = (random.within(1, 6) as usize, random.within(1, 8));
        let counting = Counting::somewhere(random);
        let (mut journal, mut ends) = (Vec::new(), vec![0]);
        for _ in 0..random.within(1, 12) {
            spell(&mut journal, &counting.a_change(random, points, rows as u32 + 3));
            ends.extend((journal.len() > ends[ends.len() - 1]).then_some(journal.len()));
        }
        let replayed = |length: usize, room: usize| {
            let cut = Change::Replay { journal: journal[..length].to_vec(), answers: vec![7; room] };
            change(library, &mut Columns::new(rows, points), &cut)
        };
        for length in 0..=journal.len() {
            match ends.iter().position(|&end| end == length) {
                None => assert_eq!(replayed(length, ends.len()), 16, "{length} numbers of {journal:?}"),
                Some(calls) => {
                    for (room, answer) in [(calls, 0), (calls + 2, 0), (calls.saturating_sub(1), 14)] {
                        let expected = if calls == 0 { 0 } else { answer };
                        assert_eq!(replayed(length, room), expected, "room {room}, {length} numbers of {journal:?}");
                    }
                }
            }
        }
    });
}

/// A movement that doesn't count at a point changes nothing there, whether it is entered, gets levels or goes.
#[test]
fn movements_elsewhere_change_nothing() {
    const TELLING: Telling = &[
        ("enter", 1_000, &["0"]),
        ("supply", 1_000, &["0"]),
        ("withdraw", 1_000, &["0"]),
        ("load", 1_000, &["0", "10", "where nobody counts", "where some count"]),
    ];
    compared_rounds("movements_elsewhere_change_nothing", 2_500, TELLING, |library, random| {
        let (rows, points) = (random.within(1, 20), random.within(1, 8));
        let (standing, highest) = (random.within(rows / 2, rows - 1) as usize, random.pick(&[300, 9_000, 12_000]));
        let mut book = a_book_somewhere(random, rows as usize, standing, points, highest);
        let (point, days, limit) = (random.within(0, points - 1), random.within(1, 366), random.within(0, 6_000));
        let before = told(library, &book, point, days, limit);
        let identity = (1..=100).find(|identity| !book.identities.contains(identity)).expect("one is free");
        let elsewhere = |at: u32, number: u32| if at == point { 0 } else { number };
        let given: Vec<u32> = (0..points).map(|at| elsewhere(at, random.within(0, 1))).collect();
        let levels: Vec<u32> = given.iter().map(|&yes| yes * random.within(0, 12_000)).collect();
        let movement = Movement {
            aircraft: random.within(0, 2),
            kind: random.within(0, 1),
            time: random.within(0, 86_399),
            mass: random.within(151, 5_999),
        };
        for made in [
            Change::Enter { identity, movement, given },
            Change::Supply { identity, given: levels },
            Change::TakeBack { identity },
            Change::Withdraw { identity },
        ] {
            assert_eq!(change(library, &mut book, &made), 0, "{made:?} on {book:?}");
            assert_eq!(told(library, &book, point, days, limit), before, "{made:?}, at {point}");
        }
    });
}

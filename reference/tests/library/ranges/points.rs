//! Yes and no, one a point: what *enter* and the column take, where levels may be, and how rows keep them.

use super::books::{a_book, every_call};
use crate::compared::{change, load, Book, Change};
use crate::drawn_books::spell;
use crate::library::Library;
use crate::rounds::{directed, Telling};
use reference::book::Columns;
use reference::calls::LOAD_NUMBERS;
use reference::movement::Movement;

const LARGE: Movement = Movement { aircraft: 0, kind: 0, time: 25_200, mass: 70_000 };

fn enter(identity: u32, movement: Movement, given: &[u32]) -> Change {
    Change::Enter { identity, movement, given: given.to_vec() }
}

fn supply(identity: u32, given: &[u32]) -> Change {
    Change::Supply { identity, given: given.to_vec() }
}

/// The call alone and as a journal of one call: what it answers, and the book after it, which both leave.
fn made(library: &Library, book: &Book, call: &Change) -> (u32, Book) {
    let (mut alone, mut replayed, mut journal) = (book.clone(), book.clone(), Vec::new());
    let answer = change(library, &mut alone, call);
    spell(&mut journal, call);
    assert_eq!(change(library, &mut replayed, &Change::Replay { journal, answers: vec![99] }), 0, "{call:?}");
    assert_eq!(alone, replayed, "{call:?}");
    (answer, alone)
}

/// Another number of them or one over 1 is 9, before everything else that *enter* refuses; the rest is as it was.
#[test]
fn ranges_of_yes_and_no() {
    const TELLING: Telling = &[("enter", 4, &["0", "1", "2", "3", "4", "6"]), ("enter", 40, &["9"])];
    directed("ranges_of_yes_and_no", TELLING, || {
        let library = Library::from_environment();
        let (with_room, full) = (a_book(3, 2), a_book(2, 2));
        let calls = [
            (&with_room, 7, LARGE, 0),
            (&with_room, 7, Movement { aircraft: 3, ..LARGE }, 1),
            (&with_room, 7, Movement { mass: 150, ..LARGE }, 2),
            (&with_room, 0, LARGE, 3),
            (&with_room, 2, LARGE, 4),
            (&full, 7, LARGE, 6),
        ];
        for (book, identity, movement, expected) in calls {
            for given in [[0, 0], [0, 1], [1, 0], [1, 1]] {
                let (answer, after) = made(&library, book, &enter(identity, movement, &given));
                assert_eq!(answer, expected, "{movement:?}, {given:?}");
                if answer == 0 {
                    assert_eq!(after.counts[4..], given);
                }
            }
            for wrong in [&[][..], &[1], &[0, 1, 0], &[1; 8], &[2, 1], &[1, 2], &[0, u32::MAX], &[256, 0]] {
                assert_eq!(made(&library, book, &enter(identity, movement, wrong)).0, 9, "{movement:?}, {wrong:?}");
            }
        }
        for points in 1..=8 {
            let mut given = vec![0; points as usize];
            assert_eq!(made(&library, &a_book(3, points), &enter(7, LARGE, &given)).0, 0, "{points} points");
            given[points as usize - 1] = 1;
            assert_eq!(made(&library, &a_book(3, points), &enter(7, LARGE, &given)).0, 0, "{points} points");
            given[points as usize - 1] = 2;
            assert_eq!(made(&library, &a_book(3, points), &enter(7, LARGE, &given)).0, 9, "{points} points");
        }
    });
}

/// Identities 1, 4 and 9 of a book of two points count at the first, nowhere and at the second.
fn three_ways(rows: usize) -> Book {
    let mut book = Columns::new(rows, 2);
    book.identities[..3].copy_from_slice(&[1, 4, 9]);
    book.groups[..3].copy_from_slice(&[0, 5, 17]);
    book.counts[..6].copy_from_slice(&[1, 0, 0, 0, 0, 1]);
    book
}

/// Levels supplied to an identity of such a book, and what *supply* answers.
const LEVELS: [(u32, &[u32], u32); 24] = [
    (1, &[12_000, 0], 0),
    (1, &[0, 0], 0),
    (1, &[0, 1], 19),
    (1, &[12_000, 12_000], 19),
    (1, &[0, 12_001], 7),
    (1, &[12_001, 1], 7),
    (1, &[0, 1, 0], 7),
    (1, &[1], 7),
    (9, &[0, 1], 0),
    (9, &[1, 0], 19),
    (9, &[12_001, 0], 7),
    (4, &[0, 0], 0),
    (4, &[1, 0], 19),
    (4, &[0, 1], 19),
    (4, &[0, 12_001], 7),
    // Nobody stands there, next to rows that don't count at one point or at both.
    (2, &[1, 1], 5),
    (5, &[1, 1], 5),
    (8, &[0, 0], 5),
    (10, &[1, 1], 5),
    (99_999, &[1, 1], 5),
    (2, &[12_001, 1], 7),
    (0, &[1, 1], 3),
    (0, &[12_001, 1], 3),
    (100_000, &[1, 1], 3),
];

#[test]
fn ranges_of_levels_elsewhere() {
    const TELLING: Telling = &[("supply", 3, &["0", "3", "5", "7", "19"])];
    directed("ranges_of_levels_elsewhere", TELLING, || {
        let library = Library::from_environment();
        let mut computed = three_ways(5);
        for (identity, given) in [(1, [6_000, 0]), (4, [0, 0]), (9, [0, 6_000])] {
            assert_eq!(change(&library, &mut computed, &supply(identity, &given)), 0);
        }
        assert_eq!((&computed.marks[..3], &computed.levels[..6]), (&[1; 3][..], &[6_000, 0, 0, 0, 0, 6_000][..]));
        let full = three_ways(3);
        for (identity, given, expected) in LEVELS {
            for book in [&three_ways(5), &computed, &full] {
                let (answer, after) = made(&library, book, &supply(identity, given));
                assert_eq!(answer, expected, "{given:?} for {identity}");
                assert_eq!(after.counts, book.counts, "a supply leaves the yes and no");
            }
        }
    });
}

/// What is done to a book of two points, and whether it is unsound then: columns that don't fit, a number over 1, a yes
/// in an unused row, a level beside a no.
const COLUMNS: [(&str, bool, fn(&mut Book)); 20] = [
    ("as it is", false, |_| {}),
    ("a no", false, |book| book.counts[2] = 0),
    ("a movement that counts nowhere", false, |book| book.counts[2..4].fill(0)),
    ("a no beside a level of zero", false, |book| (book.counts[1], book.levels[1]) = (0, 0)),
    ("computed and nowhere", false, |book| {
        book.marks[1] = 1;
        book.counts[..2].fill(0);
        book.levels[..2].fill(0);
    }),
    ("nobody anywhere", false, |book| {
        book.counts.fill(0);
        book.levels.fill(0);
    }),
    ("a no beside a level", true, |book| book.counts[1] = 0),
    ("a no beside the first level", true, |book| book.counts[0] = 0),
    ("a no beside a level of 1", true, |book| (book.counts[1], book.levels[1]) = (0, 1)),
    ("a no too many", true, |book| book.counts.push(0)),
    ("a yes too many", true, |book| book.counts.push(1)),
    ("one too few", true, |book| book.counts.truncate(7)),
    ("a row too few", true, |book| book.counts.truncate(6)),
    ("none at all", true, |book| book.counts.clear()),
    ("those of one point", true, |book| book.counts.truncate(4)),
    ("those of three points", true, |book| book.counts.resize(12, 0)),
    ("a 2", true, |book| book.counts[2] = 2),
    ("a number far over 1", true, |book| book.counts[0] = u32::MAX),
    ("a yes in the first unused row", true, |book| book.counts[4] = 1),
    ("a yes in the last unused row", true, |book| book.counts[7] = 1),
];

#[test]
fn ranges_of_the_column() {
    const TELLING: Telling = &[("enter", 6, &["0", "9"]), ("load", 6, &["0", "9"]), ("replay", 6, &["0", "9"])];
    directed("ranges_of_the_column", TELLING, || {
        let library = Library::from_environment();
        for (what, refused, spoil) in COLUMNS {
            let mut book = a_book(4, 2);
            spoil(&mut book);
            every_call(&library, &book, refused, what);
        }
        // Three points in one column and two in the other, whichever the number says.
        for (points, counts, levels) in [(3, 12, 8), (3, 8, 12), (2, 12, 8), (2, 8, 12)] {
            let mut book = Columns { points, ..a_book(4, 2) };
            book.counts.resize(counts, 0);
            book.levels.resize(levels, 0);
            every_call(&library, &book, true, &format!("{points} points, {counts} and {levels} numbers"));
        }
    });
}

/// A book whose movements are all computed and count at every other point; the last third of its rows is unused.
fn every_other(rows: usize, points: u32) -> Book {
    let mut book = Columns::new(rows, points);
    let used = rows.div_ceil(3) * 2;
    for row in 0..used.min(rows) {
        (book.identities[row], book.marks[row]) = (row as u32 + 1, 1);
        for cell in row * points as usize..(row + 1) * points as usize {
            (book.counts[cell], book.levels[cell]) = if (row + cell) % 2 == 0 { (1, 5_000) } else { (0, 0) };
        }
    }
    book
}

/// Each cell of such books by itself, whatever stands in the others.
#[test]
fn every_cell_of_a_book() {
    const TELLING: Telling = &[("load", 1_000, &["0", "9"])];
    directed("every_cell_of_a_book", TELLING, || {
        let library = Library::from_environment();
        for (rows, points) in [1, 9, 32].into_iter().flat_map(|rows| (1..=8).map(move |points| (rows, points))) {
            let book = every_other(rows, points);
            for cell in 0..book.counts.len() {
                let used = book.identities[cell / points as usize] > 0;
                for (count, level) in [(0, 0), (1, 0), (2, 0), (0, 1), (1, 12_000), (1, 12_001), (u32::MAX, 5_000)] {
                    let mut other = book.clone();
                    (other.counts[cell], other.levels[cell]) = (count, level);
                    let sound = if used { count <= 1 && level <= 12_000 * count } else { count == 0 && level == 0 };
                    let answer = load(&library, &other, cell as u32 % points, 1, &[0; LOAD_NUMBERS]).0;
                    assert_eq!(answer, if sound { 0 } else { 9 }, "{count} and {level} in cell {cell} of {book:?}");
                }
            }
        }
    });
}

/// *enter* moves them up and *withdraw* down with their rows; *supply* and *take back* leave them.
#[test]
fn rows_keep_their_yes_and_no() {
    const TELLING: Telling = &[("enter", 3, &["0"]), ("withdraw", 3, &["0"]), ("take_back", 1, &["0"])];
    directed("rows_keep_their_yes_and_no", TELLING, || {
        let library = Library::from_environment();
        for (identity, expected) in [
            (7, [1, 0, 0, 0, 1, 1, 0, 1, 0, 0]),
            (99_999, [1, 0, 0, 0, 0, 1, 1, 1, 0, 0]),
            (2, [1, 0, 1, 1, 0, 0, 0, 1, 0, 0]),
        ] {
            let (answer, after) = made(&library, &three_ways(5), &enter(identity, LARGE, &[1, 1]));
            assert_eq!((answer, &after.counts[..]), (0, &expected[..]), "{identity} entered");
        }
        for (identity, expected) in [
            (1, [0, 0, 0, 1, 0, 0, 0, 0, 0, 0]),
            (4, [1, 0, 0, 1, 0, 0, 0, 0, 0, 0]),
            (9, [1, 0, 0, 0, 0, 0, 0, 0, 0, 0]),
        ] {
            let (answer, after) = made(&library, &three_ways(5), &Change::Withdraw { identity });
            assert_eq!((answer, &after.counts[..]), (0, &expected[..]), "{identity} withdrawn");
            let (answer, again) = made(&library, &after, &enter(identity, LARGE, &[1, 1]));
            assert_eq!((answer, again.counts.iter().sum::<u32>()), (0, expected.iter().sum::<u32>() + 2));
        }
        let (_, computed) = made(&library, &three_ways(5), &supply(9, &[0, 300]));
        let (answer, after) = made(&library, &computed, &Change::TakeBack { identity: 9 });
        assert_eq!((answer, after), (0, three_ways(5)));
    });
}

//! What each point of a book answers, where movements count at some of them.

use crate::compared::{account, load, verdict, Book};
use crate::library::Library;
use crate::rounds::{directed, Telling};
use reference::book::Columns;
use reference::calls::{ACCOUNT_NUMBERS, LOAD_NUMBERS};

/// The rules' file at six points: where everybody counts, without the last, without the first, the missing ones alone,
/// one of them alone, nobody.
fn document_book() -> Book {
    let counts = [[1, 1, 0, 0, 0, 0], [1, 1, 1, 0, 0, 0], [1, 1, 1, 1, 0, 0], [1, 0, 1, 1, 1, 0]];
    let mut book = Columns::new(5, 6);
    book.identities[..4].copy_from_slice(&[1, 2, 3, 4]);
    book.groups[3] = 17;
    book.marks[..2].fill(1);
    book.counts[..24].copy_from_slice(counts.as_flattened());
    for (level, &yes) in book.levels[..12].iter_mut().zip(&book.counts) {
        *level = 10_000 * yes;
    }
    book
}

/// Of each point: the answer of load, V and U of group 0, U of group 17, the general factor, P, total and level.
const POINTS: [(u32, [u64; 7], Option<u32>); 6] = [
    (0, [2, 1, 1, 4, 3, 30_000_000_000, 40_000_000_000], Some(5_666)),
    (0, [2, 1, 0, 3, 3, 30_000_000_000, 30_000_000_000], Some(5_541)),
    (0, [1, 1, 1, 3, 2, 20_000_000_000, 30_000_000_000], Some(5_541)),
    (10, [0; 7], None),
    (10, [0; 7], None),
    (0, [0; 7], None),
];

#[test]
fn loads_point_by_point() {
    const TELLING: Telling = &[
        ("load", 3, &["0"]),
        ("load", 2, &["10"]),
        ("load", 1, &["below zero", "where nobody counts", "where some count", "where all count"]),
        ("account", 2, &["0", "10"]),
        ("verdict", 4, &["0", "10"]),
    ];
    directed("loads_point_by_point", TELLING, || {
        let library = Library::from_environment();
        let book = document_book();
        for (point, (answer, [v, u, w, upper, lower, sum, total], level)) in POINTS.into_iter().enumerate() {
            let (point, given) = (point as u32, [u64::from(level.is_some()), u64::from(level.unwrap_or(0))]);
            let (mut loaded, mut told) = ([9; LOAD_NUMBERS + 1], [9; ACCOUNT_NUMBERS + 1]);
            if answer == 0 {
                loaded[..LOAD_NUMBERS].fill(0);
                loaded[..4].copy_from_slice(&[total, given[0], given[1], v]);
                (loaded[21], loaded[21 + 17]) = (u, w);
                told[..ACCOUNT_NUMBERS].fill(0);
                told[..4].copy_from_slice(&[v, u, v * 10_000_000_000, sum]);
                told[4 * 17 + 1] = w;
                told[72..78].copy_from_slice(&[upper, lower, sum, total, given[0], given[1]]);
            }
            let load = load(&library, &book, point, 1, &[9; LOAD_NUMBERS + 1]);
            assert_eq!(load, (answer, loaded.to_vec()), "load at {point}");
            let account = account(&library, &book, point, 1, &[9; ACCOUNT_NUMBERS + 1]);
            assert_eq!(account, (answer, told.to_vec()), "account at {point}");
            for limit in [0, 5_540, 5_541, 5_665, 5_666, 12_000] {
                let over = u32::from(level.is_some_and(|level| level > limit));
                let expected = (answer, vec![if answer == 0 { over } else { 9 }]);
                assert_eq!(verdict(&library, &book, point, 1, limit, &[9]), expected, "{limit} at {point}");
            }
        }
    });
}

/// 9, 11 and 15 before 10, 10 before 14, at points that have movements and at points that have none.
#[test]
fn refusals_point_by_point() {
    const KINDS: &[&str] = &["9", "11", "10", "14"];
    const TELLING: Telling =
        &[("load", 2, KINDS), ("account", 2, KINDS), ("verdict", 2, KINDS), ("verdict", 2, &["15"])];
    directed("refusals_point_by_point", TELLING, || {
        let library = Library::from_environment();
        let book = document_book();
        for point in 0..=6 {
            for (days, limit) in [(1, 0), (0, 0), (367, 12_001), (366, 12_001)] {
                let missing = if point == 3 || point == 4 { 10 } else { 14 };
                let days_then = |rest: u32| match days {
                    _ if point == 6 => 9,
                    1..=366 => rest,
                    _ => 11,
                };
                let (loaded, judged) = (days_then(missing), days_then(if limit > 12_000 { 15 } else { missing }));
                let what = format!("point {point}, days {days}, limit {limit}");
                assert_eq!(load(&library, &book, point, days, &[0; LOAD_NUMBERS - 1]).0, loaded, "{what}");
                assert_eq!(account(&library, &book, point, days, &[0; ACCOUNT_NUMBERS - 1]).0, loaded, "{what}");
                assert_eq!(verdict(&library, &book, point, days, limit, &[]).0, judged, "{what}");
            }
        }
    });
}

//! Journals: how many numbers follow, and calls that begin or end otherwise.

use super::books::a_book;
use crate::compared::{change, Change};
use crate::library::Library;
use crate::rounds::{directed, Telling};

/// An *enter* up to the number that says how many yes and no follow.
const ENTER: [u32; 6] = [1, 7, 0, 0, 25_200, 70_000];

/// What follows there in a book of two points, how many calls that makes, and whether it is on the layout.
const BEHIND: [(&[u32], usize, bool); 26] = [
    (&[2, 1, 0], 1, true),
    (&[2, 0, 0], 1, true),
    (&[0], 1, true),
    (&[1, 1], 1, true),
    (&[3, 1, 0, 1], 1, true),
    (&[9, 1, 0, 1, 0, 1, 0, 1, 0, 1], 1, true),
    (&[2, 1, 2], 1, true),
    (&[2, 1, 0, 3, 7], 2, true),
    (&[0, 4, 7], 2, true),
    (&[2, 1, 0, 2, 7, 2, 600, 0], 2, true),
    (&[2, 0, 1, 2, 7, 2, 600, 0, 4, 7], 3, true),
    (&[2, 1, 0, 1, 8, 0, 0, 25_200, 70_000, 2, 0, 1], 2, true),
    (&[], 1, false),
    (&[1], 1, false),
    (&[2, 1], 1, false),
    (&[3, 1, 0], 1, false),
    (&[u32::MAX, 1, 0], 1, false),
    (&[u32::MAX - 5, 1, 0], 1, false),
    (&[u32::MAX - 6, 1, 0], 1, false),
    (&[u32::MAX - 7, 1, 0], 1, false),
    (&[0x8000_0002, 1, 0], 1, false),
    (&[0x0001_0002, 1, 0], 1, false),
    (&[0x0000_0102, 1, 0], 1, false),
    (&[1, 1, 0], 2, false),
    (&[2, 1, 0, 5], 2, false),
    (&[2, 1, 0, 1, 8, 0, 0, 25_200, 70_000], 2, false),
];

/// 16 before 9 and 9 before 14, whatever follows.
#[test]
fn ranges_of_a_journal() {
    const TELLING: Telling = &[("replay", 12, &["0", "9", "14", "16"])];
    directed("ranges_of_a_journal", TELLING, || {
        let library = Library::from_environment();
        let (book, mut unsound) = (a_book(5, 2), a_book(5, 2));
        unsound.counts[9] = 1;
        for (behind, calls, right) in BEHIND {
            let journal = [&ENTER, behind].concat();
            for (book, room, expected) in [(&book, calls, 0), (&book, calls - 1, 14), (&unsound, calls - 1, 9)] {
                let replay = Change::Replay { journal: journal.clone(), answers: vec![99; room] };
                let expected = if right { expected } else { 16 };
                assert_eq!(change(&library, &mut book.clone(), &replay), expected, "{journal:?}, room {room}");
            }
        }
    });
}

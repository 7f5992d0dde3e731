//! The calls on a book.

use crate::lent::{Lent, Made};
use crate::library::Library;
use crate::rounds::saw;
use reference::book::Columns;
use reference::calls;
use reference::movement::Movement;

pub type Book = Columns<Vec<u32>>;

/// 30.00: loads under it are counted, since the smallest steps of the level's table show there.
const LOW_LEVEL: u64 = 3_000;

/// A call that changes a book.
#[derive(Clone, Debug)]
pub enum Change {
    Enter { identity: u32, movement: Movement, given: Vec<u32> },
    Supply { identity: u32, given: Vec<u32> },
    TakeBack { identity: u32 },
    Withdraw { identity: u32 },
    Replay { journal: Vec<u32>, answers: Vec<u32> },
}

struct LentBook {
    columns: [Lent<u32>; 5],
    points: u32,
}

impl LentBook {
    fn new(book: &Book) -> LentBook {
        let columns = [&book.identities, &book.groups, &book.marks, &book.counts, &book.levels];
        LentBook { columns: columns.map(|column| Lent::new(column)), points: book.points }
    }

    fn compare(&self, made: &Made, before: &Book, reference: &Book) {
        let [identities, groups, marks, counts, levels] = &self.columns;
        made.left("identities", &before.identities, &reference.identities, identities)
            .left("groups", &before.groups, &reference.groups, groups)
            .left("marks", &before.marks, &reference.marks, marks)
            .left("counts", &before.counts, &reference.counts, counts)
            .left("levels", &before.levels, &reference.levels, levels);
    }
}

/// Calls a function of the library with the eleven arguments of a book and more.
macro_rules! with_book {
    ($function:expr, $book:expr, $($argument:expr),*) => {{
        let points = $book.points;
        let [i, g, m, c, l] = &mut $book.columns;
        // SAFETY: every pointer is lent with its own length.
        unsafe {
            $function(
                i.pointer(), i.len(), g.pointer(), g.len(), m.pointer(), m.len(), c.pointer(), c.len(),
                l.pointer(), l.len(), points, $($argument),*
            )
        }
    }};
}

fn columns_mut(book: &mut Book) -> Columns<&mut [u32]> {
    let Columns { identities, groups, marks, counts, levels, points } = book;
    Columns { identities, groups, marks, counts, levels, points: *points }
}

fn columns(book: &Book) -> Columns<&[u32]> {
    let Columns { identities, groups, marks, counts, levels, points } = book;
    Columns { identities, groups, marks, counts, levels, points: *points }
}

/// Makes a change on both sides, compares, and leaves the book as it then is; answers with the call's number.
pub fn change(library: &Library, book: &mut Book, change: &Change) -> u32 {
    let before = book.clone();
    let mut lent = LentBook::new(book);
    let mine = columns_mut(book);
    let inputs = || format!("{change:?} on {before:?}");
    match change {
        &Change::Enter { identity, movement, ref given } => {
            let Movement { aircraft, kind, time, mass } = movement;
            let mut own = Lent::new(given);
            let reference = calls::enter(mine, identity, movement, given);
            let library =
                with_book!(library.enter, lent, identity, aircraft, kind, time, mass, own.pointer(), own.len());
            let made = Made { call: "enter", library, reference, inputs: &inputs };
            made.kept("given", given, &own);
            finish(&made, &lent, &before, book)
        }
        Change::Supply { identity, given } => {
            let mut levels = Lent::new(given);
            let reference = calls::supply(mine, *identity, given);
            let library = with_book!(library.supply, lent, *identity, levels.pointer(), levels.len());
            let made = Made { call: "supply", library, reference, inputs: &inputs };
            made.kept("given", given, &levels);
            finish(&made, &lent, &before, book)
        }
        &Change::TakeBack { identity } => {
            let reference = calls::take_back(mine, identity);
            let library = with_book!(library.take_back, lent, identity);
            finish(&Made { call: "take_back", library, reference, inputs: &inputs }, &lent, &before, book)
        }
        &Change::Withdraw { identity } => {
            let reference = calls::withdraw(mine, identity);
            let library = with_book!(library.withdraw, lent, identity);
            finish(&Made { call: "withdraw", library, reference, inputs: &inputs }, &lent, &before, book)
        }
        Change::Replay { journal, answers } => {
            let (mut numbers, mut room, mut own) = (Lent::new(journal), Lent::new(answers), answers.clone());
            let reference = calls::replay(mine, journal, &mut own);
            let library =
                with_book!(library.replay, lent, numbers.pointer(), numbers.len(), room.pointer(), room.len());
            let made = Made { call: "replay", library, reference, inputs: &inputs };
            let answer = finish(&made, &lent, &before, book);
            made.kept("journal", journal, &numbers).left("answers", answers, &own, &room);
            answer
        }
    }
}

fn finish(made: &Made, lent: &LentBook, before: &Book, after: &Book) -> u32 {
    made.answers_agree();
    lent.compare(made, before, after);
    made.reference
}

/// Counts how many of a book's movements count at a point.
fn saw_counting(call: &str, book: &Book, point: u32) {
    let standing = book.identities.iter().filter(|&&identity| identity != 0).count();
    let counting = book.counts.iter().skip(point as usize).step_by(book.points as usize).filter(|&&yes| yes == 1);
    saw(
        call,
        match counting.count() {
            _ if standing == 0 => "of no movement",
            0 => "where nobody counts",
            counting if counting == standing => "where all count",
            _ => "where some count",
        },
    );
}

/// Asks both for the load; answers with the call's number and the numbers of the answer.
pub fn load(library: &Library, book: &Book, point: u32, days: u32, answer: &[u64]) -> (u32, Vec<u64>) {
    let (mut lent, mut room, mut own) = (LentBook::new(book), Lent::new(answer), answer.to_vec());
    let reference = calls::load(columns(book), point, days, &mut own);
    let library = with_book!(library.load, lent, point, days, room.pointer(), room.len());
    let inputs = || format!("point {point}, days {days}, room {}, {book:?}", answer.len());
    let made = Made { call: "load", library, reference, inputs: &inputs };
    made.answers_agree().left("answer", answer, &own, &room);
    if reference == 0 {
        saw_counting("load", book, point);
        match own[..] {
            [_, 0, ..] => saw("load", "below zero"),
            [_, 1, level, ..] if level < LOW_LEVEL => saw("load", "under 30.00"),
            _ => {}
        }
    }
    lent.compare(&made, book, book);
    (reference, own)
}

/// Asks both how the load comes about; answers with the call's number and the numbers of the answer.
pub fn account(library: &Library, book: &Book, point: u32, days: u32, answer: &[u64]) -> (u32, Vec<u64>) {
    let (mut lent, mut room, mut own) = (LentBook::new(book), Lent::new(answer), answer.to_vec());
    let reference = calls::account(columns(book), point, days, &mut own);
    let library = with_book!(library.account, lent, point, days, room.pointer(), room.len());
    let inputs = || format!("point {point}, days {days}, room {}, {book:?}", answer.len());
    let made = Made { call: "account", library, reference, inputs: &inputs };
    made.answers_agree().left("answer", answer, &own, &room);
    lent.compare(&made, book, book);
    (reference, own)
}

/// Asks both for the verdict; answers with the call's number and the numbers of the answer.
pub fn verdict(library: &Library, book: &Book, point: u32, days: u32, limit: u32, answer: &[u32]) -> (u32, Vec<u32>) {
    let (mut lent, mut room, mut own) = (LentBook::new(book), Lent::new(answer), answer.to_vec());
    let reference = calls::verdict(columns(book), point, days, limit, &mut own);
    let library = with_book!(library.verdict, lent, point, days, limit, room.pointer(), room.len());
    let inputs = || format!("point {point}, days {days}, limit {limit}, room {}, {book:?}", answer.len());
    let made = Made { call: "verdict", library, reference, inputs: &inputs };
    made.answers_agree().left("answer", answer, &own, &room);
    lent.compare(&made, book, book);
    (reference, own)
}

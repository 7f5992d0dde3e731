//! Books: loads, shifts and registers.

use crate::inputs::{book, register, some_elsewhere, Book};
use crate::library::Library;
use crate::timing::{alone, beside, grows, line, pair, rate};
use reference::book::Columns;
use reference::calls::LOAD_NUMBERS;
use reference::level::{table_a, table_b};

#[rustfmt::skip]
extern "C" {
    fn baseline_load(
        identities: *const u32, groups: *const u32, marks: *const u32, counts: *const u32, levels: *const u32,
        rows: usize, points: u32, point: u32, days: u32, table_a: *const u64, table_b: *const u64, answer: *mut u64,
    ) -> u32;
    fn baseline_open(
        identities: *mut u32, groups: *mut u32, marks: *mut u32, counts: *mut u32, levels: *mut u32, used: usize,
        points: usize, place: usize,
    );
    fn baseline_close(
        identities: *mut u32, groups: *mut u32, marks: *mut u32, counts: *mut u32, levels: *mut u32, used: usize,
        points: usize, place: usize,
    );
    fn baseline_sound(
        identities: *const u32, groups: *const u32, marks: *const u32, counts: *const u32, levels: *const u32,
        rows: usize, points: u32,
    ) -> u32;
    fn baseline_commas(text: *const u8, length: usize) -> usize;
}

const POINTS: u32 = 8;
const EVERYWHERE: [u32; POINTS as usize] = [1; POINTS as usize];
const DAYS: u32 = 365;
const FEW_ROWS: usize = 1_000;
const MAX_ROWS: usize = 50_000;
const JOURNAL_PAIRS: usize = 50;

/// Calls a function of the library with the arguments of a book and more; it must be accepted.
#[rustfmt::skip]
macro_rules! with_book {
    ($function:expr, $book:expr, $($argument:expr),*) => {{
        let Book { identities: i, groups: g, marks: m, counts: c, levels: l, points } = &mut *$book;
        // SAFETY: every pointer is lent with its own length.
        let answer = unsafe {
            $function(
                i.as_mut_ptr(), i.len(), g.as_mut_ptr(), g.len(), m.as_mut_ptr(), m.len(), c.as_mut_ptr(), c.len(),
                l.as_mut_ptr(), l.len(), *points, $($argument),*
            )
        };
        assert_eq!(answer, 0, "the call must be accepted");
    }};
}

pub fn library_load(library: &Library, book: &mut Book, point: u32, days: u32, answer: &mut [u64]) {
    with_book!(library.load, book, point, days, answer.as_mut_ptr(), answer.len());
}

pub fn c_load(book: &Book, point: u32, days: u32, answer: &mut [u64]) {
    assert_eq!(answer.len(), LOAD_NUMBERS, "the answer must have room");
    let (i, g, m) = (book.identities.as_ptr(), book.groups.as_ptr(), book.marks.as_ptr());
    let (c, l, answer) = (book.counts.as_ptr(), book.levels.as_ptr(), answer.as_mut_ptr());
    let (rows, a, b) = (book.identities.len(), table_a().as_ptr(), table_b().as_ptr());
    // SAFETY: the columns fit, and the answer has 39 numbers.
    let number = unsafe { baseline_load(i, g, m, c, l, rows, book.points, point, days, a, b, answer) };
    assert_eq!(number, 0, "the load must be accepted");
}

fn loads_at(points: u32, mut load: impl FnMut(u32, &mut [u64])) -> Vec<u64> {
    let mut answers = vec![0; LOAD_NUMBERS * points as usize];
    (0..).zip(answers.chunks_mut(LOAD_NUMBERS)).for_each(|(point, answer)| load(point, answer));
    answers
}

fn library_loads(library: &Library, book: &mut Book) -> Vec<u64> {
    loads_at(POINTS, |point, answer| library_load(library, book, point, DAYS, answer))
}

fn c_loads(book: &Book) -> Vec<u64> {
    loads_at(POINTS, |point, answer| c_load(book, point, DAYS, answer))
}

pub fn loads(library: &Library) {
    let everywhere = book(MAX_ROWS, 0, POINTS);
    let elsewhere = some_elsewhere(everywhere.clone());
    time_loads(library, "load at 8 points, 50,000 rows", everywhere);
    time_loads(library, "the same, one in eight not counting at a point", elsewhere);
}

fn time_loads(library: &Library, what: &str, mut own: Book) {
    let other = own.clone();
    assert_eq!(library_loads(library, &mut own), c_loads(&other), "both must give the same loads");
    let times = pair(|| library_loads(library, &mut own), || c_loads(&other));
    beside(what, times, "C", Some(1.3));
}

/// A book with one unused row, an identity that would go in at its middle, and that place.
struct Middle {
    book: Book,
    identity: u32,
    place: usize,
}

impl Middle {
    fn new(rows: usize) -> Middle {
        let (book, place) = (book(rows, 1, POINTS), (rows - 1) / 2);
        Middle { identity: book.identities[place] - 1, book, place }
    }

    fn enter_and_withdraw(&mut self, library: &Library) {
        let (given, many) = (EVERYWHERE.as_ptr(), EVERYWHERE.len());
        with_book!(library.enter, &mut self.book, self.identity, 0, 0, 0, 7_000, given, many);
        with_book!(library.withdraw, &mut self.book, self.identity);
    }

    fn replay(&mut self, library: &Library, pairs: usize) {
        let enter = [&[1, self.identity, 0, 0, 0, 7_000, POINTS][..], &EVERYWHERE].concat();
        let journal = [&enter[..], &[4, self.identity]].concat().repeat(pairs);
        let mut answers = vec![0; 2 * pairs];
        with_book!(
            library.replay,
            &mut self.book,
            journal.as_ptr(),
            journal.len(),
            answers.as_mut_ptr(),
            answers.len()
        );
    }

    /// Only the bytes that both move, in C.
    fn move_bytes(&mut self) {
        let Book { identities, groups, marks, counts, levels, points } = &mut self.book;
        let (i, g, m) = (identities.as_mut_ptr(), groups.as_mut_ptr(), marks.as_mut_ptr());
        let (c, l) = (counts.as_mut_ptr(), levels.as_mut_ptr());
        let (rows, points) = (identities.len(), *points as usize);
        // SAFETY: one row is unused before and none after the first.
        unsafe {
            baseline_open(i, g, m, c, l, rows - 1, points, self.place);
            *i.add(self.place) = self.identity;
            baseline_close(i, g, m, c, l, rows, points, self.place);
        }
    }

    /// The look at the whole book that both calls begin with, in C.
    fn look(&self) {
        let Book { identities, groups, marks, counts, levels, points } = &self.book;
        for _ in 0..2 {
            // SAFETY: the columns fit.
            let sound = unsafe {
                baseline_sound(
                    identities.as_ptr(),
                    groups.as_ptr(),
                    marks.as_ptr(),
                    counts.as_ptr(),
                    levels.as_ptr(),
                    identities.len(),
                    *points,
                )
            };
            assert_eq!(sound, 1, "the book must be sound");
        }
    }
}

/// Enter and withdraw in the middle: call by call (each looks at the whole book) and in a journal (one look for all).
pub fn shifts(library: &Library) {
    let (mut own, mut other) = (Middle::new(MAX_ROWS), Middle::new(MAX_ROWS));
    let times = pair(|| own.enter_and_withdraw(library), || other.move_bytes());
    beside("enter and withdraw in the middle of 50,000 rows, call by call", times, "memmove", None);
    let both = |middle: &mut Middle| {
        middle.look();
        middle.move_bytes();
    };
    let times = pair(|| own.enter_and_withdraw(library), || both(&mut other));
    beside("the same", times, "C with the same look at the book", None);
    let times = pair(|| own.replay(library, JOURNAL_PAIRS), || (0..JOURNAL_PAIRS).for_each(|_| other.move_bytes()));
    beside("50 such pairs in one journal", times, "memmove", Some(2.0));
}

/// Reads a register row by row into a journal and replays it into an empty book; the journal is given back.
fn read_register(library: &Library, text: &[u8], book: &mut Book, mut journal: Vec<u32>) -> Vec<u32> {
    journal.clear();
    let mut calls = 0;
    for line in text.split_inclusive(|&byte| byte == b'\n') {
        let (mut fields, mut levels) = ([0; 6], [0; POINTS as usize]);
        let (f, l) = (fields.as_mut_ptr(), levels.as_mut_ptr());
        // SAFETY: every pointer is lent with its own length.
        let answer = unsafe { (library.read_row)(line.as_ptr(), line.len(), POINTS, f, fields.len(), l, levels.len()) };
        assert_eq!(answer, 0, "the row must be accepted");
        let [identity, aircraft, mass, kind, time, computed] = fields;
        journal.extend([1, identity, aircraft, kind, time, mass, POINTS]);
        journal.extend(EVERYWHERE);
        if computed == 1 {
            journal.extend([2, identity, POINTS]);
            journal.extend(levels);
        }
        calls += 1 + computed as usize;
    }
    let mut answers = vec![0; calls];
    with_book!(library.replay, book, journal.as_ptr(), journal.len(), answers.as_mut_ptr(), answers.len());
    assert!(answers.iter().all(|&answer| answer == 0), "every call must be accepted");
    journal
}

/// Seconds of the library and of a scan for commas, and the bytes of the register.
fn time_register(library: &Library, rows: usize) -> (f64, f64, usize) {
    let text = register(rows as u32, POINTS);
    let mut journal = Vec::with_capacity(26 * rows);
    let own = || {
        let mut book = Columns::new(rows, POINTS);
        journal = read_register(library, &text, &mut book, std::mem::take(&mut journal));
    };
    // SAFETY: the text is lent with its own length.
    let (own, other) = pair(own, || unsafe { baseline_commas(text.as_ptr(), text.len()) });
    (own, other, text.len())
}

pub fn registers(library: &Library) {
    let (own, other, bytes) = time_register(library, 2_000);
    let scan = format!("scan for commas {}", rate(bytes, other));
    line("a register of 2,000 rows read and replayed into a book", &rate(bytes, own), &scan, own / other, None);
}

pub fn load_grows(library: &Library) {
    let load = |rows: usize| {
        let mut book = book(rows, 0, POINTS);
        (rows, alone(|| library_loads(library, &mut book)))
    };
    grows("load at 8 points, a row", load(FEW_ROWS), load(MAX_ROWS));
}

pub fn shift_grows(library: &Library) {
    let shift = |rows: usize| {
        let mut middle = Middle::new(rows);
        (rows, alone(|| middle.enter_and_withdraw(library)))
    };
    grows("enter and withdraw in the middle, a row", shift(FEW_ROWS), shift(MAX_ROWS));
}

pub fn register_grows(library: &Library) {
    let register = |rows: usize| (rows, time_register(library, rows).0);
    grows("a register with rising identities read and replayed, a row", register(FEW_ROWS), register(MAX_ROWS));
}

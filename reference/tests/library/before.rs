//! The rule of before, when every movement counted at every point and a book had no column of yes and no, worked beside
//! the rule of now: where all count everywhere nothing has changed, and each point's load is the one that a book of
//! those that count there had.

use crate::compared::{account, change, compared_rounds, load, verdict, Book, Change};
use crate::drawn_books::{a_book, a_book_somewhere, spell, spoil, Counting};
use crate::library::Library;
use crate::random::Random;
use crate::rounds::{saw, Telling};
use reference::book::Columns;
use reference::calls::{ACCOUNT_NUMBERS, LOAD_NUMBERS};
use reference::level::{energy, level, mean};

/// Identity, group, and the levels of a movement that is computed.
type Row = (u32, u32, Option<Vec<u32>>);

/// A sound book of before, its rows by rising identity.
struct Before {
    rows: usize,
    points: usize,
    standing: Vec<Row>,
}

/// The first refusal whose reason holds, or 0.
fn first(refusals: &[(bool, u32)]) -> u32 {
    refusals.iter().find(|(holds, _)| *holds).map_or(0, |&(_, refusal)| refusal)
}

fn scaled(energy: u64, upper: u64, lower: u64) -> u64 {
    (u128::from(energy) * u128::from(upper)).checked_div(u128::from(lower)).unwrap_or(0) as u64
}

impl Before {
    /// The book in four of the columns, or none where they weren't sound.
    fn read(book: &Book) -> Option<Before> {
        let (rows, points) = (book.identities.len(), book.points as usize);
        let fits = [book.groups.len(), book.marks.len(), book.levels.len()] == [rows, rows, rows * points];
        let used = book.identities.iter().take_while(|&&identity| identity > 0).count();
        if !fits || !(1..=8).contains(&points) || !(1..=50_000).contains(&rows) {
            return None;
        }
        let row = |row: usize| {
            let (identity, group, mark) = (book.identities[row], book.groups[row], book.marks[row]);
            let levels = &book.levels[row * points..][..points];
            let highest = if mark == 1 { 12_000 } else { 0 };
            let rising = identity <= 99_999 && (row == 0 || book.identities[row - 1] < identity);
            let in_range = group <= 17 && mark <= 1 && levels.iter().all(|&level| level <= highest);
            (rising && in_range).then(|| (identity, group, (mark == 1).then(|| levels.to_vec())))
        };
        let Columns { identities, groups, marks, levels, .. } = book;
        let unused = [&identities[used..], &groups[used..], &marks[used..], &levels[used * points..]];
        let standing = (0..used).map(row).collect::<Option<Vec<Row>>>()?;
        unused.concat().iter().all(|&value| value == 0).then_some(Before { rows, points, standing })
    }

    /// Those that count at a point, as a book of that one point.
    fn at(book: &Book, point: usize) -> Before {
        let whole = Before::read(book).expect("the book is sound");
        let counting = whole.standing.into_iter().enumerate().filter(|(row, _)| {
            let own = &book.counts[row * whole.points..][..whole.points];
            own[point] == 1
        });
        let one = |(identity, group, levels): Row| (identity, group, levels.map(|levels| vec![levels[point]]));
        Before { rows: whole.rows, points: 1, standing: counting.map(|(_, row)| one(row)).collect() }
    }

    /// The four columns.
    fn columns(&self) -> [Vec<u32>; 4] {
        let Columns { mut identities, mut groups, mut marks, mut levels, .. } =
            Columns::new(self.rows, self.points as u32);
        for (row, (identity, group, held)) in self.standing.iter().enumerate() {
            (identities[row], groups[row], marks[row]) = (*identity, *group, u32::from(held.is_some()));
            levels[row * self.points..][..self.points].copy_from_slice(held.as_ref().unwrap_or(&vec![0; self.points]));
        }
        [identities, groups, marks, levels]
    }

    /// Makes a call, without its yes and no; a journal is made call by call.
    fn make(&mut self, call: &Change) -> u32 {
        let (&Change::Enter { identity, .. }
        | &Change::Supply { identity, .. }
        | &Change::TakeBack { identity }
        | &Change::Withdraw { identity }) = call
        else {
            panic!("a journal is no call")
        };
        let no_identity = identity == 0 || identity > 99_999;
        let place = self.standing.binary_search_by_key(&identity, |row| row.0);
        let row = place.unwrap_or_else(|place| place);
        let held = place.is_ok_and(|row| self.standing[row].2.is_some());
        let answer = match call {
            Change::Enter { movement, .. } => first(&[
                (movement.check().is_err(), 1),
                (movement.mass <= 150, 2),
                (no_identity, 3),
                (place.is_ok(), 4),
                (self.standing.len() == self.rows, 6),
            ]),
            Change::Supply { given, .. } => {
                let wrong = given.len() != self.points || given.iter().any(|&level| level > 12_000);
                first(&[(no_identity, 3), (wrong, 7), (place.is_err(), 5)])
            }
            Change::TakeBack { .. } => first(&[(no_identity, 3), (place.is_err(), 5), (!held, 8)]),
            _ => first(&[(no_identity, 3), (place.is_err(), 5)]),
        };
        match call {
            _ if answer > 0 => {}
            Change::Enter { movement, .. } => self.standing.insert(row, (identity, movement.group(), None)),
            Change::Supply { given, .. } => self.standing[row].2 = Some(given.clone()),
            Change::TakeBack { .. } => self.standing[row].2 = None,
            _ => drop(self.standing.remove(row)),
        }
        answer
    }

    /// The numbers of an account, or its refusal.
    fn account(&self, point: u32, days: u32) -> Result<Vec<u64>, u32> {
        let none_computed = !self.standing.is_empty() && self.standing.iter().all(|row| row.2.is_none());
        let (no_point, no_days) = (point as usize >= self.points, !(1..=366).contains(&days));
        let refusal = first(&[(no_point, 9), (no_days, 11), (none_computed, 10)]);
        if refusal > 0 {
            return Err(refusal);
        }
        let mut numbers = vec![0; ACCOUNT_NUMBERS];
        for (_, group, levels) in &self.standing {
            let own = &mut numbers[4 * *group as usize..][..4];
            match levels {
                Some(levels) => {
                    own[0] += 1;
                    own[2] += energy(levels[point as usize] + 500 * (group % 3));
                }
                None => own[1] += 1,
            }
        }
        let (mut upper, mut lower, mut sum) = (0, 0, 0);
        for own in numbers[..72].chunks_mut(4) {
            own[3] = scaled(own[2], own[0] + own[1], own[0]);
            upper += own[0] + own[1];
            lower += if own[0] > 0 { own[0] + own[1] } else { 0 };
            sum += own[3];
        }
        let total = scaled(sum, upper, lower);
        let level = level(mean(total, days)).map_or([0, 0], |level| [1, u64::from(level)]);
        numbers[72..].copy_from_slice(&[upper, lower, sum, total, level[0], level[1]]);
        Ok(numbers)
    }
}

/// Asks a point of now for everything, which has to be what a point of before answers; answers with load's number.
fn agrees(library: &Library, random: &mut Random, now: (&Book, u32), before: (&Before, u32)) -> u32 {
    let days = if random.once_in(8) { random.pick(&[0, 367]) } else { random.within(1, 366) };
    let expected = before.0.account(before.1, days);
    let answer = expected.as_ref().map_or_else(|&refusal| refusal, |_| 0);
    let told = expected.clone().unwrap_or(vec![4; ACCOUNT_NUMBERS]);
    assert_eq!(account(library, now.0, now.1, days, &[4; ACCOUNT_NUMBERS]), (answer, told.clone()), "{:?}", now.0);
    let every_fourth = |from: usize| told[from..72].iter().step_by(4);
    let loaded = [told[75], told[76], told[77]].into_iter().chain(every_fourth(0).chain(every_fourth(1)).copied());
    let loaded = if answer == 0 { loaded.collect() } else { vec![3; LOAD_NUMBERS] };
    assert_eq!(load(library, now.0, now.1, days, &[3; LOAD_NUMBERS]), (answer, loaded), "{:?}", now.0);
    let level = if answer == 0 { told[77] as u32 } else { 0 };
    let limit = random.pick(&[level, level.saturating_sub(1), 12_000, 12_001]);
    let judged = if answer == 9 || answer == 11 { answer } else { first(&[(limit > 12_000, 15), (true, answer)]) };
    let over = if judged == 0 { u32::from(level > limit) } else { 5 };
    assert_eq!(verdict(library, now.0, now.1, days, limit, &[5]), (judged, vec![over]), "{limit}, {:?}", now.0);
    saw("before", &answer.to_string());
    answer
}

/// The four columns of a book of now, all of whose movements count everywhere.
fn four(book: &Book) -> [Vec<u32>; 4] {
    assert_eq!(book.counts, book.clone().everywhere().counts, "everybody counts everywhere");
    [&book.identities, &book.groups, &book.marks, &book.levels].map(Clone::clone)
}

#[test]
fn answers_of_before() {
    const TELLING: Telling = &[
        ("enter", 200, &["0", "1", "2", "3", "4", "6"]),
        ("supply", 200, &["0", "3", "5", "7"]),
        ("take_back", 100, &["0", "3", "5", "8"]),
        ("withdraw", 100, &["0", "3", "5"]),
        ("replay", 1_000, &["0"]),
        ("before", 500, &["0", "9", "10", "11"]),
        ("verdict", 500, &["0", "9", "10", "11", "15"]),
    ];
    compared_rounds("answers_of_before", 1_500, TELLING, |library, random| {
        let (rows, points) = (random.within(1, 14) as usize, random.within(1, 8));
        let mut book = Columns::new(rows, points);
        let mut before = Before::read(&book).expect("an empty book is sound");
        let (mut journal, mut calls) = (Vec::new(), 0);
        for _ in 0..random.within(1, 50) {
            let made = Counting::Everywhere.a_change(random, points, rows as u32 + 3);
            if matches!(made, Change::Replay { .. }) {
                continue;
            }
            let answer = change(library, &mut book, &made);
            assert_eq!((answer, four(&book)), (before.make(&made), before.columns()), "{made:?}");
            let point = random.within(0, points);
            agrees(library, random, (&book, point), (&before, point));
            spell(&mut journal, &made);
            calls += 1;
        }
        let mut replayed = Columns::new(rows, points);
        let answers = vec![99; calls];
        assert_eq!(change(library, &mut replayed, &Change::Replay { journal, answers }), 0);
        assert_eq!(replayed, book, "the journal leaves the same book");
    });
}

#[test]
fn soundness_of_before() {
    const TELLING: Telling = &[("load", 500, &["0", "9", "10"])];
    compared_rounds("soundness_of_before", 20_000, TELLING, |library, random| {
        let (rows, points) = (random.within(0, 6), random.within(1, 8));
        let standing = random.within(0, rows) as usize;
        let mut book = a_book(random, rows as usize, standing, points, 12_000);
        if random.once_in(2) {
            spoil(random, &mut book);
        }
        if book.points <= 9 {
            book = book.everywhere();
        }
        let answer = load(library, &book, 0, 1, &[3; LOAD_NUMBERS]).0;
        assert_eq!(answer == 9, Before::read(&book).is_none(), "{book:?}");
    });
}

#[test]
fn each_point_by_the_rule_of_before() {
    const TELLING: Telling = &[
        ("before", 500, &["0", "10"]),
        ("load", 500, &["where nobody counts", "where some count", "where all count", "below zero"]),
        ("verdict", 500, &["0", "10", "15"]),
    ];
    compared_rounds("each_point_by_the_rule_of_before", 2_000, TELLING, |library, random| {
        let rows = random.pick(&[2, 10, 30, 200]);
        let (standing, points) = (random.within(1, rows) as usize, random.within(1, 8));
        let highest = random.pick(&[1, 6_000, 12_000, 12_000]);
        let book = a_book_somewhere(random, rows as usize, standing, points, highest);
        for point in 0..points {
            agrees(library, random, (&book, point), (&Before::at(&book, point as usize), 0));
        }
    });
}

//! Books and calls on them, drawn at random about the ends of their ranges.

use crate::compared::{Book, Change};
use crate::random::Random;
use crate::rounds::saw;
use reference::book::Columns;
use reference::movement::Movement;

/// Where the movements of a round count.
#[derive(Clone, Copy)]
pub enum Counting {
    Everywhere,
    /// Each by this seed and its identity: mostly at some points, now and then at all or at none.
    Somewhere(u64),
}

impl Counting {
    pub fn somewhere(random: &mut Random) -> Counting {
        Counting::Somewhere(random.next())
    }

    /// The yes and no of an identity.
    fn of(self, identity: u32, points: u32) -> Vec<u32> {
        let Counting::Somewhere(seed) = self else {
            return vec![1; points as usize];
        };
        let mut own = Random::new(seed ^ u64::from(identity));
        match own.within(0, 7) {
            0 => vec![0; points as usize],
            1 => vec![1; points as usize],
            _ => (0..points).map(|_| own.within(0, 1)).collect(),
        }
    }

    /// What *enter* is given: mostly the identity's own, now and then other ones, too many, too few, or one over 1.
    fn given(self, random: &mut Random, identity: u32, points: u32) -> Vec<u32> {
        let mut given = self.of(identity, points);
        if matches!(self, Counting::Everywhere) {
            return given;
        }
        match random.within(0, 19) {
            0 => given.resize(random.within(0, 9) as usize, 1),
            1 => given[random.within(0, points - 1) as usize] = random.pick(&[2, 3, u32::MAX]),
            2 | 3 => given.iter_mut().for_each(|number| *number = random.within(0, 1)),
            _ => {}
        }
        given
    }

    /// Levels to supply: mostly zero where the identity doesn't count.
    pub fn levels(self, random: &mut Random, identity: u32, points: u32) -> Vec<u32> {
        let mut given = levels(random, points);
        if matches!(self, Counting::Everywhere) || random.once_in(8) {
            return given;
        }
        for (level, count) in given.iter_mut().zip(self.of(identity, points)) {
            // One over 12,000 stays, since it is refused before one that is only elsewhere.
            if count == 0 && *level <= 12_000 {
                *level = 0;
            }
        }
        given
    }

    pub fn enter(self, random: &mut Random, identity: u32, movement: Movement, points: u32) -> Change {
        Change::Enter { identity, movement, given: self.given(random, identity, points) }
    }

    pub fn a_change(self, random: &mut Random, points: u32, among: u32) -> Change {
        let identity = identity(random, among);
        match random.within(0, 9) {
            0..=3 => {
                let movement = Movement {
                    aircraft: random.about(2),
                    kind: random.about(1),
                    time: time(random),
                    mass: mass(random),
                };
                self.enter(random, identity, movement, points)
            }
            4..=6 => Change::Supply { identity, given: self.levels(random, identity, points) },
            7 => Change::TakeBack { identity },
            8 => Change::Withdraw { identity },
            _ => self.a_replay(random, points, among),
        }
    }

    /// A journal of a few calls, now and then damaged, with room that is exact, too small by one or larger.
    fn a_replay(self, random: &mut Random, points: u32, among: u32) -> Change {
        let mut journal = Vec::new();
        let mut calls = 0;
        for _ in 0..random.within(0, 12) {
            let one = self.a_change(random, points, among);
            calls += usize::from(!matches!(one, Change::Replay { .. }));
            spell(&mut journal, &one);
        }
        match random.within(0, 9) {
            0 => drop(journal.pop()),
            1 => journal.push(random.within(0, 5)),
            2 if !journal.is_empty() => {
                let place = random.within(0, journal.len() as u32 - 1) as usize;
                journal[place] = random.pick(&[0, 1, 2, 3, 4, 5, u32::MAX]);
            }
            _ => {}
        }
        let room = room_about(random, calls);
        Change::Replay { journal, answers: vec![7; room] }
    }
}

/// Mostly makes a call one on a movement that stands in the book, with levels that it may have.
pub fn aim(random: &mut Random, book: &Book, call: &mut Change) {
    let standing = book.identities.iter().filter(|&&own| own > 0).count() as u32;
    if standing == 0 || random.once_in(4) {
        return;
    }
    let row = random.within(0, standing - 1) as usize;
    let own = book.counts.iter().skip(row * book.points as usize);
    match call {
        Change::Supply { identity, given } => {
            *identity = book.identities[row];
            given.iter_mut().zip(own).for_each(|(level, &count)| *level *= u32::from(count == 1));
        }
        Change::TakeBack { identity } | Change::Withdraw { identity } => *identity = book.identities[row],
        _ => {}
    }
}

pub fn identity(random: &mut Random, among: u32) -> u32 {
    if random.once_in(12) {
        random.pick(&[0, 1, 99_999, 100_000, u32::MAX])
    } else {
        random.within(1, among)
    }
}

pub fn time(random: &mut Random) -> u32 {
    let edge = random.pick(&[0, 25_200, 68_400, 82_800, 86_399]);
    if random.once_in(2) {
        random.about(86_399)
    } else {
        (edge + random.within(0, 2)).saturating_sub(1)
    }
}

pub fn mass(random: &mut Random) -> u32 {
    match random.within(0, 5) {
        0 => random.within(149, 152),
        1 => random.within(5_998, 6_001),
        2 => random.about(1_000_000),
        _ => random.within(151, 5_999),
    }
}

fn levels(random: &mut Random, points: u32) -> Vec<u32> {
    let count = if random.once_in(10) { random.within(0, 9) } else { points };
    let highest = if random.once_in(10) { 12_001 } else { 12_000 };
    (0..count).map(|_| random.about(highest - 1).min(highest)).collect()
}

pub fn spell(journal: &mut Vec<u32>, change: &Change) {
    match change {
        &Change::Enter { identity, movement: Movement { aircraft, kind, time, mass }, ref given } => {
            journal.extend([1, identity, aircraft, kind, time, mass, given.len() as u32]);
            journal.extend(given);
        }
        Change::Supply { identity, given } => {
            journal.extend([2, *identity, given.len() as u32]);
            journal.extend(given);
        }
        &Change::TakeBack { identity } => journal.extend([3, identity]),
        &Change::Withdraw { identity } => journal.extend([4, identity]),
        Change::Replay { .. } => {}
    }
}

/// Mostly enough, now and then too small by one.
fn room_about(random: &mut Random, needed: usize) -> usize {
    match random.within(0, 3) {
        0 => needed.saturating_sub(1),
        1 => needed + random.within(1, 3) as usize,
        _ => needed,
    }
}

/// A sound book with `standing` movements that count everywhere; at `highest` lies the greatest level.
pub fn a_book(random: &mut Random, rows: usize, standing: usize, points: u32, highest: u32) -> Book {
    let mut book = Columns::new(rows, points);
    let gap = (99_999 / standing.max(1) as u32).min(random.within(1, 5));
    let (groups, computed) = (random.within(0, 17), random.within(0, 4));
    for row in 0..standing {
        book.identities[row] = 1 + row as u32 * gap;
        book.groups[row] = random.within(0, groups);
        book.marks[row] = u32::from(random.within(0, 4) < computed);
        if book.marks[row] == 1 {
            for level in &mut book.levels[row * points as usize..][..points as usize] {
                *level = random.about(highest - 1).min(highest);
            }
        }
    }
    book.everywhere()
}

/// As `a_book`, with points of many manners: where nobody counts, those alone that aren't computed, few, half or all;
/// and now and then a movement that counts nowhere.
pub fn a_book_somewhere(random: &mut Random, rows: usize, standing: usize, points: u32, highest: u32) -> Book {
    let mut book = a_book(random, rows, standing, points, highest);
    let manners: Vec<u32> = (0..points).map(|_| random.within(0, 11)).collect();
    for row in 0..standing {
        let nowhere = random.once_in(10);
        for (point, manner) in manners.iter().enumerate() {
            let counts = match manner {
                0 => false,
                1 => book.marks[row] == 0,
                2 => random.once_in(20),
                3..=5 => true,
                _ => random.once_in(2),
            };
            if nowhere || !counts {
                let cell = row * points as usize + point;
                (book.counts[cell], book.levels[cell]) = (0, 0);
            }
        }
    }
    book
}

/// Spoils a book in one place; now and then what comes out is sound after all.
pub fn spoil(random: &mut Random, book: &mut Book) {
    let column = random.within(0, 3);
    let length = random.once_in(3);
    let columns = [&mut book.identities, &mut book.groups, &mut book.marks, &mut book.levels];
    let spoilt = columns.into_iter().nth(column as usize).expect("four of the five columns");
    match (length, spoilt.is_empty()) {
        (true, _) if random.once_in(2) => spoilt.push(0),
        (true, false) => drop(spoilt.pop()),
        (false, false) => {
            let place = random.within(0, spoilt.len() as u32 - 1) as usize;
            spoilt[place] = random.pick(&[0, 1, 2, 17, 18, 12_000, 12_001, 99_999, 100_000, u32::MAX]);
        }
        _ => book.points = random.pick(&[0, 9, u32::MAX]),
    }
    if random.once_in(10) {
        book.points = random.about(8);
    }
    // No or nine points, and the columns fit them.
    if random.once_in(10) {
        book.points = random.pick(&[0, 9]);
        let cells = book.identities.len() * book.points as usize;
        book.counts.resize(cells, 0);
        book.levels.resize(cells, 0);
    }
}

/// Ways to spoil the yes and no of a book, or a level beside them, in one place; the rest stays right.
type Spoil = fn(&mut Random, &mut Book);
const WAYS: [(&str, Spoil); 8] = [
    ("a number too many", |random, book| book.counts.push(random.within(0, 1))),
    ("a number too few", |_, book| book.counts.truncate(book.counts.len() - 1)),
    ("a number over 1", |random, book| *a_count(random, book) = random.pick(&[2, 3, u32::MAX])),
    ("yes for no or no for yes", |random, book| *a_count(random, book) ^= 1),
    ("those of another number of points", |_, book| {
        book.counts.resize(book.identities.len() * (book.points as usize % 8 + 1), 0);
    }),
    ("another number of points, which the levels fit", |_, book| {
        book.points = book.points % 8 + 1;
        book.levels.resize(book.identities.len() * book.points as usize, 0);
    }),
    ("a level where its row doesn't count", |random, book| {
        let elsewhere = |&cell: &usize| book.marks[cell / book.points as usize] == 1 && book.counts[cell] == 0;
        let cells: Vec<usize> = (0..book.counts.len()).filter(elsewhere).collect();
        if !cells.is_empty() {
            book.levels[random.pick(&cells)] = random.within(1, 12_000);
        }
    }),
    ("a yes in an unused row", |random, book| {
        let used = book.identities.iter().filter(|&&identity| identity > 0).count() * book.points as usize;
        if used < book.counts.len() {
            let cell = random.within(used as u32, book.counts.len() as u32 - 1) as usize;
            book.counts[cell] = 1;
        }
    }),
];

fn a_count<'a>(random: &mut Random, book: &'a mut Book) -> &'a mut u32 {
    let cell = random.within(0, book.counts.len() as u32 - 1) as usize;
    &mut book.counts[cell]
}

/// Spoils a sound book with a row in one of these ways, where there is such a place.
pub fn spoil_counting(random: &mut Random, book: &mut Book) {
    let (before, (what, spoil)) = (book.clone(), random.pick(&WAYS));
    spoil(random, book);
    saw("spoilt", if *book == before { "not at all" } else { what });
}

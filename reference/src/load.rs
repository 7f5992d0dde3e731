//! The load and the verdict at a point (RULES, Energy and load).

use crate::book::Book;
use crate::level::{energy, level, mean};
use crate::movement::{Period, GROUPS};
use crate::{ensure, Answer, Refusal};

const MAX_DAYS: u32 = 366;
pub const MAX_LIMIT: u32 = 12_000;

#[derive(Clone, Debug, PartialEq, Eq)]
pub struct Load {
    pub total: u64,
    /// None: below zero.
    pub level: Option<u32>,
    pub computed: [u64; GROUPS],
    pub missing: [u64; GROUPS],
}

/// 11: days outside 1 to 366.
pub fn check_days(days: u32) -> Answer<()> {
    ensure((1..=MAX_DAYS).contains(&days), Refusal::Days)
}

/// 15: a limit outside 0 to 12,000.
pub fn check_limit(limit: u32) -> Answer<()> {
    ensure(limit <= MAX_LIMIT, Refusal::Range)
}

pub fn load(book: &Book, point: u32, days: u32) -> Answer<Load> {
    check_point(book, point)?;
    check_days(days)?;
    check_computed(book, point as usize)?;
    Ok(work_out(book, point as usize, days))
}

/// Whether the level at the point is over the limit.
pub fn verdict(book: &Book, point: u32, days: u32, limit: u32) -> Answer<bool> {
    check_point(book, point)?;
    check_days(days)?;
    check_limit(limit)?;
    check_computed(book, point as usize)?;
    Ok(work_out(book, point as usize, days).level.is_some_and(|level| level > limit))
}

fn check_point(book: &Book, point: u32) -> Answer<()> {
    ensure((point as usize) < book.points, Refusal::Book)
}

/// 10: movements count at the point, none of them computed.
fn check_computed(book: &Book, point: usize) -> Answer<()> {
    let nobody = book.counting(point).next().is_none();
    let any_computed = book.counting(point).any(|movement| movement.levels.is_some());
    ensure(nobody || any_computed, Refusal::NoneComputed)
}

fn work_out(book: &Book, point: usize, days: u32) -> Load {
    let (mut computed, mut missing, mut energies) = ([0; GROUPS], [0; GROUPS], [0; GROUPS]);
    for movement in book.counting(point) {
        let group = movement.group as usize;
        match &movement.levels {
            Some(levels) => {
                computed[group] += 1;
                energies[group] += energy(levels[point] + Period::of_group(movement.group).weight());
            }
            None => missing[group] += 1,
        }
    }
    let total = total(&computed, &missing, &energies);
    Load { total, level: level(mean(total, days)), computed, missing }
}

/// Formulas 10 and 11: each group scaled by (V+U)/V, their sum by (V+U+W)/(V+U), both rounded down.
fn total(computed: &[u64; GROUPS], missing: &[u64; GROUPS], energies: &[u64; GROUPS]) -> u64 {
    let (mut sum, mut covered, mut uncovered) = (0, 0, 0);
    for ((&v, &u), &s) in computed.iter().zip(missing).zip(energies) {
        if v > 0 {
            sum += scaled(s, v + u, v);
            covered += v + u;
        } else {
            uncovered += u;
        }
    }
    if covered == 0 {
        return 0;
    }
    scaled(sum, covered + uncovered, covered)
}

fn scaled(energy: u64, upper: u64, lower: u64) -> u64 {
    (u128::from(energy) * u128::from(upper) / u128::from(lower)) as u64
}

#[cfg(test)]
mod tests {
    use super::*;
    use crate::book::Columns;

    /// A book of one point where every movement counts.
    fn a_book(identities: Vec<u32>, groups: Vec<u32>, marks: Vec<u32>, levels: Vec<u32>) -> Book {
        Columns { identities, groups, marks, counts: vec![], levels, points: 1 }.everywhere().read().unwrap()
    }

    fn document_book() -> Book {
        a_book(vec![1, 2, 3, 4], vec![0, 0, 0, 17], vec![1, 1, 0, 0], vec![10_000, 10_000, 0, 0])
    }

    #[test]
    fn the_documents_file() {
        let load = load(&document_book(), 0, 1).unwrap();
        assert_eq!((load.total, load.level), (4 * 10u64.pow(10), Some(5666)));
        assert_eq!((load.computed[0], load.missing[0], load.missing[17]), (2, 1, 1));
        assert_eq!(verdict(&document_book(), 0, 1, 5665), Ok(true));
        assert_eq!(verdict(&document_book(), 0, 1, 5666), Ok(false));
    }

    /// The same file at four points: everybody, without the last, the missing ones alone, nobody.
    #[test]
    fn points_of_their_own() {
        let counts = [[1, 1, 0, 0], [1, 1, 0, 0], [1, 1, 1, 0], [1, 0, 1, 0]];
        let levels = [[10_000, 10_000, 0, 0], [10_000, 10_000, 0, 0], [0; 4], [0; 4]];
        let columns = Columns {
            identities: vec![1, 2, 3, 4],
            groups: vec![0, 0, 0, 17],
            marks: vec![1, 1, 0, 0],
            counts: counts.concat(),
            levels: levels.concat(),
            points: 4,
        };
        let book = columns.read().unwrap();
        assert_eq!(load(&book, 0, 1), load(&document_book(), 0, 1));
        let second = load(&book, 1, 1).unwrap();
        assert_eq!((second.total, second.level), (3 * 10u64.pow(10), Some(5541)));
        assert_eq!((second.computed[0], second.missing[0], second.missing[17]), (2, 1, 0));
        assert_eq!(load(&book, 2, 1), Err(Refusal::NoneComputed));
        assert_eq!(verdict(&book, 2, 1, 0), Err(Refusal::NoneComputed));
        assert_eq!(load(&book, 3, 1), Ok(Load { total: 0, level: None, computed: [0; 18], missing: [0; 18] }));
        assert_eq!(verdict(&book, 3, 1, 0), Ok(false));
    }

    #[test]
    fn refusals_in_the_documents_order() {
        let missing = a_book(vec![1], vec![0], vec![0], vec![0]);
        assert_eq!(load(&missing, 1, 0), Err(Refusal::Book));
        assert_eq!(load(&missing, 0, 0), Err(Refusal::Days));
        assert_eq!(load(&missing, 0, 367), Err(Refusal::Days));
        assert_eq!(load(&missing, 0, 366), Err(Refusal::NoneComputed));
        assert_eq!(verdict(&missing, 0, 0, 12_001), Err(Refusal::Days));
        assert_eq!(verdict(&missing, 0, 1, 12_001), Err(Refusal::Range));
        assert_eq!(verdict(&missing, 0, 1, 12_000), Err(Refusal::NoneComputed));
    }

    #[test]
    fn an_empty_book_is_below_zero() {
        let empty = Columns::new(1, 1).read().unwrap();
        assert_eq!(load(&empty, 0, 1), Ok(Load { total: 0, level: None, computed: [0; 18], missing: [0; 18] }));
        assert_eq!(verdict(&empty, 0, 1, 0), Ok(false));
    }

    #[test]
    fn a_level_of_zero_is_computed() {
        let zero = a_book(vec![1], vec![0], vec![1], vec![0]);
        assert_eq!(load(&zero, 0, 1).unwrap().computed[0], 1);
        assert_eq!(load(&zero, 0, 1).unwrap().total, 1);
    }

    #[test]
    fn the_fullest_book_fits() {
        let rows = 50_000;
        let column = |value: u32| vec![value; rows as usize];
        let book = a_book((1..=rows).collect(), column(2), column(1), column(12_000));
        assert_eq!(load(&book, 0, 1).unwrap().total, 50_000 * 10u64.pow(13));
    }
}

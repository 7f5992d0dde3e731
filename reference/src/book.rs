//! The book (RULES, Movements and the book): lent columns, soundness and the four calls.
//! Here the book is a map from identity to movement; its rows are only made when the columns are written.

use crate::movement::{check_identity, Movement, GROUPS, MAX_IDENTITY, MAX_LEVEL};
use crate::{ensure, Answer, Refusal};
use std::collections::BTreeMap;

pub const MAX_POINTS: u32 = 8;
pub const MAX_ROWS: usize = 50_000;

/// The columns as a caller lends them.
#[derive(Clone, Debug, PartialEq, Eq)]
pub struct Columns<C> {
    pub identities: C,
    pub groups: C,
    pub marks: C,
    /// One number a point: 1 where the movement counts, 0 where it doesn't.
    pub counts: C,
    pub levels: C,
    pub points: u32,
}

#[derive(Clone, Debug, PartialEq, Eq)]
pub struct Standing {
    pub group: u32,
    /// Whether it counts, point by point.
    pub counts: Vec<bool>,
    /// None: not computed.
    pub levels: Option<Vec<u32>>,
}

#[derive(Clone, Debug, PartialEq, Eq)]
pub struct Book {
    pub points: usize,
    pub rows: usize,
    pub movements: BTreeMap<u32, Standing>,
}

impl Columns<Vec<u32>> {
    /// An empty book.
    pub fn new(rows: usize, points: u32) -> Self {
        let zeros = |a_row: u32| vec![0; rows * a_row as usize];
        Columns {
            identities: zeros(1),
            groups: zeros(1),
            marks: zeros(1),
            counts: zeros(points),
            levels: zeros(points),
            points,
        }
    }

    /// The book whose movements all count at every point.
    pub fn everywhere(self) -> Self {
        let a_row = |&identity: &u32| vec![u32::from(identity != 0); self.points as usize];
        let counts = self.identities.iter().flat_map(a_row).collect();
        Columns { counts, ..self }
    }
}

impl<C: AsRef<[u32]>> Columns<C> {
    /// The book that the columns hold, or 9 where they are not sound.
    pub fn read(&self) -> Answer<Book> {
        let (identities, groups, marks) = (self.identities.as_ref(), self.groups.as_ref(), self.marks.as_ref());
        let (counts, levels) = (self.counts.as_ref(), self.levels.as_ref());
        let (rows, points) = (identities.len(), self.points as usize);
        ensure((1..=MAX_POINTS).contains(&self.points) && (1..=MAX_ROWS).contains(&rows), Refusal::Book)?;
        ensure(groups.len() == rows && marks.len() == rows && levels.len() == rows * points, Refusal::Book)?;
        ensure(counts.len() == rows * points, Refusal::Book)?;
        let standing = identities.iter().position(|&identity| identity == 0).unwrap_or(rows);
        let unused = [
            &identities[standing..],
            &groups[standing..],
            &marks[standing..],
            &counts[standing * points..],
            &levels[standing * points..],
        ];
        let unused_is_zero = unused.concat().iter().all(|&value| value == 0);
        let rising = identities[..standing].windows(2).all(|pair| pair[0] < pair[1]);
        ensure(unused_is_zero && rising, Refusal::Book)?;
        let movements = (0..standing).map(|row| {
            let (own, held) = (&counts[row * points..][..points], &levels[row * points..][..points]);
            Ok((identities[row], sound_row(identities[row], groups[row], marks[row], own, held)?))
        });
        Ok(Book { points, rows, movements: movements.collect::<Answer<_>>()? })
    }
}

fn sound_row(identity: u32, group: u32, mark: u32, counts: &[u32], levels: &[u32]) -> Answer<Standing> {
    ensure(identity <= MAX_IDENTITY && (group as usize) < GROUPS, Refusal::Book)?;
    let highest = match mark {
        0 => 0,
        1 => MAX_LEVEL,
        _ => return Err(Refusal::Book),
    };
    ensure(levels.iter().all(|&level| level <= highest), Refusal::Book)?;
    let counts = yes_and_no(counts)?;
    ensure(zero_elsewhere(&counts, levels), Refusal::Book)?;
    Ok(Standing { group, counts, levels: (mark == 1).then(|| levels.to_vec()) })
}

/// 1 is yes and 0 is no; any other number is neither, so 9.
fn yes_and_no(numbers: &[u32]) -> Answer<Vec<bool>> {
    let one = |&number: &u32| match number {
        0 => Ok(false),
        1 => Ok(true),
        _ => Err(Refusal::Book),
    };
    numbers.iter().map(one).collect()
}

/// Whether no level but zero is given at a point where the movement doesn't count.
fn zero_elsewhere(counts: &[bool], levels: &[u32]) -> bool {
    counts.iter().zip(levels).all(|(&counts, &level)| counts || level == 0)
}

impl<C: AsMut<[u32]>> Columns<C> {
    /// Writes the movements as rows in rising identity, the unused rows zero.
    pub fn write(&mut self, book: &Book) {
        let (identities, groups, marks) = (self.identities.as_mut(), self.groups.as_mut(), self.marks.as_mut());
        let (counts, levels) = (self.counts.as_mut(), self.levels.as_mut());
        for column in [&mut *identities, &mut *groups, &mut *marks, &mut *counts, &mut *levels] {
            column.fill(0);
        }
        for (row, (&identity, movement)) in book.movements.iter().enumerate() {
            identities[row] = identity;
            groups[row] = movement.group;
            for (point, &yes) in movement.counts.iter().enumerate() {
                counts[row * book.points + point] = u32::from(yes);
            }
            if let Some(held) = &movement.levels {
                marks[row] = 1;
                levels[row * book.points..][..book.points].copy_from_slice(held);
            }
        }
    }
}

impl Book {
    /// One number a point is given: 1 where the movement counts, 0 where it doesn't.
    pub fn enter(&mut self, identity: u32, movement: Movement, given: &[u32]) -> Answer<()> {
        ensure(given.len() == self.points, Refusal::Book)?;
        let counts = yes_and_no(given)?;
        movement.check()?;
        movement.check_counts()?;
        check_identity(identity)?;
        ensure(!self.movements.contains_key(&identity), Refusal::Stands)?;
        ensure(self.movements.len() < self.rows, Refusal::NoRow)?;
        self.movements.insert(identity, Standing { group: movement.group(), counts, levels: None });
        Ok(())
    }

    pub fn supply(&mut self, identity: u32, levels: &[u32]) -> Answer<()> {
        check_identity(identity)?;
        ensure(levels.len() == self.points && levels.iter().all(|&level| level <= MAX_LEVEL), Refusal::Levels)?;
        let own = self.standing(identity)?;
        ensure(zero_elsewhere(&own.counts, levels), Refusal::Elsewhere)?;
        own.levels = Some(levels.to_vec());
        Ok(())
    }

    pub fn take_back(&mut self, identity: u32) -> Answer<()> {
        check_identity(identity)?;
        self.standing(identity)?.levels.take().map(|_| ()).ok_or(Refusal::NoLevels)
    }

    pub fn withdraw(&mut self, identity: u32) -> Answer<()> {
        check_identity(identity)?;
        self.movements.remove(&identity).map(|_| ()).ok_or(Refusal::StandsNot)
    }

    fn standing(&mut self, identity: u32) -> Answer<&mut Standing> {
        self.movements.get_mut(&identity).ok_or(Refusal::StandsNot)
    }

    /// The movements that count at a point.
    pub fn counting(&self, point: usize) -> impl Iterator<Item = &Standing> {
        self.movements.values().filter(move |movement| movement.counts[point])
    }
}

#[cfg(test)]
mod tests {
    use super::*;

    const LARGE: Movement = Movement { aircraft: 0, kind: 0, time: 25_200, mass: 70_000 };

    fn book(rows: usize, points: u32) -> Book {
        Columns::new(rows, points).read().unwrap()
    }

    #[test]
    fn rows_stand_in_rising_identity() {
        let mut columns = Columns::new(3, 2);
        let mut book = columns.read().unwrap();
        assert_eq!(book.enter(9, LARGE, &[0, 1]), Ok(()));
        assert_eq!(book.enter(4, Movement { kind: 1, ..LARGE }, &[1, 0]), Ok(()));
        assert_eq!(book.supply(9, &[0, 12_000]), Ok(()));
        columns.write(&book);
        assert_eq!(columns.identities, [4, 9, 0]);
        assert_eq!(columns.groups, [3, 0, 0]);
        assert_eq!(columns.marks, [0, 1, 0]);
        assert_eq!(columns.counts, [1, 0, 0, 1, 0, 0]);
        assert_eq!(columns.levels, [0, 0, 0, 12_000, 0, 0]);
        assert_eq!(columns.read(), Ok(book.clone()));
        assert_eq!(book.withdraw(4), Ok(()));
        columns.write(&book);
        assert_eq!(columns.counts, [0, 1, 0, 0, 0, 0]);
    }

    #[test]
    fn each_refusal_of_the_calls() {
        let mut book = book(1, 1);
        let small = Movement { aircraft: 1, mass: 6_000, ..LARGE };
        for wrong in [&[][..], &[1, 1], &[2]] {
            assert_eq!(book.enter(0, small, wrong), Err(Refusal::Book), "before 1: {wrong:?}");
        }
        assert_eq!(book.enter(0, small, &[1]), Err(Refusal::Movement));
        assert_eq!(book.enter(0, Movement { mass: 150, ..LARGE }, &[1]), Err(Refusal::TooLight));
        assert_eq!(book.enter(0, LARGE, &[1]), Err(Refusal::Identity));
        assert_eq!(book.enter(7, LARGE, &[1]), Ok(()));
        assert_eq!(book.enter(7, LARGE, &[1]), Err(Refusal::Stands), "before 6");
        assert_eq!(book.enter(8, LARGE, &[1]), Err(Refusal::NoRow));
        assert_eq!(book.supply(8, &[12_001]), Err(Refusal::Levels), "before 5");
        assert_eq!(book.supply(7, &[1, 2]), Err(Refusal::Levels));
        assert_eq!(book.supply(8, &[1]), Err(Refusal::StandsNot));
        assert_eq!(book.take_back(8), Err(Refusal::StandsNot));
        assert_eq!(book.take_back(7), Err(Refusal::NoLevels));
        assert_eq!(book.supply(7, &[0]), Ok(()));
        assert_eq!(book.take_back(7), Ok(()), "zero is a level too");
        assert_eq!(book.withdraw(100_000), Err(Refusal::Identity));
        assert_eq!(book.withdraw(7), Ok(()));
        assert_eq!(book.withdraw(7), Err(Refusal::StandsNot));
        assert_eq!(book.enter(7, LARGE, &[0]), Ok(()), "the room and the identity are free again");
        assert_eq!(book.supply(7, &[12_001]), Err(Refusal::Levels), "before 19");
        assert_eq!(book.supply(7, &[1]), Err(Refusal::Elsewhere));
        assert_eq!(book.supply(7, &[0]), Ok(()), "a movement may count nowhere");
    }

    #[test]
    fn unsound_books_are_refused() {
        let sound = Columns {
            identities: vec![3, 5, 0],
            groups: vec![17, 0, 0],
            marks: vec![1, 0, 0],
            counts: vec![1, 0, 0],
            levels: vec![9, 0, 0],
            points: 1,
        };
        assert!(sound.read().is_ok());
        let spoil: [fn(&mut Columns<Vec<u32>>); 17] = [
            |c| c.points = 0,
            |c| c.points = 2,
            |c| c.identities = vec![5, 5, 0],
            |c| c.identities = vec![0, 5, 0],
            |c| c.identities[1] = 100_000,
            |c| c.groups[0] = 18,
            |c| c.groups[2] = 1,
            |c| c.marks[0] = 2,
            |c| c.marks[0] = 0,
            |c| c.levels[0] = 12_001,
            |c| c.levels[2] = 1,
            |c| c.marks.push(0),
            |c| c.counts.push(0),
            |c| c.counts.truncate(2),
            |c| c.counts[1] = 2,
            |c| c.counts[2] = 1,
            |c| c.counts[0] = 0,
        ];
        for (number, spoil) in spoil.iter().enumerate() {
            let mut columns = sound.clone();
            spoil(&mut columns);
            assert_eq!(columns.read(), Err(Refusal::Book), "spoilt in way {number}");
        }
        assert!(Columns::new(50_000, 8).read().is_ok());
        assert_eq!(Columns::new(50_001, 1).read(), Err(Refusal::Book));
        assert_eq!(Columns::new(0, 1).read(), Err(Refusal::Book));
    }
}

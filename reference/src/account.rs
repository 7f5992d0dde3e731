//! How a load comes about (RULES, Energy and load).

use crate::book::Book;
use crate::level::energy;
use crate::load::load;
use crate::movement::{Period, GROUPS};
use crate::Answer;

/// V, U, S and the scaled energy of a group.
#[derive(Clone, Copy, Debug, Default, PartialEq, Eq)]
pub struct Group {
    pub computed: u64,
    pub missing: u64,
    pub energy: u64,
    pub scaled: u64,
}

#[derive(Clone, Debug, PartialEq, Eq)]
pub struct Account {
    pub groups: [Group; GROUPS],
    /// The general factor: V+U+W over V+U.
    pub upper: u64,
    pub lower: u64,
    /// P.
    pub energy: u64,
    pub total: u64,
    /// None: below zero.
    pub level: Option<u32>,
}

/// Refused as the load; total and level are its own, all else is worked out from the movements that count at the point.
pub fn account(book: &Book, point: u32, days: u32) -> Answer<Account> {
    let load = load(book, point, days)?;
    let groups = std::array::from_fn(|group| group_at(book, point as usize, group as u32));
    let with_levels = || groups.iter().filter(|group| group.computed > 0);
    Ok(Account {
        groups,
        upper: book.counting(point as usize).count() as u64,
        lower: with_levels().map(|group| group.computed + group.missing).sum(),
        energy: with_levels().map(|group| group.scaled).sum(),
        total: load.total,
        level: load.level,
    })
}

fn group_at(book: &Book, point: usize, number: u32) -> Group {
    let movements: Vec<_> = book.counting(point).filter(|movement| movement.group == number).collect();
    let weight = Period::of_group(number).weight();
    let energies: Vec<u64> =
        movements.iter().filter_map(|movement| Some(energy(movement.levels.as_ref()?[point] + weight))).collect();
    let (standing, computed, energy) = (movements.len() as u64, energies.len() as u64, energies.iter().sum());
    let scaled = (u128::from(energy) * u128::from(standing)).checked_div(u128::from(computed)).unwrap_or(0) as u64;
    Group { computed, missing: standing - computed, energy, scaled }
}

#[cfg(test)]
mod tests {
    use super::*;
    use crate::book::Columns;
    use crate::Refusal;

    fn document_columns() -> Columns<Vec<u32>> {
        let (identities, groups) = (vec![1, 2, 3, 4], vec![0, 0, 0, 17]);
        let (marks, levels) = (vec![1, 1, 0, 0], vec![10_000, 10_000, 0, 0]);
        Columns { identities, groups, marks, counts: vec![], levels, points: 1 }.everywhere()
    }

    #[test]
    fn the_documents_file() {
        let mut groups = [Group::default(); GROUPS];
        groups[0] = Group { computed: 2, missing: 1, energy: 20_000_000_000, scaled: 30_000_000_000 };
        groups[17].missing = 1;
        let (energy, total, level) = (30_000_000_000, 40_000_000_000, Some(5666));
        let expected = Account { groups, upper: 4, lower: 3, energy, total, level };
        assert_eq!(account(&document_columns().read().unwrap(), 0, 1), Ok(expected));
    }

    #[test]
    fn movements_elsewhere_have_no_part() {
        let elsewhere = Columns { counts: vec![1, 1, 0, 0], ..document_columns() };
        let mut groups = [Group::default(); GROUPS];
        groups[0] = Group { computed: 2, missing: 0, energy: 20_000_000_000, scaled: 20_000_000_000 };
        let (energy, total, level) = (20_000_000_000, 20_000_000_000, Some(5365));
        let expected = Account { groups, upper: 2, lower: 2, energy, total, level };
        assert_eq!(account(&elsewhere.read().unwrap(), 0, 1), Ok(expected));
    }

    #[test]
    fn refused_as_the_load() {
        let missing = Columns { marks: vec![0; 4], levels: vec![0; 4], ..document_columns() }.read().unwrap();
        assert_eq!(account(&missing, 1, 0), Err(Refusal::Book));
        assert_eq!(account(&missing, 0, 0), Err(Refusal::Days));
        assert_eq!(account(&missing, 0, 1), Err(Refusal::NoneComputed));
    }

    #[test]
    fn where_nobody_counts_there_is_no_factor() {
        let nowhere =
            Columns { counts: vec![0; 4], marks: vec![0; 4], levels: vec![0; 4], ..document_columns() }.read().unwrap();
        for book in [Columns::new(1, 1).read().unwrap(), nowhere] {
            let groups = [Group::default(); GROUPS];
            let expected = Account { groups, upper: 0, lower: 0, energy: 0, total: 0, level: None };
            assert_eq!(account(&book, 0, 1), Ok(expected));
        }
    }
}

//! One movement: type, kind, time, mass, period and group (RULES, Movements and the book).

use crate::{ensure, Answer, Refusal};

pub const GROUPS: usize = 18;
pub const MAX_IDENTITY: u32 = 99_999;
pub const MAX_LEVEL: u32 = 12_000;
const MAX_TYPE: u32 = 2;
const MAX_KIND: u32 = 1;
const MAX_TIME: u32 = 86_399;
const MAX_MASS: u32 = 1_000_000;
const SMALL: u32 = 1;
/// A small movement is lighter than this.
const SMALL_MASS: u32 = 6_000;
/// A movement counts only if it is heavier than this.
const LIGHT_MASS: u32 = 150;

#[derive(Clone, Copy, Debug, PartialEq, Eq)]
pub enum Period {
    Day,
    Evening,
    Night,
}

impl Period {
    pub const DAY: u32 = 7 * 3600;
    pub const EVENING: u32 = 19 * 3600;
    pub const NIGHT: u32 = 23 * 3600;

    /// The period of a second of the local day.
    pub fn at(time: u32) -> Period {
        match time {
            Self::DAY..Self::EVENING => Period::Day,
            Self::EVENING..Self::NIGHT => Period::Evening,
            _ => Period::Night,
        }
    }

    /// Hundredths of a dB added to the level: the weights 1, √10 and 10.
    pub fn weight(self) -> u32 {
        match self {
            Period::Day => 0,
            Period::Evening => 500,
            Period::Night => 1000,
        }
    }

    /// The period that a group's number stands for.
    pub fn of_group(group: u32) -> Period {
        [Period::Day, Period::Evening, Period::Night][(group % 3) as usize]
    }
}

#[derive(Clone, Copy, Debug, PartialEq, Eq)]
pub struct Movement {
    pub aircraft: u32,
    pub kind: u32,
    pub time: u32,
    pub mass: u32,
}

impl Movement {
    /// 1: a value outside its range, or small and too heavy for it.
    pub fn check(&self) -> Answer<()> {
        let in_range =
            self.aircraft <= MAX_TYPE && self.kind <= MAX_KIND && self.time <= MAX_TIME && self.mass <= MAX_MASS;
        let too_heavy = self.aircraft == SMALL && self.mass >= SMALL_MASS;
        ensure(in_range && !too_heavy, Refusal::Movement)
    }

    /// 2: too light to count.
    pub fn check_counts(&self) -> Answer<()> {
        ensure(self.mass > LIGHT_MASS, Refusal::TooLight)
    }

    pub fn group(&self) -> u32 {
        6 * self.aircraft + 3 * self.kind + Period::at(self.time) as u32
    }
}

/// 3: no identity.
pub fn check_identity(identity: u32) -> Answer<()> {
    ensure((1..=MAX_IDENTITY).contains(&identity), Refusal::Identity)
}

#[cfg(test)]
mod tests {
    use super::*;

    fn movement(aircraft: u32, kind: u32, time: u32, mass: u32) -> Movement {
        Movement { aircraft, kind, time, mass }
    }

    #[test]
    fn worked_periods() {
        use Period::*;
        let worked =
            [(25_199, Night), (25_200, Day), (68_399, Day), (68_400, Evening), (82_799, Evening), (82_800, Night)];
        for (time, expected) in worked {
            assert_eq!(Period::at(time), expected, "second {time}");
        }
        assert_eq!((Period::at(0), Period::at(86_399)), (Night, Night));
    }

    #[test]
    fn worked_masses() {
        assert_eq!(movement(0, 0, 0, 150).check_counts(), Err(Refusal::TooLight));
        assert_eq!(movement(0, 0, 0, 151).check_counts(), Ok(()));
        assert_eq!(movement(1, 0, 0, 5_999).check(), Ok(()));
        assert_eq!(movement(1, 0, 0, 6_000).check(), Err(Refusal::Movement));
        assert_eq!(movement(0, 0, 0, 5_999).check(), Ok(()), "a large one may be lighter");
    }

    #[test]
    fn ranges_end_where_the_document_says() {
        assert_eq!(movement(2, 1, 86_399, 1_000_000).check(), Ok(()));
        for wrong in
            [movement(3, 0, 0, 0), movement(0, 2, 0, 0), movement(0, 0, 86_400, 0), movement(0, 0, 0, 1_000_001)]
        {
            assert_eq!(wrong.check(), Err(Refusal::Movement), "{wrong:?}");
        }
        assert_eq!(check_identity(0), Err(Refusal::Identity));
        assert_eq!(check_identity(99_999), Ok(()));
        assert_eq!(check_identity(100_000), Err(Refusal::Identity));
    }

    #[test]
    fn groups_number_type_kind_and_period() {
        assert_eq!(movement(0, 0, 25_200, 200).group(), 0);
        assert_eq!(movement(1, 0, 68_400, 200).group(), 7);
        assert_eq!(movement(2, 1, 0, 200).group(), 17);
        assert_eq!(Period::of_group(7), Period::Evening);
    }
}

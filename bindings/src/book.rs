//! A book of movements: its calls, loads, their accounts, and verdicts.

use crate::raw;
use crate::refusal::{Answer, Refusal};

/// Type, kind and period give this many groups: number 6·type + 3·kind + period.
pub const GROUPS: usize = 18;
const LOAD_NUMBERS: usize = 3 + 2 * GROUPS;
const ACCOUNT_NUMBERS: usize = 4 * GROUPS + 6;

/// A book: five columns that the caller lends, all zero at first. Rows: 1 to 50,000, as many as identities, groups and
/// marks; counts and levels have `points` (1 to 8) numbers a row.
#[derive(Debug)]
pub struct Book<'a> {
    pub identities: &'a mut [u32],
    pub groups: &'a mut [u32],
    pub marks: &'a mut [u32],
    /// 1 where the movement counts; 0 where it doesn't, and there its level is 0 too.
    pub counts: &'a mut [u32],
    /// Hundredths of a dB, 0 to 12,000.
    pub levels: &'a mut [u32],
    pub points: u32,
}

/// A load at a point, of the movements that count there.
#[derive(Clone, Debug, PartialEq, Eq)]
pub struct Load {
    pub total: u64,
    /// Hundredths of a dB; None: below zero.
    pub level: Option<u64>,
    /// V of each group.
    pub computed: [u64; GROUPS],
    /// U of each group.
    pub missing: [u64; GROUPS],
}

/// A group in an account.
#[derive(Clone, Copy, Debug, Default, PartialEq, Eq)]
pub struct Group {
    /// V.
    pub computed: u64,
    /// U.
    pub missing: u64,
    /// S.
    pub energy: u64,
    /// S·(V+U)/V rounded down, 0 where V is 0.
    pub scaled: u64,
}

/// How a load comes about.
#[derive(Clone, Debug, PartialEq, Eq)]
pub struct Account {
    pub groups: [Group; GROUPS],
    /// The general factor, V+U+W over V+U; None where no movement counts.
    pub factor: Option<(u64, u64)>,
    /// P, the sum of the scaled energies.
    pub energy: u64,
    pub total: u64,
    /// Hundredths of a dB; None: below zero.
    pub level: Option<u64>,
}

/// Calls a function of the header with a book, to write to or to read, numbers, slices to read and slices to write to.
macro_rules! with_book {
    ($name:ident, $pointer:ident, $book:expr, [$($number:expr),*], [$($given:expr),*], [$($room:expr),*]) => {
        // SAFETY: each slice is lent with its own length, and those that are written to are borrowed for that alone.
        Refusal::of(unsafe {
            raw::$name(
                $book.identities.$pointer(), $book.identities.len(), $book.groups.$pointer(), $book.groups.len(),
                $book.marks.$pointer(), $book.marks.len(), $book.counts.$pointer(), $book.counts.len(),
                $book.levels.$pointer(), $book.levels.len(), $book.points,
                $($number,)* $($given.as_ptr(), $given.len(),)* $($room.as_mut_ptr(), $room.len(),)*
            )
        })
    };
}

impl Book<'_> {
    /// Enters a movement, not computed. aircraft: 0 large, 1 small, 2 helicopter; kind: 0 start, 1 landing; `given` has
    /// one number a point, 1 where the movement counts and 0 where it doesn't.
    pub fn enter(
        &mut self,
        identity: u32,
        aircraft: u32,
        kind: u32,
        time: u32,
        mass: u32,
        given: &[u32],
    ) -> Answer<()> {
        with_book!(okubinrafo_enter, as_mut_ptr, self, [identity, aircraft, kind, time, mass], [given], [])
    }

    /// Supplies all levels of a standing movement in hundredths of a dB, 0 where it doesn't count, which marks it
    /// computed.
    pub fn supply(&mut self, identity: u32, given: &[u32]) -> Answer<()> {
        with_book!(okubinrafo_supply, as_mut_ptr, self, [identity], [given], [])
    }

    /// Takes the levels of a movement back: it is no longer computed.
    pub fn take_back(&mut self, identity: u32) -> Answer<()> {
        with_book!(okubinrafo_take_back, as_mut_ptr, self, [identity], [], [])
    }

    /// Withdraws a movement: its room and its identity are free again.
    pub fn withdraw(&mut self, identity: u32) -> Answer<()> {
        with_book!(okubinrafo_withdraw, as_mut_ptr, self, [identity], [], [])
    }

    /// Makes the calls of a journal (include/okubinrafo.h), with levels in hundredths of a dB; `answers` gets one number
    /// a call, 0 or its refusal.
    pub fn replay(&mut self, journal: &[u32], answers: &mut [u32]) -> Answer<()> {
        with_book!(okubinrafo_replay, as_mut_ptr, self, [], [journal], [answers])
    }

    /// The load at a point over a number of days.
    pub fn load(&self, point: u32, days: u32) -> Answer<Load> {
        let mut answer = [0; LOAD_NUMBERS];
        with_book!(okubinrafo_load, as_ptr, self, [point, days], [], [answer])?;
        let [total, given, level, counts @ ..] = answer;
        let (computed, missing) = counts.split_at(GROUPS);
        let groups = |part: &[u64]| part.try_into().expect("a number a group");
        let level = (given == 1).then_some(level);
        Ok(Load { total, level, computed: groups(computed), missing: groups(missing) })
    }

    /// How the load at a point over a number of days comes about.
    pub fn account(&self, point: u32, days: u32) -> Answer<Account> {
        let mut answer = [0; ACCOUNT_NUMBERS];
        with_book!(okubinrafo_account, as_ptr, self, [point, days], [], [answer])?;
        let (fours, whole) = answer.split_at(4 * GROUPS);
        let mut groups = [Group::default(); GROUPS];
        for (group, four) in groups.iter_mut().zip(fours.chunks_exact(4)) {
            *group = Group { computed: four[0], missing: four[1], energy: four[2], scaled: four[3] };
        }
        let factor = (whole[1] > 0).then_some((whole[0], whole[1]));
        let level = (whole[4] == 1).then_some(whole[5]);
        Ok(Account { groups, factor, energy: whole[2], total: whole[3], level })
    }

    /// Whether the level at a point is over a limit, in hundredths of a dB.
    pub fn verdict(&self, point: u32, days: u32, limit: u32) -> Answer<bool> {
        let mut answer = [0];
        with_book!(okubinrafo_verdict, as_ptr, self, [point, days, limit], [], [answer])?;
        Ok(answer == [1])
    }
}

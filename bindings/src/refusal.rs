//! Refusals by their numbers and names.

use crate::raw;
use std::fmt;

/// As long as any sentence.
const SENTENCE_BYTES: usize = 120;

/// Why a call was refused: a number of the rules (docs/RULES.md, Refusal numbers).
#[derive(Clone, Copy, Debug, PartialEq, Eq, Hash)]
pub struct Refusal(pub u32);

pub type Answer<T> = Result<T, Refusal>;

macro_rules! refusals {
    ($($name:ident = $number:literal, $reason:literal;)*) => {
        impl Refusal {
            $(#[doc = $reason] pub const $name: Refusal = Refusal($number);)*
            /// Every refusal with its name.
            pub const ALL: &'static [(&'static str, Refusal)] = &[$((stringify!($name), Refusal::$name)),*];
        }
    };
}

refusals! {
    OUT_OF_RANGE = 1, "type, kind, time or mass is outside its range, or small with 6,000 kg or more";
    TOO_LIGHT = 2, "the mass is 150 kg or less";
    WRONG_IDENTITY = 3, "the identity is 0 or over 99,999";
    ALREADY_STANDS = 4, "the identity already stands";
    DOES_NOT_STAND = 5, "the identity doesn't stand";
    NO_UNUSED_ROW = 6, "the book is full";
    WRONG_LEVELS = 7, "another number of levels than points, or one over 12,000 hundredths";
    NO_LEVELS_HELD = 8, "there are no levels to take back";
    NOT_SOUND = 9, "the book, its number of points, the point asked for, or yes and no";
    NONE_COMPUTED = 10, "movements count at the point and none of them is computed";
    WRONG_DAYS = 11, "the days are outside 1 to 366";
    WRONG_NETWORK = 12, "size, spacing, origin or count of values of a network";
    WRONG_NETWORK_LEVEL = 13, "a network level is over 150,000 thousandths or no data";
    TOO_LITTLE_ROOM = 14, "less room is lent than the answer needs";
    WRONG_LEVEL_ASKED = 15, "a limit is over 12,000 hundredths, or a contour level not 1 to 150,000 thousandths";
    REGISTER_OFF_LAYOUT = 16, "the text of a register, or a journal's numbers";
    NETWORK_OFF_LAYOUT = 17, "the text of a network";
    WRONG_FLIGHTS = 18, "too many movements or tracks, columns of unequal length, or a value out of its range";
    LEVEL_ELSEWHERE = 19, "a level other than zero at a point where the movement doesn't count";
}

impl Refusal {
    /// What the library returned as an answer.
    pub(crate) fn of(number: u32) -> Answer<()> {
        match number {
            0 => Ok(()),
            number => Err(Refusal(number)),
        }
    }

    /// The sentence for this refusal, in English; empty for a number that is none.
    pub fn sentence(self) -> String {
        let (mut text, mut size) = ([0; SENTENCE_BYTES], [0]);
        let (room, many) = (text.as_mut_ptr(), text.len());
        // SAFETY: each slice is lent with its own length, and those that are written to are borrowed for that alone.
        let answer = unsafe { raw::okubinrafo_sentence(self.0, room, many, size.as_mut_ptr(), size.len()) };
        assert_eq!(answer, 0, "a sentence has {SENTENCE_BYTES} bytes at most");
        String::from_utf8_lossy(&text[..size[0] as usize]).into_owned()
    }
}

impl fmt::Display for Refusal {
    fn fmt(&self, to: &mut fmt::Formatter<'_>) -> fmt::Result {
        write!(to, "refused ({}): {}", self.0, self.sentence())
    }
}

impl std::error::Error for Refusal {}

#[cfg(test)]
mod tests {
    use super::*;

    #[test]
    fn names_and_numbers_are_the_headers() {
        let named = |line: &'static str| {
            let (name, number) = line.trim().strip_prefix("OKUBINRAFO_")?.split_once(" = ")?;
            let digits = number.find(|byte: char| !byte.is_ascii_digit()).unwrap_or(number.len());
            Some((name, Refusal(number[..digits].parse().ok()?)))
        };
        let header: Vec<_> = include_str!("../../include/okubinrafo.h").lines().filter_map(named).collect();
        assert_eq!(header, Refusal::ALL);
        assert_eq!(header.last().map(|(_, refusal)| refusal.0), Some(header.len() as u32));
        assert!(header.len() >= 19);
    }

    #[test]
    fn a_refusal_says_its_number_and_sentence() {
        assert_eq!(Refusal::ALREADY_STANDS.to_string(), "refused (4): the identity already stands");
        assert!(Refusal::ALL.iter().all(|(_, refusal)| !refusal.sentence().is_empty()));
        assert_eq!(Refusal(99).sentence(), "");
    }
}

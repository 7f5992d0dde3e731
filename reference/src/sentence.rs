//! The sentence for each refusal's number (docs/LIBRARY.md).

use crate::Refusal;

/// The sentence for a refusal.
fn of(refusal: Refusal) -> &'static str {
    match refusal {
        Refusal::Movement => "type, kind, time or mass is out of range, or a small aircraft has 6,000 kg or more",
        Refusal::TooLight => "the mass is 150 kg or less, and only heavier aircraft are entered",
        Refusal::Identity => "the identity is not from 1 to 99,999",
        Refusal::Stands => "the identity already stands",
        Refusal::StandsNot => "the identity does not stand in the book",
        Refusal::NoRow => "the book has no unused row left",
        Refusal::Levels => "the number of levels is not the number of points, or a level is over 120.00",
        Refusal::NoLevels => "the movement has no levels that could be taken back",
        Refusal::Book => {
            "the book is not sound, its points are not 1 to 8, there is no such point, \
             or not one yes or no a point"
        }
        Refusal::NoneComputed => {
            "movements count at the point, and none of them has levels, so no load can be worked out"
        }
        Refusal::Days => "the days have to be from 1 to 366",
        Refusal::Network => {
            "network: size (2 to 256 a side), spacing (1 to 500 m), origin (0 to 900,000 m) \
             or the count of values is wrong"
        }
        Refusal::NetworkLevel => "network: a level is over 150.000, or is the no-data value",
        Refusal::Room => "the room lent for the answer is too small",
        Refusal::Range => "a limit is over 120.00, or a contour level is not from 0.001 to 150.000",
        Refusal::Register => "the register, limits.csv, movements, tracks.csv or the journal is off its layout",
        Refusal::Grid => "network: a line is off its layout, or its line end is LF where CRLF is expected",
        Refusal::Flights => {
            "movements or tracks: over 50,000, columns of unequal length, class or kind over 1, \
             second over 86,399, or no such date"
        }
        Refusal::Elsewhere => "a level is not zero at a point where the movement does not count",
    }
}

/// The sentence for a number, none where it is no refusal.
pub fn sentence(number: u32) -> &'static str {
    Refusal::ALL.into_iter().find(|&refusal| refusal as u32 == number).map_or("", of)
}

#[cfg(test)]
mod tests {
    use super::*;

    #[test]
    fn every_refusal_has_a_sentence_of_its_own() {
        let sentences: Vec<_> = (1..=19).map(sentence).collect();
        for (place, one) in sentences.iter().enumerate() {
            assert!(!one.is_empty() && !sentences[..place].contains(one), "{}", place + 1);
        }
        assert_eq!([sentence(0), sentence(20)], ["", ""]);
    }
}

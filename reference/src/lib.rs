//! The rules in plain Rust, written from docs/RULES.md and from nothing else, to test the proved library against.
//! Each module is one noun of the rules; `calls` has the functions of include/okubinrafo.h over slices.

pub mod account;
pub mod big;
pub mod book;
pub mod calendar;
pub mod calls;
pub mod contour;
pub mod contours_csv;
pub mod couple_csv;
pub mod coupling;
pub mod explain;
pub mod grid;
pub mod journal;
pub mod level;
pub mod load;
pub mod mapping;
pub mod movement;
pub mod network;
pub mod register;
pub mod report;
pub mod sentence;
pub mod text;
pub mod wkt;

/// The refusals with their numbers (RULES, Refusal numbers).
#[derive(Clone, Copy, Debug, PartialEq, Eq)]
#[repr(u32)]
pub enum Refusal {
    Movement = 1,
    TooLight = 2,
    Identity = 3,
    Stands = 4,
    StandsNot = 5,
    NoRow = 6,
    Levels = 7,
    NoLevels = 8,
    Book = 9,
    NoneComputed = 10,
    Days = 11,
    Network = 12,
    NetworkLevel = 13,
    Room = 14,
    Range = 15,
    Register = 16,
    Grid = 17,
    Flights = 18,
    Elsewhere = 19,
}

impl Refusal {
    /// All of them, in the order of their numbers.
    pub const ALL: [Refusal; 19] = [
        Refusal::Movement,
        Refusal::TooLight,
        Refusal::Identity,
        Refusal::Stands,
        Refusal::StandsNot,
        Refusal::NoRow,
        Refusal::Levels,
        Refusal::NoLevels,
        Refusal::Book,
        Refusal::NoneComputed,
        Refusal::Days,
        Refusal::Network,
        Refusal::NetworkLevel,
        Refusal::Room,
        Refusal::Range,
        Refusal::Register,
        Refusal::Grid,
        Refusal::Flights,
        Refusal::Elsewhere,
    ];
}

pub type Answer<T> = Result<T, Refusal>;

/// Goes on where `holds`, otherwise refuses.
pub fn ensure(holds: bool, otherwise: Refusal) -> Answer<()> {
    if holds {
        Ok(())
    } else {
        Err(otherwise)
    }
}

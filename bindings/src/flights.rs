//! Movements and their radar tracks.

use crate::large_stack::on_a_large_stack;
use crate::raw;
use crate::refusal::{Answer, Refusal};

/// Movements or tracks as columns, a number each for a flight; up to 50,000 flights.
#[derive(Clone, Copy, Debug, PartialEq, Eq)]
pub struct Flights<'a> {
    /// year·10000 + month·100 + day, as 20260331.
    pub dates: &'a [u32],
    /// Second of that day.
    pub times: &'a [u32],
    /// 0 aeroplane, 1 helicopter.
    pub classes: &'a [u32],
    /// 0 start, 1 landing.
    pub kinds: &'a [u32],
    /// Runway, airport and type designator agree if they are equal; `name_number` makes numbers of names.
    pub runways: &'a [u32],
    pub airports: &'a [u32],
    pub types: &'a [u32],
}

/// Finds the radar track of each movement (docs/RULES.md, Radar tracks). `circuits` has one number a movement, any but
/// 0 being a circuit; `places` gets one a movement: the place of its track in the list from 1, or 0 for none.
pub fn couple(movements: &Flights, circuits: &[u32], tracks: &Flights, places: &mut [u32]) -> Answer<()> {
    on_a_large_stack(|| couple_here(movements, circuits, tracks, places))
}

#[rustfmt::skip]
fn couple_here(movements: &Flights, circuits: &[u32], tracks: &Flights, places: &mut [u32]) -> Answer<()> {
    let (m, t) = (movements, tracks);
    // SAFETY: each slice is lent with its own length, and the one that is written to is borrowed for that alone.
    Refusal::of(unsafe {
        raw::okubinrafo_couple(
            m.dates.as_ptr(), m.dates.len(), m.times.as_ptr(), m.times.len(), m.classes.as_ptr(), m.classes.len(),
            m.kinds.as_ptr(), m.kinds.len(), m.runways.as_ptr(), m.runways.len(), m.airports.as_ptr(), m.airports.len(),
            m.types.as_ptr(), m.types.len(), circuits.as_ptr(), circuits.len(),
            t.dates.as_ptr(), t.dates.len(), t.times.as_ptr(), t.times.len(), t.classes.as_ptr(), t.classes.len(),
            t.kinds.as_ptr(), t.kinds.len(), t.runways.as_ptr(), t.runways.len(), t.airports.as_ptr(), t.airports.len(),
            t.types.as_ptr(), t.types.len(), places.as_mut_ptr(), places.len(),
        )
    })
}

/// The number of a runway, an airport or a type designator of one to four capital letters or digits; None for others.
pub fn name_number(name: &str) -> Option<u32> {
    let spelled = |byte: u8| byte.is_ascii_uppercase() || byte.is_ascii_digit();
    let right = (1..=4).contains(&name.len()) && name.bytes().all(spelled);
    right.then(|| name.bytes().fold(0, |number, byte| number << 8 | u32::from(byte)))
}

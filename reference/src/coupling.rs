//! Which radar track each movement takes (RULES, Radar tracks).

use crate::calendar::{day_number, exists};
use crate::{ensure, Answer, Refusal};
use std::collections::{BTreeSet, HashMap};

/// Movements, and tracks.
pub const MAX_FLIGHTS: usize = 50_000;
const SECONDS_A_DAY: u32 = 86_400;
const HELICOPTER: u32 = 1;
const LANDING: u32 = 1;
/// The seconds that a track may be away from its movement.
const AEROPLANE_WINDOW: u64 = 5 * 60;
const HELICOPTER_WINDOW: u64 = 10 * 60;

/// The columns of flights in the order of the call: date, time, class, kind, runway, airport, type designator.
pub type Columns<'a> = [&'a [u32]; 7];

/// A movement or a track.
#[derive(Clone, Copy, Debug, PartialEq, Eq)]
pub struct Flight {
    pub date: u32,
    pub time: u32,
    pub class: u32,
    pub kind: u32,
    pub runway: u32,
    pub airport: u32,
    pub designator: u32,
}

#[derive(Clone, Copy, Debug, PartialEq, Eq)]
pub struct Movement {
    pub flight: Flight,
    pub circuit: bool,
}

/// What a movement and its track have alike: class, kind, runway, airport and type designator.
type Traits = (u32, u32, u32, u32, u32);
/// The tracks not yet taken that are alike, each by its second and its place.
type Free = HashMap<Traits, BTreeSet<(u64, usize)>>;

impl Flight {
    fn fits(&self) -> bool {
        let Flight { date, time, class, kind, .. } = *self;
        exists(date) && time < SECONDS_A_DAY && class <= HELICOPTER && kind <= LANDING
    }

    /// The second, over midnight by the date.
    fn second(&self) -> u64 {
        u64::from(day_number(self.date)) * u64::from(SECONDS_A_DAY) + u64::from(self.time)
    }

    fn traits(&self) -> Traits {
        (self.class, self.kind, self.runway, self.airport, self.designator)
    }

    fn window(&self) -> u64 {
        if self.class == HELICOPTER {
            HELICOPTER_WINDOW
        } else {
            AEROPLANE_WINDOW
        }
    }
}

impl Movement {
    /// Takes a track of those that are free: the nearest in time, then the earlier, then that of the lower place.
    fn take(&self, free: &mut Free) -> Option<usize> {
        if self.circuit && self.flight.class != HELICOPTER {
            return None;
        }
        let (own, window) = (self.flight.second(), self.flight.window());
        let alike = free.get_mut(&self.flight.traits())?;
        let before = alike.range(..(own + 1, 0)).next_back();
        let after = alike.range((own, 0)..).next();
        let seconds = before.into_iter().chain(after).map(|&(second, _)| second);
        let near = seconds.filter(|second| second.abs_diff(own) <= window);
        let second = near.min_by_key(|&second| (second.abs_diff(own), second))?;
        let track = *alike.range((second, 0)..).next()?;
        alike.remove(&track);
        Some(track.1)
    }
}

/// The place of each movement's track, from 0.
pub fn couple(movements: &[Movement], tracks: &[Flight]) -> Vec<Option<usize>> {
    let mut free = Free::new();
    for (place, track) in tracks.iter().enumerate() {
        free.entry(track.traits()).or_default().insert((track.second(), place));
    }
    let mut turns: Vec<usize> = (0..movements.len()).collect();
    turns.sort_by_key(|&place| (movements[place].flight.date, movements[place].flight.time, place));
    let mut taken = vec![None; movements.len()];
    for place in turns {
        taken[place] = movements[place].take(&mut free);
    }
    taken
}

/// Flights from their columns: 18 for too many, for columns of unequal length and for a value out of its range.
pub fn read_flights(columns: Columns) -> Answer<Vec<Flight>> {
    let count = columns[0].len();
    let even = count <= MAX_FLIGHTS && columns.iter().all(|column| column.len() == count);
    ensure(even, Refusal::Flights)?;
    let flight = |place: usize| {
        let [date, time, class, kind, runway, airport, designator] = columns.map(|column| column[place]);
        Flight { date, time, class, kind, runway, airport, designator }
    };
    let flights: Vec<Flight> = (0..count).map(flight).collect();
    ensure(flights.iter().all(Flight::fits), Refusal::Flights)?;
    Ok(flights)
}

/// Movements from their columns, the last one the circuits: any number but 0 is one.
pub fn read_movements(columns: Columns, circuits: &[u32]) -> Answer<Vec<Movement>> {
    let flights = read_flights(columns)?;
    ensure(circuits.len() == flights.len(), Refusal::Flights)?;
    let movement = |(flight, &circuit): (Flight, &u32)| Movement { flight, circuit: circuit != 0 };
    Ok(flights.into_iter().zip(circuits).map(movement).collect())
}

#[cfg(test)]
mod tests {
    use super::*;

    const FLIGHT: Flight =
        Flight { date: 20260331, time: 43_200, class: 0, kind: 0, runway: 6, airport: 7, designator: 8 };

    fn movement(flight: Flight) -> Movement {
        Movement { flight, circuit: false }
    }

    /// The rule as it is written, track by track.
    fn by_the_rule(movements: &[Movement], tracks: &[Flight]) -> Vec<Option<usize>> {
        let mut turns: Vec<usize> = (0..movements.len()).collect();
        turns.sort_by_key(|&place| movements[place].flight.second());
        let mut taken = vec![None; movements.len()];
        for turn in turns {
            let Movement { flight, circuit } = movements[turn];
            let away = |place: usize| tracks[place].second().abs_diff(flight.second());
            let may = |&place: &usize| {
                let free = !taken.contains(&Some(place));
                let flies = flight.class == 1 || !circuit;
                let minutes = if flight.class == 0 { 5 } else { 10 };
                free && flies && tracks[place].traits() == flight.traits() && away(place) <= minutes * 60
            };
            let of_all = (0..tracks.len()).filter(may);
            let best = of_all.min_by_key(|&place| (away(place), tracks[place].second(), place));
            taken[turn] = best;
        }
        taken
    }

    /// Every three movements and three tracks at these times, aeroplanes, helicopters and circuits.
    #[test]
    fn three_and_three() {
        const TIMES: [u32; 6] = [0, 150, 300, 301, 600, 901];
        let pick = |number: usize, digit: u32| TIMES[number / 6usize.pow(digit) % 6];
        for (class, circuit) in [(0, 0), (0, 2), (1, 0), (1, 2)] {
            for number in 0..6usize.pow(6) {
                let at = |digit: u32| Flight { date: 19000101, time: pick(number, digit), class, ..FLIGHT };
                let movements = [0, 1, 2].map(|place| Movement { flight: at(place), circuit: place + 1 == circuit });
                let tracks = [3, 4, 5].map(at);
                assert_eq!(couple(&movements, &tracks), by_the_rule(&movements, &tracks), "{movements:?} {tracks:?}");
            }
        }
    }

    #[test]
    fn over_midnight() {
        let late = |date, time| Flight { date, time, ..FLIGHT };
        for (date, next) in [(20260331, 20260401), (20251231, 20260101), (20240228, 20240229), (21000228, 21000301)] {
            let tracks = [late(date, 120), late(next, 120)];
            assert_eq!(couple(&[movement(late(date, 86_280))], &tracks), [Some(1)], "{date}");
            assert_eq!(couple(&[movement(late(date, 86_219))], &tracks), [None], "{date}");
            assert_eq!(couple(&[movement(late(next, 0))], &[late(date, 86_100)]), [Some(0)], "{date}");
        }
    }

    #[test]
    fn what_has_to_agree() {
        for other in [
            Flight { class: 1, ..FLIGHT },
            Flight { kind: 1, ..FLIGHT },
            Flight { runway: 5, ..FLIGHT },
            Flight { airport: 5, ..FLIGHT },
            Flight { designator: 5, ..FLIGHT },
        ] {
            assert_eq!(couple(&[movement(FLIGHT)], &[other]), [None], "{other:?}");
            assert_eq!(couple(&[movement(FLIGHT)], &[other, FLIGHT]), [Some(1)], "{other:?}");
        }
        assert_eq!(couple(&[], &[FLIGHT]), []);
        assert_eq!(couple(&[movement(FLIGHT)], &[]), [None]);
    }
}

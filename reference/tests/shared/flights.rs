//! Movements and tracks, drawn so that many may be coupled.

use crate::random::Random;

/// The columns of both in the order of the call; the last of the movements has the circuits.
#[derive(Clone, Debug, Default)]
pub struct Flights {
    pub movements: [Vec<u32>; 8],
    pub tracks: [Vec<u32>; 7],
}

/// A date and the one after it.
const DAYS: [(u32, u32); 13] = [
    (20260331, 20260401),
    (20260614, 20260615),
    (20251231, 20260101),
    (20241231, 20250101),
    (20240228, 20240229),
    (20240229, 20240301),
    (20230228, 20230301),
    (20000228, 20000229),
    (19000228, 19000301),
    (21000228, 21000301),
    (19991231, 20000101),
    (19000101, 19000102),
    (99991230, 99991231),
];

/// Runways, airports and types as names spell them, and any numbers, which differ by few bits.
const NAMES: [&[u8]; 6] = [b"06", b"24", b"6", b"EHBK", b"EHB", b"9Z0A"];
const NUMBERS: [u32; 6] = [0, 0x8000_0000, 1, 0x8000_0001, u32::MAX, 0xffff];

const SECONDS_A_DAY: u32 = 86_400;
const MOVEMENT_COLUMNS: usize = 8;

/// A flight's second, from the first day's midnight on, and what has to agree.
type Flight = (u32, [u32; 5]);

/// What the flights of one round share.
pub struct Style {
    days: (u32, u32),
    /// So many seconds at most before or after the midnight between the days.
    spread: u32,
    /// The values of runways, airports and types.
    values: Vec<u32>,
    /// One flight in so many is a helicopter's, and one in so many a circuit.
    helicopters: u32,
    circuits: u32,
    /// One track in so many is made by itself and not after a movement.
    strangers: u32,
}

impl Style {
    pub fn pick(random: &mut Random, by_name: bool) -> Style {
        let mut values = if by_name { NAMES.map(name_number).to_vec() } else { NUMBERS.to_vec() };
        values.rotate_left(random.within(0, 5) as usize);
        values.truncate(random.pick(&[1, 1, 2, 3]));
        Style {
            days: random.pick(&DAYS),
            spread: random.pick(&[0, 3, 40, 300, 700, 4_000, SECONDS_A_DAY - 1]),
            values,
            helicopters: random.pick(&[1, 2, 3, 1_000]),
            circuits: random.pick(&[2, 5, 1_000]),
            strangers: random.pick(&[1, 3, 10, 10]),
        }
    }

    /// All alike and within one window.
    pub fn crowded(random: &mut Random) -> Style {
        let (days, spread) = (random.pick(&DAYS), random.pick(&[0, 20, 149]));
        let (values, helicopters) = (vec![name_number(NAMES[0])], random.pick(&[1, 1_000]));
        Style { days, spread, values, helicopters, circuits: 1_000, strangers: 1 }
    }

    /// Movements and tracks, so many of each. A track lies about a movement and differs in one trait at most, or it is
    /// a stranger.
    pub fn flights(&self, random: &mut Random, movements: usize, tracks: usize) -> Flights {
        let mut flights = Flights::default();
        let mut made = Vec::new();
        for _ in 0..movements {
            let flight = self.stranger(random);
            made.push(flight);
            let circuit = if random.once_in(self.circuits) { random.pick(&[1, 2, u32::MAX]) } else { 0 };
            push(&mut flights.movements, &[&self.numbers(flight)[..], &[circuit]].concat());
        }
        for _ in 0..tracks {
            let flight = self.track(random, &made);
            push(&mut flights.tracks, &self.numbers(flight));
        }
        flights
    }

    fn stranger(&self, random: &mut Random) -> Flight {
        let second = random.within(SECONDS_A_DAY - self.spread, SECONDS_A_DAY + self.spread.min(SECONDS_A_DAY - 1));
        let (class, kind) =
            (u32::from(random.once_in(self.helicopters)), random.within(0, self.values.len() as u32 - 1));
        let mut value = || random.pick(&self.values);
        (second, [class, kind.min(1), value(), value(), value()])
    }

    fn track(&self, random: &mut Random, movements: &[Flight]) -> Flight {
        if movements.is_empty() || random.once_in(self.strangers) {
            return self.stranger(random);
        }
        let (second, mut traits) = random.pick(movements);
        let (edge, any) = (random.pick(&[0, 1, 299, 300, 301, 599, 600, 601]), random.within(0, 700));
        let away = random.pick(&[edge, any]);
        if random.once_in(6) {
            let place = random.within(0, 4) as usize;
            traits[place] = if place < 2 { 1 - traits[place] } else { random.pick(&self.values) };
        }
        (random.pick(&[second.saturating_sub(away), second + away]), traits)
    }

    /// The columns' numbers of a flight.
    fn numbers(&self, (second, [class, kind, runway, airport, designator]): Flight) -> [u32; MOVEMENT_COLUMNS - 1] {
        let (date, time) = match second.checked_sub(SECONDS_A_DAY) {
            None => (self.days.0, second),
            Some(time) => (self.days.1, time.min(SECONDS_A_DAY - 1)),
        };
        [date, time, class, kind, runway, airport, designator]
    }
}

fn push(columns: &mut [Vec<u32>], values: &[u32]) {
    for (column, &value) in columns.iter_mut().zip(values) {
        column.push(value);
    }
}

fn name_number(name: &[u8]) -> u32 {
    reference::text::name(name).expect("a name is spelled right")
}

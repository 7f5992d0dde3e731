//! What is measured: books, registers, networks and flights, the same in every run.

use reference::book::Columns;
use reference::level::energy;

pub type Book = Columns<Vec<u32>>;

/// Numbers that look random (a linear congruence).
pub struct Numbers(u64);

impl Numbers {
    pub fn new() -> Numbers {
        Numbers(1)
    }

    pub fn below(&mut self, end: u32) -> u32 {
        self.0 = self.0.wrapping_mul(6_364_136_223_846_793_005).wrapping_add(1_442_695_040_888_963_407);
        ((self.0 >> 33) % u64::from(end)) as u32
    }
}

/// A book of `rows` rows of which `free` are unused, with odd identities; three in four movements are computed, and all
/// count at every point.
pub fn book(rows: usize, free: usize, points: u32) -> Book {
    let mut numbers = Numbers::new();
    let mut book = Columns::new(rows, points);
    for row in 0..rows - free {
        book.identities[row] = 2 * row as u32 + 1;
        book.groups[row] = numbers.below(18);
        book.marks[row] = u32::from(numbers.below(4) > 0);
        if book.marks[row] == 1 {
            book.levels[row * points as usize..][..points as usize]
                .iter_mut()
                .for_each(|level| *level = 4_000 + numbers.below(6_000));
        }
    }
    book.everywhere()
}

/// The book where at each point one movement in eight doesn't count.
pub fn some_elsewhere(mut book: Book) -> Book {
    let mut numbers = Numbers::new();
    for (count, level) in book.counts.iter_mut().zip(&mut book.levels) {
        if numbers.below(8) == 0 {
            (*count, *level) = (0, 0);
        }
    }
    book
}

/// A book of `rows` computed movements at one point, all by day and of nearly one level, whose total is the largest one
/// under `end` that they can have, or with one more hundredth in one of them the first one past it.
pub fn with_total(rows: usize, end: u64, past: bool) -> Book {
    let all = |level: u32| rows as u64 * energy(level);
    let level = (0..).find(|&level| all(level + 1) >= end).expect("energies rise");
    let higher = (end - 1 - all(level)) / (energy(level + 1) - energy(level)) + u64::from(past);
    let mut book = Columns::new(rows, 1);
    for row in 0..rows {
        book.identities[row] = row as u32 + 1;
        book.marks[row] = 1;
        book.levels[row] = level + u32::from((row as u64) < higher);
    }
    book.everywhere()
}

/// A register of `rows` rows at `points` points, identities rising, without its header.
pub fn register(rows: u32, points: u32) -> Vec<u8> {
    let mut numbers = Numbers::new();
    let mut text = String::new();
    for identity in 1..=rows {
        let (hour, minute) = (numbers.below(24), numbers.below(60));
        text += &format!(
            "{identity},{},{},{},{hour:02}:{minute:02}:00",
            ["G", "H"][numbers.below(2) as usize],
            500 + numbers.below(90_000),
            ["S", "L"][numbers.below(2) as usize]
        );
        let blank = numbers.below(4) == 0;
        for _ in 0..points {
            text +=
                &if blank { ",".to_string() } else { format!(",{}.{:02}", 40 + numbers.below(60), numbers.below(100)) };
        }
        text += "\r\n";
    }
    text.into_bytes()
}

/// Movements and tracks as columns.
pub struct Flights {
    pub movements: [Vec<u32>; 7],
    pub circuits: Vec<u32>,
    pub tracks: [Vec<u32>; 7],
}

/// How the times of flights lie.
#[derive(Clone, Copy, PartialEq, Eq)]
pub enum Spread {
    /// Over the days of 2025, as at an airfield with two runways.
    Year,
    /// All alike, within 5 minutes.
    Window,
}

pub const SPREADS: [(&str, Spread); 2] = [("over a year", Spread::Year), ("all in one window", Spread::Window)];

/// As many movements as tracks; those of a year lie up to 400 seconds apart from their movement.
pub fn flights(count: usize, spread: Spread) -> Flights {
    let mut numbers = Numbers::new();
    let mut flights = Flights { movements: Default::default(), circuits: vec![0; count], tracks: Default::default() };
    for _ in 0..count {
        let year = spread == Spread::Year;
        let (month, day) = if year { (1 + numbers.below(12), 1 + numbers.below(28)) } else { (6, 1) };
        let second = if year { numbers.below(86_000) } else { numbers.below(300) };
        let later = if year { second + numbers.below(400) } else { numbers.below(300) };
        let mut any = |values: u32| if year { numbers.below(values) } else { 0 };
        let alike = [any(2), any(2), 6 + any(2), 7, any(12)];
        let date = 20_250_000 + 100 * month + day;
        for (columns, time) in [(&mut flights.movements, second), (&mut flights.tracks, later)] {
            let [class, kind, runway, airport, designator] = alike;
            for (column, value) in columns.iter_mut().zip([date, time, class, kind, runway, airport, designator]) {
                column.push(value);
            }
        }
    }
    // Tracks come in an order of their own.
    for last in (1..count).rev() {
        let other = numbers.below(last as u32 + 1) as usize;
        flights.tracks.iter_mut().for_each(|column| column.swap(last, other));
    }
    flights
}

/// The level of the contours measured, in thousandths of a dB as those of the networks.
pub const LEVEL: u32 = 50_000;

pub const NETWORKS: [(&str, fn(u32) -> Vec<u32>); 3] =
    [("smooth", smooth), ("noisy", noisy), ("checkerboard", checkerboard)];

/// Two hills, as around an airfield.
fn smooth(side: u32) -> Vec<u32> {
    let hill = |row: u32, column: u32, at: (f64, f64)| {
        let (y, x) = (f64::from(row) / f64::from(side) - at.0, f64::from(column) / f64::from(side) - at.1);
        50_000.0 / (1.0 + 30.0 * (x * x + 2.0 * y * y))
    };
    points(side, |row, column| (hill(row, column, (0.4, 0.3)) + hill(row, column, (0.6, 0.7))) as u32)
}

fn noisy(side: u32) -> Vec<u32> {
    let mut numbers = Numbers::new();
    points(side, |_, _| 40_000 + numbers.below(20_001))
}

fn checkerboard(side: u32) -> Vec<u32> {
    points(side, |row, column| 40_000 + (row + column) % 2 * 20_000)
}

fn points(side: u32, mut level: impl FnMut(u32, u32) -> u32) -> Vec<u32> {
    (0..side * side).map(|point| level(point / side, point % side)).collect()
}

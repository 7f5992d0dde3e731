//! Random and adversarial networks, and their texts.

use crate::random::Random;
use reference::network::{Frame, Network, MAX_NETWORK_LEVEL};

fn a_side(random: &mut Random) -> u32 {
    match random.within(0, 60) {
        0 => 256,
        1 => random.within(2, 256),
        2..=12 => 2,
        13..=20 => 3,
        _ => random.within(2, 24),
    }
}

pub fn a_frame(random: &mut Random) -> Frame {
    let spacing = random.pick(&[1, 7, 100, 333, 500]);
    Frame {
        columns: a_side(random),
        rows: a_side(random),
        spacing,
        west: random.within(0, 900_000),
        south: random.pick(&[0, 900_000, 123_457]),
    }
}

/// A contour level in thousandths.
pub fn a_level(random: &mut Random) -> u32 {
    let any = random.within(1, MAX_NETWORK_LEVEL);
    random.pick(&[1, 2, 50, 45_000, 74_997, 149_999, 150_000, any, any])
}

/// Whether a point lies on a spiral wall that winds inwards, two points wide with its gap.
fn on_spiral(row: u32, column: u32, frame: &Frame) -> bool {
    let (down, right) = (frame.rows - 1 - row, frame.columns - 1 - column);
    let ring = row.min(column).min(down).min(right);
    (ring % 2 == 0) != (column == ring && row == ring + 1 && ring > 0)
}

/// The patterns that networks are drawn by.
const PATTERNS: u32 = 10;

pub fn a_network(random: &mut Random, frame: &Frame, level: u32) -> Vec<u32> {
    const MOST: u32 = MAX_NETWORK_LEVEL;
    let (pattern, high, low) =
        (random.within(0, PATTERNS - 1), random.within(level, MOST), random.within(0, level - 1));
    let (width, tilt) = (random.within(1, 6), random.within(1, 400));
    let near =
        |random: &mut Random, spread: u32| random.within(level.saturating_sub(spread), (level + spread).min(MOST));
    let place = |row: u32, column: u32| if row.abs_diff(column) % 2 == 0 { high } else { low };
    let mut point = |row: u32, column: u32| match pattern {
        0 => random.within(0, MOST),
        1 => near(random, 1),
        2 => near(random, 15),
        3 => place(row, column),
        4 => place(row / width, column / width),
        5 if on_spiral(row, column, frame) => high,
        5 => low,
        6 => random.pick(&[level, level, level - 1, high]),
        // One thousandth out of 16, 80, 400 or 2,000: the printed place is a half.
        8 => (level - 1 + 16 * random.pick(&[0, 0, 1, 5, 25, 125])).min(MOST),
        7 => (level + 20 * tilt)
            .saturating_sub((row.abs_diff(frame.rows / 2).pow(2) + column.abs_diff(frame.columns / 2).pow(2)) * tilt)
            .min(MOST),
        _ => random.pick(&[high, low]),
    };
    (0..frame.rows)
        .flat_map(|row| (0..frame.columns).map(move |column| (row, column)))
        .map(|(row, column)| point(row, column))
        .collect()
}

/// The lines of a network's text: its values have three decimals, or two (the third is cut off), or some two and some
/// three.
pub fn lines_of(random: &mut Random, network: &Network) -> Vec<String> {
    let (text, coarse) = (reference::grid::write(network), random.pick(&[0, 2, 4]));
    let mut cut = |value: &str| {
        let digits = value.len() - usize::from(random.within(1, 4) <= coarse);
        value[..digits].to_string()
    };
    let mut lines: Vec<String> = text.split_terminator("\r\n").map(str::to_string).collect();
    for line in &mut lines[5..] {
        *line = line.split(' ').map(&mut cut).collect::<Vec<_>>().join(" ");
    }
    lines
}

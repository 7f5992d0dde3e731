//! How an input reaches a program: as a file, or through a pipe in pieces.

use crate::random::Random;
use crate::rounds::saw;

/// The size of the buffer that the report reads through.
pub const BUFFER: usize = 65_536;
/// So many pieces at most: each waits until the one before is read.
const MAX_PIECES: usize = 120;

#[derive(Debug)]
pub enum Delivery {
    File,
    /// The places where one piece ends and the next begins, rising.
    Pieces(Vec<usize>),
}

/// A way of delivery, counted for the program by its kind.
pub fn a_delivery(random: &mut Random, program: &str, input: &[u8]) -> Delivery {
    let any = |random: &mut Random| random.within(0, input.len() as u32) as usize;
    let (kind, mut cuts) = match random.within(0, 9) {
        0 | 1 => {
            saw(program, "from a file");
            return Delivery::File;
        }
        2 => ("in one piece", vec![]),
        3 => ("byte by byte", some(random, (0..input.len()).collect())),
        4 | 5 => ("cut between CR and LF", some(random, places(input, b"\r"))),
        6 => ("cut between lines", some(random, places(input, b"\r\n"))),
        7 => ("cut about a buffer's end", (1..9).flat_map(|n| [n * BUFFER - 1, n * BUFFER, n * BUFFER + 1]).collect()),
        _ => ("cut anywhere", (0..random.within(1, 40)).map(|_| any(random)).collect()),
    };
    cuts.retain(|&cut| cut > 0 && cut < input.len());
    cuts.sort_unstable();
    cuts.dedup();
    saw(program, if cuts.is_empty() { "in one piece" } else { kind });
    Delivery::Pieces(cuts)
}

/// The places behind each such mark.
fn places(input: &[u8], mark: &[u8]) -> Vec<usize> {
    input
        .windows(mark.len())
        .enumerate()
        .filter(|(_, bytes)| *bytes == mark)
        .map(|(place, _)| place + mark.len())
        .collect()
}

/// All of them, or a stretch of so many as can be waited for.
fn some(random: &mut Random, places: Vec<usize>) -> Vec<usize> {
    let first = random.within(0, places.len().saturating_sub(MAX_PIECES) as u32) as usize;
    places.into_iter().skip(first).take(MAX_PIECES).collect()
}

//! The reference's program couple: tracks.csv in the current folder, the movements on standard input.

use std::io::Read;

fn main() {
    let tracks = std::fs::read("tracks.csv").unwrap_or_default();
    let mut movements = Vec::new();
    std::io::stdin().read_to_end(&mut movements).expect("standard input can be read");
    print!("{}", reference::couple_csv::couple_csv(&tracks, &movements));
}

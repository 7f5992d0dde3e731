//! The reference's program explain: limits.csv in the current folder, the register on standard input.

use std::io::Read;

fn main() {
    let limits = std::fs::read("limits.csv").unwrap_or_default();
    let mut register = Vec::new();
    std::io::stdin().read_to_end(&mut register).expect("standard input can be read");
    print!("{}", reference::explain::explain(&limits, &register));
}

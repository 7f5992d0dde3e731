//! Loads at one point whose level is the first of a decade: their M is just under the decade's power of ten, which is
//! the longest search, or just past it, which is the shortest.

use crate::books::{c_load, library_load};
use crate::inputs::with_total;
use crate::library::Library;
use crate::timing::{beside, pair};
use reference::calls::LOAD_NUMBERS;

/// Few enough that ten movements reach 70.00 dB.
const DAYS: u32 = 7;

/// The levels in hundredths, with the exponent of their power of ten.
const LEVELS: [(u64, &str, u32); 2] = [(5_000, "50.00 dB", 8), (7_000, "70.00 dB", 10)];
const ROWS: [(usize, &str); 3] = [(10, "10"), (1_000, "1,000"), (50_000, "50,000")];

pub fn searches(library: &Library) {
    for (rows, many) in ROWS {
        for (level, name, exponent) in LEVELS {
            for (past, side) in [(false, "just under"), (true, "just past")] {
                let what = format!("load at one point of {many} rows, {name}, M {side} 10^{exponent}");
                time_search(library, &what, rows, (level, exponent), past);
            }
        }
    }
}

fn time_search(library: &Library, what: &str, rows: usize, (level, exponent): (u64, u32), past: bool) {
    let mut own = with_total(rows, total_of(10u64.pow(exponent)), past);
    let other = own.clone();
    let (mut answer, mut expected) = ([0; LOAD_NUMBERS], [0; LOAD_NUMBERS]);
    library_load(library, &mut own, 0, DAYS, &mut answer);
    c_load(&other, 0, DAYS, &mut expected);
    assert_eq!(answer, expected, "both must give the same load");
    assert_eq!((answer[0] >= total_of(10u64.pow(exponent)), answer[2]), (past, level), "the load must lie there");
    // Many at a time, so that reading the clock doesn't count.
    let loads = (50_000 / rows).min(500);
    let (own, other) = pair(
        || (0..loads).for_each(|_| library_load(library, &mut own, 0, DAYS, &mut answer)),
        || (0..loads).for_each(|_| c_load(&other, 0, DAYS, &mut expected)),
    );
    beside(what, (own / loads as f64, other / loads as f64), "C", None);
}

/// The least total whose M is this.
fn total_of(mean: u64) -> u64 {
    (mean * 86_400 * u64::from(DAYS)).div_ceil(1_000)
}

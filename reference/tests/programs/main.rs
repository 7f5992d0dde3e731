//! Compares the built programs with the reference, byte for byte, on right and wrong files that come whole, from a file
//! or in pieces.
//!
//! OKUBINRAFO_REPORT, OKUBINRAFO_EXPLAIN, OKUBINRAFO_CONTOURS and OKUBINRAFO_COUPLE are the programs' shell commands.
//! SEED chooses the inputs; ROUNDS or SECONDS_EACH how many or how long; FIRST the first round. The tests start a
//! process a round, so they run only when asked for: cargo test --test programs -- --ignored

mod contour_ranges;
mod contours;
mod couple;
#[path = "../shared/damage.rs"]
mod damage;
mod delivery;
#[path = "../shared/drawn.rs"]
mod drawn;
#[path = "../shared/flights.rs"]
mod drawn_flights;
mod explain;
mod flight_files;
mod program;
#[path = "../shared/random.rs"]
mod random;
mod registers;
mod report;
#[path = "../shared/rounds.rs"]
mod rounds;
mod two_files;

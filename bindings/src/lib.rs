//! Okubinrafo from Rust: the functions of include/okubinrafo.h as safe functions over slices.
//!
//! Every answer is the proved library's. The caller lends all memory; a refused call changes none of it. Times are
//! seconds of the local day, points are counted from 0. `tests/document.rs` is an example.
//!
//! Levels of a [`Book`], its loads and its limits are hundredths of a dB. Levels of a [`Network`] and of its contours
//! are thousandths of a dB. No call can tell one unit from the other: 4500 is a network or contour level of 4.500 dB.

mod book;
mod flights;
mod large_stack;
mod network;
mod raw;
mod refusal;
mod row;

pub use book::{Account, Book, Group, Load, GROUPS};
pub use flights::{couple, name_number, Flights};
pub use network::{read_network, Along, Frame, Network, Sizes};
pub use refusal::{Answer, Refusal};
pub use row::{read_row, write_row, Row, ROW_BYTES};

//! One function per call of the library: makes it there and in the reference on equal memory, and compares.

/// Calls a function of the library with the seven arguments of a network and more.
macro_rules! with_network {
    ($function:expr, $frame:expr, $levels:expr, $($argument:expr),*) => {{
        let Frame { columns, rows, spacing, west, south } = $frame;
        // SAFETY: every pointer is lent with its own length.
        unsafe { $function($levels.pointer(), $levels.len(), columns, rows, spacing, west, south, $($argument),*) }
    }};
}

mod books;
mod flights;
mod networks;
mod texts;

use crate::library::Library;
use crate::random::Random;
use crate::rounds::{rounds, Telling};

pub use books::{account, change, load, verdict, Book, Change};
pub use flights::couple;
pub use networks::{ask, contours, Asked, Rooms};
pub use texts::{read_network, read_row, write, Written};

/// Rounds of a test that makes its calls on the library of the environment.
pub fn compared_rounds(test: &'static str, usual: u64, telling: Telling, body: fn(&Library, &mut Random)) {
    let library = Library::from_environment();
    rounds(test, usual, telling, move |random| body(&library, random));
}

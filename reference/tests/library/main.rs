//! Compares the exported library with the reference: the answer and every lent byte of each call.
//!
//! OKUBINRAFO_LIB names the shared library. SEED chooses the inputs; ROUNDS or SECONDS_EACH how many or how long; FIRST
//! the first round. A failure prints its inputs and the command that repeats it.

mod before;
mod books;
mod compared;
mod crossings;
#[path = "../shared/damage.rs"]
mod damage;
#[path = "../shared/drawn.rs"]
mod drawn;
mod drawn_books;
#[path = "../shared/flights.rs"]
mod drawn_flights;
mod flights;
mod lent;
mod levels;
mod library;
mod networks;
mod places;
mod points;
#[path = "../shared/random.rs"]
mod random;
mod ranges;
#[path = "../shared/rounds.rs"]
mod rounds;
mod sentences;
mod texts;

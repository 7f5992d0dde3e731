//! Every range of the rules at its ends and one past them, with everything else right; the answers expected are the
//! rules' own, so that the reference is held to them too.

mod books;
mod flights;
mod journals;
mod loads;
mod networks;
mod points;
mod texts;

//! Memory lent to the library, with marked memory on both sides, and the comparison after a call.

use crate::rounds::saw;
use std::fmt::Debug;

/// An odd number of elements, so that no pointer is better aligned than its type asks.
const MARGIN: usize = 17;

pub trait Element: Copy + Debug + PartialEq {
    const MARK: Self;
}

impl Element for u8 {
    const MARK: u8 = 0xa5;
}

impl Element for u32 {
    const MARK: u32 = 0xa5a5_5a5a;
}

/// Also a binary64 number by its bits.
impl Element for u64 {
    const MARK: u64 = 0xa5a5_5a5a_a5a5_5a5a;
}

#[derive(Clone)]
pub struct Lent<T> {
    all: Vec<T>,
}

impl<T: Element> Lent<T> {
    pub fn new(content: &[T]) -> Lent<T> {
        let margin = [T::MARK; MARGIN];
        Lent { all: [&margin, content, &margin].concat() }
    }

    pub fn pointer(&mut self) -> *mut T {
        self.all[MARGIN..].as_mut_ptr()
    }

    pub fn len(&self) -> usize {
        self.all.len() - 2 * MARGIN
    }

    pub fn content(&self) -> &[T] {
        &self.all[MARGIN..MARGIN + self.len()]
    }

    fn margins(&self) -> impl Iterator<Item = &T> {
        self.all[..MARGIN].iter().chain(&self.all[MARGIN + self.len()..])
    }
}

/// One call made on both sides.
pub struct Made<'a> {
    pub call: &'a str,
    pub library: u32,
    pub reference: u32,
    pub inputs: &'a dyn Fn() -> String,
}

impl Made<'_> {
    pub fn answers_agree(&self) -> &Self {
        saw(self.call, &self.reference.to_string());
        if self.library != self.reference {
            self.fail(&format!("the library answers {}, the reference {}", self.library, self.reference));
        }
        self
    }

    /// Lent content after the call: as the reference left it, as it was where the call is refused, the margins kept.
    pub fn left<T: Element>(&self, name: &str, before: &[T], reference: &[T], library: &Lent<T>) -> &Self {
        if self.reference != 0 && reference != before {
            self.fail(&format!("the reference changed {name} in a refused call"));
        }
        if !library.margins().all(|&mark| mark == T::MARK) {
            self.fail(&format!("the library wrote outside {name}"));
        }
        if let Some(place) = library.content().iter().zip(reference).position(|(own, other)| own != other) {
            let (own, other) = (library.content()[place], reference[place]);
            self.fail(&format!(
                "{name}[{place}] is {own:?} after the library's call and {other:?} after the reference's"
            ));
        }
        self
    }

    /// Content lent only for reading.
    pub fn kept<T: Element>(&self, name: &str, before: &[T], library: &Lent<T>) -> &Self {
        self.left(name, before, before, library)
    }

    fn fail(&self, what: &str) -> ! {
        panic!("{}: {what} (answer {})\ninputs of {}: {}", self.call, self.library, self.call, (self.inputs)());
    }
}

//! A journal (include/okubinrafo.h): calls on a book, one after the other, as numbers.

use crate::book::Book;
use crate::movement::Movement;
use crate::{Answer, Refusal};

/// A call of a journal.
#[derive(Clone, Copy, Debug, PartialEq, Eq)]
pub enum Call<'a> {
    Enter(u32, Movement, &'a [u32]),
    Supply(u32, &'a [u32]),
    TakeBack(u32),
    Withdraw(u32),
}

/// The calls that a journal's numbers spell, or 16.
pub fn read(mut journal: &[u32]) -> Answer<Vec<Call<'_>>> {
    let mut calls = Vec::new();
    while !journal.is_empty() {
        let (call, rest) = match *journal {
            [1, identity, aircraft, kind, time, mass, ref rest @ ..] => {
                let (given, rest) = counted(rest)?;
                (Call::Enter(identity, Movement { aircraft, kind, time, mass }, given), rest)
            }
            [2, identity, ref rest @ ..] => {
                let (levels, rest) = counted(rest)?;
                (Call::Supply(identity, levels), rest)
            }
            [3, identity, ref rest @ ..] => (Call::TakeBack(identity), rest),
            [4, identity, ref rest @ ..] => (Call::Withdraw(identity), rest),
            _ => return Err(Refusal::Register),
        };
        calls.push(call);
        journal = rest;
    }
    Ok(calls)
}

/// Numbers behind their own count, and what follows them.
fn counted(numbers: &[u32]) -> Answer<(&[u32], &[u32])> {
    let (&count, rest) = numbers.split_first().ok_or(Refusal::Register)?;
    rest.split_at_checked(count as usize).ok_or(Refusal::Register)
}

/// Makes the calls in order; each call's own answer stands in the list.
pub fn replay(book: &mut Book, calls: &[Call]) -> Vec<Answer<()>> {
    let made = calls.iter().map(|call| match *call {
        Call::Enter(identity, movement, given) => book.enter(identity, movement, given),
        Call::Supply(identity, levels) => book.supply(identity, levels),
        Call::TakeBack(identity) => book.take_back(identity),
        Call::Withdraw(identity) => book.withdraw(identity),
    });
    made.collect()
}

#[cfg(test)]
mod tests {
    use super::*;
    use crate::book::Columns;

    #[test]
    fn journals_keep_their_layout() {
        assert_eq!(read(&[]), Ok(vec![]));
        assert_eq!(read(&[3, 9, 4, 9]), Ok(vec![Call::TakeBack(9), Call::Withdraw(9)]));
        assert_eq!(read(&[2, 9, 2, 5, 6]), Ok(vec![Call::Supply(9, &[5, 6])]));
        let movement = Movement { aircraft: 2, kind: 1, time: 60, mass: 500 };
        let entered = [1, 9, 2, 1, 60, 500, 2, 0, 1];
        assert_eq!(read(&entered), Ok(vec![Call::Enter(9, movement, &[0, 1])]));
        assert_eq!(read(&[1, 9, 2, 1, 60, 500, 0]), Ok(vec![Call::Enter(9, movement, &[])]));
        for cut in 1..entered.len() {
            assert_eq!(read(&entered[..cut]), Err(Refusal::Register), "{cut} numbers");
        }
        for wrong in [&[0, 1][..], &[5, 1], &[2, 9], &[2, 9, 2, 5], &[2, 9, u32::MAX], &[3], &[4, 9, 4]] {
            assert_eq!(read(wrong), Err(Refusal::Register), "{wrong:?}");
        }
    }

    #[test]
    fn each_call_has_its_own_answer() {
        let mut book = Columns::new(2, 2).read().unwrap();
        let journal = [
            &[1, 9, 2, 1, 60, 500, 2, 0, 1][..],
            &[1, 8, 3, 1, 60, 500, 1, 0],
            &[2, 9, 2, 0, 600],
            &[2, 9, 2, 600, 0],
            &[3, 9],
            &[3, 9],
            &[4, 9],
        ]
        .concat();
        use Refusal::*;
        let expected = [Ok(()), Err(Book), Ok(()), Err(Elsewhere), Ok(()), Err(NoLevels), Ok(())];
        assert_eq!(replay(&mut book, &read(&journal).unwrap()), expected);
    }
}

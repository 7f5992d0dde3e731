//! Movements that count at some points: what the calls keep of it, and the load at each point.

use okubinrafo::{Book, Refusal};

const ROWS: usize = 4;
const POINTS: usize = 3;
/// 100.00 dB, which is an energy of 10^10 by day.
const LOUD: u32 = 10_000;
const NOON: u32 = 43_200;

/// The columns that a book is lent.
#[derive(Default, Clone, PartialEq, Debug)]
struct Columns {
    identities: [u32; ROWS],
    groups: [u32; ROWS],
    marks: [u32; ROWS],
    counts: [u32; ROWS * POINTS],
    levels: [u32; ROWS * POINTS],
}

impl Columns {
    fn book(&mut self) -> Book<'_> {
        let Columns { identities, groups, marks, counts, levels } = self;
        Book { identities, groups, marks, counts, levels, points: POINTS as u32 }
    }

    fn enter(&mut self, identity: u32, given: &[u32]) -> Result<(), Refusal> {
        self.book().enter(identity, 0, 0, NOON, 70_000, given)
    }
}

#[test]
fn loads_are_of_those_that_count_there() {
    let mut columns = Columns::default();
    columns.enter(1, &[1, 1, 0]).expect("1 goes in");
    columns.enter(2, &[0, 1, 0]).expect("2 goes in");
    columns.enter(3, &[1, 0, 0]).expect("3 goes in");
    let mut book = columns.book();
    assert_eq!(book.load(1, 1), Err(Refusal::NONE_COMPUTED));
    book.supply(1, &[LOUD, LOUD, 0]).expect("levels of 1");
    book.supply(2, &[0, LOUD, 0]).expect("levels of 2");
    let [first, second, third] = [0, 1, 2].map(|point| book.load(point, 1).expect("a load"));
    assert_eq!((first.computed[0], first.missing[0], first.total), (1, 1, 20_000_000_000));
    assert_eq!((second.computed[0], second.missing[0], second.total), (2, 0, 20_000_000_000));
    assert_eq!((third.computed[0], third.missing[0], third.total, third.level), (0, 0, 0, None));
    let factors = [0, 1, 2].map(|point| book.account(point, 1).expect("an account").factor);
    assert_eq!(factors, [Some((2, 2)), Some((2, 2)), None]);
    assert_eq!([0, 1, 2].map(|point| book.verdict(point, 1, 5_000)), [Ok(true), Ok(true), Ok(false)]);
    book.take_back(1).expect("1 has levels");
    assert_eq!(book.load(0, 1), Err(Refusal::NONE_COMPUTED), "2 has levels and doesn't count there");
    assert_eq!(book.load(1, 1).map(|load| load.total), Ok(20_000_000_000));
}

#[test]
fn refusals_of_yes_and_no() {
    let mut columns = Columns::default();
    columns.enter(5, &[1, 0, 1]).expect("5 goes in");
    let before = columns.clone();
    for given in [&[][..], &[1, 0], &[1, 0, 1, 0], &[1, 0, 2], &[u32::MAX, 0, 0]] {
        assert_eq!(columns.enter(6, given), Err(Refusal::NOT_SOUND), "{given:?}");
    }
    let mut book = columns.book();
    assert_eq!(book.enter(6, 9, 0, NOON, 70_000, &[1]), Err(Refusal::NOT_SOUND), "before 1");
    assert_eq!(book.supply(5, &[LOUD, 1, 0]), Err(Refusal::LEVEL_ELSEWHERE));
    assert_eq!(book.supply(5, &[LOUD, 12_001, 0]), Err(Refusal::WRONG_LEVELS), "before 19");
    assert_eq!(book.supply(6, &[LOUD, 1, 0]), Err(Refusal::DOES_NOT_STAND), "before 19");
    assert_eq!(columns, before);
    columns.counts[1] = 2;
    assert_eq!(columns.book().load(0, 1), Err(Refusal::NOT_SOUND), "neither yes nor no");
    columns.counts[1] = 0;
    columns.counts[3] = 1;
    assert_eq!(columns.book().load(0, 1), Err(Refusal::NOT_SOUND), "an unused row that counts");
}

#[test]
fn a_row_goes_with_its_yes_and_no() {
    let (mut columns, mut again, mut answers) = (Columns::default(), Columns::default(), [9; 6]);
    columns.enter(7, &[0, 1, 1]).expect("7 goes in");
    columns.enter(5, &[1, 0, 0]).expect("5 goes in");
    columns.book().supply(7, &[0, LOUD, 0]).expect("levels of 7");
    assert_eq!((&columns.counts[..6], &columns.levels[..6]), (&[1, 0, 0, 0, 1, 1][..], &[0, 0, 0, 0, LOUD, 0][..]));
    columns.book().withdraw(5).expect("5 stands");
    assert_eq!((&columns.counts[..6], &columns.levels[..6]), (&[0, 1, 1, 0, 0, 0][..], &[0, LOUD, 0, 0, 0, 0][..]));
    let enters = [1, 7, 0, 0, NOON, 70_000, 3, 0, 1, 1, 1, 5, 0, 0, NOON, 70_000, 3, 1, 0, 0];
    let later = [2, 7, 3, 1, LOUD, 0, 2, 7, 3, 0, LOUD, 0, 1, 8, 0, 0, NOON, 70_000, 1, 1, 4, 5];
    again.book().replay(&[&enters[..], &later].concat(), &mut answers).expect("a journal");
    assert_eq!((answers, &again), ([0, 0, 19, 0, 9, 0], &columns));
    assert_eq!(again.book().replay(&[1, 7, 0, 0, NOON, 70_000], &mut answers), Err(Refusal::REGISTER_OFF_LAYOUT));
    assert_eq!(again.book().replay(&[1, 7, 0, 0, NOON, 70_000, 2, 1], &mut answers), Err(Refusal::REGISTER_OFF_LAYOUT));
}

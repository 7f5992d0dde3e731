//! The functions of include/okubinrafo.h over slices: each answers 0 or its refusal's number, judges the room (14)
//! last, and writes only where it is accepted.

use crate::account::{self, Group};
use crate::book::{Book, Columns};
use crate::contour;
use crate::coupling;
use crate::grid;
use crate::journal;
use crate::load;
use crate::mapping::{crossing as crossing_of, map_point as map_point_of};
use crate::movement::Movement;
use crate::network::{Frame, Network};
use crate::register;
use crate::sentence;
use crate::wkt;
use crate::{ensure, Answer, Refusal};

pub type LentBook<'a> = Columns<&'a mut [u32]>;
pub type ReadBook<'a> = Columns<&'a [u32]>;

/// How many numbers a load answers with: total, whether a level is given, the level, V and U of 18 groups.
pub const LOAD_NUMBERS: usize = 39;
/// How many numbers an account has: four a group and six of the whole.
pub const ACCOUNT_NUMBERS: usize = 78;
const ROW_FIELDS: usize = 6;
const HEADER_NUMBERS: usize = 5;

fn number(answer: Answer<()>) -> u32 {
    match answer {
        Ok(()) => 0,
        Err(refusal) => refusal as u32,
    }
}

fn room(holds: bool) -> Answer<()> {
    ensure(holds, Refusal::Room)
}

/// Puts an answer at the front of the room lent for it, which is large enough.
fn put<T: Copy>(room: &mut [T], answer: &[T]) {
    room[..answer.len()].copy_from_slice(answer);
}

/// Makes one call on a book and writes the book back where it is accepted.
fn on_book(mut columns: LentBook, call: impl FnOnce(&mut Book) -> Answer<()>) -> u32 {
    number(columns.read().and_then(|mut book| {
        call(&mut book)?;
        columns.write(&book);
        Ok(())
    }))
}

/// The movement and its yes and no, one number a point.
pub fn enter(columns: LentBook, identity: u32, movement: Movement, given: &[u32]) -> u32 {
    on_book(columns, |book| book.enter(identity, movement, given))
}

pub fn supply(columns: LentBook, identity: u32, given: &[u32]) -> u32 {
    on_book(columns, |book| book.supply(identity, given))
}

pub fn take_back(columns: LentBook, identity: u32) -> u32 {
    on_book(columns, |book| book.take_back(identity))
}

pub fn withdraw(columns: LentBook, identity: u32) -> u32 {
    on_book(columns, |book| book.withdraw(identity))
}

pub fn replay(columns: LentBook, journal: &[u32], answers: &mut [u32]) -> u32 {
    let calls = match journal::read(journal) {
        Ok(calls) => calls,
        Err(refusal) => return refusal as u32,
    };
    on_book(columns, |book| {
        room(answers.len() >= calls.len())?;
        let made: Vec<u32> = journal::replay(book, &calls).into_iter().map(number).collect();
        put(answers, &made);
        Ok(())
    })
}

pub fn load(columns: ReadBook, point: u32, days: u32, answer: &mut [u64]) -> u32 {
    number(columns.read().and_then(|book| {
        let found = load::load(&book, point, days)?;
        room(answer.len() >= LOAD_NUMBERS)?;
        let level = found.level.map_or([0, 0], |level| [1, u64::from(level)]);
        put(answer, &[&[found.total], &level[..], &found.computed, &found.missing].concat());
        Ok(())
    }))
}

pub fn account(columns: ReadBook, point: u32, days: u32, answer: &mut [u64]) -> u32 {
    number(columns.read().and_then(|book| {
        let found = account::account(&book, point, days)?;
        room(answer.len() >= ACCOUNT_NUMBERS)?;
        let four = |Group { computed, missing, energy, scaled }| [computed, missing, energy, scaled];
        let groups = found.groups.map(four);
        let level = found.level.map_or([0, 0], |level| [1, u64::from(level)]);
        let whole = [found.upper, found.lower, found.energy, found.total];
        put(answer, &[groups.as_flattened(), &whole, &level].concat());
        Ok(())
    }))
}

pub fn verdict(columns: ReadBook, point: u32, days: u32, limit: u32, answer: &mut [u32]) -> u32 {
    number(columns.read().and_then(|book| {
        let over = load::verdict(&book, point, days, limit)?;
        room(!answer.is_empty())?;
        put(answer, &[u32::from(over)]);
        Ok(())
    }))
}

/// The room lent for contours.
pub struct ContourRoom<'a> {
    pub edges: &'a mut [u32],
    pub counts: &'a mut [u32],
    pub closed: &'a mut [u32],
    pub sizes: &'a mut [u32],
}

pub fn contours(network: Network, level: u32, lent: ContourRoom) -> u32 {
    number(network.check_contour(level).and_then(|()| {
        let found = contour::contours(&network, level);
        let lines = found.counts.len();
        room(lent.edges.len() >= found.edges.len() && lent.counts.len() >= lines)?;
        room(lent.closed.len() >= lines && lent.sizes.len() >= 2)?;
        put(lent.edges, &found.edges);
        put(lent.counts, &found.counts);
        put(lent.closed, &found.closed.iter().map(|&closed| u32::from(closed)).collect::<Vec<_>>());
        put(lent.sizes, &[found.edges.len() as u32, lines as u32]);
        Ok(())
    }))
}

pub fn print_contours(network: Network, level: u32, text: &mut [u8], size: &mut [u32]) -> u32 {
    number(network.check_contour(level).and_then(|()| put_text(text, size, &wkt::print(&network, level))))
}

fn put_text(text: &mut [u8], size: &mut [u32], written: &str) -> Answer<()> {
    room(text.len() >= written.len() && !size.is_empty())?;
    put(text, written.as_bytes());
    put(size, &[written.len() as u32]);
    Ok(())
}

/// The columns of movements without their circuits, those, and the columns of tracks.
pub fn couple(movements: coupling::Columns, circuits: &[u32], tracks: coupling::Columns, answer: &mut [u32]) -> u32 {
    number(coupling::read_movements(movements, circuits).and_then(|movements| {
        let tracks = coupling::read_flights(tracks)?;
        room(answer.len() >= movements.len())?;
        let from_1 = |place: Option<usize>| place.map_or(0, |place| place as u32 + 1);
        let taken: Vec<u32> = coupling::couple(&movements, &tracks).into_iter().map(from_1).collect();
        put(answer, &taken);
        Ok(())
    }))
}

pub fn sentence(refusal: u32, text: &mut [u8], size: &mut [u32]) -> u32 {
    number(put_text(text, size, sentence::sentence(refusal)))
}

pub fn crossing(network: Network, level: u32, edge: u32, which: &mut [u32], fraction: &mut [f64]) -> u32 {
    number(network.check_contour(level).and_then(|()| {
        room(!which.is_empty() && !fraction.is_empty())?;
        let found = crossing_of(&network, level, edge);
        put(which, &[found.which()]);
        put(fraction, &[found.fraction()]);
        Ok(())
    }))
}

pub fn map_point(network: Network, level: u32, edge: u32, which: &mut [u32], place: &mut [f64]) -> u32 {
    map_points(network, level, &[edge], which, place)
}

pub fn map_points(network: Network, level: u32, edges: &[u32], which: &mut [u32], places: &mut [f64]) -> u32 {
    number(network.check_contour(level).and_then(|()| {
        room(which.len() >= edges.len() && places.len() / 2 >= edges.len())?;
        for (i, &edge) in edges.iter().enumerate() {
            let (found, place) = map_point_of(&network, level, edge);
            which[i] = found.which();
            put(&mut places[2 * i..], &[place.x, place.y]);
        }
        Ok(())
    }))
}

pub fn read_row(line: &[u8], points: u32, fields: &mut [u32], levels: &mut [u32]) -> u32 {
    number(register::read_row(line, points).and_then(|row| {
        room(fields.len() >= ROW_FIELDS && levels.len() >= points as usize)?;
        let Movement { aircraft, kind, time, mass } = row.movement;
        put(fields, &[row.identity, aircraft, mass, kind, time, u32::from(row.levels.is_some())]);
        put(levels, &row.levels.unwrap_or(vec![0; points as usize]));
        Ok(())
    }))
}

pub fn write_row(fields: &[u32], levels: &[u32], points: u32, text: &mut [u8], size: &mut [u32]) -> u32 {
    let &[identity, aircraft, mass, kind, time, mark] = fields else {
        return Refusal::Book as u32;
    };
    let written = register::write_row(identity, Movement { aircraft, kind, time, mass }, mark, levels, points);
    number(written.and_then(|line| put_text(text, size, &line)))
}

pub fn read_network(text: &[u8], header: &mut [u32], levels: &mut [u32]) -> u32 {
    number(grid::read(text).and_then(|(frame, read)| {
        room(header.len() >= HEADER_NUMBERS && levels.len() >= read.len())?;
        let Frame { columns, rows, spacing, west, south } = frame;
        put(header, &[columns, rows, spacing, west, south]);
        put(levels, &read);
        Ok(())
    }))
}

pub fn write_network(network: Network, text: &mut [u8], size: &mut [u32]) -> u32 {
    number(network.check().and_then(|()| put_text(text, size, &grid::write(&network))))
}

//! The exported names of include/okubinrafo.h over the reference. Nothing is decided here: pointers become slices.
//!
//! # Safety
//! Each pointer is not null, aligned, and good for as many elements as the length after it says.
#![allow(clippy::missing_safety_doc, clippy::too_many_arguments)]

use reference::book::Columns;
use reference::calls::{self, ContourRoom};
use reference::movement::Movement;
use reference::network::{Frame, Network};
use std::slice::{from_raw_parts, from_raw_parts_mut};

/// A function that takes a book to change and more.
macro_rules! book_call {
    ($name:ident($($arg:ident: $kind:ty),*) $body:expr) => {
        #[no_mangle]
        pub unsafe extern "C" fn $name(
            ids: *mut u32, ids_len: usize, groups: *mut u32, groups_len: usize, marks: *mut u32, marks_len: usize,
            counts: *mut u32, counts_len: usize, levels: *mut u32, levels_len: usize, points: u32, $($arg: $kind),*
        ) -> u32 {
            $body(Columns {
                identities: from_raw_parts_mut(ids, ids_len),
                groups: from_raw_parts_mut(groups, groups_len),
                marks: from_raw_parts_mut(marks, marks_len),
                counts: from_raw_parts_mut(counts, counts_len),
                levels: from_raw_parts_mut(levels, levels_len),
                points,
            })
        }
    };
}

book_call!(okubinrafo_enter(
identity: u32, aircraft: u32, kind: u32, time: u32, mass: u32, given: *const u32, given_len: usize)
|book| {
    let movement = Movement { aircraft, kind, time, mass };
    calls::enter(book, identity, movement, from_raw_parts(given, given_len))
});
book_call!(okubinrafo_supply(identity: u32, given: *const u32, given_len: usize)
    |book| calls::supply(book, identity, from_raw_parts(given, given_len)));
book_call!(okubinrafo_take_back(identity: u32) |book| calls::take_back(book, identity));
book_call!(okubinrafo_withdraw(identity: u32) |book| calls::withdraw(book, identity));
book_call!(okubinrafo_replay(journal: *const u32, journal_len: usize, answers: *mut u32, answers_len: usize)
    |book| calls::replay(book, from_raw_parts(journal, journal_len), from_raw_parts_mut(answers, answers_len)));

/// A function that takes a book to read and more.
macro_rules! read_book_call {
    ($name:ident($($arg:ident: $kind:ty),*) $body:expr) => {
        #[no_mangle]
        pub unsafe extern "C" fn $name(
            ids: *const u32, ids_len: usize, groups: *const u32, groups_len: usize, marks: *const u32, marks_len: usize,
            counts: *const u32, counts_len: usize, levels: *const u32, levels_len: usize, points: u32,
            $($arg: $kind),*
        ) -> u32 {
            $body(Columns {
                identities: from_raw_parts(ids, ids_len),
                groups: from_raw_parts(groups, groups_len),
                marks: from_raw_parts(marks, marks_len),
                counts: from_raw_parts(counts, counts_len),
                levels: from_raw_parts(levels, levels_len),
                points,
            })
        }
    };
}

read_book_call!(okubinrafo_load(point: u32, days: u32, answer: *mut u64, answer_len: usize)
    |book| calls::load(book, point, days, from_raw_parts_mut(answer, answer_len)));
read_book_call!(okubinrafo_account(point: u32, days: u32, answer: *mut u64, answer_len: usize)
    |book| calls::account(book, point, days, from_raw_parts_mut(answer, answer_len)));
read_book_call!(okubinrafo_verdict(point: u32, days: u32, limit: u32, answer: *mut u32, answer_len: usize)
    |book| calls::verdict(book, point, days, limit, from_raw_parts_mut(answer, answer_len)));

/// A function that takes a network and more.
macro_rules! network_call {
    ($name:ident($($arg:ident: $kind:ty),*) $body:expr) => {
        #[no_mangle]
        pub unsafe extern "C" fn $name(
            levels: *const u32, levels_len: usize, columns: u32, rows: u32, spacing: u32, west: u32, south: u32,
            $($arg: $kind),*
        ) -> u32 {
            let frame = Frame { columns, rows, spacing, west, south };
            $body(Network { frame, levels: from_raw_parts(levels, levels_len) })
        }
    };
}

network_call!(okubinrafo_contours(
level: u32, edges: *mut u32, edges_len: usize, counts: *mut u32, counts_len: usize,
closed: *mut u32, closed_len: usize, sizes: *mut u32, sizes_len: usize)
|network| {
    let (edges, counts) = (from_raw_parts_mut(edges, edges_len), from_raw_parts_mut(counts, counts_len));
    let (closed, sizes) = (from_raw_parts_mut(closed, closed_len), from_raw_parts_mut(sizes, sizes_len));
    calls::contours(network, level, ContourRoom { edges, counts, closed, sizes })
});
network_call!(okubinrafo_print_contours(level: u32, text: *mut u8, text_len: usize, size: *mut u32, size_len: usize)
|network| {
    let (text, size) = (from_raw_parts_mut(text, text_len), from_raw_parts_mut(size, size_len));
    calls::print_contours(network, level, text, size)
});
network_call!(okubinrafo_crossing(
level: u32, edge: u32, which: *mut u32, which_len: usize, fraction: *mut f64, fraction_len: usize)
|network| {
    let (which, fraction) = (from_raw_parts_mut(which, which_len), from_raw_parts_mut(fraction, fraction_len));
    calls::crossing(network, level, edge, which, fraction)
});
network_call!(okubinrafo_map_point(
level: u32, edge: u32, which: *mut u32, which_len: usize, place: *mut f64, place_len: usize)
|network| {
    let (which, place) = (from_raw_parts_mut(which, which_len), from_raw_parts_mut(place, place_len));
    calls::map_point(network, level, edge, which, place)
});
network_call!(okubinrafo_map_points(
level: u32, edges: *const u32, edges_len: usize, which: *mut u32, which_len: usize, places: *mut f64, places_len: usize)
|network| {
    let (which, places) = (from_raw_parts_mut(which, which_len), from_raw_parts_mut(places, places_len));
    calls::map_points(network, level, from_raw_parts(edges, edges_len), which, places)
});
network_call!(okubinrafo_write_network(text: *mut u8, text_len: usize, size: *mut u32, size_len: usize)
    |network| calls::write_network(network, from_raw_parts_mut(text, text_len), from_raw_parts_mut(size, size_len)));

#[no_mangle]
pub unsafe extern "C" fn okubinrafo_read_row(
    line: *const u8,
    line_len: usize,
    points: u32,
    fields: *mut u32,
    fields_len: usize,
    levels: *mut u32,
    levels_len: usize,
) -> u32 {
    let (fields, levels) = (from_raw_parts_mut(fields, fields_len), from_raw_parts_mut(levels, levels_len));
    calls::read_row(from_raw_parts(line, line_len), points, fields, levels)
}

#[no_mangle]
pub unsafe extern "C" fn okubinrafo_write_row(
    fields: *const u32,
    fields_len: usize,
    levels: *const u32,
    levels_len: usize,
    points: u32,
    text: *mut u8,
    text_len: usize,
    size: *mut u32,
    size_len: usize,
) -> u32 {
    let (fields, levels) = (from_raw_parts(fields, fields_len), from_raw_parts(levels, levels_len));
    calls::write_row(fields, levels, points, from_raw_parts_mut(text, text_len), from_raw_parts_mut(size, size_len))
}

#[no_mangle]
pub unsafe extern "C" fn okubinrafo_sentence(
    refusal: u32,
    text: *mut u8,
    text_len: usize,
    size: *mut u32,
    size_len: usize,
) -> u32 {
    calls::sentence(refusal, from_raw_parts_mut(text, text_len), from_raw_parts_mut(size, size_len))
}

#[no_mangle]
pub unsafe extern "C" fn okubinrafo_read_network(
    text: *const u8,
    text_len: usize,
    header: *mut u32,
    header_len: usize,
    levels: *mut u32,
    levels_len: usize,
) -> u32 {
    let (header, levels) = (from_raw_parts_mut(header, header_len), from_raw_parts_mut(levels, levels_len));
    calls::read_network(from_raw_parts(text, text_len), header, levels)
}

/// One column that is lent for reading.
macro_rules! lent {
    ($($column:ident $length:ident)*) => { [$(from_raw_parts($column, $length)),*] };
}

#[rustfmt::skip]
#[no_mangle]
pub unsafe extern "C" fn okubinrafo_couple(
    dates: *const u32, dates_len: usize, times: *const u32, times_len: usize,
    classes: *const u32, classes_len: usize, kinds: *const u32, kinds_len: usize,
    runways: *const u32, runways_len: usize, airports: *const u32, airports_len: usize,
    types: *const u32, types_len: usize, circuits: *const u32, circuits_len: usize,
    track_dates: *const u32, track_dates_len: usize, track_times: *const u32, track_times_len: usize,
    track_classes: *const u32, track_classes_len: usize, track_kinds: *const u32, track_kinds_len: usize,
    track_runways: *const u32, track_runways_len: usize, track_airports: *const u32, track_airports_len: usize,
    track_types: *const u32, track_types_len: usize, tracks: *mut u32, tracks_len: usize,
) -> u32 {
    let movements = lent!(
        dates dates_len times times_len classes classes_len kinds kinds_len
        runways runways_len airports airports_len types types_len
    );
    let columns = lent!(
        track_dates track_dates_len track_times track_times_len track_classes track_classes_len
        track_kinds track_kinds_len track_runways track_runways_len track_airports track_airports_len
        track_types track_types_len
    );
    let answer = from_raw_parts_mut(tracks, tracks_len);
    calls::couple(movements, from_raw_parts(circuits, circuits_len), columns, answer)
}

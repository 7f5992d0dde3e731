//! Networks and contour levels.

use crate::compared::{ask, contours, write, Asked, Written};
use crate::library::Library;
use crate::rounds::{directed, Telling};
use reference::network::Frame;

pub const FRAME: Frame = Frame { columns: 3, rows: 2, spacing: 100, west: 5, south: 6 };

/// Every call on a network; a written network has no contour level to judge.
fn every_network_call(library: &Library, frame: Frame, levels: &[u32], level: u32, expected: u32) {
    let what = format!("{frame:?}, {} values, level {level}", levels.len());
    let most = 2 * levels.len() + 2;
    let rooms = [vec![8; most], vec![8; most], vec![8; most], vec![8; 2]];
    assert_eq!(contours(library, frame, levels, level, &rooms).0, expected, "{what}");
    let text = vec![b'#'; 64 * levels.len() + 100];
    assert_eq!(write(library, Written::Contours { frame, levels, level }, &text, &[0]).0, expected, "{what}");
    let place = 0x40c8_1cd6_e631_f8a1;
    for (asked, places) in [(Asked::Crossing(1), 1), (Asked::MapPoint(1), 2), (Asked::MapPoints(&[1]), 2)] {
        assert_eq!(
            ask(library, frame, levels, level, asked, &[9], &vec![place; places]),
            expected,
            "{asked:?}, {what}"
        );
    }
    let written = if expected == 15 { 0 } else { expected };
    assert_eq!(write(library, Written::Network { frame, levels }, &text, &[0]).0, written, "{what}");
}

/// The levels of a frame, rising from the west, as many as fit.
pub fn fitting(frame: Frame) -> Vec<u32> {
    (0..frame.points() as u32).map(|point| point % frame.columns.max(1)).collect()
}

#[test]
fn ranges_of_a_network() {
    const NETWORK: &[&str] = &["0", "12", "13", "15"];
    const TELLING: Telling = &[
        ("contours", 2, NETWORK),
        ("print_contours", 2, NETWORK),
        ("crossing", 2, NETWORK),
        ("map_point", 2, NETWORK),
        ("map_points", 2, NETWORK),
        ("write_network", 2, &["0", "12", "13"]),
    ];
    directed("ranges_of_a_network", TELLING, || {
        let library = Library::from_environment();
        for (frame, expected) in [
            (Frame { columns: 1, ..FRAME }, 12),
            (Frame { columns: 2, ..FRAME }, 0),
            (Frame { columns: 256, ..FRAME }, 0),
            (Frame { columns: 257, ..FRAME }, 12),
            (Frame { rows: 1, ..FRAME }, 12),
            (Frame { rows: 256, ..FRAME }, 0),
            (Frame { rows: 257, ..FRAME }, 12),
            (Frame { spacing: 0, ..FRAME }, 12),
            (Frame { spacing: 1, ..FRAME }, 0),
            (Frame { spacing: 500, ..FRAME }, 0),
            (Frame { spacing: 501, ..FRAME }, 12),
            (Frame { west: 0, south: 0, ..FRAME }, 0),
            (Frame { west: 900_000, ..FRAME }, 0),
            (Frame { west: 900_001, ..FRAME }, 12),
            (Frame { south: 900_000, ..FRAME }, 0),
            (Frame { south: 900_001, ..FRAME }, 12),
        ] {
            every_network_call(&library, frame, &fitting(frame), 1, expected);
        }
        every_network_call(&library, FRAME, &fitting(FRAME)[1..], 1, 12);
        every_network_call(&library, FRAME, &[0, 1, 2, 0, 1, 2, 0], 1, 12);
        for (highest, expected) in [(0, 0), (1, 0), (15_001, 0), (149_999, 0), (150_000, 0), (150_001, 13)] {
            every_network_call(&library, FRAME, &[0, 1, 2, 0, 1, highest], 1, expected);
            every_network_call(&library, FRAME, &[highest, 1, 2, 0, 1, 2], 150_000, expected);
        }
        every_network_call(&library, FRAME, &[u32::MAX, 1, 2, 0, 1, 2], 1, 13);
        every_network_call(&library, FRAME, &[150_001, 1, 2, 0, 1, 2], 0, 13);
        for (level, expected) in [(0, 15), (1, 0), (15_001, 0), (149_999, 0), (150_000, 0), (150_001, 15)] {
            every_network_call(&library, FRAME, &fitting(FRAME), level, expected);
        }
        every_network_call(&library, FRAME, &fitting(FRAME), u32::MAX, 15);
    });
}

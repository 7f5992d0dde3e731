//! Random and adversarial networks: contours, their text, crossings and map points.

use crate::compared::{ask, compared_rounds, contours, write, Asked, Rooms, Written};
use crate::drawn::{a_frame, a_level, a_network};
use crate::library::Library;
use crate::random::Random;
use crate::rounds::Telling;
use reference::network::Frame;

/// A finite binary64 number that no answer has, by its bits.
const OLD_PLACE: u64 = 0x40c8_1cd6_e631_f8a1;

/// A frame with one number about its limits, mostly out of range.
fn a_wrong_frame(random: &mut Random, frame: Frame) -> Frame {
    let side = random.pick(&[0, 1, 2, 256, 257, u32::MAX, 1 << 31]);
    let origin = random.pick(&[900_000, 900_001, u32::MAX]);
    match random.within(0, 4) {
        0 => Frame { columns: side, ..frame },
        1 => Frame { rows: side, ..frame },
        2 => Frame { spacing: random.pick(&[0, 1, 500, 501, u32::MAX]), ..frame },
        3 => Frame { west: origin, ..frame },
        _ => Frame { south: origin, ..frame },
    }
}

/// Contours with all the room there can be need of, with exact room and with each room too small by one.
fn compare_contours(library: &Library, random: &mut Random, frame: Frame, levels: &[u32], level: u32) -> u32 {
    let most = 2 * levels.len() + 3;
    let ample: Rooms = [vec![8; most], vec![8; most], vec![8; most], vec![8; 3]];
    let (answer, filled) = contours(library, frame, levels, level, &ample);
    if answer == 0 {
        let [edges, lines] = [filled[3][0] as usize, filled[3][1] as usize];
        let exact = [edges, lines, lines, 2];
        let rooms = |lengths: [usize; 4]| lengths.map(|length| vec![6; length]);
        contours(library, frame, levels, level, &rooms(exact));
        let mut short = exact;
        let scarce = random.within(0, 3) as usize;
        short[scarce] = short[scarce].saturating_sub(1);
        contours(library, frame, levels, level, &rooms(short));
    }
    answer
}

fn compare_text(library: &Library, random: &mut Random, written: Written, most: usize) {
    let (answer, _, size) = write(library, written, &vec![b'#'; most], &[4, 4]);
    if answer == 0 {
        let exact = size[0] as usize;
        write(library, written, &vec![b'#'; exact], &[4]);
        let (text, count) = random.pick(&[(exact - 1, 1), (exact, 0), (0, 1)]);
        write(library, written, &vec![b'#'; text], &vec![4; count]);
    }
}

fn compare_places(library: &Library, random: &mut Random, frame: Frame, levels: &[u32], level: u32) {
    let edges = levels.len() as u32 * 2;
    let some: Vec<u32> = (0..random.within(0, 40)).map(|_| random.about(edges)).collect();
    let places = |count: usize| vec![OLD_PLACE; count];
    let short = random.once_in(4);
    let which = vec![5; if short { some.len().saturating_sub(1) } else { some.len() }];
    ask(library, frame, levels, level, Asked::MapPoints(&some), &which, &places(2 * some.len()));
    ask(
        library,
        frame,
        levels,
        level,
        Asked::MapPoints(&some),
        &vec![5; some.len() + 1],
        &places((2 * some.len()).saturating_sub(1)),
    );
    for &edge in some.iter().take(6) {
        let (which, fraction, place) = random.pick(&[(1, 1, 2), (1, 1, 2), (2, 3, 3), (0, 1, 2), (1, 0, 1)]);
        ask(library, frame, levels, level, Asked::Crossing(edge), &vec![5; which], &places(fraction));
        ask(library, frame, levels, level, Asked::MapPoint(edge), &vec![5; which], &places(place));
    }
}

fn compare_all(library: &Library, random: &mut Random, frame: Frame, levels: &[u32], level: u32) {
    compare_contours(library, random, frame, levels, level);
    compare_text(library, random, Written::Contours { frame, levels, level }, 64 * levels.len() + 64);
    compare_text(library, random, Written::Network { frame, levels }, 9 * levels.len() + 100);
    compare_places(library, random, frame, levels, level);
}

#[test]
fn networks_of_all_kinds() {
    const TELLING: Telling = &[
        ("contours", 1, &["0", "14"]),
        ("print_contours", 1, &["0", "14"]),
        ("crossing", 1, &["0", "14"]),
        ("map_point", 1, &["0", "14"]),
        ("map_points", 1, &["0", "14"]),
        ("write_network", 1, &["0", "14"]),
    ];
    compared_rounds("networks_of_all_kinds", 4_000, TELLING, |library, random| {
        let (frame, level) = (a_frame(random), a_level(random));
        let levels = a_network(random, &frame, level);
        compare_all(library, random, frame, &levels, level);
    });
}

#[test]
fn refused_networks() {
    const TELLING: Telling = &[
        ("contours", 1, &["0", "12", "13", "15"]),
        ("print_contours", 1, &["0", "12", "13", "15"]),
        ("crossing", 1, &["0", "12", "13", "15"]),
        ("map_point", 1, &["0", "12", "13", "15"]),
        ("map_points", 1, &["0", "12", "13", "15"]),
        ("write_network", 1, &["0", "12", "13"]),
    ];
    compared_rounds("refused_networks", 20_000, TELLING, |library, random| {
        let small = Frame { columns: random.within(2, 4), rows: random.within(2, 4), ..a_frame(random) };
        let mut level = a_level(random);
        let mut levels = a_network(random, &small, level);
        let frame = if random.once_in(2) { a_wrong_frame(random, small) } else { small };
        let place = random.within(0, levels.len() as u32 - 1) as usize;
        match random.within(0, 7) {
            0 => drop(levels.pop()),
            1 => levels.push(0),
            2 => levels.clear(),
            3 => levels[place] = random.pick(&[150_000, 150_001, u32::MAX]),
            _ => {}
        }
        if random.once_in(3) {
            level = random.pick(&[0, 1, 150_000, 150_001, u32::MAX]);
        }
        compare_all(library, random, frame, &levels, level);
    });
}

/// Every network of 2 by 2 points with five levels about v, and of 3 by 3 and 4 by 2 with three, a slice each round.
#[test]
fn all_small_networks() {
    const TELLING: Telling = &[("contours", 1, &["0", "14"]), ("print_contours", 1, &["0", "14"])];
    compared_rounds("all_small_networks", 40, TELLING, |library, random| {
        let spacing = random.within(1, 500);
        for (columns, rows, values) in [(2, 2, 5u32), (3, 3, 3), (4, 2, 3)] {
            let frame = Frame { columns, rows, spacing, west: 1, south: 2 };
            let all = values.pow(columns * rows);
            for number in (random.within(0, 39)..all).step_by(40) {
                let levels: Vec<u32> =
                    (0..columns * rows).map(|point| 98 + number / values.pow(point) % values).collect();
                compare_contours(library, random, frame, &levels, 99);
                compare_text(library, random, Written::Contours { frame, levels: &levels, level: 99 }, 600);
            }
        }
    });
}

/// The largest networks, where an answer is longest.
#[test]
fn large_networks() {
    const TELLING: Telling = &[("contours", 1, &["0", "14"]), ("print_contours", 1, &["0", "14"])];
    compared_rounds("large_networks", 12, TELLING, |library, random| {
        let frame = Frame { columns: random.pick(&[256, 255]), rows: 256, ..a_frame(random) };
        let level = a_level(random);
        let levels = a_network(random, &frame, level);
        compare_all(library, random, frame, &levels, level);
        let every: Vec<u32> = (0..frame.edges() + 2).collect();
        ask(
            library,
            frame,
            &levels,
            level,
            Asked::MapPoints(&every),
            &vec![5; every.len()],
            &vec![OLD_PLACE; 2 * every.len()],
        );
    });
}

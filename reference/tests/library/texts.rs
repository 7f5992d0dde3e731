//! Valid and damaged texts: register rows and networks, read and written.

use crate::compared::{compared_rounds, read_network, read_row, write, Written};
use crate::damage::{damage, damage_decimals};
use crate::drawn::{a_frame, a_level, a_network, lines_of};
use crate::random::Random;
use crate::rounds::{saw, Telling};
use reference::network::{Frame, Network};

fn a_row(random: &mut Random, points: u32) -> String {
    let mass = random.pick(&[0, 150, 151, 5_999, 6_000, 1_000_000, 1_000_001, 9_999_999]);
    let identity = random.pick(&[0, 1, 381, 99_999, 100_000, 9_999_999]);
    let (aircraft, kind) = (random.pick(&['G', 'K', 'H']), random.pick(&['S', 'L']));
    let blank = random.once_in(4);
    let mut line = format!(
        "{identity},{aircraft},{mass},{kind},{:02}:{:02}:{:02}",
        random.about(23) % 30,
        random.within(0, 60),
        random.within(0, 59)
    );
    for _ in 0..points {
        let level = random.pick(&[0, 5, 99, 100, 5_665, 12_000, 12_000, 12_001, 99_999]);
        let level = if random.once_in(3) { level } else { random.within(0, 12_000) };
        line += &if blank { ",".to_string() } else { format!(",{}.{:02}", level / 100, level % 100) };
    }
    line + random.pick(&["", "\r\n"])
}

#[test]
fn rows_read() {
    const TELLING: Telling = &[("read_row", 1, &["0", "1", "3", "7", "14", "16"])];
    compared_rounds("rows_read", 150_000, TELLING, |library, random| {
        let points = if random.once_in(20) { random.about(8) } else { random.within(1, 8) };
        let mut line = a_row(random, points.min(9)).into_bytes();
        for _ in 0..random.pick(&[0, 0, 1, 1, 2, 3]) {
            damage(random, &mut line);
        }
        let asked = if random.once_in(10) { random.about(8) } else { points };
        let (fields, levels) = random.pick(&[
            (6, 8),
            (6, asked.min(9)),
            (6, asked.min(9)),
            (5, 8),
            (7, 12),
            (6, asked.clamp(1, 9) - 1),
            (0, 0),
        ]);
        read_row(library, &line, asked, &vec![77; fields], &vec![77; levels as usize]);
    });
}

#[test]
fn rows_written() {
    const TELLING: Telling = &[("write_row", 1, &["0", "1", "3", "7", "9", "14"])];
    compared_rounds("rows_written", 100_000, TELLING, |library, random| {
        let points = random.about(8);
        let mass = random.pick(&[0, 100, 5_999, 6_000, 1_000_000, 1_000_001]);
        let mut fields =
            vec![random.about(99_999), random.about(2), mass, random.about(1), random.about(86_399), random.about(1)];
        match random.within(0, 15) {
            0 => drop(fields.pop()),
            1 => fields.push(0),
            _ => {}
        }
        let count = if random.once_in(12) { random.within(0, 9) } else { points.min(9) };
        let zero = random.once_in(2);
        let levels: Vec<u32> = (0..count).map(|_| if zero { 0 } else { random.about(12_000) }).collect();
        let row = Written::Row { fields: &fields, levels: &levels, points };
        let (answer, _, size) = write(library, row, &[b'#'; 100], &[1]);
        if answer == 0 {
            let exact = size[0] as usize;
            write(library, row, &vec![b'#'; exact], &[1, 1]);
            write(library, row, &vec![b'#'; exact - 1], &[1]);
            write(library, row, &vec![b'#'; exact], &[]);
        }
    });
}

/// The lines of a small network's text, whose values have two decimals, three, or both.
fn small_network(random: &mut Random) -> Vec<String> {
    let frame = Frame { columns: random.within(2, 5), rows: random.within(2, 5), ..a_frame(random) };
    let level = a_level(random);
    let levels = a_network(random, &frame, level);
    lines_of(random, &Network { frame, levels: &levels })
}

/// Counts which decimals the values have, and says whether all of them have three.
fn count_decimals(lines: &[String]) -> bool {
    let digits = |value: &str| value.len() - value.find('.').expect("a level has a point") - 1;
    let all = |count: usize| lines[5..].iter().flat_map(|line| line.split(' ')).all(|value| digits(value) == count);
    let kind = match (all(2), all(3)) {
        (true, _) => "two decimals",
        (_, true) => "three decimals",
        _ => "two and three decimals",
    };
    saw("values", kind);
    all(3)
}

/// Puts in a no-data line, now and then with a value spelled like it, or like it but for its last digit.
fn put_no_data(random: &mut Random, lines: &mut Vec<String>) {
    const SPELLINGS: [&str; 20] = [
        "-9999", "0", "-0", "0.00", "0.000", "-12.50", "-0.001", "-999.999", "9999999", "10000000", "-", "", "1.00",
        "1.000", "--1", "01", "1.0", "-1.0000", "-01.000", "1000.000",
    ];
    let row = lines.last_mut().expect("a network has rows");
    let last = row.rfind(' ').expect("a row has two values") + 1;
    let mut spelling = random.pick(&SPELLINGS).to_string();
    match random.within(0, 3) {
        0 => row.replace_range(last.., &spelling),
        1 => spelling = row[last..].to_string(),
        2 => spelling = random.pick(&[format!("{}0", &row[last..]), row[last..row.len() - 1].to_string()]),
        _ => {}
    }
    lines.insert(5, format!("NODATA_value {spelling}"));
}

/// A small network as text, now and then with a no-data line, values spelled like it, or a wrong count.
fn a_network_text(random: &mut Random) -> String {
    let mut lines = small_network(random);
    count_decimals(&lines);
    if random.once_in(2) {
        put_no_data(random, &mut lines);
    }
    let mut text = lines.join("\r\n") + random.pick(&["", "\r\n"]);
    if random.once_in(6) {
        let (key, value) = random.pick(&[
            ("ncols ", "1"),
            ("nrows ", "257"),
            ("cellsize ", "0"),
            ("cellsize ", "50"),
            ("xllcenter ", "90"),
            ("yllcenter ", "-"),
        ]);
        text = text.replacen(key, &format!("{key}{value}"), 1);
    }
    text
}

#[test]
fn networks_read() {
    const TELLING: Telling = &[
        ("read_network", 1, &["0", "12", "13", "14", "17"]),
        ("values", 1_000, &["two decimals", "three decimals", "two and three decimals"]),
        ("write_network", 1, &["0"]),
    ];
    compared_rounds("networks_read", 60_000, TELLING, |library, random| {
        let mut text = a_network_text(random).into_bytes();
        if random.once_in(4) {
            damage_decimals(random, &mut text);
        }
        for _ in 0..random.pick(&[0, 0, 0, 1, 1, 2, 3]) {
            damage(random, &mut text);
        }
        let answer = read_network(library, &text, &[77; 5], &[77; 30]);
        if answer == 0 {
            let (frame, levels) = reference::grid::read(&text).expect("the reference has read it");
            let exact = levels.len();
            read_network(library, &text, &[77; 5], &vec![77; exact]);
            read_network(library, &text, &[77; 5], &vec![77; exact - 1]);
            read_network(library, &text, &[77; 4], &vec![77; exact]);
            write(library, Written::Network { frame, levels: &levels }, &[b'#'; 400], &[1]);
        }
    });
}

/// A text with three decimals comes back byte for byte; one with two decimals, or both, with the same levels.
#[test]
fn networks_there_and_back() {
    const TELLING: Telling = &[
        ("read_network", 1, &["0"]),
        ("values", 100, &["two decimals", "three decimals", "two and three decimals"]),
        ("write_network", 1, &["0"]),
    ];
    compared_rounds("networks_there_and_back", 3_000, TELLING, |library, random| {
        let lines = small_network(random);
        let (three, text) = (count_decimals(&lines), lines.join("\r\n") + "\r\n");
        assert_eq!(read_network(library, text.as_bytes(), &[77; 5], &[77; 30]), 0);
        let (frame, levels) = reference::grid::read(text.as_bytes()).expect("the reference has read it");
        let (answer, room, size) = write(library, Written::Network { frame, levels: &levels }, &[b'#'; 400], &[1]);
        let written = &room[..size[0] as usize];
        assert_eq!(answer, 0, "{text:?}");
        assert!(!three || written == text.as_bytes(), "{text:?} comes back as it was");
        assert_eq!(read_network(library, written, &[77; 5], &[77; 30]), 0);
        assert_eq!(reference::grid::read(written), Ok((frame, levels)), "{text:?}");
    });
}

/// Whole and cut texts of the largest networks.
#[test]
fn large_networks_read() {
    const TELLING: Telling = &[("read_network", 1, &["0"])];
    compared_rounds("large_networks_read", 4, TELLING, |library, random| {
        let frame = Frame { columns: 256, rows: 256, ..a_frame(random) };
        let levels = a_network(random, &frame, 75_000);
        let text = (lines_of(random, &Network { frame, levels: &levels }).join("\r\n") + "\r\n").into_bytes();
        let room = vec![77; 256 * 256];
        assert_eq!(read_network(library, &text, &[0; 5], &room), 0);
        assert_eq!(read_network(library, &text[..text.len() - 2], &[0; 5], &room), 0);
        let mut damaged = text.clone();
        damage(random, &mut damaged);
        read_network(library, &damaged, &[0; 5], &room);
    });
}

//! The contours program: a network file on standard input, contour levels as arguments.

use crate::damage::{damage, damage_decimals};
use crate::delivery::{a_delivery, Delivery};
use crate::drawn::{a_frame, a_level, a_network, lines_of};
use crate::program::Program;
use crate::random::Random;
use crate::rounds::{rounds, saw, Telling};
use reference::contours_csv::contours_csv;
use reference::network::{Frame, Network, MAX_NETWORK_LEVEL};
use reference::text::{spell_fine_level, spell_level};

/// The program's room for a text: one byte more than any network of 256 rows of 256 values has.
pub const ROOM: usize = 590_176;

/// What a network and its levels are made for. The answer is the reference's to give; damage may make it another.
#[derive(Clone, Copy, PartialEq, Eq)]
enum Aim {
    Answer,
    Size,
    Count,
    NetworkLevel,
    NoData,
    ContourLevel,
    Layout,
    Decimals,
    Damage,
}

/// Mostly an answer.
fn an_aim(random: &mut Random) -> Aim {
    use Aim::*;
    if random.within(1, 5) <= 3 {
        Answer
    } else {
        random.pick(&[Size, Count, NetworkLevel, NoData, ContourLevel, Layout, Decimals, Damage])
    }
}

fn a_wrong_frame(random: &mut Random, frame: Frame) -> Frame {
    match random.within(0, 4) {
        0 => Frame { columns: random.pick(&[1, 257]), ..frame },
        1 => Frame { rows: random.pick(&[1, 257]), ..frame },
        2 => Frame { spacing: random.pick(&[0, 501, 9_999_999]), ..frame },
        3 => Frame { west: 900_001, ..frame },
        _ => Frame { south: 900_001, ..frame },
    }
}

/// The network as a file's lines, with two decimals, three or both, and now and then with a no-data line.
fn a_files_lines(random: &mut Random, network: &Network) -> Vec<String> {
    let mut lines = lines_of(random, network);
    if random.once_in(3) {
        let spelling = random.pick(&["-9999", "-1", "0", "9999999", "-12.50", "-12.500", "-999.999"]);
        lines.insert(5, format!("NODATA_value {spelling}"));
    }
    lines
}

/// A value too many or too few in a row, a row too many or too few, or far more rows than the program can hold.
fn miscount(random: &mut Random, lines: &mut Vec<String>) {
    let row = random.within(6, lines.len() as u32 - 1) as usize;
    let again = lines[row].clone();
    match random.within(0, 4) {
        0 => lines[row] += random.pick(&[" 1.00", " 1.000"]),
        1 => lines[row].truncate(again.rfind(' ').expect("a row has two values")),
        2 => lines.insert(row, again),
        3 => drop(lines.remove(row)),
        _ => lines.extend((0..ROOM.div_ceil(again.len() + 2)).map(|_| again.clone())),
    }
}

/// Puts no data in one place, spelled as the file names it.
fn put_no_data(random: &mut Random, lines: &mut [String]) {
    let named = lines[5].strip_prefix("NODATA_value ").unwrap_or("-9999").to_string();
    let last = lines.len() - 1;
    let row = &mut lines[random.within(6, last as u32) as usize];
    let last = row.rfind(' ').expect("a row has two values") + 1;
    row.replace_range(last.., &named);
}

/// Puts one line off its layout.
fn misspell(random: &mut Random, lines: &mut [String]) {
    let place = if random.once_in(2) { random.within(0, 5) } else { random.within(0, lines.len() as u32 - 1) } as usize;
    let line = &mut lines[place];
    match random.within(0, 6) {
        0 => line.clear(),
        1 => *line = line.replacen(' ', "  ", 1),
        2 => line.push(' '),
        3 => line.insert(0, ' '),
        4 => *line = line.replacen(' ', "\n", 1),
        5 => line.push_str(random.pick(&["x", "1.0", ".", "\r", "-"])),
        _ => *line = line.replacen(' ', " 0", 1),
    }
}

/// A network file for the aim, and the frame that it is made of; now and then it is wrong in a second way that the
/// order puts later.
fn a_file(random: &mut Random, aim: Aim, level: u32) -> (Frame, Vec<u8>) {
    let mut frame = a_frame(random);
    if random.once_in(12) {
        (frame.columns, frame.rows) = (256, 256);
    }
    let second = random.once_in(3);
    if aim == Aim::Size || (aim == Aim::Layout && second) {
        frame = a_wrong_frame(random, frame);
    }
    let mut levels = a_network(random, &frame, level);
    if aim == Aim::NetworkLevel || (matches!(aim, Aim::Size | Aim::Count) && second) {
        let place = random.within(0, levels.len() as u32 - 1) as usize;
        levels[place] = random.pick(&[150_001, 150_010, 999_999]);
    }
    let mut lines = a_files_lines(random, &Network { frame, levels: &levels });
    match aim {
        Aim::Count => miscount(random, &mut lines),
        Aim::NoData => put_no_data(random, &mut lines),
        Aim::Layout => misspell(random, &mut lines),
        _ => {}
    }
    let mut text = (lines.join("\r\n") + random.pick(&["", "\r\n"])).into_bytes();
    match aim {
        Aim::Decimals => damage_decimals(random, &mut text),
        Aim::Damage => damage(random, &mut text),
        _ => {}
    }
    (frame, text)
}

/// The words of one to five contour levels about this one, with three decimals or with two.
fn some_levels(random: &mut Random, level: u32) -> Vec<String> {
    let about = |random: &mut Random| {
        let any = random.within(1, MAX_NETWORK_LEVEL);
        random.pick(&[level, level, level + 1, level - 1, level + 7_000, any]).clamp(1, MAX_NETWORK_LEVEL)
    };
    let word = |random: &mut Random| match about(random) {
        level if level >= 10 && random.once_in(2) => spell_level(level / 10),
        level => spell_fine_level(level),
    };
    (0..random.pick(&[1, 1, 2, 3, 5])).map(|_| word(random)).collect()
}

/// No levels, or one among them that is none.
fn spoil_levels(random: &mut Random, words: &mut Vec<String>) {
    let wrong = [
        "0.00", "0.000", "150.01", "150.001", "999.99", "999.999", "1000.00", "1000.000", "45", "45.", "45.0",
        "45.0000", "045.00", "045.000", "", " 45.00", "45.000 ", "-1.00", "-1.000", "x", "45,00", "45,000",
    ];
    let place = random.within(0, words.len() as u32) as usize;
    match random.within(0, 7) {
        0 => words.clear(),
        1 => words.insert(place, format!("45.000{}", "0".repeat(40))),
        _ => words.insert(place, random.pick(&wrong).to_string()),
    }
}

/// Counts what an answer is, and of drawn contours what they show.
pub fn count(answer: &str, frame: Frame, words: &[String]) {
    if let Some(refused) = answer.strip_prefix("refused,") {
        let mut fields = refused.trim_end().split(',');
        saw("contours", fields.next().expect("a number"));
        match fields.next().expect("a line").parse::<u32>() {
            Ok(0) => {}
            Ok(1..=5) => saw("contours", "a header line at fault"),
            _ => saw("contours", "a later line at fault"),
        }
        return;
    }
    saw("contours", "answered");
    let texts: Vec<&str> = answer.lines().skip(1).collect();
    let lines = |text: &str| text.matches("), (").count() + 1;
    let drawn = |text: &&&str| !text.ends_with("EMPTY");
    let decimals = |word: &str| word.len() - word.find('.').map_or(word.len(), |point| point + 1);
    for (kind, holds) in [
        ("several levels", words.len() > 1),
        ("words of two decimals", words.iter().any(|word| decimals(word) == 2)),
        ("words of three decimals", words.iter().any(|word| decimals(word) == 3)),
        ("no contour at a level", texts.iter().any(|text| text.ends_with("EMPTY"))),
        ("two lines and more at a level", texts.iter().filter(drawn).any(|text| lines(text) > 1)),
        ("a hundred lines and more at a level", texts.iter().any(|text| lines(text) >= 100)),
        ("west unlike south", frame.west != frame.south),
        ("256 by 256", (frame.columns, frame.rows) == (256, 256)),
    ] {
        if holds {
            saw("drawn", kind);
        }
    }
}

/// Runs the program and compares.
pub fn compare(program: &Program, text: &[u8], words: &[String], delivery: &Delivery) -> String {
    let levels: Vec<&[u8]> = words.iter().map(|word| word.as_bytes()).collect();
    let expected = contours_csv(text, &levels);
    let own = program.run(words, text, delivery);
    assert!(own == expected.as_bytes(), "{}", difference(&own, expected.as_bytes(), text, words));
    expected
}

#[test]
#[ignore = "needs OKUBINRAFO_CONTOURS, the command of the contours program"]
fn contours_drawn() {
    const TELLING: Telling = &[
        ("contours", 150, &["answered"]),
        ("contours", 5, &["12", "13", "15", "17", "a header line at fault", "a later line at fault"]),
        (
            "contours",
            10,
            &["from a file", "in one piece", "cut between CR and LF", "cut between lines", "cut anywhere"],
        ),
        ("contours", 5, &["byte by byte"]),
        ("drawn", 3, &["256 by 256", "no contour at a level", "a hundred lines and more at a level"]),
        ("drawn", 30, &["several levels", "two lines and more at a level", "west unlike south"]),
        ("drawn", 30, &["words of two decimals", "words of three decimals"]),
    ];
    let program = Program::from_environment("OKUBINRAFO_CONTOURS");
    rounds("contours_drawn", 300, TELLING, move |random| {
        let (aim, level) = (an_aim(random), a_level(random));
        let (frame, text) = a_file(random, aim, level);
        let mut words = some_levels(random, level);
        if aim == Aim::ContourLevel || (aim != Aim::Answer && random.once_in(3)) {
            spoil_levels(random, &mut words);
        }
        let delivery = a_delivery(random, "contours", &text);
        let answer = compare(&program, &text, &words, &delivery);
        count(&answer, frame, &words);
    });
}

/// Where two answers part, and what they answer.
fn difference(own: &[u8], expected: &[u8], text: &[u8], words: &[String]) -> String {
    let place = own.iter().zip(expected).take_while(|(one, other)| one == other).count();
    let about = |bytes: &[u8]| {
        String::from_utf8_lossy(&bytes[place.saturating_sub(60)..(place + 60).min(bytes.len())]).into_owned()
    };
    let (own, expected, text) = (about(own), about(expected), String::from_utf8_lossy(text));
    format!(
        "the program writes about byte {place} {own:?}\nthe reference {expected:?}\nlevels {words:?}\nnetwork {text:?}"
    )
}

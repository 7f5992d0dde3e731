//! The texts of movements and tracks: right ones of all sizes, and wrong in one place.

use crate::damage::damage;
use crate::random::Random;
use reference::couple_csv::{MOVEMENTS_HEADER, TRACKS_HEADER};
use reference::text::spell_time;

/// What the two files are made for. Their answer is the reference's to give; damage may make it another.
#[derive(Clone, Copy, Debug, PartialEq, Eq)]
pub enum Aim {
    Answer,
    Date,
    Layout,
    Header,
    Damage,
}

/// A row of either file: its number, and the flight of these columns.
fn row(number: u32, columns: &[Vec<u32>], place: usize) -> String {
    let of = |column: usize| columns[column][place];
    let name = |column: usize| {
        let bytes = of(column).to_be_bytes();
        String::from_utf8_lossy(&bytes).trim_start_matches('\0').to_string()
    };
    let (date, letter) =
        (of(0), |letters: &str, column: usize| letters.chars().nth(of(column) as usize).expect("0 or 1"));
    let (class, kind) = (letter("VH", 2), letter("SL", 3));
    let circuit = columns.get(7).map_or("", |circuits| if circuits[place] == 0 { "," } else { ",C" });
    let day = format!("{:04}-{:02}-{:02}", date / 10_000, date / 100 % 100, date % 100);
    format!("{number},{day},{},{class},{kind},{},{},{}{circuit}", spell_time(of(1)), name(4), name(5), name(6))
}

/// The lines of either file, numbered anyhow.
pub fn lines(random: &mut Random, header: &str, columns: &[Vec<u32>]) -> Vec<String> {
    let first = random.pick(&[0, 1, 40, 9_900_000]);
    let number = |place: usize| first + (place as u32 * 7_919) % 99_991;
    let rows = (0..columns[0].len()).map(|place| row(number(place), columns, place));
    std::iter::once(header.to_string()).chain(rows).collect()
}

/// A row off its layout, made of one on it.
fn off_layout(random: &mut Random, line: &str) -> String {
    let fields: Vec<&str> = line.split(',').collect();
    let with = |place: usize, field: &str| {
        let mut other = fields.clone();
        other[place] = field;
        other.join(",")
    };
    match random.within(0, 12) {
        0 => String::new(),
        1 => format!("{line},"),
        2 => fields[..fields.len() - 1].join(","),
        3 => with(0, random.pick(&["", "01", "10000000", "+1", " 1", "x"])),
        4 => with(1, random.pick(&["", "2026-3-31", "20260331", "31-03-2026", "2026-03-31 ", "2026-0x-01"])),
        5 => with(2, random.pick(&["", "24:00:00", "07:60:00", "07:00:60", "7:00:00", "07:00"])),
        6 => with(3, random.pick(&["", "v", "VH", "G", "0"])),
        7 => with(4, random.pick(&["", "s", "SL", "C", "1"])),
        8 => with(random.within(5, 7) as usize, random.pick(&["", "b738", "B738X", "0 6", "-", "\u{c9}"])),
        9 => format!("{line}{}", random.pick(&["c", "CC", " ", "0", "\n", "\r"])),
        10 => format!("{line}{}", "0".repeat(random.pick(&[30, 200, 70_000]))),
        11 => format!("{line}\n{line}"),
        _ => format!("\u{feff}{line}"),
    }
}

/// A row whose date doesn't exist, made of one whose date does.
fn off_calendar(random: &mut Random, line: &str) -> String {
    let wrong = ["2026-02-29", "2100-02-29", "1899-12-31", "2026-04-31", "2026-13-01", "2026-00-10", "0000-00-00"];
    let mut fields: Vec<&str> = line.split(',').collect();
    fields[1] = random.pick(&wrong);
    fields.join(",")
}

/// The text of a file for the aim.
pub fn text(random: &mut Random, aim: Aim, mut lines: Vec<String>) -> Vec<u8> {
    let place = random.within(1, lines.len().max(2) as u32 - 1) as usize;
    match aim {
        Aim::Header => {
            let other = random.pick(&["", "id,track", TRACKS_HEADER, MOVEMENTS_HEADER, "id,type,mtow,kind,time,l1"]);
            lines[0] = random.pick(&[other.to_string(), format!("{} ", lines[0]), lines[0].to_uppercase()]);
        }
        Aim::Layout if place < lines.len() => lines[place] = off_layout(random, &lines[place]),
        Aim::Date if place < lines.len() => lines[place] = off_calendar(random, &lines[place]),
        _ => {}
    }
    let last = if random.once_in(3) { "" } else { "\r\n" };
    let mut text = (lines.join("\r\n") + last).into_bytes();
    if aim == Aim::Damage {
        damage(random, &mut text);
    }
    text
}

//! Registers and limits files: right ones of all sizes, and wrong in one place or two.

use crate::damage::damage;
use crate::random::Random;
use reference::register::{limits_header, register_header};
use reference::text::{spell_level, spell_time};

/// The rows of the report's own book.
pub const ROWS: usize = 2_000;

/// What a register is made for. Its answer is the reference's to give; damage may make it another.
#[derive(Clone, Copy, Debug, PartialEq, Eq)]
pub enum Aim {
    Answer,
    Movement,
    Identity,
    Stands,
    NoRow,
    Levels,
    NoneComputed,
    Days,
    Limit,
    Layout,
    LimitsLayout,
    Damage,
}

impl Aim {
    /// Mostly an answer.
    pub fn pick(random: &mut Random) -> Aim {
        use Aim::*;
        let wrong =
            [Movement, Identity, Stands, NoRow, Levels, NoneComputed, Days, Limit, Layout, LimitsLayout, Damage];
        if random.within(1, 20) <= 12 {
            Answer
        } else {
            random.pick(&wrong)
        }
    }
}

#[derive(Clone, Debug)]
struct Row {
    identity: u32,
    aircraft: char,
    mass: u32,
    kind: char,
    time: u32,
    /// None: not computed.
    levels: Option<Vec<u32>>,
}

impl Row {
    fn counts(&self) -> bool {
        self.mass > 150
    }

    fn spelled(&self, points: u32) -> String {
        let Row { identity, aircraft, mass, kind, time, levels } = self;
        let levels = match levels {
            Some(levels) => levels.iter().map(|&level| format!(",{}", spell_level(level))).collect(),
            None => ",".repeat(points as usize),
        };
        format!("{identity},{aircraft},{mass},{kind},{}{levels}", spell_time(*time))
    }
}

/// The traits that the rows of one register share.
struct Style {
    points: u32,
    least: u32,
    most: u32,
    /// One row in so many isn't computed.
    missing: u32,
    /// Helicopters are never computed, so that whole groups go without levels.
    no_helicopters: bool,
}

impl Style {
    fn pick(random: &mut Random, points: u32) -> Style {
        let (least, most) =
            random.pick(&[(0, 12_000), (9_000, 12_000), (2_000, 6_500), (5_000, 5_600), (0, 100), (0, 0)]);
        Style { points, least, most, missing: random.pick(&[2, 3, 10, 1_000]), no_helicopters: random.once_in(2) }
    }

    /// A row that counts.
    fn a_row(&self, random: &mut Random, identity: u32) -> Row {
        let aircraft = random.pick(&['G', 'G', 'K', 'H']);
        let heaviest = if aircraft == 'K' { 5_999 } else { 1_000_000 };
        let mass = if random.once_in(4) { random.pick(&[151, heaviest, 5_999]) } else { random.within(151, heaviest) };
        let edge = random.pick(&[0, 25_199, 25_200, 68_399, 68_400, 82_799, 82_800, 86_399]);
        let time = if random.once_in(4) { edge } else { random.within(0, 86_399) };
        let blank = random.once_in(self.missing) || (self.no_helicopters && aircraft == 'H');
        let levels = (0..self.points).map(|_| random.within(self.least, self.most)).collect();
        Row { identity, aircraft, mass, kind: random.pick(&['S', 'L']), time, levels: (!blank).then_some(levels) }
    }

    /// A row that is passed over, whatever else may be wrong with it.
    fn a_light_row(&self, random: &mut Random) -> Row {
        let identity = random.about(99_999).min(9_999_999);
        let own = self.a_row(random, identity);
        let levels = random.pick(&[own.levels.clone(), Some(vec![99_999; self.points as usize]), None]);
        Row { mass: random.pick(&[0, 1, 149, 150]), levels, ..own }
    }
}

fn shuffle<T>(random: &mut Random, list: &mut [T]) {
    for last in (1..list.len()).rev() {
        list.swap(last, random.within(0, last as u32) as usize);
    }
}

/// A register of rows that count, in rising, falling or any order, with rows between them that are passed over.
fn rows_of(random: &mut Random, style: &Style, counted: usize, light: usize) -> Vec<Row> {
    let gap = random.within(1, 49);
    let mut rows: Vec<Row> = (0..counted as u32).map(|row| style.a_row(random, 1 + row * gap)).collect();
    match random.within(0, 2) {
        0 => rows.reverse(),
        1 => shuffle(random, &mut rows),
        _ => {}
    }
    for _ in 0..light {
        let row = style.a_light_row(random);
        // Long registers take theirs at the end, where that costs nothing.
        let place = if light > 50 { rows.len() } else { random.within(0, rows.len() as u32) as usize };
        rows.insert(place, row);
    }
    if light > 50 {
        shuffle(random, &mut rows);
    }
    rows
}

/// Makes one row wrong, or adds a wrong one; now and then it is wrong in a second way that the order puts later.
fn spoil(random: &mut Random, aim: Aim, style: &Style, rows: &mut Vec<Row>) {
    let mut row = style.a_row(random, 99_999);
    let over = Some(vec![random.pick(&[12_001, 99_999]); style.points as usize]);
    if random.once_in(3) {
        row.levels = over.clone();
    }
    let standing = random.pick(&rows.iter().filter(|row| row.counts()).map(|row| row.identity).collect::<Vec<_>>());
    let mut place = random.within(0, rows.len() as u32) as usize;
    match aim {
        Aim::Movement => {
            (row.aircraft, row.mass) = random.pick(&[('K', 6_000), ('K', 6_001), ('G', 1_000_001), ('H', 9_999_999)]);
            row.identity = random.pick(&[99_999, 0, standing]);
        }
        Aim::Identity => row.identity = random.pick(&[0, 100_000, 9_999_999]),
        Aim::Stands => {
            row.identity = standing;
            place = rows.len();
        }
        Aim::NoRow => place = rows.len(),
        _ => row.levels = over,
    }
    rows.insert(place, row);
}

/// A line off its layout, made of one on it.
fn off_layout(random: &mut Random, line: &str) -> String {
    let fields: Vec<&str> = line.split(',').collect();
    let with = |place: usize, field: &str| {
        let mut other = fields.clone();
        other[place] = field;
        other.join(",")
    };
    match random.within(0, 12) {
        0 => String::new(),
        1 => format!("{line},"),
        2 => fields[..fields.len() - 1].join(","),
        3 => with(1, random.pick(&["", "g", "GG", "X"])),
        4 => with(3, random.pick(&["", "s", "SL", "0"])),
        5 => with(4, random.pick(&["", "24:00:00", "07:60:00", "07:00:60", "7:00:00", "07:00"])),
        6 => with(2, random.pick(&["", "0151", "10000000", "-1", "7e3", "200 "])),
        7 => with(0, random.pick(&["", "01", "10000000", "+1", " 1"])),
        8 => with(5, random.pick(&["60", "60.0", "060.00", "1000.00", ".50", "60,00", "\"60.00\""])),
        9 => format!("{line} "),
        10 => format!("{line}{}", "0".repeat(random.pick(&[90, 200, 70_000]))),
        11 => format!("{line}\n{line}"),
        _ => format!("{line}\r"),
    }
}

/// A register's text for the aim.
pub fn a_register(random: &mut Random, aim: Aim, points: u32) -> Vec<u8> {
    let style = Style::pick(random, points);
    let full = aim == Aim::NoRow || (aim == Aim::Stands && random.once_in(2));
    let least = usize::from(aim != Aim::Answer);
    let counted =
        if full { ROWS } else { random.pick(&[0, 1, 3, 10, 60, 300, 1_500, ROWS - 1, ROWS, ROWS]).max(least) };
    let light = random.pick(&[0, 0, 1, 5, 50, 600, 4_000]);
    let mut rows = rows_of(random, &style, counted, light);
    match aim {
        Aim::Movement | Aim::Identity | Aim::Stands | Aim::NoRow | Aim::Levels => spoil(random, aim, &style, &mut rows),
        Aim::NoneComputed => rows.iter_mut().filter(|row| row.counts()).for_each(|row| row.levels = None),
        _ => {}
    }
    let mut lines = vec![register_header(points)];
    lines.extend(rows.iter().map(|row| row.spelled(points)));
    if aim == Aim::Layout {
        let place = random.within(0, lines.len() as u32 - 1) as usize;
        lines[place] = match place {
            0 => {
                random.pick(&["".to_string(), register_header(points % 8 + 1), register_header(9), register_header(0)])
            }
            _ => off_layout(random, &lines[place]),
        };
    }
    let last = if random.once_in(3) { "" } else { "\r\n" };
    let mut text = (lines.join("\r\n") + last).into_bytes();
    if aim == Aim::Damage {
        damage(random, &mut text);
    }
    text
}

/// A limits file for the aim, with these limits where it is right; none where the file isn't to be there.
pub fn a_limits_file(random: &mut Random, aim: Aim, days: u32, limits: &[u32]) -> Option<Vec<u8>> {
    let points = limits.len() as u32;
    let mut limits = limits.to_vec();
    let mut days = days;
    if aim == Aim::Limit || (aim == Aim::Days && random.once_in(2)) {
        let place = random.within(0, points - 1) as usize;
        limits[place] = random.pick(&[12_001, 99_999]);
    }
    if aim == Aim::Days {
        days = random.pick(&[0, 367, 9_999_999]);
    }
    let fields: String = limits.iter().map(|&limit| format!(",{}", spell_level(limit))).collect();
    let (header, line) = (limits_header(points), format!("{days}{fields}"));
    let mut text = format!("{header}\r\n{line}{}", random.pick(&["", "\r\n"]));
    if aim == Aim::LimitsLayout {
        text = match random.within(0, 8) {
            0 => return None,
            1 => String::new(),
            2 => header,
            3 => format!("{header}\r\n\r\n"),
            4 => format!("{header}\r\n{line}\r\n{}", random.pick(&["\r\n", "x", "x\r\n"])),
            5 => format!("{header}\n{line}\n"),
            6 => format!("{header}\r\n{line},1.00"),
            7 => format!("{}\r\n{line}", random.pick(&["days".to_string(), limits_header(9), "".to_string()])),
            _ => format!("{header}\r\n{}", random.pick(&["1", "01,1.00", ",1.00", "1,", "10000000,1.00"])),
        };
    }
    Some(text.into_bytes())
}

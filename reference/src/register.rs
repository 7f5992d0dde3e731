//! Register rows, headers and limits.csv (RULES, Files and the report program).

use crate::book::MAX_POINTS;
use crate::movement::{check_identity, Movement, MAX_LEVEL};
use crate::text::{letter, level, lines, spell_level, spell_time, time, whole, without_crlf};
use crate::{ensure, Answer, Refusal};

const TYPES: &[u8; 3] = b"GKH";
const KINDS: &[u8; 2] = b"SL";

#[derive(Clone, Debug, PartialEq, Eq)]
pub struct Row {
    pub identity: u32,
    pub movement: Movement,
    /// None: not computed, all levels blank.
    pub levels: Option<Vec<u32>>,
}

/// The fields of a row by the layout alone: 16 or the row.
pub fn read_layout(line: &[u8], points: u32) -> Answer<Row> {
    spelled_row(line, points).ok_or(Refusal::Register)
}

/// A row's fields read alone, with or without CRLF: 16, 1, 3, 7.
pub fn read_row(line: &[u8], points: u32) -> Answer<Row> {
    let row = read_layout(without_crlf(line), points)?;
    row.movement.check()?;
    check_identity(row.identity)?;
    let in_range = row.levels.iter().flatten().all(|&level| level <= MAX_LEVEL);
    ensure(in_range, Refusal::Levels)?;
    Ok(row)
}

/// The row as a line with its CRLF, its levels as many as points and zero where not computed: 9, 1, 3, 7.
pub fn write_row(identity: u32, movement: Movement, mark: u32, levels: &[u32], points: u32) -> Answer<String> {
    ensure((1..=MAX_POINTS).contains(&points) && mark <= 1, Refusal::Book)?;
    movement.check()?;
    check_identity(identity)?;
    let highest = if mark == 1 { MAX_LEVEL } else { 0 };
    ensure(levels.len() == points as usize && levels.iter().all(|&level| level <= highest), Refusal::Levels)?;
    let aircraft = TYPES[movement.aircraft as usize] as char;
    let kind = KINDS[movement.kind as usize] as char;
    let mut line = format!("{identity},{aircraft},{},{kind},{}", movement.mass, spell_time(movement.time));
    for &level in levels {
        line.push(',');
        line.push_str(&if mark == 1 { spell_level(level) } else { String::new() });
    }
    Ok(line + "\r\n")
}

fn spelled_row(line: &[u8], points: u32) -> Option<Row> {
    let fields: Vec<&[u8]> = line.split(|&byte| byte == b',').collect();
    let &[identity, aircraft, mass, kind, at, ref levels @ ..] = &fields[..] else {
        return None;
    };
    if !(1..=MAX_POINTS).contains(&points) || levels.len() != points as usize {
        return None;
    }
    let blank = levels.iter().all(|field| field.is_empty());
    let levels = if blank { None } else { Some(levels.iter().map(|field| level(field)).collect::<Option<_>>()?) };
    let movement = Movement {
        aircraft: letter(aircraft, TYPES)?,
        kind: letter(kind, KINDS)?,
        time: time(at)?,
        mass: whole(mass)?,
    };
    Some(Row { identity: whole(identity)?, movement, levels })
}

/// The header of a register, without CRLF.
pub fn register_header(points: u32) -> String {
    (1..=points).fold("id,type,mtow,kind,time".to_string(), |line, point| format!("{line},l{point}"))
}

/// The header of limits.csv, without CRLF.
pub fn limits_header(points: u32) -> String {
    (1..=points).fold("days".to_string(), |line, point| format!("{line},p{point}"))
}

#[derive(Clone, Debug, PartialEq, Eq)]
pub struct Limits {
    pub days: u32,
    pub limits: Vec<u32>,
}

/// The two lines of limits.csv, or the number of the first line off the layout.
pub fn read_limits(text: &[u8]) -> Result<Limits, usize> {
    let lines = lines(text);
    let line = |number: usize| lines.get(number - 1).copied().unwrap_or_default();
    let points = (1..=MAX_POINTS).find(|&points| line(1) == limits_header(points).as_bytes()).ok_or(1usize)?;
    let limits = spelled_limits(line(2), points).ok_or(2usize)?;
    if lines.len() > 2 {
        return Err(3);
    }
    Ok(limits)
}

fn spelled_limits(line: &[u8], points: u32) -> Option<Limits> {
    let mut fields = line.split(|&byte| byte == b',');
    let days = whole(fields.next()?)?;
    let limits = fields.map(level).collect::<Option<Vec<_>>>()?;
    (limits.len() == points as usize).then_some(Limits { days, limits })
}

#[cfg(test)]
mod tests {
    use super::*;

    const LARGE: Movement = Movement { aircraft: 0, kind: 0, time: 25_200, mass: 70_000 };

    #[test]
    fn the_documents_rows() {
        let row = |identity, movement, levels| Ok(Row { identity, movement, levels });
        assert_eq!(read_row(b"1,G,70000,S,07:00:00,100.00", 1), row(1, LARGE, Some(vec![10_000])));
        let noon = Movement { time: 43_200, ..LARGE };
        assert_eq!(read_row(b"3,G,70000,S,12:00:00,\r\n", 1), row(3, noon, None));
        let helicopter = Movement { aircraft: 2, kind: 1, time: 82_800, mass: 3_000 };
        assert_eq!(write_row(4, helicopter, 0, &[0], 1), Ok("4,H,3000,L,23:00:00,\r\n".to_string()));
        assert_eq!(write_row(2, LARGE, 1, &[5, 12_000], 2), Ok("2,G,70000,S,07:00:00,0.05,120.00\r\n".to_string()));
    }

    #[test]
    fn rows_off_the_layout() {
        for wrong in [
            "",
            "1,G,70000,S,07:00:00",
            "1,G,70000,S,07:00:00,1.00,1.00",
            "1,g,70000,S,07:00:00,1.00",
            "1,G,70000,X,07:00:00,1.00",
            "01,G,70000,S,07:00:00,1.00",
            "1,G,,S,07:00:00,1.00",
            "1,G,70000,S,24:00:00,1.00",
            "1,G,70000,S,07:00:00,1.0",
            "1,G,70000,S,07:00:00, ",
            "\"1\",G,70000,S,07:00:00,1.00",
            "1,G,70000,S,07:00:00,1.00\r\n\r\n",
            "1,G,70000,S,07:00:00,1.00\n",
        ] {
            assert_eq!(read_row(wrong.as_bytes(), 1), Err(Refusal::Register), "{wrong:?}");
        }
        assert_eq!(read_row(b"1,G,70000,S,07:00:00,1.00,", 2), Err(Refusal::Register), "some blank");
        assert!(read_row(b"1,G,70000,S,07:00:00,,", 2).is_ok(), "all blank");
        assert_eq!(read_row(b"1,G,70000,S,07:00:00", 0), Err(Refusal::Register), "no points");
        assert_eq!(read_row(b"1,G,70000,S,07:00:00,,,,,,,,,", 9), Err(Refusal::Register), "nine points");
    }

    #[test]
    fn fields_out_of_range_in_order() {
        assert_eq!(read_row(b"0,K,6000,S,07:00:00,120.01", 1), Err(Refusal::Movement));
        assert_eq!(read_row(b"0,K,100,S,07:00:00,120.01", 1), Err(Refusal::Identity), "2 isn't judged");
        assert_eq!(read_row(b"9999999,G,1000000,S,07:00:00,100.00", 1), Err(Refusal::Identity));
        assert_eq!(read_row(b"1,K,100,S,07:00:00,120.01", 1), Err(Refusal::Levels));
    }

    #[test]
    fn written_rows_are_judged_in_order() {
        let small = Movement { aircraft: 1, mass: 6_000, ..LARGE };
        assert_eq!(write_row(0, small, 2, &[1], 1), Err(Refusal::Book));
        assert_eq!(write_row(0, small, 1, &[1], 0), Err(Refusal::Book));
        assert_eq!(write_row(0, small, 1, &[1], 9), Err(Refusal::Book));
        assert_eq!(write_row(0, small, 0, &[1], 1), Err(Refusal::Movement));
        assert_eq!(write_row(0, LARGE, 0, &[1], 1), Err(Refusal::Identity));
        assert_eq!(write_row(1, LARGE, 0, &[1], 1), Err(Refusal::Levels), "a level where the mark is 0");
        assert_eq!(write_row(1, LARGE, 1, &[1, 1], 1), Err(Refusal::Levels));
        assert_eq!(write_row(1, LARGE, 1, &[12_001], 1), Err(Refusal::Levels));
        assert_eq!(write_row(1, Movement { mass: 100, ..LARGE }, 1, &[0], 1).unwrap(), "1,G,100,S,07:00:00,0.00\r\n");
    }

    #[test]
    fn limits_files() {
        assert_eq!(read_limits(b"days,p1\r\n1,56.65\r\n"), Ok(Limits { days: 1, limits: vec![5665] }));
        assert_eq!(read_limits(b"days,p1,p2\r\n400,0.00,999.99"), Ok(Limits { days: 400, limits: vec![0, 99_999] }));
        for (text, line) in [
            ("", 1),
            ("days,p2\r\n1,1.00", 1),
            ("days\r\n1", 1),
            ("days,p1\n1,1.00", 1),
            ("days,p1", 2),
            ("days,p1\r\n\r\n", 2),
            ("days,p1\r\n1,", 2),
            ("days,p1\r\n1,1.00,1.00\r\n", 2),
            ("days,p1\r\n1,1.00\r\n\r\n", 3),
            ("days,p1\r\n1\r\nx", 2),
        ] {
            assert_eq!(read_limits(text.as_bytes()), Err(line), "{text:?}");
        }
    }
}

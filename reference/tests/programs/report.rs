//! The report program: limits.csv in its folder, the register on standard input.

use crate::delivery::{a_delivery, Delivery, BUFFER};
use crate::program::Program;
use crate::random::Random;
use crate::registers::{a_limits_file, a_register, Aim, ROWS};
use crate::rounds::{directed, rounds, saw, Telling};
use crate::two_files::agree;
use reference::report::report;
use reference::text::level;

/// Limits about the levels that the register gives, where it gives any.
fn limits_about(random: &mut Random, points: u32, days: u32, register: &[u8]) -> Vec<u32> {
    let any: Vec<u32> = (0..points).map(|_| random.within(0, 12_000)).collect();
    let file = a_limits_file(random, Aim::Answer, days, &any).expect("the file is there");
    let answer = report(&file, register);
    let levels = answer.lines().skip(1).map(|line| line.split(',').nth(1).and_then(|field| level(field.as_bytes())));
    let about = levels.zip(&any).map(|(own, &other)| match own {
        Some(own) => random.pick(&[own, own.saturating_sub(1), own + 1, other]).min(12_000),
        None => random.pick(&[0, other]),
    });
    let about: Vec<u32> = about.collect();
    if about.len() == any.len() {
        about
    } else {
        any
    }
}

/// Counts what an answer is, and of an answered register what it shows.
fn count(answer: &str, register: &[u8]) {
    if let Some(refused) = answer.strip_prefix("refused,") {
        saw("report", refused.split(',').next().expect("a number"));
        return;
    }
    saw("report", "answered");
    let lines: Vec<Vec<&str>> = answer.lines().skip(1).map(|line| line.split(',').collect()).collect();
    let number = |field: &str| field.parse::<usize>().expect("a count is a whole number");
    let (computed, missing) = (number(lines[0][4]), number(lines[0][5]));
    let rows =
        register.windows(2).filter(|pair| pair == b"\r\n").count() + usize::from(!register.ends_with(b"\r\n")) - 1;
    let low = |line: &Vec<&str>| level(line[1].as_bytes()).is_some_and(|level| level < 3_000);
    let at_limit = |line: &Vec<&str>| line[1] == line[2];
    for (kind, holds) in [
        ("over one buffer", register.len() > BUFFER),
        ("over two buffers", register.len() > 2 * BUFFER),
        ("a full book", computed + missing == ROWS),
        ("an empty book", computed + missing == 0),
        ("rows passed over", rows > computed + missing),
        ("movements missing", missing > 0),
        ("without the last CRLF", !register.ends_with(b"\r\n")),
        ("below zero", lines.iter().any(|line| line[1] == "below")),
        ("under 30.00", lines.iter().any(low)),
        ("at its limit", lines.iter().any(at_limit)),
        ("over its limit", lines.iter().any(|line| line[3] == "over")),
        ("eight points", lines.len() == 8),
    ] {
        if holds {
            saw("answered", kind);
        }
    }
}

/// Runs the program and compares.
fn compare(program: &Program, limits: Option<&[u8]>, register: &[u8], delivery: &Delivery) -> String {
    agree(program, "limits.csv", report, limits, register, delivery)
}

#[test]
#[ignore = "needs OKUBINRAFO_REPORT, the command of the report program"]
fn reports() {
    const TELLING: Telling = &[
        ("report", 200, &["answered"]),
        ("report", 3, &["1", "3", "4", "6", "7", "10", "11", "15", "16"]),
        ("report", 20, &["from a file", "in one piece", "cut between CR and LF", "cut between lines", "cut anywhere"]),
        ("report", 4, &["byte by byte", "cut about a buffer's end"]),
        (
            "answered",
            20,
            &["over one buffer", "over two buffers", "a full book", "rows passed over", "movements missing"],
        ),
        (
            "answered",
            5,
            &["an empty book", "without the last CRLF", "below zero", "under 30.00", "at its limit", "over its limit"],
        ),
        ("answered", 5, &["eight points"]),
    ];
    let program = Program::from_environment("OKUBINRAFO_REPORT");
    rounds("reports", 400, TELLING, move |random| {
        let (aim, points) = (Aim::pick(random), random.within(1, 8));
        let register = a_register(random, aim, points);
        let days = random.pick(&[1, 1, 92, 365, 366]);
        let limits = limits_about(random, points, days, &register);
        let limits = a_limits_file(random, aim, days, &limits);
        let delivery = a_delivery(random, "report", &register);
        let answer = compare(&program, limits.as_deref(), &register, &delivery);
        count(&answer, &register);
    });
}

pub const LIMITS: &[u8] = b"days,p1\r\n1,56.65\r\n";
pub const HEADER: &str = "id,type,mtow,kind,time,l1\r\n";
pub const MOVEMENTS: &str =
    "1,G,70000,S,07:00:00,100.00\r\n2,G,70000,S,18:59:59,100.00\r\n3,G,70000,S,12:00:00,\r\n4,H,3000,L,23:00:00,\r\n";
const REPORT: &str = "point,level,limit,verdict,computed,missing\r\n1,56.66,56.65,over,2,2\r\n";

/// The rules's file, cut in two at every place: whatever the pieces, every flight counts.
#[test]
#[ignore = "needs OKUBINRAFO_REPORT, the command of the report program"]
fn the_documents_file_in_two_pieces() {
    let program = Program::from_environment("OKUBINRAFO_REPORT");
    directed("the_documents_file_in_two_pieces", &[("report", 100, &["answered"])], move || {
        let register = HEADER.to_string() + MOVEMENTS;
        for cut in 1..register.len() {
            let answer = compare(&program, Some(LIMITS), register.as_bytes(), &Delivery::Pieces(vec![cut]));
            assert_eq!(answer, REPORT);
            saw("report", "answered");
        }
    });
}

/// Rows of 150 kg, so many bytes in all (1,000 and more): about 28 bytes each, by the digits of the identity.
fn passed_over(bytes: usize) -> String {
    let rows = bytes / 28;
    let length = |row: usize| bytes / rows + usize::from(row < bytes % rows);
    (0..rows).map(|row| format!("{},G,150,S,07:00:00,1.00\r\n", &"9999999"[..length(row) - 24])).collect()
}

/// The rules's file behind rows that are passed over, so that the buffer ends at every place of its movements.
#[test]
#[ignore = "needs OKUBINRAFO_REPORT, the command of the report program"]
fn the_documents_file_about_a_buffers_end() {
    let program = Program::from_environment("OKUBINRAFO_REPORT");
    directed("the_documents_file_about_a_buffers_end", &[("report", 100, &["answered"])], move || {
        for before in 0..=MOVEMENTS.len() {
            let register = HEADER.to_string() + &passed_over(BUFFER - HEADER.len() - before) + MOVEMENTS;
            let answer = compare(&program, Some(LIMITS), register.as_bytes(), &Delivery::File);
            assert_eq!(answer, REPORT);
            saw("report", "answered");
        }
    });
}

/// The ranges of both files, at their ends and one past them, with everything else right.
#[test]
#[ignore = "needs OKUBINRAFO_REPORT, the command of the report program"]
fn ranges_of_the_report_program() {
    const TELLING: Telling =
        &[("report", 1, &["1", "3", "4", "6", "7", "10", "11", "15", "16"]), ("report", 8, &["answered"])];
    let program = Program::from_environment("OKUBINRAFO_REPORT");
    directed("ranges_of_the_report_program", TELLING, move || {
        let runs = |limits: &str, rows: &str, expected: &str| {
            let (limits, register) = (format!("days,p1\r\n{limits}\r\n"), format!("{HEADER}{rows}"));
            let answer = compare(&program, Some(limits.as_bytes()), register.as_bytes(), &Delivery::File);
            assert!(answer.starts_with(expected), "{limits:?}, {rows:?}: {answer:?}");
            count(&answer, register.as_bytes());
        };
        let answered = "point,level,limit,verdict,computed,missing\r\n1,";
        for (limits, expected) in [
            ("0,60.00", "refused,11,2"),
            ("1,60.00", answered),
            ("366,60.00", answered),
            ("367,60.00", "refused,11,2"),
            ("1,0.00", answered),
            ("1,120.00", answered),
            ("1,120.01", "refused,15,2"),
            ("367,120.01", "refused,11,2"),
            ("1,60.000", "refused,16,2"),
        ] {
            runs(limits, "7,G,70000,S,07:00:00,60.00", expected);
        }
        for (row, expected) in [
            ("7,K,5999,S,07:00:00,60.00", answered),
            ("7,K,6000,S,07:00:00,60.00", "refused,1,2"),
            ("7,G,1000000,S,07:00:00,60.00", answered),
            ("7,G,1000001,S,07:00:00,60.00", "refused,1,2"),
            ("7,G,151,S,07:00:00,", "refused,10,0"),
            ("7,G,150,S,07:00:00,", answered),
            ("0,G,151,S,07:00:00,60.00", "refused,3,2"),
            ("99999,G,151,S,07:00:00,60.00", answered),
            ("100000,G,151,S,07:00:00,60.00", "refused,3,2"),
            ("7,G,151,S,07:00:00,120.00", answered),
            ("7,G,151,S,07:00:00,120.01", "refused,7,2"),
            ("7,G,151,S,07:00:00,60.000", "refused,16,2"),
            ("7,G,151,S,24:00:00,60.00", "refused,16,2"),
            ("7,G,151,S,07:60:00,60.00", "refused,16,2"),
            ("7,G,151,S,07:00:60,60.00", "refused,16,2"),
        ] {
            runs("1,60.00", row, expected);
        }
        let full: String = (1..=ROWS).map(|identity| format!("{identity},G,151,S,07:00:00,60.00\r\n")).collect();
        runs("1,60.00", &full, answered);
        runs("1,60.00", &format!("{full}2001,G,151,S,07:00:00,60.00"), "refused,6,2002");
        runs("1,60.00", &format!("{full}2000,G,151,S,07:00:00,60.00"), "refused,4,2002");
        runs("1,60.00", &format!("{full}2001,G,150,S,07:00:00,60.00"), answered);
        // Files of no bytes, and a register of its header alone.
        for (limits, register, expected) in [
            ("days,p1\r\n1,60.00", "", "refused,16,1"),
            ("days,p1\r\n1,60.00", HEADER.trim_end(), answered),
            ("days,p1\r\n1,60.00", "\r\n", "refused,16,1"),
            ("", HEADER, "refused,16,1"),
            ("days,p1", "", "refused,16,2"),
        ] {
            let answer = compare(&program, Some(limits.as_bytes()), register.as_bytes(), &Delivery::File);
            assert!(answer.starts_with(expected), "{limits:?}, {register:?}: {answer:?}");
            count(&answer, register.as_bytes());
        }
    });
}

//! The program explain: the files of the report, told by how each load comes about.

use crate::delivery::{a_delivery, Delivery};
use crate::program::Program;
use crate::registers::{a_limits_file, a_register, Aim, ROWS};
use crate::report::{HEADER, LIMITS, MOVEMENTS};
use crate::rounds::{directed, rounds, saw, Telling};
use crate::two_files::agree;
use reference::explain::explain;

/// The columns of a line.
const NAME: usize = 1;
const COMPUTED: usize = 4;
const MISSING: usize = 5;
const COUNTED: usize = 8;
/// The groups, and the line for all of them.
const LINES: usize = 19;

/// Counts what an answer is, and of an answered register what it shows.
fn count(answer: &str) {
    if let Some(refused) = answer.strip_prefix("refused,") {
        saw("explain", refused.split(',').next().expect("a number"));
        return;
    }
    saw("explain", "answered");
    let lines: Vec<Vec<&str>> = answer.lines().skip(1).map(|line| line.split(',').collect()).collect();
    let number = |line: &[&str], place: usize| line[place].parse::<usize>().expect("a count is a whole number");
    let (all, groups): (Vec<_>, Vec<_>) = lines.iter().partition(|line| line[NAME] == "all");
    let (computed, missing) = (number(all[0], COMPUTED), number(all[0], MISSING));
    for (kind, holds) in [
        ("an empty book", computed + missing == 0),
        ("a full book", computed + missing == ROWS),
        (
            "movements missing in a group with levels",
            groups.iter().any(|line| line[COMPUTED] != "0" && line[MISSING] != "0"),
        ),
        ("a group without levels", groups.iter().any(|line| line[COMPUTED] == "0")),
        ("every group", lines.len() == LINES * all.len()),
        ("some groups alone", lines.len() < LINES * all.len()),
        ("eight points", all.len() == 8),
        ("a total over 10^15", all.iter().any(|line| line[COUNTED].len() > 15)),
    ] {
        if holds {
            saw("answered", kind);
        }
    }
}

#[test]
#[ignore = "needs OKUBINRAFO_EXPLAIN, the command of the program explain"]
fn explanations() {
    const TELLING: Telling = &[
        ("explain", 100, &["answered"]),
        ("explain", 2, &["1", "3", "4", "6", "7", "10", "11", "15", "16"]),
        ("explain", 10, &["from a file", "in one piece", "cut between CR and LF", "cut between lines", "cut anywhere"]),
        (
            "answered",
            10,
            &["movements missing in a group with levels", "a group without levels", "every group", "some groups alone"],
        ),
        ("answered", 3, &["an empty book", "a full book", "eight points", "a total over 10^15"]),
    ];
    let program = Program::from_environment("OKUBINRAFO_EXPLAIN");
    rounds("explanations", 240, TELLING, move |random| {
        let (aim, points) = (Aim::pick(random), random.within(1, 8));
        let register = a_register(random, aim, points);
        let days = random.pick(&[1, 92, 366]);
        let limits: Vec<u32> = (0..points).map(|_| random.within(0, 12_000)).collect();
        let limits = a_limits_file(random, aim, days, &limits);
        let delivery = a_delivery(random, "explain", &register);
        count(&agree(&program, "limits.csv", explain, limits.as_deref(), &register, &delivery));
    });
}

/// The rules' file whole and without its last row, its text, and factors that could be shortened and aren't.
#[test]
#[ignore = "needs OKUBINRAFO_EXPLAIN, the command of the program explain"]
fn the_documents_file_explained() {
    let program = Program::from_environment("OKUBINRAFO_EXPLAIN");
    directed("the_documents_file_explained", &[("explain", 4, &["answered"])], move || {
        let header = "point,type,kind,period,computed,missing,factor,energy,counted\r\n";
        let day = "1,G,S,day,2,1,3/2,20000000000,30000000000\r\n";
        let whole = format!("{day}1,H,L,night,0,1,,0,0\r\n1,all,,,2,2,4/3,30000000000,40000000000\r\n");
        let without = format!("{day}1,all,,,2,1,3/3,30000000000,30000000000\r\n");
        let first_three = &MOVEMENTS[..MOVEMENTS.find("4,H").expect("a fourth row")];
        let halves = "7,K,5000,L,19:00:00,0.00\r\n8,K,5000,L,20:00:00,\r\n";
        for (rows, expected) in [
            (MOVEMENTS, whole.as_str()),
            (first_three, without.as_str()),
            (
                &format!("{halves}{}", halves.replace("7,", "9,").replace("8,", "10,")),
                "1,K,L,evening,2,2,4/2,6,12\r\n1,all,,,2,2,4/4,12,12\r\n",
            ),
            ("", "1,all,,,0,0,,0,0\r\n"),
        ] {
            let register = HEADER.to_string() + rows;
            let answer = agree(&program, "limits.csv", explain, Some(LIMITS), register.as_bytes(), &Delivery::File);
            assert_eq!(answer, header.to_string() + expected);
            count(&answer);
        }
    });
}

//! The contours program at the ends of its ranges: sizes, levels, words, and the longest text.

use crate::contours::{compare, count, ROOM};
use crate::delivery::Delivery;
use crate::program::Program;
use crate::rounds::{directed, saw};
use reference::network::{Frame, Network};

const FRAME: Frame = Frame { columns: 3, rows: 2, spacing: 100, west: 5, south: 6 };

/// The rules's hill, cut in two at every place, at levels with a contour and without.
#[test]
#[ignore = "needs OKUBINRAFO_CONTOURS, the command of the contours program"]
fn the_documents_hill_in_two_pieces() {
    let program = Program::from_environment("OKUBINRAFO_CONTOURS");
    directed("the_documents_hill_in_two_pieces", &[("contours", 100, &["answered"])], move || {
        let rows = "40.00 40.00 40.00\r\n40.00 50.000 40.00\r\n40.000 40.00 40.00\r\n";
        let text = format!("ncols 3\r\nnrows 3\r\nxllcenter 0\r\nyllcenter 0\r\ncellsize 100\r\n{rows}");
        let ring =
            "MULTILINESTRING ((50.000 100.000, 100.000 50.000, 150.000 100.000, 100.000 150.000, 50.000 100.000))";
        let drawn = format!("level;wkt\r\n50.001;MULTILINESTRING EMPTY\r\n45.000;{ring}\r\n");
        for cut in 1..text.len() {
            let words = ["50.001", "45.00"].map(str::to_string);
            let answer = compare(&program, text.as_bytes(), &words, &Delivery::Pieces(vec![cut]));
            assert_eq!(answer, drawn);
            saw("contours", "answered");
        }
    });
}

/// Words for a level of a network of 0.000 to 0.002 dB, and how the answer begins.
const WORDS: [(&str, &str); 22] = [
    ("0.00", "refused,15,0"),
    ("0.000", "refused,15,0"),
    ("0.001", "level;wkt\r\n0.001;MULTILINESTRING (("),
    ("0.002", "level;wkt\r\n0.002;MULTILINESTRING (("),
    ("0.003", "level;wkt\r\n0.003;MULTILINESTRING EMPTY\r\n"),
    ("0.01", "level;wkt\r\n0.010;MULTILINESTRING EMPTY\r\n"),
    ("45.00", "level;wkt\r\n45.000;MULTILINESTRING EMPTY\r\n"),
    ("45.001", "level;wkt\r\n45.001;MULTILINESTRING EMPTY\r\n"),
    ("149.999", "level;wkt\r\n149.999;MULTILINESTRING EMPTY\r\n"),
    ("150.00", "level;wkt\r\n150.000;MULTILINESTRING EMPTY\r\n"),
    ("150.000", "level;wkt\r\n150.000;MULTILINESTRING EMPTY\r\n"),
    ("150.001", "refused,15,0"),
    ("150.01", "refused,15,0"),
    ("999.999", "refused,15,0"),
    ("1000.000", "refused,15,0"),
    ("45", "refused,15,0"),
    ("45.0", "refused,15,0"),
    ("45.1", "refused,15,0"),
    ("45.0000", "refused,15,0"),
    ("45.1234", "refused,15,0"),
    ("045.000", "refused,15,0"),
    ("45,000", "refused,15,0"),
];

/// The ranges of a network file and of the levels, at their ends and one past them, with everything else right.
#[test]
#[ignore = "needs OKUBINRAFO_CONTOURS, the command of the contours program"]
fn ranges_of_the_contours_program() {
    let program = Program::from_environment("OKUBINRAFO_CONTOURS");
    directed("ranges_of_the_contours_program", &[("contours", 2, &["answered", "12", "13", "15"])], move || {
        let runs = |frame: Frame, highest: u32, word: &str, expected: &str| {
            let mut levels: Vec<u32> = (0..frame.points() as u32).map(|point| point % frame.columns).collect();
            levels[0] = highest;
            let text = reference::grid::write(&Network { frame, levels: &levels });
            let answer = compare(&program, text.as_bytes(), &[word.to_string()], &Delivery::File);
            assert!(answer.starts_with(expected), "{frame:?}, {highest}, level {word:?}: {answer:?}");
            count(&answer, frame, &[word.to_string()]);
        };
        let drawn = "level;wkt\r\n";
        for (frame, expected) in [
            (Frame { columns: 1, ..FRAME }, "refused,12,0"),
            (Frame { columns: 256, rows: 256, ..FRAME }, drawn),
            (Frame { columns: 257, ..FRAME }, "refused,12,0"),
            (Frame { rows: 1, ..FRAME }, "refused,12,0"),
            (Frame { rows: 257, ..FRAME }, "refused,12,0"),
            (Frame { spacing: 0, ..FRAME }, "refused,12,0"),
            (Frame { spacing: 1, ..FRAME }, drawn),
            (Frame { spacing: 500, ..FRAME }, drawn),
            (Frame { spacing: 501, ..FRAME }, "refused,12,0"),
            (Frame { west: 900_000, south: 900_000, ..FRAME }, drawn),
            (Frame { west: 900_001, ..FRAME }, "refused,12,0"),
            (Frame { south: 900_001, ..FRAME }, "refused,12,0"),
        ] {
            runs(frame, 0, "0.001", expected);
        }
        for (highest, expected) in [
            (149_999, "level;wkt\r\n0.001;MULTILINESTRING (("),
            (150_000, "level;wkt\r\n0.001;MULTILINESTRING (("),
            (150_001, "refused,13,0"),
            (150_010, "refused,13,0"),
            (999_999, "refused,13,0"),
        ] {
            runs(FRAME, highest, "0.001", expected);
        }
        for (word, expected) in WORDS {
            runs(FRAME, 0, word, expected);
        }
    });
}

/// The longest text that is neither off its layout nor of a wrong size: all of it no data. One byte or row more is 12.
#[test]
#[ignore = "needs OKUBINRAFO_CONTOURS, the command of the contours program"]
fn the_longest_network_text() {
    let program = Program::from_environment("OKUBINRAFO_CONTOURS");
    directed("the_longest_network_text", &[("contours", 2, &["answered", "12", "13"])], move || {
        let words = ["0.001", "150.000"].map(str::to_string);
        let runs = |text: &str, expected: &str| {
            for delivery in [Delivery::File, Delivery::Pieces(vec![65_536, text.len() - 1])] {
                let answer = compare(&program, text.as_bytes(), &words, &delivery);
                assert!(answer.starts_with(expected), "{} bytes: {:?}", text.len(), &answer[..answer.len().min(80)]);
                count(&answer, FRAME, &words);
            }
        };
        let head = "ncols 256\r\nnrows 256\r\nxllcenter 900000\r\nyllcenter 900000\r\ncellsize 500\r\n";
        let row = |value: &str| [value; 256].join(" ") + "\r\n";
        let longest = format!("{head}NODATA_value -999.999\r\n{}", row("-999.999").repeat(256));
        assert_eq!(longest.len(), ROOM - 1);
        runs(&longest, "refused,13,0\r\n");
        runs(longest.trim_end(), "refused,13,0\r\n");
        for (key, wider) in [("ncols 256", "ncols 2560"), ("nrows 256", "nrows 1256"), ("size 500", "size 5000")] {
            runs(&longest.replacen(key, wider, 1), "refused,12,0\r\n");
        }
        runs(&(longest.clone() + &row("-999.999")), "refused,12,0\r\n");
        let loud = format!("{head}{}", row("150.000").repeat(256));
        runs(&loud, "level;wkt\r\n0.001;MULTILINESTRING EMPTY\r\n150.000;MULTILINESTRING EMPTY\r\n");
        let corner = loud.replacen("150.000", "149.999", 1);
        let line = "((900500.000 1027500.000, 900000.000 1027000.000))";
        let cut = format!("level;wkt\r\n0.001;MULTILINESTRING EMPTY\r\n150.000;MULTILINESTRING {line}\r\n");
        runs(&corner, &cut);
    });
}

//! Register rows and network texts.

use super::networks::{fitting, FRAME};
use crate::compared::{read_network, read_row, write, Written};
use crate::library::Library;
use crate::rounds::{directed, Telling};
use reference::network::{Frame, Network};

/// Rows of a register that are right but for one field, and what reading answers.
const ROWS: [(&str, u32); 40] = [
    ("7,G,70000,S,07:00:00,60.00", 0),
    ("7,G,70000,S,23:00:00,60.00", 0),
    ("7,G,70000,S,24:00:00,60.00", 16),
    ("7,G,70000,S,07:59:00,60.00", 0),
    ("7,G,70000,S,07:60:00,60.00", 16),
    ("7,G,70000,S,07:00:59,60.00", 0),
    ("7,G,70000,S,07:00:60,60.00", 16),
    ("7,G,70000,S,7:00:00,60.00", 16),
    ("7,G,70000,S,00:00:00,60.00", 0),
    ("7,G,70000,S,23:59:59,60.00", 0),
    ("0,G,70000,S,07:00:00,60.00", 3),
    ("1,G,70000,S,07:00:00,60.00", 0),
    ("99999,G,70000,S,07:00:00,60.00", 0),
    ("100000,G,70000,S,07:00:00,60.00", 3),
    ("9999999,G,70000,S,07:00:00,60.00", 3),
    ("10000000,G,70000,S,07:00:00,60.00", 16),
    ("07,G,70000,S,07:00:00,60.00", 16),
    ("00,G,70000,S,07:00:00,60.00", 16),
    (",G,70000,S,07:00:00,60.00", 16),
    ("7,G,0,S,07:00:00,60.00", 0),
    ("7,G,150,S,07:00:00,60.00", 0),
    ("7,G,1000000,S,07:00:00,60.00", 0),
    ("7,G,1000001,S,07:00:00,60.00", 1),
    ("7,G,9999999,S,07:00:00,60.00", 1),
    ("7,G,10000000,S,07:00:00,60.00", 16),
    ("7,G,,S,07:00:00,60.00", 16),
    ("7,K,5999,S,07:00:00,60.00", 0),
    ("7,K,6000,S,07:00:00,60.00", 1),
    ("7,G,70000,S,07:00:00,120.00", 0),
    ("7,G,70000,S,07:00:00,120.01", 7),
    ("7,G,70000,S,07:00:00,999.99", 7),
    ("7,G,70000,S,07:00:00,1000.00", 16),
    ("7,G,70000,S,07:00:00,0.00", 0),
    ("7,G,70000,S,07:00:00,00.00", 16),
    ("7,G,70000,S,07:00:00,.00", 16),
    ("7,G,70000,S,07:00:00,60.0", 16),
    ("7,G,70000,S,07:00:00,60.000", 16),
    ("7,G,70000,S,07:00:00,60", 16),
    ("7,G,70000,S,07:00:00,", 0),
    ("7,X,70000,S,07:00:00,60.00", 16),
];

#[test]
fn ranges_of_a_row() {
    const TELLING: Telling =
        &[("read_row", 2, &["0", "1", "3", "7", "14", "16"]), ("write_row", 2, &["0", "7", "9", "14"])];
    directed("ranges_of_a_row", TELLING, || {
        let library = Library::from_environment();
        for (row, expected) in ROWS {
            for line in [row.to_string(), format!("{row}\r\n")] {
                assert_eq!(read_row(&library, line.as_bytes(), 1, &[77; 6], &[77]), expected, "{line:?}");
            }
        }
        let row = ROWS[0].0;
        assert_eq!(read_row(&library, row.as_bytes(), 1, &[77; 5], &[77]), 14);
        assert_eq!(read_row(&library, row.as_bytes(), 1, &[77; 6], &[]), 14);
        for points in 0..=9 {
            let (mut levels, mut blank) = ("7,G,70000,S,07:00:00".to_string(), "7,G,70000,S,07:00:00".to_string());
            for _ in 0..points {
                levels += ",60.00";
                blank += ",";
            }
            let right = (1..=8).contains(&points);
            for line in [&levels, &blank] {
                let answer = read_row(&library, line.as_bytes(), points, &[77; 6], &[77; 9]);
                assert_eq!(answer, if right { 0 } else { 16 }, "{points} points");
                assert_eq!(read_row(&library, line.as_bytes(), points + 1, &[77; 6], &[77; 10]), 16, "a point too few");
            }
            if points > 1 {
                assert_eq!(
                    read_row(&library, format!("{blank}60.00").as_bytes(), points, &[77; 6], &[77; 9]),
                    16,
                    "some blank"
                );
            }
            let written = Written::Row { fields: &[7, 0, 151, 0, 0, 1], levels: &vec![0; points as usize], points };
            assert_eq!(write(&library, written, &[b'#'; 99], &[0]).0, if right { 0 } else { 9 }, "{points} points");
        }
        for (fields, level, expected) in [
            (&[7, 0, 151, 0, 0, 1][..], 12_000, 0),
            (&[7, 0, 151, 0, 0, 1], 12_001, 7),
            (&[7, 0, 151, 0, 0, 0], 0, 0),
            (&[7, 0, 151, 0, 0, 0], 1, 7),
            (&[7, 0, 151, 0, 0, 2], 0, 9),
            (&[7, 0, 151, 0, 0], 0, 9),
            (&[7, 0, 151, 0, 0, 1, 1], 0, 9),
        ] {
            let written = Written::Row { fields, levels: &[level], points: 1 };
            let (answer, _, size) = write(&library, written, &[b'#'; 86], &[0]);
            assert_eq!(answer, expected, "{written:?}");
            if answer == 0 {
                assert_eq!(write(&library, written, &vec![b'#'; size[0] as usize - 1], &[0]).0, 14, "{written:?}");
            }
        }
    });
}

/// Values of a network of 1 to 4 dB that is right but for them, and what reading answers.
const VALUES: [(&str, u32); 27] = [
    ("0.00", 0),
    ("0.000", 0),
    ("0.001", 0),
    ("4.001", 0),
    ("4.01", 0),
    ("149.999", 0),
    ("150.00", 0),
    ("150.000", 0),
    ("150.001", 13),
    ("150.01", 13),
    ("999.99", 13),
    ("999.999", 13),
    ("1000.00", 17),
    ("1000.000", 17),
    ("-9999", 13),
    ("-9998", 17),
    ("-4.00", 17),
    ("-4.000", 17),
    ("4", 17),
    ("4.", 17),
    ("4.0", 17),
    ("4.0000", 17),
    ("4.00000", 17),
    ("04.00", 17),
    ("04.000", 17),
    (".000", 17),
    ("4,000", 17),
];

/// Spellings of no data beside the values 1.00, 2.00, 3.00 and 4.00, and what reading answers.
const NO_DATA: [(&str, u32); 20] = [
    ("-9999999", 0),
    ("-10000000", 17),
    ("0", 0),
    ("2", 0),
    ("2.00", 13),
    ("2.000", 0),
    ("-2.00", 0),
    ("-0.50", 0),
    ("-0.500", 0),
    ("999.99", 0),
    ("-999.999", 0),
    ("-1000.00", 17),
    ("1000.000", 17),
    ("2.0", 17),
    ("2.0000", 17),
    ("-2.", 17),
    ("01", 17),
    ("-02.000", 17),
    ("--2.000", 17),
    ("", 17),
];

/// Two spellings of one level, of which one is no data.
const ALIKE: [(&str, &str, u32); 8] = [
    ("0.00", "0.000", 0),
    ("0.000", "0.00", 0),
    ("0.00", "0.00", 13),
    ("0.000", "0.000", 13),
    ("45.01", "45.010", 0),
    ("45.010", "45.01", 0),
    ("0", "0.000", 0),
    ("-0.000", "0.000", 0),
];

#[test]
fn ranges_in_a_network_text() {
    const TELLING: Telling = &[("read_network", 2, &["0", "12", "13", "17"]), ("read_network", 1, &["14"])];
    directed("ranges_in_a_network_text", TELLING, || {
        let library = Library::from_environment();
        let room = vec![77; 1_000];
        let reads = |text: &str, expected: u32| {
            assert_eq!(read_network(&library, text.as_bytes(), &[77; 5], &room), expected, "{text:?}");
        };
        for (frame, expected) in [
            (Frame { columns: 1, ..FRAME }, 12),
            (Frame { columns: 256, ..FRAME }, 0),
            (Frame { columns: 257, ..FRAME }, 12),
            (Frame { rows: 1, ..FRAME }, 12),
            (Frame { rows: 256, ..FRAME }, 0),
            (Frame { rows: 257, ..FRAME }, 12),
            (Frame { spacing: 0, ..FRAME }, 12),
            (Frame { spacing: 500, ..FRAME }, 0),
            (Frame { spacing: 501, ..FRAME }, 12),
            (Frame { west: 900_000, south: 900_000, ..FRAME }, 0),
            (Frame { west: 900_001, ..FRAME }, 12),
            (Frame { south: 900_001, ..FRAME }, 12),
            (Frame { south: 9_999_999, ..FRAME }, 12),
            (Frame { south: 10_000_000, ..FRAME }, 17),
        ] {
            reads(&reference::grid::write(&Network { frame, levels: &fitting(frame) }), expected);
        }
        let right = "ncols 2\r\nnrows 2\r\nxllcenter 5\r\nyllcenter 6\r\ncellsize 100\r\n1.00 2.00\r\n3.00 4.00\r\n";
        for (value, expected) in VALUES {
            reads(&right.replace("4.00", value), expected);
            reads(&right.replace(".00", ".000").replace("4.000", value), expected);
        }
        for (named, expected) in NO_DATA {
            reads(&right.replace("1.00 2", &format!("NODATA_value {named}\r\n1.00 2")), expected);
        }
        for (named, value, expected) in ALIKE {
            reads(&right.replace("1.00", &format!("NODATA_value {named}\r\n{value}")), expected);
        }
        for (wrong, expected) in [
            ("1.00 2.00\r\n3.00", 12),
            ("1.00 2.00\r\n3.00 4.00 5.00", 12),
            ("1.00 2.00\r\n3.00 4.00\r\n5.00 6.00", 12),
        ] {
            reads(&right.replace("1.00 2.00\r\n3.00 4.00", wrong), expected);
        }
        let head = "ncols 256\r\nnrows 256\r\nxllcenter 900000\r\nyllcenter 900000\r\ncellsize 500\r\n";
        let rows = (["-999.999"; 256].join(" ") + "\r\n").repeat(256);
        reads(&format!("{head}NODATA_value -999.999\r\n{rows}"), 13);
        assert_eq!(read_network(&library, right.as_bytes(), &[77; 4], &room), 14);
        assert_eq!(read_network(&library, right.as_bytes(), &[77; 5], &[77; 3]), 14);
    });
}

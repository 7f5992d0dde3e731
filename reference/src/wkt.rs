//! Contours as well-known text (RULES, Files and the report program, and "Printed place").

use crate::contour::contours;
use crate::network::{Along, Network};
use std::fmt::Write;

/// The text of the contours at a level; the network and the level are in range.
pub fn print(network: &Network, level: u32) -> String {
    let found = contours(network, level);
    if found.counts.is_empty() {
        return "MULTILINESTRING EMPTY".to_string();
    }
    let mut text = String::from("MULTILINESTRING (");
    for (number, (line, closed)) in found.lines().enumerate() {
        text.push_str(if number == 0 { "(" } else { ", (" });
        let again = closed.then_some(&line[0]);
        for (place, &edge) in line.iter().chain(again).enumerate() {
            text.push_str(if place == 0 { "" } else { ", " });
            put_place(&mut text, network, level, edge);
        }
        text.push(')');
    }
    text.push(')');
    text
}

/// x and y of a crossed edge in metres with three decimals.
fn put_place(text: &mut String, network: &Network, level: u32, number: u32) {
    let frame = network.frame;
    let edge = frame.edge(number).expect("a contour lists edges of the network");
    let (num, den) = network.crossed(edge, level).expect("a contour lists crossed edges");
    let along = nearest(u64::from(frame.spacing) * 1000 * u64::from(num), u64::from(den));
    let from = |index: u32, origin: u32| u64::from(index * frame.spacing + origin) * 1000;
    let (x, y) = (from(edge.column, frame.west), from(edge.row, frame.south));
    let (x, y) = match edge.along {
        Along::Horizontal => (x + along, y),
        Along::Vertical => (x, y + along),
    };
    write!(text, "{}.{:03} {}.{:03}", x / 1000, x % 1000, y / 1000, y % 1000).expect("a string takes all text");
}

/// upper/lower rounded to the nearest whole number, halves up.
fn nearest(upper: u64, lower: u64) -> u64 {
    (2 * upper + lower) / (2 * lower)
}

#[cfg(test)]
mod tests {
    use super::*;
    use crate::network::tests::{FRAME, HILL};
    use crate::network::Frame;

    #[test]
    fn the_documents_hill() {
        let network = Network { frame: FRAME, levels: &HILL };
        let expected =
            "MULTILINESTRING ((50.000 100.000, 100.000 50.000, 150.000 100.000, 100.000 150.000, 50.000 100.000))";
        assert_eq!(print(&network, 45_000), expected);
        assert_eq!(print(&network, 40_000), "MULTILINESTRING EMPTY");
    }

    #[test]
    fn open_lines_and_halves() {
        // 1 m times 1/16 and 15/16: 62.5 mm goes up to 63, 937.5 mm to 938.
        let frame = Frame { columns: 2, rows: 2, spacing: 1, west: 7, south: 900_000 };
        let network = Network { frame, levels: &[16, 0, 0, 16] };
        let around_the_out_corners =
            "MULTILINESTRING ((7.938 900000.000, 8.000 900000.063), (7.063 900001.000, 7.000 900000.938))";
        assert_eq!(print(&network, 1), around_the_out_corners);
        assert_eq!((nearest(1, 2), nearest(1, 3), nearest(2, 3)), (1, 0, 1));
    }

    #[test]
    fn the_third_decimal_moves_a_line() {
        // 500 m times 149,999/150,000 is 3 mm and a third short of the other end.
        let frame = Frame { columns: 2, rows: 2, spacing: 500, west: 0, south: 0 };
        let network = Network { frame, levels: &[0, 150_000, 0, 150_000] };
        assert_eq!(print(&network, 149_999), "MULTILINESTRING ((499.997 500.000, 499.997 0.000))");
        assert_eq!(print(&network, 150_000), "MULTILINESTRING ((500.000 500.000, 500.000 0.000))");
        assert_eq!(print(&network, 1), "MULTILINESTRING ((0.003 500.000, 0.003 0.000))");
    }
}

//! The contours program (docs/PEOPLE.md): from a network's text and the levels asked for to its standard output.

use crate::grid;
use crate::network::Network;
use crate::text::{fine_level, spell_fine_level};
use crate::wkt;
use crate::Refusal;

/// What the program writes: a line of well-known text for each level, which has three decimals there. The network is
/// judged first (17 with its line, 12, 13), and then every level (15; also where there is none).
pub fn contours_csv(text: &[u8], levels: &[&[u8]]) -> String {
    match draw(text, levels) {
        Ok(lines) => lines,
        Err((refusal, line)) => format!("refused,{},{line}\r\n", refusal as u32),
    }
}

fn draw(text: &[u8], levels: &[&[u8]]) -> Result<String, (Refusal, usize)> {
    let (frame, values) = grid::read(text).map_err(|refusal| (refusal, grid::fault_line(text).unwrap_or(0)))?;
    let network = Network { frame, levels: &values };
    let asked = levels.iter().map(|word| fine_level(word).filter(|&level| network.check_contour(level).is_ok()));
    let asked = asked.collect::<Option<Vec<u32>>>().filter(|asked| !asked.is_empty()).ok_or((Refusal::Range, 0))?;
    let line = |&level: &u32| format!("{};{}\r\n", spell_fine_level(level), wkt::print(&network, level));
    Ok("level;wkt\r\n".to_string() + &asked.iter().map(line).collect::<String>())
}

#[cfg(test)]
mod tests {
    use super::*;

    const SADDLE: &str =
        "ncols 2\r\nnrows 2\r\nxllcenter 7\r\nyllcenter 900000\r\ncellsize 1\r\n0.00 0.16\r\n0.16 0.00\r\n";

    #[test]
    fn a_line_for_each_level() {
        let around_the_out_corners =
            "MULTILINESTRING ((7.938 900000.000, 8.000 900000.063), (7.063 900001.000, 7.000 900000.938))";
        let lines = |none: &str, some: &str| {
            format!("level;wkt\r\n{none};MULTILINESTRING EMPTY\r\n{some};{around_the_out_corners}\r\n")
        };
        assert_eq!(contours_csv(SADDLE.as_bytes(), &[b"0.17", b"0.010"]), lines("0.170", "0.010"));
        let finer = SADDLE.replace("0.16", "0.016");
        assert_eq!(contours_csv(finer.as_bytes(), &[b"0.017", b"0.001"]), lines("0.017", "0.001"));
    }

    #[test]
    fn refusals_in_their_order() {
        let refused = |text: &str, levels: &[&[u8]]| contours_csv(text.as_bytes(), levels);
        assert_eq!(refused(SADDLE, &[]), "refused,15,0\r\n");
        assert_eq!(refused(SADDLE, &[b"45.00", b"0.00"]), "refused,15,0\r\n");
        for wrong in [&b"0.000"[..], b"150.001", b"150.01", b"999.999", b"45", b"45.0", b"45.0000", b"45,000"] {
            assert_eq!(refused(SADDLE, &[b"45.000", wrong]), "refused,15,0\r\n", "{wrong:?}");
        }
        assert_eq!(refused(&SADDLE.replace("0.00 ", "150.001 "), &[b"45"]), "refused,13,0\r\n");
        assert_eq!(refused(&SADDLE.replace("cellsize 1", "cellsize 0"), &[b"45"]), "refused,12,0\r\n");
        assert_eq!(refused(&SADDLE.replace("0.16 0.00", "0.16  0.00"), &[b"45"]), "refused,17,7\r\n");
    }
}

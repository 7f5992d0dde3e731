//! Network files, Esri ASCII grid (RULES, Files and the report program).

use crate::network::{Frame, Network, MAX_NETWORK_LEVEL};
use crate::text::{fine_level, lines, spell_fine_level, whole};
use crate::{ensure, Answer, Refusal};
use std::fmt::Write;

const NO_DATA_KEY: &str = "NODATA_value";
const NO_DATA: &[u8] = b"-9999";

/// A network's frame and its levels in thousandths from the south row: 17, 12, 13, each judged over the whole text.
pub fn read(text: &[u8]) -> Answer<(Frame, Vec<u32>)> {
    let (frame, values) = spelled(text).map_err(|_| Refusal::Grid)?;
    frame.check()?;
    let counts = values.len() == frame.rows as usize && values.iter().all(|row| row.len() == frame.columns as usize);
    ensure(counts, Refusal::Network)?;
    let levels = values.into_iter().rev().flatten().collect::<Option<Vec<u32>>>().ok_or(Refusal::NetworkLevel)?;
    ensure(levels.iter().all(|&level| level <= MAX_NETWORK_LEVEL), Refusal::NetworkLevel)?;
    Ok((frame, levels))
}

/// The first line off the layout, counted from 1; a missing line of the header is an empty one.
pub fn fault_line(text: &[u8]) -> Option<usize> {
    spelled(text).err()
}

/// The frame and the rows of values from the north, none for no data; or the first line off the layout.
fn spelled(text: &[u8]) -> Result<(Frame, Vec<Vec<Option<u32>>>), usize> {
    let lines = lines(text);
    let frame = spelled_frame(&lines)?;
    let (no_data, values) = cut_no_data(&lines[5..]).ok_or(6usize)?;
    let first = lines.len() - values.len() + 1;
    let rows = values.iter().enumerate().map(|(place, line)| row(line, no_data).ok_or(first + place));
    Ok((frame, rows.collect::<Result<_, _>>()?))
}

fn spelled_frame(lines: &[&[u8]]) -> Result<Frame, usize> {
    let header =
        |number: usize, key| lines.get(number - 1).and_then(|line| keyed(line, key)).and_then(whole).ok_or(number);
    let (columns, rows) = (header(1, "ncols")?, header(2, "nrows")?);
    let (west, south) = (header(3, "xllcenter")?, header(4, "yllcenter")?);
    Ok(Frame { columns, rows, spacing: header(5, "cellsize")?, west, south })
}

/// The field after a key and one space.
fn keyed<'a>(line: &'a [u8], key: &str) -> Option<&'a [u8]> {
    line.strip_prefix(key.as_bytes())?.strip_prefix(b" ")
}

/// The spelling of no data, and the lines of values.
fn cut_no_data<'a>(lines: &'a [&'a [u8]]) -> Option<(&'a [u8], &'a [&'a [u8]])> {
    match lines {
        [first, rest @ ..] if first.starts_with(NO_DATA_KEY.as_bytes()) => {
            let spelling = keyed(first, NO_DATA_KEY)?;
            let number = spelling.strip_prefix(b"-").unwrap_or(spelling);
            whole(number).or(fine_level(number))?;
            Some((spelling, rest))
        }
        _ => Some((NO_DATA, lines)),
    }
}

/// The values of a line, none for no data; or none at all where one is off the layout.
fn row(line: &[u8], no_data: &[u8]) -> Option<Vec<Option<u32>>> {
    let value = |field: &[u8]| if field == no_data { Some(None) } else { fine_level(field).map(Some) };
    line.split(|&byte| byte == b' ').map(value).collect()
}

/// The network's text, each level with three decimals; the network is in range.
pub fn write(network: &Network) -> String {
    let Frame { columns, rows, spacing, west, south } = network.frame;
    let mut text =
        format!("ncols {columns}\r\nnrows {rows}\r\nxllcenter {west}\r\nyllcenter {south}\r\ncellsize {spacing}\r\n");
    for row in network.levels.chunks(columns as usize).rev() {
        let values: Vec<String> = row.iter().map(|&level| spell_fine_level(level)).collect();
        write!(text, "{}\r\n", values.join(" ")).expect("a string takes all text");
    }
    text
}

#[cfg(test)]
mod tests {
    use super::*;

    const HEAD: &str = "ncols 2\r\nnrows 2\r\nxllcenter 5\r\nyllcenter 6\r\ncellsize 100\r\n";
    const FRAME: Frame = Frame { columns: 2, rows: 2, spacing: 100, west: 5, south: 6 };

    fn read_values(values: &str) -> Answer<Vec<u32>> {
        read(format!("{HEAD}{values}").as_bytes()).map(|(_, levels)| levels)
    }

    #[test]
    fn rows_run_from_north_to_south() {
        let text = format!("{HEAD}1.000 2.001\r\n0.000 150.000\r\n");
        let levels = vec![0, 150_000, 1_000, 2_001];
        assert_eq!(read(text.as_bytes()), Ok((FRAME, levels.clone())));
        assert_eq!(write(&Network { frame: FRAME, levels: &levels }), text);
        assert_eq!(read_values("1.000 2.001\r\n0.000 150.000"), Ok(levels), "the last CRLF may be missing");
    }

    #[test]
    fn two_and_three_decimals_in_one_file() {
        assert_eq!(read_values("45.00 45.001\r\n0.001 149.999"), Ok(vec![1, 149_999, 45_000, 45_001]));
        assert_eq!(read_values("0.00 0.000\r\n0.01 150.00"), Ok(vec![10, 150_000, 0, 0]));
        let coarse = read_values("1.00 2.00\r\n3.00 150.00").expect("two decimals");
        let written = write(&Network { frame: FRAME, levels: &coarse });
        assert_eq!(written, format!("{HEAD}1.000 2.000\r\n3.000 150.000\r\n"));
        assert_eq!(read(written.as_bytes()), Ok((FRAME, coarse)));
    }

    #[test]
    fn off_the_layout() {
        for wrong in [
            "1.00 2.00\r\n3.00  4.00",
            "1.00 2.00 \r\n3.00 4.00",
            " 1.00 2.00\r\n3.00 4.00",
            "1.00 2.00\n3.00 4.00",
            "1.00 2.00\r\n\r\n3.00 4.00",
            "1.00 2.00\r\n3.00 4.00\r\n\r\n",
            "1.00 2.00\r\n3.00 4",
            "1.00 2.00\r\n3.00 4.0",
            "1.00 2.00\r\n3.00 4.0000",
            "1.000 2.000\r\n3.000 04.000",
            "1.000 2.000\r\n3.000 1000.000",
            "NODATA_value 1.0\r\n1.00 2.00\r\n3.00 4.00",
            "NODATA_value -1.0000\r\n1.00 2.00\r\n3.00 4.00",
            "NODATA_value -1.000\r\n1.00 2.00\r\n3.00 -1.00",
            "NODATA_value\r\n1.00 2.00\r\n3.00 4.00",
            "NODATA_value --1\r\n1.00 2.00\r\n3.00 4.00",
            "NODATA_value -01\r\n1.00 2.00\r\n3.00 4.00",
            "NODATA_value 0\r\nNODATA_value 0\r\n1.00 2.00\r\n3.00 4.00",
            "NODATA_value 0\r\n1.00 2.00\r\n3.00 -9999",
        ] {
            assert_eq!(read_values(wrong), Err(Refusal::Grid), "{wrong:?}");
        }
        for wrong in
            ["", "ncols 2\r\nnrows 2\r\nxllcenter 5\r\nyllcenter 6", "NCOLS 2", "ncols  2", "ncols 02", "ncols -2"]
        {
            let text = HEAD.replacen("ncols 2", wrong, 1);
            assert_eq!(
                read(if wrong.len() > 20 { wrong.as_bytes() } else { text.as_bytes() }),
                Err(Refusal::Grid),
                "{wrong:?}"
            );
        }
        assert_eq!(read(b""), Err(Refusal::Grid));
    }

    #[test]
    fn the_line_at_fault() {
        let right = format!("{HEAD}NODATA_value 0\r\n1.00 2.00\r\n3.00 4.00");
        assert_eq!(fault_line(right.as_bytes()), None);
        for (old, new, line) in [
            ("ncols 2", "", 1),
            ("nrows 2", "nrows  2", 2),
            ("cellsize 100", "cellsize 1.00", 5),
            ("NODATA_value 0", "NODATA_value", 6),
            ("1.00 2.00", "1.00 2", 7),
            ("\r\nyllcenter 6\r\ncellsize 100\r\nNODATA_value 0\r\n1.00 2.00\r\n3.00 4.00", "", 4),
        ] {
            assert_eq!(fault_line(right.replacen(old, new, 1).as_bytes()), Some(line), "{new:?}");
        }
        assert_eq!(fault_line(format!("{right}\r\n\r\n").as_bytes()), Some(9));
        assert_eq!(fault_line(b""), Some(1));
    }

    #[test]
    fn off_the_size() {
        for wrong in [
            "",
            "1.00 2.00",
            "1.00 2.00\r\n3.00",
            "1.00 2.00\r\n3.00 4.00 5.00",
            "1.00 2.00\r\n3.00 4.00\r\n5.00 6.00",
            "999.99",
            "999.999",
        ] {
            assert_eq!(read_values(wrong), Err(Refusal::Network), "{wrong:?}");
        }
        let spaced = format!("{HEAD}1.00 2.00\r\n3.00 4.00").replace("cellsize 100", "cellsize 0");
        assert_eq!(read(spaced.as_bytes()), Err(Refusal::Network));
        assert_eq!(read((spaced + "x").as_bytes()), Err(Refusal::Grid), "17 before 12");
    }

    #[test]
    fn no_data_and_levels_out_of_range() {
        for wrong in [
            "1.00 2.00\r\n3.00 150.001",
            "1.00 2.00\r\n3.00 150.01",
            "1.00 2.00\r\n3.00 999.999",
            "1.00 -9999\r\n3.00 4.00",
            "NODATA_value 2.00\r\n1.00 2.00\r\n3.00 4.00",
            "NODATA_value 2.000\r\n1.00 2.000\r\n3.00 4.00",
            "NODATA_value -0.001\r\n1.00 -0.001\r\n3.00 4.00",
            "NODATA_value -999.999\r\n1.00 2.00\r\n3.00 -999.999",
            "NODATA_value -0\r\n1.00 2.00\r\n3.00 -0",
            "NODATA_value 5\r\n1.00 2.00\r\n3.00 5",
        ] {
            assert_eq!(read_values(wrong), Err(Refusal::NetworkLevel), "{wrong:?}");
        }
    }

    #[test]
    fn no_data_is_what_is_spelled_alike() {
        for no_data in ["2", "2.000", "-2.00", "2.001", "-0.001", "-9999999"] {
            let text = format!("NODATA_value {no_data}\r\n1.00 2.00\r\n3.00 4.00");
            assert_eq!(read_values(&text), Ok(vec![3_000, 4_000, 1_000, 2_000]), "{no_data}");
        }
        assert_eq!(read_values("NODATA_value 0.00\r\n1.00 0.000\r\n3.00 4.00"), Ok(vec![3_000, 4_000, 1_000, 0]));
        assert_eq!(read_values("NODATA_value 0.000\r\n1.00 0.00\r\n3.00 4.00"), Ok(vec![3_000, 4_000, 1_000, 0]));
    }
}

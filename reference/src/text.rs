//! Lines, fields and numbers as texts spell them (RULES, Files and the report program).

const CRLF: &[u8] = b"\r\n";

/// The lines of a text. Only CRLF ends a line, and the last one may be missing.
pub fn lines(text: &[u8]) -> Vec<&[u8]> {
    let mut lines = Vec::new();
    let mut rest = text;
    while !rest.is_empty() {
        let end = rest.windows(2).position(|pair| pair == CRLF);
        lines.push(&rest[..end.unwrap_or(rest.len())]);
        rest = end.map_or(&[], |end| &rest[end + 2..]);
    }
    lines
}

/// The line without its CRLF, if it has one.
pub fn without_crlf(line: &[u8]) -> &[u8] {
    line.strip_suffix(CRLF).unwrap_or(line)
}

/// A whole number: one to seven digits without a needless leading zero.
pub fn whole(field: &[u8]) -> Option<u32> {
    let spelled = (1..=7).contains(&field.len()) && (field == b"0" || field[0] != b'0');
    if spelled {
        digits(field)
    } else {
        None
    }
}

/// A level or limit of a register in hundredths: one to three digits, a point and two digits.
pub fn level(field: &[u8]) -> Option<u32> {
    pointed(field, 2)
}

/// A level of a network or of contours in thousandths: one to three digits, a point and two or three digits.
pub fn fine_level(field: &[u8]) -> Option<u32> {
    pointed(field, 2).map(|hundredths| hundredths * 10).or_else(|| pointed(field, 3))
}

/// One to three digits, a point and so many digits, taken as one number.
fn pointed(field: &[u8], decimals: usize) -> Option<u32> {
    let (before, after) = field.split_at_checked(field.len().checked_sub(decimals + 1)?)?;
    let small = digits(after.strip_prefix(b".")?)?;
    if before.len() > 3 {
        return None;
    }
    Some(whole(before)? * 10u32.pow(decimals as u32) + small)
}

/// hh:mm:ss as a second of the day.
pub fn time(field: &[u8]) -> Option<u32> {
    let &[h, i, b':', m, n, b':', s, t] = field else { return None };
    let (hour, minute, second) = (digits(&[h, i])?, digits(&[m, n])?, digits(&[s, t])?);
    (hour <= 23 && minute <= 59 && second <= 59).then_some((hour * 60 + minute) * 60 + second)
}

/// yyyy-mm-dd as year·10000 + month·100 + day, whether there is such a date or not.
pub fn date(field: &[u8]) -> Option<u32> {
    let &[y, z, a, b, b'-', m, n, b'-', d, e] = field else { return None };
    digits(&[y, z, a, b, m, n, d, e])
}

/// A runway, an airport or a type designator: one to four capital letters or digits, their bytes as one number.
pub fn name(field: &[u8]) -> Option<u32> {
    let spelled = |byte: &u8| byte.is_ascii_uppercase() || byte.is_ascii_digit();
    let right = (1..=4).contains(&field.len()) && field.iter().all(spelled);
    right.then(|| field.iter().fold(0, |number, &byte| number << 8 | u32::from(byte)))
}

/// One of these letters by its place.
pub fn letter(field: &[u8], letters: &[u8]) -> Option<u32> {
    let &[byte] = field else { return None };
    letters.iter().position(|&letter| letter == byte).map(|place| place as u32)
}

fn digits(field: &[u8]) -> Option<u32> {
    field.iter().try_fold(0, |sum, digit| digit.is_ascii_digit().then(|| sum * 10 + u32::from(digit - b'0')))
}

/// Hundredths with a point and two digits.
pub fn spell_level(level: u32) -> String {
    format!("{}.{:02}", level / 100, level % 100)
}

/// Thousandths with a point and three digits.
pub fn spell_fine_level(level: u32) -> String {
    format!("{}.{:03}", level / 1000, level % 1000)
}

pub fn spell_time(time: u32) -> String {
    format!("{:02}:{:02}:{:02}", time / 3600, time / 60 % 60, time % 60)
}

#[cfg(test)]
mod tests {
    use super::*;

    #[test]
    fn only_crlf_ends_a_line() {
        assert_eq!(lines(b""), Vec::<&[u8]>::new());
        assert_eq!(lines(b"a\r\nb"), [b"a", b"b"]);
        assert_eq!(lines(b"a\r\nb\r\n"), [b"a", b"b"]);
        assert_eq!(lines(b"a\r\n\r\n"), [&b"a"[..], b""]);
        assert_eq!(lines(b"\r\n"), [b""]);
        assert_eq!(lines(b"a\nb\rc\r\r\n\n"), [&b"a\nb\rc\r"[..], b"\n"]);
    }

    #[test]
    fn whole_numbers() {
        assert_eq!((whole(b"0"), whole(b"9999999"), whole(b"150")), (Some(0), Some(9_999_999), Some(150)));
        for wrong in [&b""[..], b"00", b"07", b"10000000", b"-1", b"+1", b"1 ", b"1.0", b"\xb2"] {
            assert_eq!(whole(wrong), None, "{wrong:?}");
        }
    }

    #[test]
    fn levels() {
        assert_eq!(
            (level(b"0.00"), level(b"0.05"), level(b"120.00"), level(b"999.99")),
            (Some(0), Some(5), Some(12_000), Some(99_999))
        );
        for wrong in [
            &b""[..],
            b".00",
            b"00.00",
            b"01.00",
            b"1.0",
            b"1.000",
            b"1000.00",
            b"1,00",
            b"1",
            b"-1.00",
            b"1.-1",
            b"1. 1",
        ] {
            assert_eq!(level(wrong), None, "{wrong:?}");
        }
        assert_eq!((spell_level(5), spell_level(12_000)), ("0.05".to_string(), "120.00".to_string()));
    }

    #[test]
    fn fine_levels_have_two_or_three_decimals() {
        for (field, thousandths) in [
            ("0.00", 0),
            ("0.000", 0),
            ("0.001", 1),
            ("0.01", 10),
            ("45.00", 45_000),
            ("45.001", 45_001),
            ("149.999", 149_999),
            ("150.00", 150_000),
            ("150.001", 150_001),
            ("999.99", 999_990),
            ("999.999", 999_999),
        ] {
            assert_eq!(fine_level(field.as_bytes()), Some(thousandths), "{field}");
        }
        for wrong in [
            "", ".", ".00", ".000", "45", "45.", "45.1", "45.1234", "1000.00", "1000.000", "00.00", "01.000", "045.00",
            "45,000", "45.0 0", "45. 00", "-1.00", "-0.001", "+1.000", "4.5.00", "45.-01", " 45.00", "45.000 ",
        ] {
            assert_eq!(fine_level(wrong.as_bytes()), None, "{wrong:?}");
        }
        assert_eq!([0, 1, 45_010, 150_000].map(spell_fine_level), ["0.000", "0.001", "45.010", "150.000"]);
    }

    #[test]
    fn times() {
        assert_eq!((time(b"00:00:00"), time(b"23:59:59"), time(b"07:00:00")), (Some(0), Some(86_399), Some(25_200)));
        for wrong in [&b"24:00:00"[..], b"00:60:00", b"00:00:60", b"7:00:00", b"07:00", b"07-00-00", b"007:00:00"] {
            assert_eq!(time(wrong), None, "{wrong:?}");
        }
        assert_eq!(spell_time(86_399), "23:59:59");
    }

    #[test]
    fn dates() {
        let spelled = [&b"2026-03-31"[..], b"0000-00-00", b"9999-99-99"].map(date);
        assert_eq!(spelled, [Some(20260331), Some(0), Some(99999999)]);
        for wrong in [&b""[..], b"2026-3-31", b"2026-03-1", b"12026-03-31", b"26-03-31", b"2026-03-31 ", b"2026.03.31"]
        {
            assert_eq!(date(wrong), None, "{wrong:?}");
        }
    }

    #[test]
    fn names() {
        assert_eq!((name(b"EHBK"), name(b"06"), name(b"Z")), (Some(0x4548_424b), Some(0x3036), Some(0x5a)));
        for wrong in [&b""[..], b"EHBKX", b"eh", b"06 ", b"6\xc3", b"A-B", b"@", b"[", b"/", b":"] {
            assert_eq!(name(wrong), None, "{wrong:?}");
        }
    }
}

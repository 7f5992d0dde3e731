//! Dates of the Gregorian calendar as one number, year·10000 + month·100 + day (RULES, Radar tracks).

const FIRST_YEAR: u32 = 1900;
const LAST_YEAR: u32 = 9999;

/// Whether there is such a date.
pub fn exists(date: u32) -> bool {
    let (year, month, day) = parts(date);
    (FIRST_YEAR..=LAST_YEAR).contains(&year)
        && (1..=12).contains(&month)
        && (1..=month_days(year, month)).contains(&day)
}

/// How many days a date that exists lies after the first day of 1900, counted year by year and month by month.
pub fn day_number(date: u32) -> u32 {
    let (year, month, day) = parts(date);
    let years: u32 = (FIRST_YEAR..year).map(|year| 365 + u32::from(is_leap(year))).sum();
    let months: u32 = (1..month).map(|month| month_days(year, month)).sum();
    years + months + day - 1
}

fn parts(date: u32) -> (u32, u32, u32) {
    (date / 10_000, date / 100 % 100, date % 100)
}

fn month_days(year: u32, month: u32) -> u32 {
    match month {
        2 if is_leap(year) => 29,
        2 => 28,
        4 | 6 | 9 | 11 => 30,
        _ => 31,
    }
}

/// Every fourth year, but of the full centuries only every fourth.
fn is_leap(year: u32) -> bool {
    if year % 100 == 0 {
        year % 400 == 0
    } else {
        year % 4 == 0
    }
}

#[cfg(test)]
mod tests {
    use super::*;

    #[test]
    fn dates_that_exist() {
        for date in [19000101, 20260331, 20240229, 20000229, 99991231, 20261231] {
            assert!(exists(date), "{date}");
        }
        for date in [
            0,
            18991231,
            19000229,
            21000229,
            20250229,
            20260431,
            20260631,
            20260931,
            20261131,
            20260100,
            20260132,
            20260001,
            20261301,
            100000101,
            u32::MAX,
        ] {
            assert!(!exists(date), "{date}");
        }
    }

    /// Days that other calendars number: 1 January 2000 is 36,524 days after 1 January 1900, and so on.
    #[test]
    fn known_day_numbers() {
        for (date, number) in
            [(19000101, 0), (19000301, 59), (20000101, 36_524), (20260331, 46_110), (99991231, 2_958_463)]
        {
            assert_eq!(day_number(date), number, "{date}");
        }
    }

    #[test]
    fn day_numbers_rise_by_one() {
        let mut numbers = 0..;
        for date in (19000101..24001231).filter(|&date| exists(date)) {
            assert_eq!(Some(day_number(date)), numbers.next(), "{date}");
        }
    }
}

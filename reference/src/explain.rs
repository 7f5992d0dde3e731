//! The program explain (RULES, Files and the report program): how the load at each point comes about.

use crate::account::{account, Account};
use crate::book::Book;
use crate::register::Limits;
use crate::report::answer;
use crate::Answer;

const HEADER: &str = "point,type,kind,period,computed,missing,factor,energy,counted";

/// What the program writes; a `limits` that can't be read is empty.
pub fn explain(limits: &[u8], register: &[u8]) -> String {
    answer(limits, register, tell)
}

fn tell(limits: &Limits, book: &Book) -> Answer<String> {
    let mut lines = vec![HEADER.to_string()];
    for point in 0..limits.limits.len() as u32 {
        let told = point_lines(&account(book, point, limits.days)?);
        lines.extend(told.into_iter().map(|line| format!("{},{line}", point + 1)));
    }
    Ok(lines.into_iter().map(|line| line + "\r\n").collect())
}

/// The lines of a point, without its number: each group with a movement, and all.
fn point_lines(account: &Account) -> Vec<String> {
    let mut lines = Vec::new();
    let (mut computed, mut missing) = (0, 0);
    for (name, group) in names().into_iter().zip(&account.groups) {
        let (v, u) = (group.computed, group.missing);
        if v + u > 0 {
            lines.push(format!("{name},{v},{u},{},{},{}", fraction(v + u, v), group.energy, group.scaled));
        }
        computed += v;
        missing += u;
    }
    let factor = fraction(account.upper, account.lower);
    lines.push(format!("all,,,{computed},{missing},{factor},{},{}", account.energy, account.total));
    lines
}

/// Type, kind and period of the groups, in the order of their numbers.
fn names() -> Vec<String> {
    let mut names = Vec::new();
    for aircraft in ["G", "K", "H"] {
        for kind in ["S", "L"] {
            names.extend(["day", "evening", "night"].map(|period| format!("{aircraft},{kind},{period}")));
        }
    }
    names
}

/// Not shortened; blank where nothing stands below the line.
fn fraction(upper: u64, lower: u64) -> String {
    if lower == 0 {
        String::new()
    } else {
        format!("{upper}/{lower}")
    }
}

#[cfg(test)]
mod tests {
    use super::*;

    const LIMITS: &[u8] = b"days,p1\r\n1,56.65\r\n";

    fn with_rows(rows: &str) -> String {
        explain(LIMITS, format!("id,type,mtow,kind,time,l1\r\n{rows}").as_bytes())
    }

    #[test]
    fn the_documents_file() {
        let rows = "1,G,70000,S,07:00:00,100.00\r\n2,G,70000,S,18:59:59,100.00\r\n\
                    3,G,70000,S,12:00:00,\r\n4,H,3000,L,23:00:00,\r\n";
        let lines = "1,G,S,day,2,1,3/2,20000000000,30000000000\r\n1,H,L,night,0,1,,0,0\r\n\
                     1,all,,,2,2,4/3,30000000000,40000000000\r\n";
        assert_eq!(with_rows(rows), format!("{HEADER}\r\n{lines}"));
    }

    #[test]
    fn a_factor_is_not_shortened() {
        let rows = "1,K,5000,L,19:00:00,0.00\r\n2,K,5000,L,20:00:00,\r\n3,K,5000,L,21:00:00,0.00\r\n\
                    4,K,5000,L,22:00:00,\r\n";
        let lines = "1,K,L,evening,2,2,4/2,6,12\r\n1,all,,,2,2,4/4,12,12\r\n";
        assert_eq!(with_rows(rows), format!("{HEADER}\r\n{lines}"));
    }

    #[test]
    fn an_empty_book_and_refusals() {
        assert_eq!(with_rows(""), format!("{HEADER}\r\n1,all,,,0,0,,0,0\r\n"));
        assert_eq!(with_rows("1,G,151,S,07:00:00,"), "refused,10,0\r\n");
        assert_eq!(with_rows("1,G,151,S,07:00:00"), "refused,16,2\r\n");
        assert_eq!(explain(b"", b""), "refused,16,1\r\n");
    }
}

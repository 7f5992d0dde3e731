//! The report program (RULES, Files and the report program): from its two texts to its standard output.

use crate::book::{Book, Columns};
use crate::load::{check_days, check_limit, load};
use crate::register::{read_layout, read_limits, register_header, Limits};
use crate::text::{lines, spell_level};
use crate::{Answer, Refusal};

const ROWS: usize = 2_000;

/// What a program that reads both files says of a book.
pub type Telling = fn(&Limits, &Book) -> Answer<String>;

/// What the program writes; a `limits` that can't be read is empty.
pub fn report(limits: &[u8], register: &[u8]) -> String {
    answer(limits, register, print)
}

/// What a program writes that reads these files and tells of their book.
pub fn answer(limits: &[u8], register: &[u8], tell: Telling) -> String {
    match judge(limits, register, tell) {
        Ok(text) => text,
        Err((refusal, line)) => format!("refused,{},{line}\r\n", refusal as u32),
    }
}

fn judge(limits: &[u8], register: &[u8], tell: Telling) -> Result<String, (Refusal, usize)> {
    let limits = read_limits(limits).map_err(|line| (Refusal::Register, line))?;
    let checked = check_days(limits.days).and(limits.limits.iter().try_for_each(|&limit| check_limit(limit)));
    checked.map_err(|refusal| (refusal, 2))?;
    let book = fill(&limits, register)?;
    tell(&limits, &book).map_err(|refusal| (refusal, 0))
}

fn fill(limits: &Limits, register: &[u8]) -> Result<Book, (Refusal, usize)> {
    let points = limits.limits.len() as u32;
    let mut book = Columns::new(ROWS, points).read().expect("an empty book is sound");
    let lines = lines(register);
    if lines.first() != Some(&register_header(points).as_bytes()) {
        return Err((Refusal::Register, 1));
    }
    for (place, line) in lines.iter().enumerate().skip(1) {
        add(&mut book, line, points).map_err(|refusal| (refusal, place + 1))?;
    }
    Ok(book)
}

/// One row, which counts at every point: 16, then as *enter* (passed over for 2), then as *supply*.
fn add(book: &mut Book, line: &[u8], points: u32) -> Result<(), Refusal> {
    let row = read_layout(line, points)?;
    let everywhere = vec![1; points as usize];
    match (book.enter(row.identity, row.movement, &everywhere), row.levels) {
        (Err(Refusal::TooLight), _) => Ok(()),
        (Ok(()), Some(levels)) => book.supply(row.identity, &levels),
        (answer, _) => answer,
    }
}

fn print(limits: &Limits, book: &Book) -> Answer<String> {
    let mut text = "point,level,limit,verdict,computed,missing\r\n".to_string();
    for (point, &limit) in limits.limits.iter().enumerate() {
        let load = load(book, point as u32, limits.days)?;
        let level = load.level.map_or("below".to_string(), spell_level);
        let verdict = if load.level.is_some_and(|level| level > limit) { "over" } else { "within" };
        let (computed, missing) = (load.computed.iter().sum::<u64>(), load.missing.iter().sum::<u64>());
        text += &format!("{},{level},{},{verdict},{computed},{missing}\r\n", point + 1, spell_level(limit));
    }
    Ok(text)
}

#[cfg(test)]
mod tests {
    use super::*;

    const LIMITS: &str = "days,p1\r\n1,56.65\r\n";
    const HEADER: &str = "id,type,mtow,kind,time,l1\r\n";

    fn with_rows(rows: &str) -> String {
        report(LIMITS.as_bytes(), format!("{HEADER}{rows}").as_bytes())
    }

    #[test]
    fn the_documents_file() {
        let rows = "1,G,70000,S,07:00:00,100.00\r\n2,G,70000,S,18:59:59,100.00\r\n\
                    3,G,70000,S,12:00:00,\r\n4,H,3000,L,23:00:00,\r\n";
        assert_eq!(with_rows(rows), "point,level,limit,verdict,computed,missing\r\n1,56.66,56.65,over,2,2\r\n");
    }

    #[test]
    fn nothing_to_report() {
        assert_eq!(with_rows(""), "point,level,limit,verdict,computed,missing\r\n1,below,56.65,within,0,0\r\n");
        assert_eq!(with_rows("0,G,150,S,07:00:00,999.99"), with_rows(""), "passed over before anything else is judged");
        assert_eq!(with_rows("1,G,151,S,07:00:00,"), "refused,10,0\r\n");
    }

    #[test]
    fn refusals_name_their_line() {
        assert_eq!(report(b"", b""), "refused,16,1\r\n");
        assert_eq!(report(b"days,p1\r\n0,120.01", b""), "refused,11,2\r\n");
        assert_eq!(report(b"days,p1\r\n1,120.01", b""), "refused,15,2\r\n");
        assert_eq!(report(LIMITS.as_bytes(), b""), "refused,16,1\r\n");
        assert_eq!(report(LIMITS.as_bytes(), b"id,type,mtow,kind,time,l1,l2\r\n"), "refused,16,1\r\n");
        let row = "7,G,70000,S,07:00:00,1.00\r\n";
        assert_eq!(with_rows(&format!("{row}8,G,70000,S,07:00:00\r\n")), "refused,16,3\r\n");
        assert_eq!(with_rows(&format!("{row}7,G,70000,S,07:00:00,999.99\r\n")), "refused,4,3\r\n");
        assert_eq!(with_rows("7,G,70000,S,07:00:00,120.01"), "refused,7,2\r\n");
        assert_eq!(with_rows("0,K,6000,S,07:00:00,"), "refused,1,2\r\n");
        let full: String = (1..=2_001)
            .map(|identity| {
                format!("{identity},G,70000,S,07:00:00,{}\r\n", if identity > 2_000 { "999.99" } else { "1.00" })
            })
            .collect();
        assert_eq!(with_rows(&full), "refused,6,2002\r\n");
    }
}

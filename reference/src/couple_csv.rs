//! The program couple (RULES, Radar tracks): from tracks.csv and the movements to its standard output.

use crate::calendar::exists;
use crate::coupling::{couple, Flight, Movement, MAX_FLIGHTS};
use crate::text::{date, letter, lines, name, time, whole};
use crate::Refusal;

pub const MOVEMENTS_HEADER: &str = "id,date,time,class,kind,runway,airport,type,circuit";
pub const TRACKS_HEADER: &str = "track,date,time,class,kind,runway,airport,type";

/// A line of either file: its number in the first column, and the flight.
struct Row {
    number: u32,
    movement: Movement,
}

/// What the program writes; a `tracks` that can't be opened is empty.
pub fn couple_csv(tracks: &[u8], movements: &[u8]) -> String {
    match tell(tracks, movements) {
        Ok(text) => text,
        Err((refusal, line)) => format!("refused,{},{line}\r\n", refusal as u32),
    }
}

fn tell(tracks: &[u8], movements: &[u8]) -> Result<String, (Refusal, usize)> {
    let tracks = rows(tracks, TRACKS_HEADER, spelled_track)?;
    let movements = rows(movements, MOVEMENTS_HEADER, spelled_movement)?;
    let flights: Vec<Flight> = tracks.iter().map(|row| row.movement.flight).collect();
    let taken = couple(&movements.iter().map(|row| row.movement).collect::<Vec<_>>(), &flights);
    let line = |(row, place): (&Row, Option<usize>)| {
        let track = place.map_or(String::new(), |place| tracks[place].number.to_string());
        format!("{},{track}\r\n", row.number)
    };
    Ok("id,track\r\n".to_string() + &movements.iter().zip(taken).map(line).collect::<String>())
}

/// The rows behind the header, or the first refusal with its line: 16 off the layout, then 18.
fn rows(text: &[u8], header: &str, spelled: fn(&[u8]) -> Option<Row>) -> Result<Vec<Row>, (Refusal, usize)> {
    let lines = lines(text);
    if lines.first() != Some(&header.as_bytes()) {
        return Err((Refusal::Register, 1));
    }
    let read = |(place, line): (usize, &&[u8])| {
        let row = spelled(line).ok_or((Refusal::Register, place + 1))?;
        if exists(row.movement.flight.date) && place <= MAX_FLIGHTS {
            Ok(row)
        } else {
            Err((Refusal::Flights, place + 1))
        }
    };
    lines.iter().enumerate().skip(1).map(read).collect()
}

fn spelled_track(line: &[u8]) -> Option<Row> {
    let fields: Vec<&[u8]> = line.split(|&byte| byte == b',').collect();
    let &[number, day, at, class, kind, runway, airport, designator] = &fields[..] else {
        return None;
    };
    let flight = Flight {
        date: date(day)?,
        time: time(at)?,
        class: letter(class, b"VH")?,
        kind: letter(kind, b"SL")?,
        runway: name(runway)?,
        airport: name(airport)?,
        designator: name(designator)?,
    };
    Some(Row { number: whole(number)?, movement: Movement { flight, circuit: false } })
}

/// A track's fields, and whether it is a circuit: blank or C.
fn spelled_movement(line: &[u8]) -> Option<Row> {
    let comma = line.iter().rposition(|&byte| byte == b',')?;
    let mut row = spelled_track(&line[..comma])?;
    row.movement.circuit = match &line[comma + 1..] {
        b"" => false,
        b"C" => true,
        _ => return None,
    };
    Some(row)
}

#[cfg(test)]
mod tests {
    use super::*;

    fn told(tracks: &str, movements: &str) -> String {
        let (tracks, movements) =
            (format!("{TRACKS_HEADER}\r\n{tracks}"), format!("{MOVEMENTS_HEADER}\r\n{movements}"));
        couple_csv(tracks.as_bytes(), movements.as_bytes())
    }

    const TRACK: &str = "4,2026-04-01,00:01:00,V,S,06,EHBK,B738";
    const MOVEMENT: &str = "17,2026-03-31,23:58:10,V,S,06,EHBK,B738,";

    #[test]
    fn a_movement_and_its_track() {
        assert_eq!(told(TRACK, MOVEMENT), "id,track\r\n17,4\r\n");
        assert_eq!(told(TRACK, &format!("{MOVEMENT}C\r\n{MOVEMENT}\r\n")), "id,track\r\n17,\r\n17,4\r\n");
        assert_eq!(told("", MOVEMENT), "id,track\r\n17,\r\n");
        assert_eq!(told(TRACK, ""), "id,track\r\n");
    }

    #[test]
    fn lines_off_their_layout() {
        for (field, wrong) in [
            ("17", "017"),
            ("17", ""),
            ("17", "12345678"),
            ("2026-03-31", "2026-3-31"),
            ("2026-03-31", "20260331"),
            ("2026-03-31", "31-03-2026"),
            ("2026-03-31", "2026/03/31"),
            ("23:58:10", "24:00:00"),
            ("23:58:10", "23:58"),
            (",V,", ",v,"),
            (",V,", ",,"),
            (",S,", ",C,"),
            (",06,", ",,"),
            (",06,", ",06 ,"),
            (",06,", ",06-24,"),
            ("EHBK", "ehbk"),
            ("EHBK", "EHBKX"),
            ("B738,", "B738"),
            ("B738,", "B738,c"),
            ("B738,", "B738,0"),
            ("B738,", "B738,C,"),
        ] {
            let row = MOVEMENT.replace(field, wrong);
            assert_eq!(told(TRACK, &format!("{MOVEMENT}\r\n{row}")), "refused,16,3\r\n", "{row}");
        }
        assert_eq!(told(&format!("{TRACK},"), MOVEMENT), "refused,16,2\r\n");
        assert_eq!(told(TRACK, TRACK), "refused,16,2\r\n");
        assert_eq!(couple_csv(b"", MOVEMENTS_HEADER.as_bytes()), "refused,16,1\r\n");
        assert_eq!(couple_csv(TRACKS_HEADER.as_bytes(), b""), "refused,16,1\r\n");
        assert_eq!(couple_csv(TRACKS_HEADER.as_bytes(), TRACKS_HEADER.as_bytes()), "refused,16,1\r\n");
    }

    #[test]
    fn dates_that_do_not_exist() {
        let on = |date: &str| MOVEMENT.replace("2026-03-31", date);
        for date in ["2026-02-29", "0000-00-00", "1899-12-31", "2100-02-29", "2026-13-01", "2026-04-31"] {
            assert_eq!(told(TRACK, &on(date)), "refused,18,2\r\n", "{date}");
            assert_eq!(told(&TRACK.replace("2026-04-01", date), "x"), "refused,18,2\r\n", "{date}");
        }
        for date in ["2024-02-29", "1900-01-01", "9999-12-31"] {
            assert_eq!(told(TRACK, &on(date)), "id,track\r\n17,\r\n", "{date}");
        }
        assert_eq!(told(TRACK, &format!("{}x", on("2026-02-29"))), "refused,16,2\r\n");
    }

    #[test]
    fn a_row_past_50_000() {
        let many = |row: &str, count: usize| format!("{row}\r\n").repeat(count);
        assert!(told(&many(TRACK, 50_000), &many(MOVEMENT, 50_000)).starts_with("id,track\r\n17,4\r\n"));
        assert_eq!(told(&many(TRACK, 50_001), MOVEMENT), "refused,18,50002\r\n");
        assert_eq!(told(TRACK, &many(MOVEMENT, 50_001)), "refused,18,50002\r\n");
        assert_eq!(told(TRACK, &(many(MOVEMENT, 50_000) + "x")), "refused,16,50002\r\n");
    }
}

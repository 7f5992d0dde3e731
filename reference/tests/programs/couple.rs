//! The program couple: tracks.csv in its folder, the movements on standard input.

use crate::delivery::{a_delivery, Delivery, BUFFER};
use crate::drawn_flights::{Flights, Style};
use crate::flight_files::{lines, text, Aim};
use crate::program::Program;
use crate::random::Random;
use crate::rounds::{directed, rounds, saw, Telling};
use crate::two_files::agree;
use reference::couple_csv::{couple_csv, MOVEMENTS_HEADER, TRACKS_HEADER};

/// Counts what an answer is, and of answered files what they show.
fn count(answer: &str, tracks: Option<&[u8]>, movements: &[u8]) {
    let tracks = tracks.unwrap_or_default();
    if let Some(refused) = answer.strip_prefix("refused,") {
        let (number, line) = refused.trim_end().split_once(',').expect("a number and a line");
        let alone = couple_csv(tracks, MOVEMENTS_HEADER.as_bytes());
        let file = if alone.starts_with("refused") { "tracks.csv" } else { "the movements" };
        saw("couple", &format!("{number} in {file}"));
        saw("couple", if line == "1" { "line 1 at fault" } else { "a later line at fault" });
        return;
    }
    saw("couple", "answered");
    let rows: Vec<&str> = answer.lines().skip(1).collect();
    let with_track = rows.iter().filter(|line| !line.ends_with(',')).count();
    for (kind, holds) in [
        ("no movement", rows.is_empty()),
        ("no track", tracks.len() <= TRACKS_HEADER.len() + 2),
        ("some with a track and some without", with_track > 0 && with_track < rows.len()),
        ("a hundred with a track and more", with_track >= 100),
        ("movements over one buffer", movements.len() > BUFFER),
        ("tracks over one buffer", tracks.len() > BUFFER),
        ("movements without the last CRLF", !movements.ends_with(b"\r\n")),
        ("tracks without the last CRLF", !tracks.ends_with(b"\r\n")),
    ] {
        if holds {
            saw("answered", kind);
        }
    }
}

/// Runs the program and compares.
fn compare(program: &Program, tracks: Option<&[u8]>, movements: &[u8], delivery: &Delivery) -> String {
    agree(program, "tracks.csv", couple_csv, tracks, movements, delivery)
}

#[test]
#[ignore = "needs OKUBINRAFO_COUPLE, the command of the program couple"]
fn coupled_files() {
    const TELLING: Telling = &[
        ("couple", 80, &["answered"]),
        ("couple", 4, &["16 in tracks.csv", "18 in tracks.csv", "16 in the movements", "18 in the movements"]),
        ("couple", 5, &["line 1 at fault", "a later line at fault"]),
        ("couple", 10, &["from a file", "in one piece", "cut between CR and LF", "cut between lines", "cut anywhere"]),
        ("couple", 5, &["byte by byte"]),
        ("answered", 20, &["some with a track and some without", "a hundred with a track and more"]),
        ("answered", 10, &["movements over one buffer", "tracks over one buffer"]),
        ("answered", 10, &["movements without the last CRLF", "tracks without the last CRLF"]),
        ("answered", 5, &["no movement", "no track"]),
    ];
    let program = Program::from_environment("OKUBINRAFO_COUPLE");
    rounds("coupled_files", 180, TELLING, move |random| {
        let style = if random.once_in(5) { Style::crowded(random) } else { Style::pick(random, true) };
        let size = |random: &mut Random| random.pick(&[0, 1, 3, 20, 150, 400, 1_600, 3_000]);
        let (movements, tracks) = (size(random), size(random));
        let Flights { movements, tracks } = style.flights(random, movements, tracks);
        let wrong = random.pick(&[Aim::Date, Aim::Layout, Aim::Header, Aim::Damage]);
        let (first, second) = match random.within(0, 9) {
            0..=5 => (Aim::Answer, Aim::Answer),
            6 | 7 => (wrong, Aim::Answer),
            8 => (Aim::Answer, wrong),
            _ => (wrong, random.pick(&[Aim::Date, Aim::Layout])),
        };
        let (movement_lines, track_lines) =
            (lines(random, MOVEMENTS_HEADER, &movements), lines(random, TRACKS_HEADER, &tracks));
        let movements = text(random, first, movement_lines);
        let tracks = text(random, second, track_lines);
        let tracks = if second == Aim::Header && random.once_in(4) { None } else { Some(tracks) };
        let delivery = a_delivery(random, "couple", &movements);
        let answer = compare(&program, tracks.as_deref(), &movements, &delivery);
        count(&answer, tracks.as_deref(), &movements);
    });
}

const TRACKS: &str = "4,2026-04-01,00:01:00,V,S,06,EHBK,B738\r\n0,2026-03-31,23:59:00,H,L,6,EHBK,EC35\r\n";
const MOVEMENTS: &str = "17,2026-03-31,23:58:10,V,S,06,EHBK,B738,\r\n9999999,2026-04-01,00:09:00,H,L,6,EHBK,EC35,C\r\n\
                         3,2026-04-01,00:00:00,V,S,06,EHBK,B738,C\r\n";
const ANSWER: &str = "id,track\r\n17,4\r\n9999999,0\r\n3,\r\n";

fn with_headers(tracks: &str, movements: &str) -> (String, String) {
    (format!("{TRACKS_HEADER}\r\n{tracks}"), format!("{MOVEMENTS_HEADER}\r\n{movements}"))
}

/// The movements cut in two at every place, and the tracks, which come through a pipe of that name.
#[test]
#[ignore = "needs OKUBINRAFO_COUPLE, the command of the program couple"]
fn movements_and_tracks_in_two_pieces() {
    let program = Program::from_environment("OKUBINRAFO_COUPLE");
    directed("movements_and_tracks_in_two_pieces", &[("couple", 150, &["answered"])], move || {
        let (tracks, movements) = with_headers(TRACKS, MOVEMENTS);
        // From the ends of the headers on.
        for cut in MOVEMENTS_HEADER.len()..movements.len() {
            let pieces = Delivery::Pieces(vec![cut]);
            assert_eq!(compare(&program, Some(tracks.as_bytes()), movements.as_bytes(), &pieces), ANSWER);
            saw("couple", "answered");
        }
        for cut in TRACKS_HEADER.len()..tracks.len() {
            let own = program.run_beside_a_pipe("tracks.csv", tracks.as_bytes(), &[cut], movements.as_bytes());
            let own = String::from_utf8_lossy(&own);
            assert!(own == ANSWER, "the program writes {own:?} where tracks.csv comes cut at {cut}");
            saw("couple", "answered");
        }
    });
}

/// Both files behind rows of another airport, so that a buffer ends at every place of a row of each.
#[test]
#[ignore = "needs OKUBINRAFO_COUPLE, the command of the program couple"]
fn flights_about_a_buffers_end() {
    /// Rows of so many bytes in all, about 48 each, by the digits of their number.
    fn elsewhere(bytes: usize, end: &str) -> String {
        let fields = format!(",2026-03-31,12:00:00,V,S,03,EHGG,C172{end}\r\n");
        let rows = bytes / (fields.len() + 3);
        let digits = |row: usize| bytes / rows - fields.len() + usize::from(row < bytes % rows);
        (0..rows).map(|row| format!("{}{fields}", &"9999999"[..digits(row)])).collect()
    }
    let program = Program::from_environment("OKUBINRAFO_COUPLE");
    directed("flights_about_a_buffers_end", &[("couple", 50, &["answered"])], move || {
        for before in 0..60 {
            let padding = |header: &str| BUFFER - header.len() - 2 - before;
            let tracks = elsewhere(padding(TRACKS_HEADER), "") + TRACKS;
            let movements = elsewhere(padding(MOVEMENTS_HEADER), ",") + MOVEMENTS;
            let (tracks, movements) = with_headers(&tracks, &movements);
            let answer = compare(&program, Some(tracks.as_bytes()), movements.as_bytes(), &Delivery::File);
            assert!(answer.ends_with(&ANSWER[10..]), "{before} bytes before the end");
            saw("couple", "answered");
        }
    });
}

/// Each field of either file at the ends of its range and one past them, and each kind of line that is refused.
#[test]
#[ignore = "needs OKUBINRAFO_COUPLE, the command of the program couple"]
fn ranges_of_the_couple_program() {
    const FIELDS: [(usize, &str, &str); 44] = [
        (0, "0", ""),
        (0, "9999999", ""),
        (0, "10000000", "16"),
        (0, "00", "16"),
        (0, "", "16"),
        (1, "1900-01-01", ""),
        (1, "1899-12-31", "18"),
        (1, "9999-12-31", ""),
        (1, "0000-01-01", "18"),
        (1, "2024-02-29", ""),
        (1, "2023-02-29", "18"),
        (1, "2000-02-29", ""),
        (1, "1900-02-29", "18"),
        (1, "2026-04-30", ""),
        (1, "2026-04-31", "18"),
        (1, "2026-12-31", ""),
        (1, "2026-13-01", "18"),
        (1, "2026-12-32", "18"),
        (1, "2026-00-01", "18"),
        (1, "2026-01-00", "18"),
        (1, "2026-1-01", "16"),
        (1, "10000-01-01", "16"),
        (1, "2026.01-01", "16"),
        (1, "2026-01/01", "16"),
        (2, "23:59:59", ""),
        (2, "00:00:00", ""),
        (2, "24:00:00", "16"),
        (2, "23:60:00", "16"),
        (2, "23:59:60", "16"),
        (3, "H", ""),
        (3, "K", "16"),
        (4, "L", ""),
        (4, "C", "16"),
        (5, "0", ""),
        (5, "ZZZZ", ""),
        (5, "36L16", "16"),
        (5, "", "16"),
        (5, "a", "16"),
        (6, "9", ""),
        (6, "@", "16"),
        (6, "[", "16"),
        (7, "A", ""),
        (7, "/", "16"),
        (7, ":", "16"),
    ];
    let program = Program::from_environment("OKUBINRAFO_COUPLE");
    directed("ranges_of_the_couple_program", &[("couple", 20, &["answered"])], move || {
        let runs = |tracks: Option<&str>, movements: &str, expected: &str| {
            let answer = compare(&program, tracks.map(str::as_bytes), movements.as_bytes(), &Delivery::File);
            assert!(answer.starts_with(expected), "{tracks:?}, {movements:?}: {answer:?}");
            count(&answer, tracks.map(str::as_bytes), movements.as_bytes());
        };
        let (tracks, movements) = with_headers(TRACKS, MOVEMENTS);
        let changed = |rows: &str, field: usize, value: &str| {
            let (first, second) = rows.trim_end().split_once("\r\n").expect("two rows");
            let mut fields: Vec<&str> = second.split(',').collect();
            fields[field] = value;
            format!("{first}\r\n{}", fields.join(","))
        };
        let two = MOVEMENTS.rsplit_once("3,2026").expect("a third row").0;
        for (field, value, refused) in FIELDS {
            let expected =
                if refused.is_empty() { "id,track\r\n".to_string() } else { format!("refused,{refused},3\r\n") };
            let (changed_tracks, changed_movements) =
                with_headers(&changed(TRACKS, field, value), &changed(two, field, value));
            runs(Some(&tracks), &changed_movements, &expected);
            runs(Some(&changed_tracks), &movements, &expected);
        }
        for (circuit, refused) in [("", ""), ("C", ""), ("c", "16"), ("0", "16"), ("CC", "16"), ("C,", "16")] {
            let expected = if refused.is_empty() { "id,track\r\n17,4" } else { "refused,16,3\r\n" };
            runs(Some(&tracks), &with_headers("", &changed(two, 8, circuit)).1, expected);
        }
        // Files that are not there, of no bytes, of their header alone, and headers that are others.
        let (no_tracks, no_movements) = with_headers("", "");
        for (tracks, movements, expected) in [
            (None, &movements[..], "refused,16,1\r\n"),
            (Some(""), &movements, "refused,16,1\r\n"),
            (Some("\r\n"), &movements, "refused,16,1\r\n"),
            (Some(&movements), &movements, "refused,16,1\r\n"),
            (Some(TRACKS_HEADER), &movements, "id,track\r\n17,\r\n9999999,\r\n3,\r\n"),
            (Some(&no_tracks), &no_movements, "id,track\r\n"),
            (Some(&no_tracks), MOVEMENTS_HEADER, "id,track\r\n"),
            (Some(&tracks), "", "refused,16,1\r\n"),
            (Some(&tracks), "\r\n", "refused,16,1\r\n"),
            (Some(&tracks), &tracks, "refused,16,1\r\n"),
            (Some(&tracks), &movements.replace("\r\n", "\n"), "refused,16,1\r\n"),
            (Some(&tracks.replace("\r\n", "\n")), &movements, "refused,16,1\r\n"),
            (Some(&format!("\u{feff}{tracks}")), &movements, "refused,16,1\r\n"),
            (Some(&tracks), &format!("\u{feff}{movements}"), "refused,16,1\r\n"),
            (Some(&format!("{tracks}\r\n")), &movements, "refused,16,4\r\n"),
            (Some(&tracks), &format!("{movements}\r\n"), "refused,16,5\r\n"),
            (Some(&tracks), &format!("{movements}{}", "9".repeat(200_000)), "refused,16,5\r\n"),
            (Some(&format!("{tracks}{}", "9".repeat(200_000))), &movements, "refused,16,4\r\n"),
            (Some("x"), "y", "refused,16,1\r\n"),
            (Some(&tracks.replace("04-01", "04-31")), "y", "refused,18,2\r\n"),
        ] {
            runs(tracks, movements, expected);
        }
        // A folder under the name of tracks.csv opens and can't be read.
        let _ = std::fs::remove_file(program.folder.join("tracks.csv"));
        std::fs::create_dir(program.folder.join("tracks.csv")).expect("a folder is made");
        assert_eq!(program.run(&[], movements.as_bytes(), &Delivery::File), b"refused,16,1\r\n");
        std::fs::remove_dir(program.folder.join("tracks.csv")).expect("the folder is taken away");
    });
}

/// 50,000 rows of each, and one more: 18 at its line if it is on the layout, else 16.
#[test]
#[ignore = "needs OKUBINRAFO_COUPLE, the command of the program couple"]
fn a_row_past_50_000() {
    let program = Program::from_environment("OKUBINRAFO_COUPLE");
    directed("a_row_past_50_000", &[("couple", 1, &["answered"])], move || {
        let (track, movement) =
            ("4,2026-04-01,00:01:00,V,S,06,EHBK,B738\r\n", "7,2026-04-01,00:01:00,V,S,06,EHBK,B738,\r\n");
        for (tracks, movements, end, expected) in [
            (50_000, 50_000, "", "id,track\r\n7,4\r\n"),
            (50_001, 1, "x", "refused,18,50002\r\n"),
            (1, 50_001, "x", "refused,18,50002\r\n"),
            (1, 50_000, "x", "refused,16,50002\r\n"),
        ] {
            let (tracks, movements) = with_headers(&track.repeat(tracks), &(movement.repeat(movements) + end));
            let answer = compare(&program, Some(tracks.as_bytes()), movements.as_bytes(), &Delivery::File);
            assert!(answer.starts_with(expected), "{}", &answer[..30]);
            count(&answer, Some(tracks.as_bytes()), movements.as_bytes());
        }
    });
}

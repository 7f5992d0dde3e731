//! Movements and tracks: few and many, crowded, refused.

use crate::compared::{compared_rounds, couple};
use crate::drawn_flights::{Flights, Style};
use crate::library::Library;
use crate::random::Random;
use crate::rounds::{directed, saw, Telling};
use reference::calendar::{day_number, exists};

/// A flight of either list: its date, its second over midnight, what has to agree.
struct Flight {
    date: u32,
    second: i64,
    traits: [u32; 5],
}

fn flights_of(columns: &[Vec<u32>]) -> Vec<Flight> {
    let flight = |place: usize| {
        let of = |column: usize| columns[column][place];
        let second = i64::from(day_number(of(0))) * 86_400 + i64::from(of(1));
        Flight { date: of(0), second, traits: [2, 3, 4, 5, 6].map(of) }
    };
    (0..columns[0].len()).map(flight).collect()
}

/// Counts what an answered call shows: each movement in its turn, with the tracks that it found.
fn count(flights: &Flights, answer: &[u32]) {
    let (movements, tracks) = (flights_of(&flights.movements), flights_of(&flights.tracks));
    let mut turns: Vec<usize> = (0..movements.len()).collect();
    turns.sort_by_key(|&place| (movements[place].second, place));
    let mut taken = vec![false; tracks.len()];
    for turn in turns {
        let (own, circuit) = (&movements[turn], flights.movements[7][turn] != 0);
        let (aeroplane, window) = if own.traits[0] == 0 { (true, 300) } else { (false, 600) };
        let away = |place: usize| tracks[place].second - own.second;
        let fits = |&place: &usize| tracks[place].traits == own.traits && away(place).abs() <= window;
        let near: Vec<usize> = (0..tracks.len()).filter(fits).collect();
        let free: Vec<usize> = near.iter().copied().filter(|&place| !taken[place]).collect();
        let Some(place) = answer[turn].checked_sub(1).map(|place| place as usize) else {
            let kind = match (circuit && aeroplane, near.is_empty(), free.is_empty()) {
                (true, _, false) => "an aeroplane's circuit that a track would fit",
                (true, ..) => "an aeroplane's circuit",
                (_, true, _) => "no track fits",
                _ => "every track that fits is taken",
            };
            saw("movement", kind);
            continue;
        };
        let (track, least) = (&tracks[place], away(place).abs());
        let beside = |other: &&usize| **other != place && away(**other).abs() == least;
        for (kind, holds) in [
            ("a track before it", away(place) < 0),
            ("a track behind it", away(place) > 0),
            ("a track at the window's end", least == window),
            ("a track of another date", own.date != track.date),
            ("a track of another year", own.date / 10_000 != track.date / 10_000),
            ("a track about a leap day", [own.date, track.date].iter().any(|date| date % 10_000 == 229)),
            ("a helicopter's track past 5 minutes", least > 300),
            ("a helicopter's circuit with a track", circuit),
            ("a nearer track is taken", near.iter().any(|&other| taken[other] && away(other).abs() < least)),
            ("another as near on the other side", free.iter().filter(beside).any(|&other| away(other) != away(place))),
            ("another of the same time", free.iter().filter(beside).any(|&other| away(other) == away(place))),
        ] {
            if holds {
                saw("movement", kind);
            }
        }
        taken[place] = true;
    }
    if taken.contains(&false) {
        saw("couple", "tracks are left");
    }
}

/// Room that is exact, larger or too small by one.
fn room(random: &mut Random, needed: usize) -> Vec<u32> {
    let more = random.pick(&[0, 0, 0, 1, 5, -1]);
    vec![77; needed.saturating_add_signed(more)]
}

#[test]
fn small_couplings() {
    const TELLING: Telling = &[
        ("couple", 3_000, &["0", "tracks are left"]),
        ("couple", 300, &["14"]),
        (
            "movement",
            150,
            &["a track at the window's end", "a track of another year", "another as near on the other side"],
        ),
        (
            "movement",
            1_000,
            &[
                "a track before it",
                "a track behind it",
                "a track of another date",
                "a track about a leap day",
                "a helicopter's track past 5 minutes",
                "a helicopter's circuit with a track",
                "a nearer track is taken",
                "another of the same time",
                "an aeroplane's circuit that a track would fit",
                "no track fits",
                "every track that fits is taken",
            ],
        ),
    ];
    compared_rounds("small_couplings", 6_000, TELLING, |library, random| {
        let by_name = random.once_in(2);
        let style = Style::pick(random, by_name);
        let (movements, tracks) = (random.pick(&[0, 1, 2, 6, 20, 40]), random.pick(&[0, 1, 2, 6, 20, 40]));
        let flights = style.flights(random, movements, tracks);
        let room = room(random, movements);
        let (answer, numbers) = couple(library, &flights, &room);
        if answer == 0 {
            count(&flights, &numbers);
        }
    });
}

/// All alike and within one window, up to some hundreds.
#[test]
fn crowded_couplings() {
    const TELLING: Telling = &[
        ("couple", 200, &["0"]),
        ("movement", 1_000, &["a nearer track is taken", "another of the same time", "every track that fits is taken"]),
    ];
    compared_rounds("crowded_couplings", 240, TELLING, |library, random| {
        let style = Style::crowded(random);
        let (movements, tracks) = (random.within(1, 250) as usize, random.within(1, 250) as usize);
        let flights = style.flights(random, movements, tracks);
        let (_, numbers) = couple(library, &flights, &vec![77; movements]);
        count(&flights, &numbers);
    });
}

/// Thousands of flights, of several classes and types, within two days or much less.
#[test]
fn busy_days() {
    compared_rounds("busy_days", 24, &[("couple", 20, &["0"])], |library, random| {
        let style = Style::pick(random, false);
        let (movements, tracks) = (random.within(1_000, 4_000) as usize, random.within(1_000, 4_000) as usize);
        let flights = style.flights(random, movements, tracks);
        couple(library, &flights, &vec![77; movements]);
    });
}

/// Spoils one column of either list: its length, or a value. What comes out may be right after all.
fn spoil(random: &mut Random, flights: &mut Flights) {
    let column = random.within(0, 14) as usize;
    let (spoilt, place) = match column.checked_sub(8) {
        None => (&mut flights.movements[column], column),
        Some(place) => (&mut flights.tracks[place], place),
    };
    if spoilt.is_empty() || random.once_in(3) {
        match spoilt.pop() {
            Some(last) if random.once_in(2) => spoilt.extend([last, last]),
            Some(_) => {}
            None => spoilt.push(0),
        }
        return;
    }
    const WRONG_DATES: [u32; 10] =
        [0, 20260229, 20260431, 18991231, 100000101, 20261301, 20260100, 21000229, 19000101, 99991231];
    let at = random.within(0, spoilt.len() as u32 - 1) as usize;
    spoilt[at] = match place {
        0 => random.pick(&WRONG_DATES),
        1 => random.pick(&[86_399, 86_400, 86_401, u32::MAX]),
        2 | 3 => random.pick(&[1, 2, u32::MAX]),
        _ => random.pick(&[0, 1, u32::MAX]),
    };
}

/// One column wrong in length or in a value, with room that is enough or not: 18 before 14.
#[test]
fn refused_couplings() {
    const TELLING: Telling = &[("couple", 300, &["0", "14"]), ("couple", 1_500, &["18"])];
    compared_rounds("refused_couplings", 4_000, TELLING, |library, random| {
        let by_name = random.once_in(2);
        let style = Style::pick(random, by_name);
        let (movements, tracks) = (random.within(0, 12) as usize, random.within(0, 12) as usize);
        let mut flights = style.flights(random, movements, tracks);
        spoil(random, &mut flights);
        let room = vec![77; random.pick(&[movements, movements, movements + 2, 0])];
        couple(library, &flights, &room);
    });
}

/// Every two days that follow each other, and the last second of one is 241 seconds before the other's 00:04:00.
#[test]
fn every_midnight() {
    directed("every_midnight", &[("couple", 4, &["0"])], || {
        let library = Library::from_environment();
        for years in [1900..=2030, 2031..=2160, 9990..=9999] {
            let days = years.flat_map(|year| (101..=1231).map(move |rest| year * 10_000 + rest));
            let dates: Vec<u32> = days.filter(|&date| exists(date)).collect();
            let (count, many) = (dates.len() - 1, |value: u32| vec![value; dates.len() - 1]);
            let own: Vec<u32> = (0..count as u32).collect();
            let movements =
                [dates[..count].to_vec(), many(86_399), many(0), many(1), many(6), own.clone(), many(7), many(0)];
            let tracks = [dates[1..].to_vec(), many(240), many(0), many(1), many(6), own, many(7)];
            let flights = Flights { movements, tracks };
            let (answer, numbers) = couple(&library, &flights, &many(77));
            assert_eq!((answer, &numbers), (0, &(1..=count as u32).collect::<Vec<_>>()), "the next day's track");
            // 61 seconds further and none fits.
            let mut later = flights;
            later.tracks[1] = many(300);
            assert_eq!(couple(&library, &later, &many(77)), (0, many(0)), "five minutes are over");
        }
    });
}

/// 50,000 of each: over a year, all alike in one window, and one more of either.
#[test]
fn large_couplings() {
    const MANY: usize = 50_000;
    directed("large_couplings", &[("couple", 4, &["0"]), ("couple", 2, &["18"])], || {
        let library = Library::from_environment();
        let mut random = Random::new(1);
        let days: Vec<u32> = (20250101..=20251231).filter(|&date| exists(date)).collect();
        let mut columns = |days: &[u32], seconds: u32, types: u32, count: usize| {
            let mut column = |value: &mut dyn FnMut(&mut Random) -> u32| -> Vec<u32> {
                (0..count).map(|_| value(&mut random)).collect()
            };
            [
                column(&mut |random| random.pick(days)),
                column(&mut |random| random.within(0, seconds)),
                column(&mut |random| random.within(0, types.min(1))),
                column(&mut |random| random.within(0, types.min(1))),
                column(&mut |_| 6),
                column(&mut |_| 7),
                column(&mut |random| random.within(0, types)),
            ]
        };
        let mut ask = |days: &[u32], seconds: u32, types: u32, movements: usize, tracks: usize, expected: u32| {
            let [a, b, c, d, e, f, g] = columns(days, seconds, types, movements);
            let tracks = columns(days, seconds, types, tracks);
            let flights = Flights { movements: [a, b, c, d, e, f, g, vec![0; movements]], tracks };
            let (answer, numbers) = couple(&library, &flights, &vec![77; movements]);
            assert_eq!(answer, expected, "{movements} and {tracks:?}", tracks = flights.tracks[0].len());
            numbers.iter().filter(|&&number| number != 0).count()
        };
        assert!(ask(&days, 86_399, 3, MANY, MANY, 0) > 1_000, "a year");
        assert!(ask(&days[..30], 86_399, 0, MANY, MANY, 0) > MANY / 2, "a month");
        assert!(ask(&days[..1], 299, 0, MANY, MANY, 0) == MANY, "one window");
        assert!(ask(&days[..1], 0, 0, MANY, MANY, 0) == MANY, "one second");
        assert!(ask(&days[..1], 299, 0, MANY, 0, 0) == 0, "no track");
        ask(&days, 86_399, 3, MANY + 1, 3, 18);
        ask(&days, 86_399, 3, 3, MANY + 1, 18);
    });
}

//! Movements and tracks.

use crate::compared::couple;
use crate::drawn_flights::Flights;
use crate::library::Library;
use crate::rounds::{directed, Telling};

/// Some alike flights, all at one time.
fn alike(movements: usize, tracks: usize) -> Flights {
    let [date, time, class, kind, runway, airport, designator] = [20260331, 43_200, 0, 0, 0x3036, 0x4548_424b, 7];
    let columns = |count: usize| [date, time, class, kind, runway, airport, designator].map(|value| vec![value; count]);
    let [a, b, c, d, e, f, g] = columns(movements);
    Flights { movements: [a, b, c, d, e, f, g, vec![0; movements]], tracks: columns(tracks) }
}

/// Values about the ends of the columns' ranges, and what the call answers.
const VALUES: [(usize, u32, u32); 32] = [
    (0, 18991231, 18),
    (0, 19000101, 0),
    (0, 99991231, 0),
    (0, 100000101, 18),
    (0, 20260001, 18),
    (0, 20261201, 0),
    (0, 20261301, 18),
    (0, 20260300, 18),
    (0, 20260301, 0),
    (0, 20260331, 0),
    (0, 20260332, 18),
    (0, 20260430, 0),
    (0, 20260431, 18),
    (0, 20260228, 0),
    (0, 20260229, 18),
    (0, 20240229, 0),
    (0, 20240230, 18),
    (0, 19000229, 18),
    (0, 20000229, 0),
    (0, 21000229, 18),
    (0, 0, 18),
    (0, u32::MAX, 18),
    (1, 0, 0),
    (1, 86_399, 0),
    (1, 86_400, 18),
    (2, 1, 0),
    (2, 2, 18),
    (3, 1, 0),
    (3, 2, 18),
    (4, u32::MAX, 0),
    (5, u32::MAX, 0),
    (6, u32::MAX, 0),
];

#[test]
fn ranges_of_flights() {
    const TELLING: Telling = &[("couple", 30, &["0", "18"])];
    directed("ranges_of_flights", TELLING, || {
        let library = Library::from_environment();
        for (column, value, expected) in VALUES {
            for place in [0, 2] {
                let mut flights = alike(3, 3);
                flights.movements[column][place] = value;
                assert_eq!(couple(&library, &flights, &[9; 3]).0, expected, "movement: column {column}, {value}");
                let mut flights = alike(3, 3);
                flights.tracks[column][place] = value;
                assert_eq!(couple(&library, &flights, &[9; 3]).0, expected, "track: column {column}, {value}");
            }
        }
        for circuit in [1, 2, u32::MAX] {
            let mut flights = alike(2, 2);
            flights.movements[7][0] = circuit;
            assert_eq!(couple(&library, &flights, &[9; 2]), (0, vec![0, 1]), "an aeroplane's circuit {circuit}");
            for column in [&mut flights.movements[2], &mut flights.tracks[2]] {
                column.fill(1);
            }
            assert_eq!(couple(&library, &flights, &[9; 2]), (0, vec![1, 2]), "a helicopter's circuit {circuit}");
        }
    });
}

/// Each column of either list shorter and longer than the others by one, with few flights and with none.
#[test]
fn ranges_of_columns() {
    const TELLING: Telling = &[("couple", 40, &["18"]), ("couple", 4, &["0"])];
    directed("ranges_of_columns", TELLING, || {
        let library = Library::from_environment();
        for count in [0, 1, 3] {
            assert_eq!(couple(&library, &alike(count, count), &[9; 3]).0, 0);
            for column in 0..15 {
                for longer in [true, false].into_iter().take(count + 1) {
                    let mut flights = alike(count, count);
                    let Flights { movements, tracks } = &mut flights;
                    let spoilt = movements.iter_mut().chain(tracks).nth(column).expect("there are 15 columns");
                    let value = spoilt.first().copied().unwrap_or(20260331);
                    spoilt.resize(if longer { count + 1 } else { count - 1 }, value);
                    assert_eq!(couple(&library, &flights, &[9; 4]).0, 18, "column {column} of {count}, {longer}");
                    assert_eq!(couple(&library, &flights, &[]).0, 18, "before room: column {column} of {count}");
                }
            }
        }
        assert_eq!(couple(&library, &alike(0, 3), &[9; 3]), (0, vec![9; 3]));
        assert_eq!(couple(&library, &alike(3, 0), &[9; 4]), (0, vec![0, 0, 0, 9]));
    });
}

/// 50,000 and one more of either; room that is exact, and too small by one.
#[test]
fn ranges_of_many_flights() {
    const TELLING: Telling = &[("couple", 3, &["0", "14", "18"])];
    directed("ranges_of_many_flights", TELLING, || {
        let library = Library::from_environment();
        for (movements, tracks, room, expected) in [
            (50_000, 1, 50_000, 0),
            (1, 50_000, 1, 0),
            (50_000, 0, 50_001, 0),
            (50_001, 1, 50_001, 18),
            (1, 50_001, 1, 18),
            (50_001, 0, 0, 18),
            (50_000, 1, 49_999, 14),
            (3, 3, 2, 14),
            (1, 50_000, 0, 14),
            (0, 0, 0, 0),
        ] {
            let answer = couple(&library, &alike(movements, tracks), &vec![9; room]).0;
            assert_eq!(answer, expected, "{movements} movements, {tracks} tracks, room {room}");
        }
    });
}

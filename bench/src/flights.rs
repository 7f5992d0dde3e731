//! Movements and radar tracks.

use crate::inputs::{flights, Flights, SPREADS};
use crate::library::Library;
use crate::timing::{alone, beside, grows, pair};

extern "C" {
    fn baseline_couple(
        movements: *const *const u32,
        circuits: *const u32,
        m: usize,
        tracks: *const *const u32,
        n: usize,
        answer: *mut u32,
    ) -> u32;
}

const MOST: usize = 50_000;
const FEW: usize = 1_000;
const SIZES: [usize; 3] = [5_000, 10_000, MOST];

fn library_tracks(library: &Library, flights: &Flights) -> Vec<u32> {
    let mut answer = vec![0; flights.circuits.len()];
    let [a, b, c, d, e, f, g] = &flights.movements;
    let [i, j, k, l, m, n, o] = &flights.tracks;
    let h = &flights.circuits;
    #[rustfmt::skip]
    // SAFETY: every pointer is lent with its own length.
    let number = unsafe {
        (library.couple)(
            a.as_ptr(), a.len(), b.as_ptr(), b.len(), c.as_ptr(), c.len(), d.as_ptr(), d.len(),
            e.as_ptr(), e.len(), f.as_ptr(), f.len(), g.as_ptr(), g.len(), h.as_ptr(), h.len(),
            i.as_ptr(), i.len(), j.as_ptr(), j.len(), k.as_ptr(), k.len(), l.as_ptr(), l.len(),
            m.as_ptr(), m.len(), n.as_ptr(), n.len(), o.as_ptr(), o.len(), answer.as_mut_ptr(), answer.len(),
        )
    };
    assert_eq!(number, 0, "the call must be accepted");
    answer
}

fn c_tracks(flights: &Flights) -> Vec<u32> {
    let mut answer = vec![0; flights.circuits.len()];
    let movements = flights.movements.each_ref().map(|column| column.as_ptr());
    let tracks = flights.tracks.each_ref().map(|column| column.as_ptr());
    let (circuits, m, n) = (flights.circuits.as_ptr(), flights.circuits.len(), flights.tracks[0].len());
    // SAFETY: every column has as many numbers as there are movements, or tracks.
    let number = unsafe { baseline_couple(movements.as_ptr(), circuits, m, tracks.as_ptr(), n, answer.as_mut_ptr()) };
    assert_eq!(number, 0, "the flights must be accepted");
    answer
}

pub fn couplings(library: &Library) {
    for (name, spread) in SPREADS {
        let flights = flights(MOST, spread);
        let answer = library_tracks(library, &flights);
        assert_eq!(answer, c_tracks(&flights), "both must give the same tracks");
        let taken = answer.iter().filter(|&&place| place > 0).count();
        let times = pair(|| library_tracks(library, &flights), || c_tracks(&flights));
        beside(&format!("tracks of 50,000 movements among 50,000, {name} ({taken} taken)"), times, "C", Some(2.0));
    }
}

pub fn couplings_grow(library: &Library) {
    for (name, spread) in SPREADS {
        let time = |count: usize| {
            let flights = flights(count, spread);
            (count, alone(|| library_tracks(library, &flights)))
        };
        let few = time(FEW);
        for count in SIZES {
            let expected = (count as f64).ln() / (FEW as f64).ln();
            grows(&format!("tracks, {name}, a movement (n·log n: {expected:.2})"), few, time(count));
        }
    }
}

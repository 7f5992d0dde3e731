//! Movements and tracks.

use crate::drawn_flights::Flights;
use crate::lent::{Lent, Made};
use crate::library::Library;
use reference::calls;

/// So many of either are shown where a test fails.
const SHOWN: usize = 400;

fn shown(flights: &Flights) -> String {
    let (movements, tracks) = (flights.movements[0].len(), flights.tracks[0].len());
    if movements.max(tracks) > SHOWN {
        return format!("{movements} movements and {tracks} tracks");
    }
    format!("{flights:?}")
}

/// Asks both for the tracks of the movements; answers with the call's number and the room after it.
pub fn couple(library: &Library, flights: &Flights, answer: &[u32]) -> (u32, Vec<u32>) {
    let mut movements = flights.movements.each_ref().map(|column| Lent::new(column));
    let mut tracks = flights.tracks.each_ref().map(|column| Lent::new(column));
    let (mut room, mut own) = (Lent::new(answer), answer.to_vec());
    let [own_movements @ .., circuits] = flights.movements.each_ref().map(|column| &column[..]);
    let own_tracks = flights.tracks.each_ref().map(|column| &column[..]);
    let reference = calls::couple(own_movements, circuits, own_tracks, &mut own);
    let [a, b, c, d, e, f, g, h] = &mut movements;
    let [i, j, k, l, m, n, o] = &mut tracks;
    #[rustfmt::skip]
    // SAFETY: every pointer is lent with its own length.
    let library = unsafe {
        (library.couple)(
            a.pointer(), a.len(), b.pointer(), b.len(), c.pointer(), c.len(), d.pointer(), d.len(),
            e.pointer(), e.len(), f.pointer(), f.len(), g.pointer(), g.len(), h.pointer(), h.len(),
            i.pointer(), i.len(), j.pointer(), j.len(), k.pointer(), k.len(), l.pointer(), l.len(),
            m.pointer(), m.len(), n.pointer(), n.len(), o.pointer(), o.len(), room.pointer(), room.len(),
        )
    };
    let inputs = || format!("room {}, {}", answer.len(), shown(flights));
    let made = Made { call: "couple", library, reference, inputs: &inputs };
    made.answers_agree().left("answer", answer, &own, &room);
    for (before, lent) in flights.movements.iter().zip(&movements).chain(flights.tracks.iter().zip(&tracks)) {
        made.kept("a column", before, lent);
    }
    (reference, own)
}

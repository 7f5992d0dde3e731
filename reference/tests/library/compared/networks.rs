//! The calls on a network that answer numbers.

use crate::lent::{Lent, Made};
use crate::library::Library;
use reference::calls::{self, ContourRoom};
use reference::network::{Frame, Network};

/// Room for contours: edges, counts, closed, sizes.
pub type Rooms = [Vec<u32>; 4];

/// Asks both for the contours; answers with the call's number and the filled room.
pub fn contours(library: &Library, frame: Frame, levels: &[u32], level: u32, rooms: &Rooms) -> (u32, Rooms) {
    let mut lent = Lent::new(levels);
    let mut own = rooms.clone();
    let [edges, counts, closed, sizes] = &mut own;
    let reference = calls::contours(Network { frame, levels }, level, ContourRoom { edges, counts, closed, sizes });
    let [mut e, mut n, mut c, mut s] = [0, 1, 2, 3].map(|i| Lent::new(&rooms[i]));
    let library = with_network!(
        library.contours,
        frame,
        lent,
        level,
        e.pointer(),
        e.len(),
        n.pointer(),
        n.len(),
        c.pointer(),
        c.len(),
        s.pointer(),
        s.len()
    );
    let inputs = || format!("{frame:?}, level {level}, room {:?}, levels {levels:?}", rooms.each_ref().map(Vec::len));
    let made = Made { call: "contours", library, reference, inputs: &inputs };
    made.answers_agree().kept("levels", levels, &lent);
    for (name, (i, room)) in ["edges", "counts", "closed", "sizes"].iter().zip([e, n, c, s].iter().enumerate()) {
        made.left(name, &rooms[i], &own[i], room);
    }
    (reference, own)
}

/// Which crossings are asked for.
#[derive(Clone, Copy, Debug)]
pub enum Asked<'a> {
    Crossing(u32),
    MapPoint(u32),
    MapPoints(&'a [u32]),
}

/// Asks both for crossings or map points; binary64 numbers are compared by their bits.
pub fn ask(
    library: &Library,
    frame: Frame,
    levels: &[u32],
    level: u32,
    asked: Asked,
    which: &[u32],
    places: &[u64],
) -> u32 {
    let (mut lent, mut room, mut bits) = (Lent::new(levels), Lent::new(which), Lent::new(places));
    let mut own = which.to_vec();
    let mut own_places: Vec<f64> = places.iter().map(|&bits| f64::from_bits(bits)).collect();
    let network = Network { frame, levels };
    let numbers = bits.pointer().cast::<f64>();
    let inputs = || {
        format!("{asked:?} of {frame:?}, level {level}, room {} and {}, levels {levels:?}", which.len(), places.len())
    };
    let (call, library, reference) = match asked {
        Asked::Crossing(edge) => {
            let reference = calls::crossing(network, level, edge, &mut own, &mut own_places);
            let library = with_network!(
                library.crossing,
                frame,
                lent,
                level,
                edge,
                room.pointer(),
                room.len(),
                numbers,
                bits.len()
            );
            ("crossing", library, reference)
        }
        Asked::MapPoint(edge) => {
            let reference = calls::map_point(network, level, edge, &mut own, &mut own_places);
            let library = with_network!(
                library.map_point,
                frame,
                lent,
                level,
                edge,
                room.pointer(),
                room.len(),
                numbers,
                bits.len()
            );
            ("map_point", library, reference)
        }
        Asked::MapPoints(edges) => {
            let mut asked = Lent::new(edges);
            let reference = calls::map_points(network, level, edges, &mut own, &mut own_places);
            let library = with_network!(
                library.map_points,
                frame,
                lent,
                level,
                asked.pointer(),
                asked.len(),
                room.pointer(),
                room.len(),
                numbers,
                bits.len()
            );
            Made { call: "map_points", library, reference, inputs: &inputs }.kept("edges", edges, &asked);
            ("map_points", library, reference)
        }
    };
    let own_bits: Vec<u64> = own_places.iter().map(|place| place.to_bits()).collect();
    let made = Made { call, library, reference, inputs: &inputs };
    made.answers_agree()
        .kept("levels", levels, &lent)
        .left("which", which, &own, &room)
        .left("places", places, &own_bits, &bits);
    reference
}

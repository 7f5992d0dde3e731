//! Networks: contours and their text.

use crate::inputs::{LEVEL, NETWORKS};
use crate::library::Library;
use crate::timing::{alone, beside, grows, line, pair, rate};
use reference::network::{Frame, Network};

const FEW: u32 = 32;
const MOST: u32 = 256;
const SPACING: u32 = 100;

/// A network with room for its contours and their text.
struct Measured {
    side: u32,
    levels: Vec<u32>,
    edges: Vec<u32>,
    counts: Vec<u32>,
    closed: Vec<u32>,
    sizes: [u32; 2],
    text: Vec<u8>,
}

impl Measured {
    fn new(side: u32, levels: Vec<u32>) -> Measured {
        let points = levels.len();
        let room = |length: usize| vec![0; length];
        Measured {
            side,
            levels,
            edges: room(2 * points),
            counts: room(2 * points),
            closed: room(2 * points),
            sizes: [0; 2],
            text: vec![0; 80 * points + 64],
        }
    }

    fn contours(&mut self, library: &Library) {
        let (levels, side) = (&self.levels, self.side);
        let (e, n, c, s) = (&mut self.edges, &mut self.counts, &mut self.closed, &mut self.sizes);
        #[rustfmt::skip]
        // SAFETY: every pointer is lent with its own length.
        let answer = unsafe {
            (library.contours)(
                levels.as_ptr(), levels.len(), side, side, SPACING, 0, 0, LEVEL,
                e.as_mut_ptr(), e.len(), n.as_mut_ptr(), n.len(), c.as_mut_ptr(), c.len(), s.as_mut_ptr(), s.len(),
            )
        };
        assert_eq!(answer, 0, "the call must be accepted");
    }

    /// Writes the text and gives its size.
    fn print(&mut self, library: &Library) -> usize {
        let (levels, side, text, size) = (&self.levels, self.side, &mut self.text, &mut self.sizes);
        #[rustfmt::skip]
        // SAFETY: every pointer is lent with its own length.
        let answer = unsafe {
            (library.print_contours)(
                levels.as_ptr(), levels.len(), side, side, SPACING, 0, 0, LEVEL,
                text.as_mut_ptr(), text.len(), size.as_mut_ptr(), size.len(),
            )
        };
        assert_eq!(answer, 0, "the call must be accepted");
        size[0] as usize
    }
}

const FRAME: Frame = Frame { columns: MOST, rows: MOST, spacing: SPACING, west: 0, south: 0 };

pub fn contours(library: &Library) {
    for (name, make) in NETWORKS {
        let levels = make(MOST);
        let mut own = Measured::new(MOST, levels.clone());
        let other = Network { frame: FRAME, levels: &levels };
        let times = pair(|| own.contours(library), || reference::contour::contours(&other, LEVEL));
        let [edges, lines] = own.sizes;
        beside(&format!("contours, {name}, 256 by 256 ({edges} edges, {lines} contours)"), times, "Rust", Some(1.0));
    }
}

pub fn texts(library: &Library) {
    for (name, make) in NETWORKS {
        let levels = make(MOST);
        let mut own = Measured::new(MOST, levels.clone());
        let other = Network { frame: FRAME, levels: &levels };
        let bytes = own.print(library);
        let times = pair(|| own.print(library), || reference::wkt::print(&other, LEVEL));
        let beside = format!("Rust {}", rate(bytes, times.1));
        line(
            &format!("text of contours, {name} ({bytes} bytes)"),
            &rate(bytes, times.0),
            &beside,
            times.0 / times.1,
            None,
        );
    }
}

pub fn contours_grow(library: &Library) {
    for (name, make) in NETWORKS {
        let contours = |side: u32| {
            let mut own = Measured::new(side, make(side));
            (own.levels.len(), alone(|| own.contours(library)))
        };
        grows(&format!("contours, {name}, a point"), contours(FEW), contours(MOST));
    }
}

pub fn text_grows(library: &Library) {
    for (name, make) in NETWORKS {
        let text = |side: u32| {
            let mut own = Measured::new(side, make(side));
            (own.levels.len(), alone(|| own.print(library)))
        };
        grows(&format!("text of contours, {name}, a point"), text(FEW), text(MOST));
    }
}

/// Writes each network of 256 by 256 as numbers, one a line, for other programs to measure.
pub fn write(folder: &str) {
    for (name, make) in NETWORKS {
        let lines: Vec<String> = make(MOST).iter().map(u32::to_string).collect();
        std::fs::write(format!("{folder}/{name}"), lines.join("\n")).expect("the network is written");
    }
}

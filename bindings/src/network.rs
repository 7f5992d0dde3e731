//! Networks of levels, their contours, the places of crossings and their texts.

use crate::large_stack::on_a_large_stack;
use crate::raw;
use crate::refusal::{Answer, Refusal};

/// Columns and rows of a network, its spacing and its south-west point in metres.
#[derive(Clone, Copy, Debug, PartialEq, Eq)]
pub struct Frame {
    pub columns: u32,
    pub rows: u32,
    pub spacing: u32,
    pub west: u32,
    pub south: u32,
}

/// A network: its levels row by row from the south, west to east.
#[derive(Clone, Copy, Debug, PartialEq, Eq)]
pub struct Network<'a> {
    /// Thousandths of a dB, 0 to 150,000: 45.001 dB is 45001.
    pub levels: &'a [u32],
    pub frame: Frame,
}

/// How many edges all contours list, and how many contours there are.
#[derive(Clone, Copy, Debug, PartialEq, Eq)]
pub struct Sizes {
    pub edges: usize,
    pub contours: usize,
}

/// Which kind of edge is crossed.
#[derive(Clone, Copy, Debug, PartialEq, Eq)]
pub enum Along {
    Horizontal,
    Vertical,
}

impl Along {
    fn of(which: u32) -> Option<Along> {
        [None, Some(Along::Horizontal), Some(Along::Vertical)].get(which as usize).copied().flatten()
    }
}

/// Calls a function of the header with a network, numbers, slices to read and slices to write to.
macro_rules! with_network {
    ($name:ident, $network:expr, [$($number:expr),*], [$($given:expr),*], [$($room:expr),*]) => {{
        let Frame { columns, rows, spacing, west, south } = $network.frame;
        let (levels, count) = ($network.levels.as_ptr(), $network.levels.len());
        // SAFETY: each slice is lent with its own length, and those that are written to are borrowed for that alone.
        Refusal::of(unsafe {
            raw::$name(
                levels, count, columns, rows, spacing, west, south, $($number,)*
                $($given.as_ptr(), $given.len(),)* $($room.as_mut_ptr(), $room.len(),)*
            )
        })
    }};
}

impl Network<'_> {
    /// The contours at a level in thousandths of a dB, 1 to 150,000: `edges` gets their edge numbers, contour after
    /// contour, `counts` how many each has and `closed` 0 or 1 for each. No answer has more edges than the network.
    pub fn contours(&self, level: u32, edges: &mut [u32], counts: &mut [u32], closed: &mut [u32]) -> Answer<Sizes> {
        let mut sizes = [0; 2];
        on_a_large_stack(|| with_network!(okubinrafo_contours, self, [level], [], [edges, counts, closed, sizes]))?;
        Ok(Sizes { edges: sizes[0] as usize, contours: sizes[1] as usize })
    }

    /// The contours at a level in thousandths of a dB, 1 to 150,000, as well-known text, written into `text`.
    pub fn print_contours<'t>(&self, level: u32, text: &'t mut [u8]) -> Answer<&'t [u8]> {
        let mut size = [0];
        on_a_large_stack(|| with_network!(okubinrafo_print_contours, self, [level], [], [text, size]))?;
        Ok(&text[..size[0] as usize])
    }

    /// Where the contour at a level in thousandths of a dB, 1 to 150,000, crosses an edge, as a fraction from its west
    /// or south end; None where it doesn't.
    pub fn crossing(&self, level: u32, edge: u32) -> Answer<Option<(Along, f64)>> {
        let (mut which, mut fraction) = ([0], [0.0]);
        with_network!(okubinrafo_crossing, self, [level, edge], [], [which, fraction])?;
        Ok(Along::of(which[0]).map(|along| (along, fraction[0])))
    }

    /// The place of a crossing in metres, x and y, at a level in thousandths of a dB, 1 to 150,000; None where the edge
    /// isn't crossed.
    pub fn map_point(&self, level: u32, edge: u32) -> Answer<Option<[f64; 2]>> {
        let (mut which, mut place) = ([0], [0.0; 2]);
        with_network!(okubinrafo_map_point, self, [level, edge], [], [which, place])?;
        Ok(Along::of(which[0]).map(|_| place))
    }

    /// The places of many edges at a level in thousandths of a dB, 1 to 150,000: `which` gets one number an edge (0
    /// where it isn't crossed), `places` x and y of each.
    pub fn map_points(&self, level: u32, edges: &[u32], which: &mut [u32], places: &mut [f64]) -> Answer<()> {
        with_network!(okubinrafo_map_points, self, [level], [edges], [which, places])
    }

    /// The network as the text of an Esri ASCII grid, each level with three decimals, written into `text`.
    pub fn write<'t>(&self, text: &'t mut [u8]) -> Answer<&'t [u8]> {
        let mut size = [0];
        with_network!(okubinrafo_write_network, self, [], [], [text, size])?;
        Ok(&text[..size[0] as usize])
    }
}

/// Reads the text of an Esri ASCII grid, whose values have two or three decimals: its levels, in thousandths of a dB,
/// into `levels`, at most 65,536 of them.
pub fn read_network<'a>(text: &[u8], levels: &'a mut [u32]) -> Answer<Network<'a>> {
    let mut header = [0; 5];
    let (room, many) = (levels.as_mut_ptr(), levels.len());
    // SAFETY: each slice is lent with its own length, and those that are written to are borrowed for that alone.
    Refusal::of(unsafe {
        raw::okubinrafo_read_network(text.as_ptr(), text.len(), header.as_mut_ptr(), header.len(), room, many)
    })?;
    let [columns, rows, spacing, west, south] = header;
    let frame = Frame { columns, rows, spacing, west, south };
    Ok(Network { levels: &levels[..(columns * rows) as usize], frame })
}

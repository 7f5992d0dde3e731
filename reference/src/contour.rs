//! The contours of a network (RULES, Network and contours).
//!
//! A square's sides are numbered south, east, north, west and its corners from the south-west anticlockwise, so that
//! side s runs from corner s to corner s+1. With the in end on its left, a line enters a square by a side whose corner
//! s is in and whose corner s+1 is out, and leaves it by one where it is the other way around.

use crate::network::{Along, Edge, Frame, Network};

/// Edge numbers, contour after contour; for each contour its count and whether it closes.
#[derive(Clone, Debug, Default, PartialEq, Eq)]
pub struct Contours {
    pub edges: Vec<u32>,
    pub counts: Vec<u32>,
    pub closed: Vec<bool>,
}

impl Contours {
    /// The contours one by one.
    pub fn lines(&self) -> impl Iterator<Item = (&[u32], bool)> {
        let mut rest = &self.edges[..];
        self.counts.iter().zip(&self.closed).map(move |(&count, &closed)| {
            let (line, after) = rest.split_at(count as usize);
            rest = after;
            (line, closed)
        })
    }
}

const SOUTH: usize = 0;
const EAST: usize = 1;
const NORTH: usize = 2;
const WEST: usize = 3;

/// A crossing as it enters a square (named by its south-west point) over one of the square's sides.
#[derive(Clone, Copy)]
struct Entry {
    row: u32,
    column: u32,
    side: usize,
}

struct Tracer<'a> {
    network: &'a Network<'a>,
    level: u32,
    inside: Vec<bool>,
    listed: Vec<bool>,
    found: Contours,
}

/// The contours at a level; the network and the level are in range.
pub fn contours(network: &Network, level: u32) -> Contours {
    let frame = network.frame;
    let inside = network.levels.iter().map(|&own| own >= level).collect();
    let mut tracer =
        Tracer { network, level, inside, listed: vec![false; frame.edges() as usize], found: Contours::default() };
    // Open contours by the border edge where they enter; what is left is closed, by its lowest edge.
    border(&frame).for_each(|edge| tracer.trace_if_new(edge));
    all(&frame).for_each(|edge| tracer.trace_if_new(edge));
    tracer.found
}

/// The edges in the order of their numbers.
fn all(frame: &Frame) -> impl Iterator<Item = Edge> {
    let Frame { columns, rows, .. } = *frame;
    let horizontal = (0..rows)
        .flat_map(move |row| (0..columns - 1).map(move |column| Edge { along: Along::Horizontal, row, column }));
    let vertical =
        (0..rows - 1).flat_map(move |row| (0..columns).map(move |column| Edge { along: Along::Vertical, row, column }));
    horizontal.chain(vertical)
}

/// The border edges in the order of their numbers.
fn border(frame: &Frame) -> impl Iterator<Item = Edge> {
    let Frame { columns, rows, .. } = *frame;
    let along_row = move |row| (0..columns - 1).map(move |column| Edge { along: Along::Horizontal, row, column });
    let both_sides = move |row| [0, columns - 1].map(|column| Edge { along: Along::Vertical, row, column });
    along_row(0).chain(along_row(rows - 1)).chain((0..rows - 1).flat_map(both_sides))
}

impl Tracer<'_> {
    fn trace_if_new(&mut self, edge: Edge) {
        if let Some(entry) = self.entered(edge) {
            if !self.listed[self.network.frame.number(edge) as usize] {
                self.trace(edge, entry);
            }
        }
    }

    /// Lists the contour that begins with this crossing, up to the border or once around.
    fn trace(&mut self, start: Edge, entry: Entry) {
        let listed_before = self.found.edges.len();
        self.list(start);
        let mut edge = self.exit(entry);
        while edge != start {
            self.list(edge);
            let Some(entry) = self.entered(edge) else { break };
            edge = self.exit(entry);
        }
        self.found.counts.push((self.found.edges.len() - listed_before) as u32);
        self.found.closed.push(edge == start);
    }

    fn list(&mut self, edge: Edge) {
        let number = self.network.frame.number(edge);
        self.listed[number as usize] = true;
        self.found.edges.push(number);
    }

    /// The square that an edge's crossing enters; none where the edge isn't crossed or its line leaves the network.
    fn entered(&self, Edge { along, row, column }: Edge) -> Option<Entry> {
        let Frame { columns, rows, .. } = self.network.frame;
        let near = (row * columns + column) as usize;
        let far = near + if along == Along::Horizontal { 1 } else { columns as usize };
        if self.inside[near] == self.inside[far] {
            return None;
        }
        let (row, column, side) = match (along, self.inside[near]) {
            (Along::Horizontal, true) => (row, column, SOUTH),
            (Along::Horizontal, false) => (row.checked_sub(1)?, column, NORTH),
            (Along::Vertical, true) => (row, column.checked_sub(1)?, EAST),
            (Along::Vertical, false) => (row, column, WEST),
        };
        (row < rows - 1 && column < columns - 1).then_some(Entry { row, column, side })
    }

    /// The edge by which a line that enters here leaves the square.
    fn exit(&self, entry: Entry) -> Edge {
        let corners = self.corners(entry);
        let [next, opposite, last] = [1, 2, 3].map(|turn| (entry.side + turn) % 4);
        let side = match (corners[opposite], corners[last]) {
            (true, true) => next,
            (false, true) => opposite,
            (false, false) => last,
            // Four crossed edges: around the out corner on the right, or around the in corner on the left.
            (true, false) if self.corner_sum(entry) >= 4 * self.level => next,
            (true, false) => last,
        };
        let Entry { row, column, .. } = entry;
        match side {
            SOUTH => Edge { along: Along::Horizontal, row, column },
            EAST => Edge { along: Along::Vertical, row, column: column + 1 },
            NORTH => Edge { along: Along::Horizontal, row: row + 1, column },
            _ => Edge { along: Along::Vertical, row, column },
        }
    }

    fn corners(&self, Entry { row, column, .. }: Entry) -> [bool; 4] {
        let columns = self.network.frame.columns as usize;
        let south_west = row as usize * columns + column as usize;
        let (south, north) = (&self.inside[south_west..][..2], &self.inside[south_west + columns..][..2]);
        [south[0], south[1], north[1], north[0]]
    }

    fn corner_sum(&self, Entry { row, column, .. }: Entry) -> u32 {
        let level = |up, right| self.network.level(row + up, column + right);
        level(0, 0) + level(0, 1) + level(1, 1) + level(1, 0)
    }
}

#[cfg(test)]
mod tests {
    use super::*;
    use crate::network::tests::{FRAME, HILL};

    fn traced(columns: u32, rows: u32, levels: &[u32], level: u32) -> Contours {
        let frame = Frame { columns, rows, ..FRAME };
        contours(&Network { frame, levels }, level)
    }

    #[test]
    fn the_documents_hill() {
        let found = traced(3, 3, &HILL, 45_000);
        assert_eq!(found, Contours { edges: vec![2, 7, 3, 10], counts: vec![4], closed: vec![true] });
        assert_eq!(traced(3, 3, &HILL, 40_000), Contours::default());
    }

    #[test]
    fn a_saddle_is_joined_by_its_sum() {
        // In at the south-west and north-east corners. Edges: south 0, north 1, west 2, east 3.
        let open = |edges: [u32; 4]| Contours { edges: edges.into(), counts: vec![2, 2], closed: vec![false, false] };
        assert_eq!(traced(2, 2, &[10, 0, 0, 10], 5), open([0, 3, 1, 2]), "sum 20 = 4v: around the out corners");
        assert_eq!(traced(2, 2, &[10, 0, 0, 9], 5), open([0, 2, 1, 3]), "sum 19 < 4v: around the in corners");
    }

    #[test]
    fn lines_head_with_the_in_end_on_their_left() {
        let northward = traced(2, 2, &[9, 0, 9, 0], 5);
        assert_eq!((northward.edges, northward.closed), (vec![0, 1], vec![false]));
        assert_eq!(traced(2, 2, &[0, 9, 0, 9], 5).edges, [1, 0]);
        assert_eq!(traced(2, 2, &[0, 0, 9, 9], 5).edges, [2, 3]);
        assert_eq!(traced(2, 2, &[9, 9, 0, 0], 5).edges, [3, 2]);
    }

    #[test]
    fn open_contours_come_first_and_every_crossing_is_listed_once() {
        let levels: Vec<u32> = (0..64).map(|point| (point * 37 + point / 8 * 11) % 23).collect();
        let frame = Frame { columns: 8, rows: 8, ..FRAME };
        let network = Network { frame, levels: &levels };
        let found = contours(&network, 11);
        let mut listed = found.edges.clone();
        listed.sort_unstable();
        let crossed: Vec<u32> =
            (0..frame.edges()).filter(|&edge| network.crossed(frame.edge(edge).unwrap(), 11).is_some()).collect();
        assert_eq!(listed, crossed);
        assert!(found.closed.windows(2).all(|pair| pair[0] <= pair[1]));
        let starts: Vec<u32> = found.lines().filter(|line| line.1).map(|(edges, _)| edges[0]).collect();
        assert!(starts.windows(2).all(|pair| pair[0] < pair[1]));
        assert!(found.lines().filter(|line| line.1).all(|(edges, _)| edges.iter().min() == edges.first()));
    }
}

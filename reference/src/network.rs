//! A network of computed levels, its points and its edges (RULES, Network and contours).

use crate::{ensure, Answer, Refusal};

/// In thousandths of a dB, as every level of a network or of contours.
pub const MAX_NETWORK_LEVEL: u32 = 150_000;
const MIN_SIDE: u32 = 2;
const MAX_SIDE: u32 = 256;
const MAX_SPACING: u32 = 500;
const MAX_ORIGIN: u32 = 900_000;

#[derive(Clone, Copy, Debug, PartialEq, Eq)]
pub struct Frame {
    pub columns: u32,
    pub rows: u32,
    pub spacing: u32,
    pub west: u32,
    pub south: u32,
}

impl Frame {
    /// 12, but for the count of values.
    pub fn check(&self) -> Answer<()> {
        let side = MIN_SIDE..=MAX_SIDE;
        let sizes = side.contains(&self.columns) && side.contains(&self.rows);
        let placed = (1..=MAX_SPACING).contains(&self.spacing) && self.west <= MAX_ORIGIN && self.south <= MAX_ORIGIN;
        ensure(sizes && placed, Refusal::Network)
    }

    pub fn points(&self) -> usize {
        self.columns as usize * self.rows as usize
    }

    pub fn horizontal_edges(&self) -> u32 {
        self.rows * (self.columns - 1)
    }

    pub fn edges(&self) -> u32 {
        self.horizontal_edges() + (self.rows - 1) * self.columns
    }

    /// The edge of a number, if there is one.
    pub fn edge(&self, number: u32) -> Option<Edge> {
        let place = |number: u32, width: u32| (number / width, number % width);
        if number >= self.edges() {
            None
        } else if number < self.horizontal_edges() {
            let (row, column) = place(number, self.columns - 1);
            Some(Edge { along: Along::Horizontal, row, column })
        } else {
            let (row, column) = place(number - self.horizontal_edges(), self.columns);
            Some(Edge { along: Along::Vertical, row, column })
        }
    }

    pub fn number(&self, edge: Edge) -> u32 {
        match edge.along {
            Along::Horizontal => edge.row * (self.columns - 1) + edge.column,
            Along::Vertical => self.horizontal_edges() + edge.row * self.columns + edge.column,
        }
    }
}

#[derive(Clone, Copy, Debug, PartialEq, Eq)]
pub enum Along {
    Horizontal,
    Vertical,
}

/// An edge by its west or south end.
#[derive(Clone, Copy, Debug, PartialEq, Eq)]
pub struct Edge {
    pub along: Along,
    pub row: u32,
    pub column: u32,
}

#[derive(Clone, Copy, Debug)]
pub struct Network<'a> {
    pub frame: Frame,
    pub levels: &'a [u32],
}

impl Network<'_> {
    /// 12, then 13.
    pub fn check(&self) -> Answer<()> {
        self.frame.check()?;
        ensure(self.levels.len() == self.frame.points(), Refusal::Network)?;
        ensure(self.levels.iter().all(|&level| level <= MAX_NETWORK_LEVEL), Refusal::NetworkLevel)
    }

    /// 12, 13, then 15.
    pub fn check_contour(&self, level: u32) -> Answer<()> {
        self.check()?;
        ensure((1..=MAX_NETWORK_LEVEL).contains(&level), Refusal::Range)
    }

    pub fn level(&self, row: u32, column: u32) -> u32 {
        self.levels[(row * self.frame.columns + column) as usize]
    }

    /// The levels at the west or south end and at the other end.
    pub fn ends(&self, edge: Edge) -> (u32, u32) {
        let other = match edge.along {
            Along::Horizontal => self.level(edge.row, edge.column + 1),
            Along::Vertical => self.level(edge.row + 1, edge.column),
        };
        (self.level(edge.row, edge.column), other)
    }

    /// num and den of the place where a crossed edge is crossed; none where it isn't.
    pub fn crossed(&self, edge: Edge, level: u32) -> Option<(u32, u32)> {
        let (a, b) = self.ends(edge);
        ((a >= level) != (b >= level)).then(|| (level.abs_diff(a), b.abs_diff(a)))
    }
}

#[cfg(test)]
pub(crate) mod tests {
    use super::*;

    pub const HILL: [u32; 9] = [40_000, 40_000, 40_000, 40_000, 50_000, 40_000, 40_000, 40_000, 40_000];
    pub const FRAME: Frame = Frame { columns: 3, rows: 3, spacing: 100, west: 0, south: 0 };

    #[test]
    fn edges_are_numbered_as_the_document_says() {
        let frame = Frame { columns: 4, ..FRAME };
        assert_eq!((frame.horizontal_edges(), frame.edges()), (9, 17));
        assert_eq!(frame.edge(4), Some(Edge { along: Along::Horizontal, row: 1, column: 1 }));
        assert_eq!(frame.edge(14), Some(Edge { along: Along::Vertical, row: 1, column: 1 }));
        assert_eq!(frame.edge(17), None);
        assert!((0..17).all(|number| frame.number(frame.edge(number).unwrap()) == number));
    }

    #[test]
    fn wrong_networks_are_refused_in_order() {
        let hill = |frame| Network { frame, levels: &HILL };
        assert_eq!(hill(FRAME).check(), Ok(()));
        assert_eq!(hill(Frame { spacing: 500, west: 900_000, south: 900_000, ..FRAME }).check(), Ok(()));
        for frame in [
            Frame { columns: 1, rows: 9, ..FRAME },
            Frame { columns: 2, ..FRAME },
            Frame { columns: 257, ..FRAME },
            Frame { spacing: 0, ..FRAME },
            Frame { spacing: 501, ..FRAME },
            Frame { west: 900_001, ..FRAME },
            Frame { south: 900_001, ..FRAME },
        ] {
            assert_eq!(hill(frame).check(), Err(Refusal::Network), "{frame:?}");
        }
    }

    #[test]
    fn levels_at_the_ends_of_their_ranges() {
        for (highest, expected) in [(0, true), (1, true), (149_999, true), (150_000, true), (150_001, false)] {
            let mut levels = HILL;
            levels[8] = highest;
            let network = Network { frame: FRAME, levels: &levels };
            let judged = if expected { Ok(()) } else { Err(Refusal::NetworkLevel) };
            assert_eq!((network.check(), network.check_contour(1)), (judged, judged), "{highest}");
        }
        let (hill, high) = (Network { frame: FRAME, levels: &HILL }, Network { frame: FRAME, levels: &[150_001; 9] });
        assert_eq!(high.check_contour(0), Err(Refusal::NetworkLevel), "13 before 15");
        for (level, expected) in [(0, false), (1, true), (149_999, true), (150_000, true), (150_001, false)] {
            assert_eq!(hill.check_contour(level).is_ok(), expected, "{level}");
        }
        assert_eq!((hill.check_contour(0), hill.check_contour(150_001)), (Err(Refusal::Range), Err(Refusal::Range)));
    }

    #[test]
    fn a_point_at_exactly_v_is_in() {
        let network = Network { frame: FRAME, levels: &HILL };
        let edge = FRAME.edge(2).unwrap();
        assert_eq!(network.crossed(edge, 50_000), Some((10_000, 10_000)));
        assert_eq!(network.crossed(edge, 40_001), Some((1, 10_000)));
        assert_eq!(network.crossed(edge, 40_000), None);
        assert_eq!(network.crossed(edge, 50_001), None);
    }
}

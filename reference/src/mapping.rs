//! Crossings and map points in binary64 (RULES, Network and contours).

use crate::network::{Along, Network};

#[derive(Clone, Copy, Debug, PartialEq)]
pub enum Crossing {
    None,
    Horizontal(f64),
    Vertical(f64),
}

impl Crossing {
    /// The number that stands for the case in an answer.
    pub fn which(self) -> u32 {
        match self {
            Crossing::None => 0,
            Crossing::Horizontal(_) => 1,
            Crossing::Vertical(_) => 2,
        }
    }

    pub fn fraction(self) -> f64 {
        match self {
            Crossing::None => 0.0,
            Crossing::Horizontal(fraction) | Crossing::Vertical(fraction) => fraction,
        }
    }
}

#[derive(Clone, Copy, Debug, PartialEq)]
pub struct MapPoint {
    pub x: f64,
    pub y: f64,
}

/// The crossing of the edge of a number; none where that edge isn't there or isn't crossed.
pub fn crossing(network: &Network, level: u32, number: u32) -> Crossing {
    let Some(edge) = network.frame.edge(number) else {
        return Crossing::None;
    };
    let Some((num, den)) = network.crossed(edge, level) else {
        return Crossing::None;
    };
    let fraction = f64::from(num) / f64::from(den);
    match edge.along {
        Along::Horizontal => Crossing::Horizontal(fraction),
        Along::Vertical => Crossing::Vertical(fraction),
    }
}

/// The crossing and its place on the map, (0, 0) for none.
pub fn map_point(network: &Network, level: u32, number: u32) -> (Crossing, MapPoint) {
    let found = crossing(network, level, number);
    let frame = network.frame;
    let exact = |index: u32, origin: u32| f64::from(index * frame.spacing + origin);
    let moving = |index: u32, fraction: f64, origin: u32| {
        ((f64::from(index) + fraction) * f64::from(frame.spacing)) + f64::from(origin)
    };
    let place = match (found, frame.edge(number)) {
        (Crossing::Horizontal(fraction), Some(edge)) => {
            MapPoint { x: moving(edge.column, fraction, frame.west), y: exact(edge.row, frame.south) }
        }
        (Crossing::Vertical(fraction), Some(edge)) => {
            MapPoint { x: exact(edge.column, frame.west), y: moving(edge.row, fraction, frame.south) }
        }
        _ => MapPoint { x: 0.0, y: 0.0 },
    };
    (found, place)
}

#[cfg(test)]
mod tests {
    use super::*;
    use crate::network::tests::{FRAME, HILL};
    use crate::network::Frame;

    #[test]
    fn the_documents_hill() {
        let network = Network { frame: Frame { west: 1000, south: 2000, ..FRAME }, levels: &HILL };
        assert_eq!(map_point(&network, 45_000, 2), (Crossing::Horizontal(0.5), MapPoint { x: 1050.0, y: 2100.0 }));
        assert_eq!(map_point(&network, 45_000, 10), (Crossing::Vertical(0.5), MapPoint { x: 1100.0, y: 2150.0 }));
        assert_eq!(crossing(&network, 45_000, 0), Crossing::None);
        assert_eq!(map_point(&network, 45_000, 12), (Crossing::None, MapPoint { x: 0.0, y: 0.0 }));
        assert_eq!(crossing(&network, 45_000, u32::MAX), Crossing::None);
    }

    #[test]
    fn fractions_reach_both_ends() {
        let network = Network { frame: FRAME, levels: &HILL };
        assert_eq!(crossing(&network, 50_000, 2), Crossing::Horizontal(1.0));
        assert_eq!(crossing(&network, 50_000, 3), Crossing::Horizontal(0.0));
        assert_eq!(crossing(&network, 40_001, 2), Crossing::Horizontal(0.0001));
    }
}

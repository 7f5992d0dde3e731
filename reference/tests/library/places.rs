//! Places where another rule gives other bits or digits: the order of a map point's operations, and printed halves.

use crate::compared::{ask, contours, write, Asked, Written};
use crate::library::Library;
use crate::rounds::{directed, saw, Telling};
use reference::mapping::map_point;
use reference::network::{Frame, Network};

/// A finite binary64 number that no answer has, by its bits.
const OLD_PLACE: u64 = 0x40c8_1cd6_e631_f8a1;

/// An edge that is crossed at `level` between ends of levels `from` and `to`, and the bits of its moving coordinate.
#[derive(Clone, Copy)]
struct Crossed {
    index: u32,
    spacing: u32,
    origin: u32,
    from: u32,
    to: u32,
    level: u32,
    bits: u64,
}

/// On each of these every other order of operations gives other bits. Looked for; the bits come from exact fractions,
/// rounded once a step.
const CROSSED: [Crossed; 4] = [
    Crossed { index: 1, spacing: 3, origin: 7, from: 50_600, to: 52_780, level: 51_100, bits: 0x4025_604b_27ed_3604 },
    Crossed {
        index: 6,
        spacing: 500,
        origin: 847_243,
        from: 134_890,
        to: 140_130,
        level: 137_740,
        bits: 0x4129_f4a5_e4a4_2716,
    },
    Crossed {
        index: 9,
        spacing: 211,
        origin: 123_457,
        from: 76_180,
        to: 131_440,
        level: 86_190,
        bits: 0x40fe_9d23_8a84_1f80,
    },
    Crossed {
        index: 6,
        spacing: 302,
        origin: 222_985,
        from: 31_799,
        to: 97_852,
        level: 40_073,
        bits: 0x410b_7216_a2b1_6faa,
    },
];

impl Crossed {
    /// What the other orders of operations give, one of them with a fused step and one that divides last.
    fn other_orders(self) -> [f64; 5] {
        let [index, spacing, origin] = [self.index, self.spacing, self.origin].map(f64::from);
        let (num, den) = (f64::from(self.level.abs_diff(self.from)), f64::from(self.to.abs_diff(self.from)));
        let fraction = num / den;
        [
            (index * spacing + fraction * spacing) + origin,
            index * spacing + (fraction * spacing + origin),
            (index * spacing + origin) + fraction * spacing,
            (index + fraction).mul_add(spacing, origin),
            (index * spacing + origin) + (num * spacing) / den,
        ]
    }
}

#[test]
fn order_of_operations() {
    const TELLING: Telling =
        &[("map_point", 6, &["0", "bits of another order differ"]), ("map_points", 6, &["0"]), ("crossing", 6, &["0"])];
    directed("order_of_operations", TELLING, || {
        let library = Library::from_environment();
        for crossed in CROSSED {
            let Crossed { index, spacing, origin, from, to, level, bits } = crossed;
            assert!(
                crossed.other_orders().iter().all(|place| place.to_bits() != bits),
                "the case tells the orders apart"
            );
            let (length, other) = (index + 2, 41);
            let ends = |along: u32| if along == index { from } else { to };
            // Along the south row, and then up the west column.
            let lying = Frame { columns: length, rows: 2, spacing, west: origin, south: other };
            let standing = Frame { columns: 2, rows: length, spacing, west: other, south: origin };
            let lying_levels: Vec<u32> = (0..2 * length).map(|point| ends(point % length)).collect();
            let standing_levels: Vec<u32> = (0..2 * length).map(|point| ends(point / 2)).collect();
            let upward = standing.horizontal_edges() + 2 * index;
            for (frame, levels, edge) in [(lying, lying_levels, index), (standing, standing_levels, upward)] {
                let (_, place) = map_point(&Network { frame, levels: &levels }, level, edge);
                let (moving, exact) = if edge == index { (place.x, place.y) } else { (place.y, place.x) };
                assert_eq!((moving.to_bits(), exact), (bits, f64::from(other)), "the reference's place");
                let asked = |asked: Asked, places: usize| {
                    ask(&library, frame, &levels, level, asked, &[9], &vec![OLD_PLACE; places])
                };
                assert_eq!(asked(Asked::Crossing(edge), 1), 0);
                assert_eq!(asked(Asked::MapPoint(edge), 2), 0);
                assert_eq!(asked(Asked::MapPoints(&[edge]), 2), 0);
                saw("map_point", "bits of another order differ");
            }
        }
    });
}

/// The text that both sides print, which has to be this one.
fn prints(library: &Library, frame: Frame, levels: &[u32], level: u32, expected: &str) {
    let (answer, text, size) = write(library, Written::Contours { frame, levels, level }, &[b'#'; 400], &[0]);
    assert_eq!((answer, std::str::from_utf8(&text[..size[0] as usize])), (0, Ok(expected)));
}

/// Two lines, west unlike south, and crossings a sixteenth of a metre from both ends: 62.5 and 937.5 mm go up.
#[test]
fn printed_halves_on_two_lines() {
    directed("printed_halves_on_two_lines", &[("print_contours", 3, &["0"])], || {
        let library = Library::from_environment();
        let frame = Frame { columns: 2, rows: 2, spacing: 1, west: 7, south: 900_000 };
        let saddle = [16, 0, 0, 16];
        let around_the_out_corners =
            "MULTILINESTRING ((7.938 900000.000, 8.000 900000.063), (7.063 900001.000, 7.000 900000.938))";
        prints(&library, frame, &saddle, 1, around_the_out_corners);
        let around_the_in_corners =
            "MULTILINESTRING ((7.063 900000.000, 7.000 900000.063), (7.938 900001.000, 8.000 900000.938))";
        prints(&library, frame, &saddle, 15, around_the_in_corners);
        // The sum is 4v itself: around the out corners.
        prints(
            &library,
            frame,
            &saddle,
            8,
            "MULTILINESTRING ((7.500 900000.000, 8.000 900000.500), (7.500 900001.000, 7.000 900000.500))",
        );
    });
}

/// An open line comes before closed ones, though a closed one has the lowest edge; a point at v itself is in.
#[test]
fn open_lines_before_closed_ones() {
    directed("open_lines_before_closed_ones", &[("contours", 1, &["0"]), ("print_contours", 1, &["0"])], || {
        let library = Library::from_environment();
        let frame = Frame { columns: 5, rows: 4, spacing: 10, west: 100, south: 0 };
        #[rustfmt::skip]
        let levels = [
            0, 0, 0, 0, 0,
            0, 9, 0, 9, 0,
            0, 0, 0, 0, 0,
            9, 9, 9, 9, 9,
        ];
        // The closed ones begin at edges 4 and 6; the open one enters at the vertical edge 26, from the west.
        let rooms = [vec![0; 31], vec![0; 31], vec![0; 31], vec![0; 2]];
        let (answer, [edges, counts, closed, sizes]) = contours(&library, frame, &levels, 9, &rooms);
        assert_eq!((answer, sizes), (0, vec![13, 3]));
        assert_eq!(edges[..13], [26, 27, 28, 29, 30, 4, 17, 5, 22, 6, 19, 7, 24]);
        assert_eq!((&counts[..3], &closed[..3]), (&[5, 4, 4][..], &[0, 1, 1][..]));
        let expected =
            "MULTILINESTRING ((100.000 30.000, 110.000 30.000, 120.000 30.000, 130.000 30.000, 140.000 30.000), \
            (110.000 10.000, 110.000 10.000, 110.000 10.000, 110.000 10.000, 110.000 10.000), \
            (130.000 10.000, 130.000 10.000, 130.000 10.000, 130.000 10.000, 130.000 10.000))";
        prints(&library, frame, &levels, 9, expected);
    });
}

/// A thousandth decides whether a point is in and how a saddle is joined, and moves a line by millimetres.
#[test]
fn the_third_decimal_counts() {
    directed("the_third_decimal_counts", &[("print_contours", 7, &["0"])], || {
        let library = Library::from_environment();
        let frame = Frame { columns: 2, rows: 2, spacing: 500, west: 0, south: 0 };
        let (step, cliff) = ([45_004, 45_005, 45_004, 45_005], [0, 150_000, 0, 150_000]);
        let (even, under) = ([45_010, 44_990, 44_990, 45_010], [45_010, 44_990, 44_990, 45_009]);
        for (levels, level, lines) in [
            (step, 45_004, "EMPTY"),
            (step, 45_005, "((500.000 500.000, 500.000 0.000))"),
            (step, 45_006, "EMPTY"),
            (cliff, 1, "((0.003 500.000, 0.003 0.000))"),
            (cliff, 149_999, "((499.997 500.000, 499.997 0.000))"),
            (even, 45_000, "((250.000 0.000, 500.000 250.000), (250.000 500.000, 0.000 250.000))"),
            (under, 45_000, "((250.000 0.000, 0.000 250.000), (263.158 500.000, 500.000 263.158))"),
        ] {
            prints(&library, frame, &levels, level, &format!("MULTILINESTRING {lines}"));
        }
    });
}

//! The rules' own numbers through the library: examples/document gives the level 56.66, which is over 56.65.

use okubinrafo::{couple, name_number, read_network, read_row, write_row};
use okubinrafo::{Account, Along, Book, Flights, Frame, Group, Network, Refusal, Row, Sizes, GROUPS, ROW_BYTES};

const ROWS: usize = 10;
const POINTS: usize = 1;
const EVERYWHERE: [u32; POINTS] = [1; POINTS];
/// In thousandths of a dB, as the levels of its contours.
const HILL: [u32; 9] = [40_000, 40_000, 40_000, 40_000, 50_000, 40_000, 40_000, 40_000, 40_000];
const FRAME: Frame = Frame { columns: 3, rows: 3, spacing: 100, west: 0, south: 0 };

/// The columns that a book is lent.
#[derive(Default, Clone, PartialEq, Debug)]
struct Columns {
    identities: [u32; ROWS],
    groups: [u32; ROWS],
    marks: [u32; ROWS],
    counts: [u32; ROWS * POINTS],
    levels: [u32; ROWS * POINTS],
}

impl Columns {
    fn book(&mut self) -> Book<'_> {
        let Columns { identities, groups, marks, counts, levels } = self;
        Book { identities, groups, marks, counts, levels, points: POINTS as u32 }
    }
}

/// Reads a register's rows into a book.
fn fill(book: &mut Book, register: &str) -> Result<(), Refusal> {
    for line in register.split_terminator("\r\n").skip(1) {
        let mut levels = [0; POINTS];
        let row = read_row(line.as_bytes(), book.points, &mut levels)?;
        book.enter(row.identity, row.aircraft, row.kind, row.time, row.mass, &EVERYWHERE)?;
        if row.computed {
            book.supply(row.identity, &levels)?;
        }
    }
    Ok(())
}

#[test]
fn the_documents_register() {
    let mut columns = Columns::default();
    let mut book = columns.book();
    fill(&mut book, include_str!("../../examples/document/register.csv")).expect("every row is accepted");
    let load = book.load(0, 1).expect("a load");
    assert_eq!((load.total, load.level), (40_000_000_000, Some(5666)));
    assert_eq!((load.computed[0], load.missing[0], load.missing[17]), (2, 1, 1));
    assert_eq!(book.verdict(0, 1, 5665), Ok(true));
    assert_eq!(book.verdict(0, 1, 5666), Ok(false));
}

#[test]
fn how_the_documents_load_comes_about() {
    let mut columns = Columns::default();
    let mut book = columns.book();
    let mut groups = [Group::default(); GROUPS];
    assert_eq!(book.account(0, 1), Ok(Account { groups, factor: None, energy: 0, total: 0, level: None }));
    fill(&mut book, include_str!("../../examples/document/register.csv")).expect("every row is accepted");
    groups[0] = Group { computed: 2, missing: 1, energy: 20_000_000_000, scaled: 30_000_000_000 };
    groups[17].missing = 1;
    let (energy, total) = (30_000_000_000, 40_000_000_000);
    assert_eq!(book.account(0, 1), Ok(Account { groups, factor: Some((4, 3)), energy, total, level: Some(5666) }));
}

#[test]
fn a_refused_call_changes_nothing() {
    let mut columns = Columns::default();
    fill(&mut columns.book(), include_str!("../../examples/document/register.csv")).expect("every row is accepted");
    let before = columns.clone();
    let mut book = columns.book();
    assert_eq!(book.enter(1, 0, 0, 25_200, 70_000, &EVERYWHERE), Err(Refusal::ALREADY_STANDS));
    assert_eq!(book.enter(5, 0, 0, 25_200, 150, &EVERYWHERE), Err(Refusal::TOO_LIGHT));
    assert_eq!(book.supply(1, &[]), Err(Refusal::WRONG_LEVELS));
    assert_eq!(book.take_back(3), Err(Refusal::NO_LEVELS_HELD));
    assert_eq!(book.withdraw(9), Err(Refusal::DOES_NOT_STAND));
    assert_eq!(book.load(1, 1), Err(Refusal::NOT_SOUND));
    assert_eq!(book.load(0, 367), Err(Refusal::WRONG_DAYS));
    assert_eq!(book.account(1, 0), Err(Refusal::NOT_SOUND));
    assert_eq!(book.account(0, 0), Err(Refusal::WRONG_DAYS));
    assert_eq!(book.verdict(0, 1, 12_001), Err(Refusal::WRONG_LEVEL_ASKED));
    assert_eq!(book.replay(&[1, 5], &mut []), Err(Refusal::REGISTER_OFF_LAYOUT));
    assert_eq!(book.replay(&[4, 1], &mut []), Err(Refusal::TOO_LITTLE_ROOM));
    assert_eq!(columns, before);
}

#[test]
fn calls_one_by_one_and_in_a_journal() {
    let (mut columns, mut again, mut answers) = (Columns::default(), Columns::default(), [7; 5]);
    let mut book = columns.book();
    assert_eq!(book.enter(9, 2, 1, 82_800, 3_000, &EVERYWHERE), Ok(()));
    assert_eq!(book.load(0, 1), Err(Refusal::NONE_COMPUTED));
    assert_eq!(book.account(0, 1), Err(Refusal::NONE_COMPUTED));
    assert_eq!(book.supply(9, &[5000]), Ok(()));
    assert_eq!(book.take_back(9), Ok(()));
    let journal = [1, 9, 2, 1, 82_800, 3_000, 1, 1, 2, 9, 1, 5000, 3, 9, 4, 8];
    again.book().replay(&journal, &mut answers).expect("a journal");
    assert_eq!(answers, [0, 0, 0, 5, 7]);
    assert_eq!((columns.identities[0], columns.groups[0], columns.marks[0]), (9, 17, 0));
    assert_eq!(columns, again);
    assert_eq!(columns.book().withdraw(9), Ok(()));
    assert_eq!(columns, Columns::default());
    assert_eq!(columns.book().load(0, 1).map(|load| (load.total, load.level)), Ok((0, None)));
}

#[test]
fn the_documents_hill() {
    let hill = Network { levels: &HILL, frame: FRAME };
    let (mut edges, mut counts, mut closed, mut text) = ([0; 12], [0; 6], [0; 6], [0; 400]);
    assert_eq!(hill.contours(45_000, &mut edges, &mut counts, &mut closed), Ok(Sizes { edges: 4, contours: 1 }));
    assert_eq!((&edges[..4], counts[0], closed[0]), (&[2, 7, 3, 10][..], 4, 1));
    let ring = "MULTILINESTRING ((50.000 100.000, 100.000 50.000, 150.000 100.000, 100.000 150.000, 50.000 100.000))";
    assert_eq!(hill.print_contours(45_000, &mut text), Ok(ring.as_bytes()));
    assert_eq!(hill.print_contours(45_000, &mut text[..9]), Err(Refusal::TOO_LITTLE_ROOM));
}

/// A network level is 0 to 150,000 thousandths of a dB, a contour level 1 to 150,000.
#[test]
fn levels_at_the_ends_of_their_ranges() {
    let (mut edges, mut counts, mut closed) = ([0; 12], [0; 6], [0; 6]);
    let mut contours = |peak: u32, level: u32| {
        let mut levels = HILL;
        levels[4] = peak;
        let network = Network { levels: &levels, frame: FRAME };
        network.contours(level, &mut edges, &mut counts, &mut closed).map(|sizes| sizes.contours)
    };
    for (level, lines) in [(1, 0), (40_001, 1), (50_000, 1), (50_001, 0), (150_000, 0)] {
        assert_eq!(contours(50_000, level), Ok(lines), "{level}");
    }
    for level in [0, 150_001] {
        assert_eq!(contours(50_000, level), Err(Refusal::WRONG_LEVEL_ASKED), "{level}");
    }
    assert_eq!((contours(0, 40_000), contours(150_000, 150_000)), (Ok(1), Ok(1)));
    assert_eq!(contours(150_001, 0), Err(Refusal::WRONG_NETWORK_LEVEL));
}

#[test]
fn crossings() {
    let frame = Frame { west: 1000, south: 2000, ..FRAME };
    let hill = Network { levels: &HILL, frame };
    assert_eq!(hill.crossing(45_000, 2), Ok(Some((Along::Horizontal, 0.5))));
    assert_eq!(hill.crossing(40_001, 10), Ok(Some((Along::Vertical, 0.9999))));
    assert_eq!(hill.crossing(45_000, 0), Ok(None));
    assert_eq!(hill.map_point(45_000, 10), Ok(Some([1100.0, 2150.0])));
    assert_eq!(hill.map_point(45_000, 99), Ok(None));
    let (mut which, mut places) = ([9; 3], [9.0; 6]);
    assert_eq!(hill.map_points(45_000, &[2, 0, 10], &mut which, &mut places), Ok(()));
    assert_eq!((which, places), ([1, 0, 2], [1050.0, 2100.0, 0.0, 0.0, 1100.0, 2150.0]));
    let wrong = Network { levels: &HILL, frame: Frame { rows: 2, ..frame } };
    assert_eq!(wrong.crossing(45_000, 2), Err(Refusal::WRONG_NETWORK));
}

#[test]
fn texts() {
    let (mut levels, mut text) = ([0; 9], [0; 200]);
    let written = Network { levels: &HILL, frame: FRAME }.write(&mut text).expect("a text").to_vec();
    assert!(written.ends_with(b"\r\n40.000 50.000 40.000\r\n40.000 40.000 40.000\r\n"));
    assert_eq!(read_network(&written, &mut levels), Ok(Network { levels: &HILL, frame: FRAME }));
    let mixed = String::from_utf8_lossy(&written).replace("50.000", "50.001").replace("40.000 ", "40.00 ");
    let read = read_network(mixed.as_bytes(), &mut levels).expect("two and three decimals");
    assert_eq!(read.levels, [40_000, 40_000, 40_000, 40_000, 50_001, 40_000, 40_000, 40_000, 40_000]);
    assert_eq!(read_network(&written[..20], &mut levels), Err(Refusal::NETWORK_OFF_LAYOUT));
    assert_eq!(read_network(&written, &mut levels[..8]), Err(Refusal::TOO_LITTLE_ROOM));
    let (row, mut text) = (b"4,H,3000,L,23:00:00,\r\n", [0; ROW_BYTES]);
    let read = read_row(row, 1, &mut levels).expect("a row");
    assert_eq!(read, Row { identity: 4, aircraft: 2, mass: 3000, kind: 1, time: 82_800, computed: false });
    assert_eq!(write_row(&read, &[0], 1, &mut text), Ok(&row[..]));
    assert_eq!(write_row(&read, &[1], 1, &mut text), Err(Refusal::WRONG_LEVELS));
}

/// An aeroplane that leaves before midnight and is seen behind it, its circuit, and a track that is too late.
#[test]
fn radar_tracks() {
    let [runway, airport, kind] = ["06", "EHBK", "B738"].map(|name| name_number(name).expect("a name"));
    assert_eq!((runway, name_number("EHBKX"), name_number(""), name_number("b")), (0x3036, None, None, None));
    let (runways, airports, types, same) = ([runway; 2], [airport; 2], [kind; 2], [0; 2]);
    let alike = |dates, times| {
        let [runways, airports, types] = [&runways[..], &airports, &types];
        Flights { dates, times, classes: &same, kinds: &same, runways, airports, types }
    };
    let movements = alike(&[20260331, 20260331], &[86_290, 86_290]);
    let tracks = alike(&[20260401, 20260401], &[300, 60]);
    let mut places = [9; 3];
    assert_eq!(couple(&movements, &[0], &tracks, &mut places), Err(Refusal::WRONG_FLIGHTS));
    assert_eq!(couple(&alike(&[20260229; 2], &[0; 2]), &[0; 2], &tracks, &mut []), Err(Refusal::WRONG_FLIGHTS));
    assert_eq!(couple(&movements, &[0; 2], &tracks, &mut places[..1]), Err(Refusal::TOO_LITTLE_ROOM));
    assert_eq!(places, [9; 3], "a refused call changes nothing");
    assert_eq!((couple(&movements, &[1, 0], &tracks, &mut places), places), (Ok(()), [0, 2, 9]));
    assert_eq!((couple(&movements, &[0, 0], &tracks, &mut places), places), (Ok(()), [2, 0, 9]));
    let none = Flights { dates: &[], times: &[], classes: &[], kinds: &[], runways: &[], airports: &[], types: &[] };
    assert_eq!((couple(&none, &[], &tracks, &mut places), places), (Ok(()), [2, 0, 9]));
    assert_eq!((couple(&movements, &[0, 0], &none, &mut places), places), (Ok(()), [0, 0, 9]));
}

/// 50,000 movements and tracks from a thread with a small stack.
#[test]
fn radar_tracks_from_a_small_stack() {
    let small = std::thread::Builder::new().stack_size(64 << 10).spawn(|| {
        let (dates, same, mut places) = (vec![20260331; 50_000], vec![0; 50_000], vec![0; 50_000]);
        let [times, classes, kinds, runways, airports, types] = [&same[..]; 6];
        let all = Flights { dates: &dates, times, classes, kinds, runways, airports, types };
        (couple(&all, &same, &all, &mut places), places)
    });
    let answer = small.expect("a thread starts").join().expect("no fault");
    assert_eq!(answer, (Ok(()), (1..=50_000).collect()));
}

/// The largest network with the most contours, from a thread with a small stack.
#[test]
fn contours_from_a_small_stack() {
    let board: Vec<u32> = (0..256 * 256).map(|point| 150_000 * ((point + point / 256) % 2)).collect();
    let frame = Frame { columns: 256, rows: 256, spacing: 500, west: 900_000, south: 900_000 };
    let small = std::thread::Builder::new().stack_size(64 << 10).spawn(move || {
        let network = Network { levels: &board, frame };
        let mut room = vec![0; 3 * 2 * 65_536];
        let (edges, others) = room.split_at_mut(2 * 65_536);
        let (counts, closed) = others.split_at_mut(2 * 65_536);
        let mut text = vec![0; 6 << 20];
        let sizes = network.contours(75_001, edges, counts, closed);
        (sizes, network.print_contours(75_001, &mut text).map(|text| text.ends_with(b"))")))
    });
    let answer = small.expect("a thread starts").join().expect("no fault");
    assert_eq!(answer, (Ok(Sizes { edges: 130_560, contours: 32_768 }), Ok(true)));
}

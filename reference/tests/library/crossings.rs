//! Every crossing, one time: the answer in hand, held against the levels as docs/CONTOURS.md has it. Nothing of the
//! reference's tracing is used here, so a fault that reference and library share is seen.

use crate::compared::{compared_rounds, contours, write, Rooms, Written};
use crate::drawn::{a_frame, a_level, a_network};
use crate::library::Library;
use crate::rounds::{directed, saw, Telling};
use reference::network::Frame;
use std::cmp::Ordering;

/// A network at a level, by its points.
struct Points<'a> {
    frame: Frame,
    levels: &'a [u32],
    level: u32,
}

/// What the check says of an answer.
type Checked = Result<(), &'static str>;

const STEPS: &str = "the steps are not the crossed edges less the open lines";

/// A side of a square: its edge's number, and whether its ends are in, the one on the left of who enters first.
type Side = (u32, [bool; 2]);

impl Points<'_> {
    fn inside(&self, row: u32, column: u32) -> bool {
        self.at(row, column) >= self.level
    }

    fn at(&self, row: u32, column: u32) -> u32 {
        self.levels[(row * self.frame.columns + column) as usize]
    }

    fn lying(&self, row: u32, column: u32) -> u32 {
        row * (self.frame.columns - 1) + column
    }

    fn standing(&self, row: u32, column: u32) -> u32 {
        self.frame.rows * (self.frame.columns - 1) + row * self.frame.columns + column
    }

    /// South, east, north and west side of the square with that south-west corner.
    fn sides(&self, row: u32, column: u32) -> [Side; 4] {
        let [sw, se] = [column, column + 1].map(|c| self.inside(row, c));
        let [nw, ne] = [column, column + 1].map(|c| self.inside(row + 1, c));
        [
            (self.lying(row, column), [sw, se]),
            (self.standing(row, column + 1), [se, ne]),
            (self.lying(row + 1, column), [ne, nw]),
            (self.standing(row, column), [nw, sw]),
        ]
    }

    /// The four corners added up: at most 600,000, as four times a level.
    fn sum(&self, row: u32, column: u32) -> u32 {
        [(0, 0), (0, 1), (1, 0), (1, 1)].map(|(r, c)| self.at(row + r, column + c)).iter().sum()
    }

    fn squares(&self) -> impl Iterator<Item = (u32, u32)> {
        let columns = self.frame.columns - 1;
        (0..self.frame.rows - 1).flat_map(move |row| (0..columns).map(move |column| (row, column)))
    }

    /// For each edge the edge that a line goes on to by the rule, where it has one, and whether it comes from a square.
    fn steps(&self) -> Vec<(Option<u32>, bool)> {
        let mut steps = vec![(None, false); self.frame.edges() as usize];
        for (row, column) in self.squares() {
            let sides = self.sides(row, column);
            let crossed = sides.iter().filter(|(_, [a, b])| a != b).count();
            for entered in (0..4).filter(|&side| sides[side].1 == [true, false]) {
                let left = match crossed {
                    2 => (0..4).find(|&side| sides[side].1 == [false, true]).expect("a second crossed side"),
                    _ if self.sum(row, column) >= 4 * self.level => (entered + 1) % 4,
                    _ => (entered + 3) % 4,
                };
                steps[sides[entered].0 as usize].0 = Some(sides[left].0);
                steps[sides[left].0 as usize].1 = true;
            }
        }
        steps
    }

    /// The numbers of all edges with one end in and the other not.
    fn crossed(&self) -> Vec<u32> {
        let (rows, columns) = (self.frame.rows, self.frame.columns);
        let unlike = |a: (u32, u32), b: (u32, u32)| self.inside(a.0, a.1) != self.inside(b.0, b.1);
        let lying = (0..rows).flat_map(|r| (0..columns - 1).map(move |c| (r, c)));
        let standing = (0..rows - 1).flat_map(|r| (0..columns).map(move |c| (r, c)));
        let lying = lying.filter(|&(r, c)| unlike((r, c), (r, c + 1))).map(|(r, c)| self.lying(r, c));
        let standing = standing.filter(|&(r, c)| unlike((r, c), (r + 1, c))).map(|(r, c)| self.standing(r, c));
        lying.chain(standing).collect()
    }
}

/// What is promised of the numbers in lent memory, or what of it doesn't hold.
fn every_crossing(points: &Points, rooms: &Rooms) -> Checked {
    let [edges, counts, closed, sizes] = rooms;
    let mut listed = edges.get(..sizes[0] as usize).ok_or("more edges than there is room")?.to_vec();
    let lines = lines_of(&listed, counts, closed, sizes[1] as usize).ok_or("edges, counts and marks don't fit")?;
    let (crossed, steps) = (points.crossed(), points.steps());
    let step = |edge: u32| steps.get(edge as usize).copied().unwrap_or((None, false));
    let (mut made, mut open) = (0, 0);
    for (line, closes) in &lines {
        let (first, last) = (line[0], line[line.len() - 1]);
        if line.windows(2).any(|pair| step(pair[0]).0 != Some(pair[1])) {
            return Err("a step is not the rule's");
        }
        match closes {
            false if step(first).1 || step(last).0.is_some() => return Err("an open line has an end inside"),
            true if step(last).0 != Some(first) => return Err("a closed line does not come back"),
            true if line.iter().any(|&edge| edge < first) => return Err("a closed line starts past its lowest edge"),
            _ => {}
        }
        made += line.len() - 1 + usize::from(*closes);
        open += usize::from(!closes);
    }
    if lines.windows(2).any(|two| (two[0].1, two[0].0[0]) >= (two[1].1, two[1].0[0])) {
        return Err("the lines are out of order");
    }
    // All lines together are what is listed, so this says that as many are listed as are crossed.
    if made + open != crossed.len() {
        return Err(STEPS);
    }
    listed.sort_unstable();
    if listed != crossed {
        return Err("not each crossed edge once, and no other");
    }
    Ok(())
}

/// The lines that numbers list, each with whether it closes; none where they don't fit together.
fn lines_of<'a>(listed: &'a [u32], counts: &[u32], closed: &[u32], many: usize) -> Option<Vec<(&'a [u32], bool)>> {
    let (mut rest, mut lines) = (listed, Vec::new());
    for place in 0..many {
        let (&count, &mark) = (counts.get(place)?, closed.get(place)?);
        if count == 0 || count as usize > rest.len() || mark > 1 {
            return None;
        }
        let (line, behind) = rest.split_at(count as usize);
        lines.push((line, mark == 1));
        rest = behind;
    }
    rest.is_empty().then_some(lines)
}

/// The points of each line of a printed text.
fn points_of(text: &str) -> Vec<Vec<&str>> {
    if text == "MULTILINESTRING EMPTY" {
        return Vec::new();
    }
    let lines = text.strip_prefix("MULTILINESTRING ((").and_then(|rest| rest.strip_suffix("))")).expect("its brackets");
    lines.split("), (").map(|line| line.split(", ").collect()).collect()
}

/// The text has a point an edge, and the first again where a line closes.
fn text_shows(text: &str, rooms: &Rooms) {
    let [_, counts, closed, sizes] = rooms;
    let (lines, many) = (points_of(text), sizes[1] as usize);
    assert_eq!(lines.len(), many, "a line a contour");
    for (line, (&count, &mark)) in lines.iter().zip(counts.iter().zip(closed)) {
        assert_eq!(line.len() as u32, count + mark, "a point an edge, and one more a closed line");
        assert!(mark == 0 || line.first() == line.last(), "a closed line that does not repeat its first point");
    }
    if many > 0 {
        let marked: u32 = closed[..many].iter().sum();
        assert_eq!(text.matches(',').count() as u32 + 1, sizes[0] + marked, "commas and one");
        assert_eq!(text.matches('(').count(), many + 1, "brackets");
    }
}

/// Counts what a network has where lines are easily lost, and what was answered.
fn note(points: &Points, rooms: &Rooms) {
    let [_, _, closed, sizes] = rooms;
    for (row, column) in points.squares() {
        if points.sides(row, column).iter().all(|(_, [a, b])| a != b) {
            let kind = match points.sum(row, column).cmp(&(4 * points.level)) {
                Ordering::Less => "a saddle under 4v",
                Ordering::Equal => "a saddle at 4v",
                Ordering::Greater => "a saddle over 4v",
            };
            saw("network", kind);
        }
    }
    if points.levels.contains(&points.level) {
        saw("network", "a point at v");
    }
    let marks = &closed[..sizes[1] as usize];
    for (kind, mark) in [("a closed line", 1), ("an open line", 0)] {
        if marks.contains(&mark) {
            saw("answer", kind);
        }
    }
    if marks.is_empty() {
        saw("answer", "no line");
    }
}

#[test]
fn every_crossing_one_time() {
    const TELLING: Telling = &[
        ("contours", 1, &["0"]),
        ("print_contours", 1, &["0"]),
        ("network", 100, &["a point at v", "a saddle at 4v", "a saddle over 4v", "a saddle under 4v"]),
        ("answer", 100, &["a closed line", "an open line", "no line"]),
    ];
    compared_rounds("every_crossing_one_time", 4_000, TELLING, |library, random| {
        let (frame, level) = (a_frame(random), a_level(random));
        let levels = a_network(random, &frame, level);
        let most = frame.edges() as usize;
        let rooms: Rooms = [vec![7; most], vec![7; most], vec![7; most], vec![7; 2]];
        let (answer, filled) = contours(library, frame, &levels, level, &rooms);
        assert_eq!(answer, 0, "a network in range with room for a number an edge");
        let points = Points { frame, levels: &levels, level };
        assert_eq!(every_crossing(&points, &filled), Ok(()), "{frame:?}, level {level}, {levels:?}");
        let written = Written::Contours { frame, levels: &levels, level };
        let (answer, text, size) = write(library, written, &vec![b'#'; 64 * levels.len() + 64], &[0]);
        assert_eq!(answer, 0, "a text with room for it");
        text_shows(std::str::from_utf8(&text[..size[0] as usize]).expect("plain text"), &filled);
        note(&points, &filled);
    });
}

/// The library answers these edges, on lines that all close or are all open.
fn answered(points: &Points, right: &[u32], mark: u32) {
    let most = points.frame.edges() as usize;
    let rooms: Rooms = [vec![7; most], vec![7; most], vec![7; most], vec![7; 2]];
    let (answer, [edges, _, closed, sizes]) =
        contours(&Library::from_environment(), points.frame, points.levels, points.level, &rooms);
    assert_eq!((answer, &edges[..sizes[0] as usize]), (0, right));
    assert!(closed[..sizes[1] as usize].iter().all(|&own| own == mark), "{closed:?}");
}

/// What the check says of edges, counts and closed marks.
fn held(points: &Points, edges: &[u32], counts: &[u32], closed: &[u32]) -> Checked {
    let sizes = vec![edges.len() as u32, counts.len() as u32];
    every_crossing(points, &[edges.to_vec(), counts.to_vec(), closed.to_vec(), sizes])
}

/// The saddle of docs/CONTOURS.md: its four sides are joined in two ways. Wrong answers of it are seen.
#[test]
fn a_saddle_at_three_levels() {
    directed("a_saddle_at_three_levels", &[("contours", 3, &["0"])], || {
        let frame = Frame { columns: 2, rows: 2, spacing: 100, west: 0, south: 0 };
        let levels = [50_000, 40_000, 40_000, 50_000];
        for (level, right) in [(44_000, [0, 3, 1, 2]), (45_000, [0, 3, 1, 2]), (46_000, [0, 2, 1, 3])] {
            let points = Points { frame, levels: &levels, level };
            answered(&points, &right, 0);
            let [a, b, c, d] = right;
            let two = |edges: &[u32]| held(&points, edges, &[2, 2], &[0, 0]);
            assert_eq!(two(&right), Ok(()));
            assert_eq!(two(&[a, d, c, b]), Err("a step is not the rule's"));
            assert_eq!(two(&[b, a, d, c]), Err("a step is not the rule's"));
            assert_eq!(two(&[c, d, a, b]), Err("the lines are out of order"));
            assert_eq!(two(&[a, b, c, d, a, b]), Err("edges, counts and marks don't fit"));
            assert_eq!(held(&points, &[a, b], &[2], &[0]), Err(STEPS));
            assert_eq!(held(&points, &right, &[2, 2], &[1, 0]), Err("a closed line does not come back"));
            assert_eq!(held(&points, &right, &[4], &[0]), Err("a step is not the rule's"));
            assert_eq!(held(&points, &right, &[1, 1, 2], &[0, 0, 0]), Err("an open line has an end inside"));
        }
    });
}

/// The rules' hill, and wrong answers of a closed line.
#[test]
fn a_hill_cut_open() {
    directed("a_hill_cut_open", &[("contours", 1, &["0"])], || {
        let mut levels = [40_000; 9];
        levels[4] = 50_000;
        let frame = Frame { columns: 3, rows: 3, spacing: 100, west: 0, south: 0 };
        let points = Points { frame, levels: &levels, level: 45_000 };
        let right = [2, 7, 3, 10];
        answered(&points, &right, 1);
        assert_eq!(held(&points, &right, &[4], &[1]), Ok(()));
        assert_eq!(held(&points, &right, &[4], &[0]), Err("an open line has an end inside"));
        assert_eq!(held(&points, &right, &[2, 2], &[1, 1]), Err("a closed line does not come back"));
        assert_eq!(held(&points, &right[..3], &[3], &[1]), Err("a closed line does not come back"));
        assert_eq!(held(&points, &[7, 3, 10, 2], &[4], &[1]), Err("a closed line starts past its lowest edge"));
        assert_eq!(held(&points, &[right, right].concat(), &[8], &[1]), Err(STEPS));
        assert_eq!(held(&points, &[], &[], &[]), Err(STEPS));
        let past: Rooms = [right.to_vec(), vec![4], vec![1], vec![5, 1]];
        assert_eq!(every_crossing(&points, &past), Err("more edges than there is room"));
    });
}

/// Two hills: one line twice and the other lost is as long as both.
#[test]
fn one_hill_twice() {
    directed("one_hill_twice", &[("contours", 1, &["0"])], || {
        let frame = Frame { columns: 5, rows: 3, spacing: 100, west: 0, south: 0 };
        let mut levels = [40_000; 15];
        (levels[6], levels[8]) = (50_000, 50_000);
        let points = Points { frame, levels: &levels, level: 45_000 };
        let right = [4, 13, 5, 18, 6, 15, 7, 20];
        answered(&points, &right, 1);
        assert_eq!(held(&points, &right, &[4, 4], &[1, 1]), Ok(()));
        let first = &right[..4];
        assert_eq!(
            held(&points, &[first, first].concat(), &[8], &[1]),
            Err("not each crossed edge once, and no other")
        );
    });
}

//! The declarations of include/okubinrafo.h: a slice is a pointer and the number of its elements.

macro_rules! exported {
    ($(fn $name:ident($($argument:ident: $kind:ty),* $(,)?);)*) => {
        extern "C" {
            $(pub fn $name($($argument: $kind),*) -> u32;)*
        }
        /// The names of all functions that are declared here.
        #[cfg(test)]
        pub const NAMES: &[&str] = &[$(stringify!($name)),*];
    };
}

type Numbers = *const u32;
type Room = *mut u32;
type Bytes = *const u8;
type Text = *mut u8;
type Doubles = *mut f64;

#[rustfmt::skip]
exported! {
    fn okubinrafo_enter(
        identities: Room, identities_len: usize, groups: Room, groups_len: usize, marks: Room, marks_len: usize,
        counts: Room, counts_len: usize, levels: Room, levels_len: usize, points: u32, identity: u32, aircraft: u32,
        kind: u32, time: u32, mass: u32, given: Numbers, given_len: usize,
    );
    fn okubinrafo_supply(
        identities: Room, identities_len: usize, groups: Room, groups_len: usize, marks: Room, marks_len: usize,
        counts: Room, counts_len: usize, levels: Room, levels_len: usize, points: u32, identity: u32, given: Numbers,
        given_len: usize,
    );
    fn okubinrafo_take_back(
        identities: Room, identities_len: usize, groups: Room, groups_len: usize, marks: Room, marks_len: usize,
        counts: Room, counts_len: usize, levels: Room, levels_len: usize, points: u32, identity: u32,
    );
    fn okubinrafo_withdraw(
        identities: Room, identities_len: usize, groups: Room, groups_len: usize, marks: Room, marks_len: usize,
        counts: Room, counts_len: usize, levels: Room, levels_len: usize, points: u32, identity: u32,
    );
    fn okubinrafo_replay(
        identities: Room, identities_len: usize, groups: Room, groups_len: usize, marks: Room, marks_len: usize,
        counts: Room, counts_len: usize, levels: Room, levels_len: usize, points: u32,
        journal: Numbers, journal_len: usize, answers: Room, answers_len: usize,
    );
    fn okubinrafo_load(
        identities: Numbers, identities_len: usize, groups: Numbers, groups_len: usize, marks: Numbers,
        marks_len: usize, counts: Numbers, counts_len: usize, levels: Numbers, levels_len: usize, points: u32,
        point: u32, days: u32, answer: *mut u64, answer_len: usize,
    );
    fn okubinrafo_account(
        identities: Numbers, identities_len: usize, groups: Numbers, groups_len: usize, marks: Numbers,
        marks_len: usize, counts: Numbers, counts_len: usize, levels: Numbers, levels_len: usize, points: u32,
        point: u32, days: u32, answer: *mut u64, answer_len: usize,
    );
    fn okubinrafo_verdict(
        identities: Numbers, identities_len: usize, groups: Numbers, groups_len: usize, marks: Numbers,
        marks_len: usize, counts: Numbers, counts_len: usize, levels: Numbers, levels_len: usize, points: u32,
        point: u32, days: u32, limit: u32, answer: Room, answer_len: usize,
    );
    fn okubinrafo_contours(
        levels: Numbers, levels_len: usize, columns: u32, rows: u32, spacing: u32, west: u32, south: u32, level: u32,
        edges: Room, edges_len: usize, counts: Room, counts_len: usize, closed: Room, closed_len: usize,
        sizes: Room, sizes_len: usize,
    );
    fn okubinrafo_print_contours(
        levels: Numbers, levels_len: usize, columns: u32, rows: u32, spacing: u32, west: u32, south: u32, level: u32,
        text: Text, text_len: usize, size: Room, size_len: usize,
    );
    fn okubinrafo_crossing(
        levels: Numbers, levels_len: usize, columns: u32, rows: u32, spacing: u32, west: u32, south: u32, level: u32,
        edge: u32, which: Room, which_len: usize, fraction: Doubles, fraction_len: usize,
    );
    fn okubinrafo_map_point(
        levels: Numbers, levels_len: usize, columns: u32, rows: u32, spacing: u32, west: u32, south: u32, level: u32,
        edge: u32, which: Room, which_len: usize, place: Doubles, place_len: usize,
    );
    fn okubinrafo_map_points(
        levels: Numbers, levels_len: usize, columns: u32, rows: u32, spacing: u32, west: u32, south: u32, level: u32,
        edges: Numbers, edges_len: usize, which: Room, which_len: usize, places: Doubles, places_len: usize,
    );
    fn okubinrafo_read_row(
        line: Bytes, line_len: usize, points: u32, fields: Room, fields_len: usize, levels: Room, levels_len: usize,
    );
    fn okubinrafo_write_row(
        fields: Numbers, fields_len: usize, levels: Numbers, levels_len: usize, points: u32,
        text: Text, text_len: usize, size: Room, size_len: usize,
    );
    fn okubinrafo_read_network(
        text: Bytes, text_len: usize, header: Room, header_len: usize, levels: Room, levels_len: usize,
    );
    fn okubinrafo_write_network(
        levels: Numbers, levels_len: usize, columns: u32, rows: u32, spacing: u32, west: u32, south: u32,
        text: Text, text_len: usize, size: Room, size_len: usize,
    );
    fn okubinrafo_couple(
        dates: Numbers, dates_len: usize, times: Numbers, times_len: usize, classes: Numbers, classes_len: usize,
        kinds: Numbers, kinds_len: usize, runways: Numbers, runways_len: usize, airports: Numbers, airports_len: usize,
        types: Numbers, types_len: usize, circuits: Numbers, circuits_len: usize,
        track_dates: Numbers, track_dates_len: usize, track_times: Numbers, track_times_len: usize,
        track_classes: Numbers, track_classes_len: usize, track_kinds: Numbers, track_kinds_len: usize,
        track_runways: Numbers, track_runways_len: usize, track_airports: Numbers, track_airports_len: usize,
        track_types: Numbers, track_types_len: usize, tracks: Room, tracks_len: usize,
    );
    fn okubinrafo_sentence(refusal: u32, text: Text, text_len: usize, size: Room, size_len: usize);
}

#[cfg(test)]
mod tests {
    use std::collections::BTreeSet;

    #[test]
    fn every_function_of_the_header_is_declared() {
        let header = include_str!("../../include/okubinrafo.h");
        let declared: BTreeSet<&str> =
            header.lines().filter_map(|line| line.strip_prefix("uint32_t ")?.split('(').next()).collect();
        assert!(declared.len() >= 16);
        assert_eq!(declared, super::NAMES.iter().copied().collect());
    }
}

//! Damage to texts.

use crate::random::Random;

const FRAGMENTS: [&str; 32] = [
    ",", ",,", "0", "00", "1", "9", ".", ".00", "-", "-0", " ", "  ", "\r\n", "\r", "\n", "\r\n\r\n", ":", "G", "K",
    "H", "S", "L", "24", "60", "\"", "\t", "x", "\u{fc}", "-9999", "150.01", "150.001", ".000",
];

/// Damages a text in one place: a byte changed, a piece put in, taken out, doubled or exchanged, or the end cut.
pub fn damage(random: &mut Random, text: &mut Vec<u8>) {
    let place = random.within(0, text.len() as u32) as usize;
    let end = (place + random.within(1, 6) as usize).min(text.len());
    let fragment = random.pick(&FRAGMENTS).bytes().collect::<Vec<u8>>();
    match random.within(0, 6) {
        0 => drop(text.splice(place..place, fragment)),
        1 => drop(text.splice(place..end, fragment)),
        2 => drop(text.drain(place..(place + 1).min(text.len()))),
        3 => drop(text.drain(place..end)),
        4 => {
            let piece = text[place..end].to_vec();
            text.splice(place..place, piece);
        }
        5 => text.truncate(place),
        _ if place < text.len() => text[place] = text[place].wrapping_add(random.pick(&[1, 255, 16, 128])),
        _ => {}
    }
}

/// Gives one of the numbers of a text a digit more at its end, or a digit less.
pub fn damage_decimals(random: &mut Random, text: &mut Vec<u8>) {
    let goes_on = |end: usize| text.get(end).is_some_and(|next| next.is_ascii_digit() || *next == b'.');
    let ends: Vec<usize> = (1..=text.len()).filter(|&end| text[end - 1].is_ascii_digit() && !goes_on(end)).collect();
    if ends.is_empty() {
        return;
    }
    let end = random.pick(&ends);
    if random.once_in(2) {
        text.insert(end, random.pick(b"0159"));
    } else {
        text.remove(end - 1);
    }
}

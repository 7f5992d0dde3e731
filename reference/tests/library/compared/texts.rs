//! Texts, read and written.

use crate::lent::{Lent, Made};
use crate::library::Library;
use reference::calls;
use reference::network::{Frame, Network};

/// What a text is asked for.
#[derive(Clone, Copy, Debug)]
pub enum Written<'a> {
    Contours { frame: Frame, levels: &'a [u32], level: u32 },
    Network { frame: Frame, levels: &'a [u32] },
    Row { fields: &'a [u32], levels: &'a [u32], points: u32 },
    Sentence { refusal: u32 },
}

/// Asks both for a text; answers with the call's number, the text's room and the size's.
pub fn write(library: &Library, written: Written, text: &[u8], size: &[u32]) -> (u32, Vec<u8>, Vec<u32>) {
    let (mut room, mut count) = (Lent::new(text), Lent::new(size));
    let (mut own, mut own_size) = (text.to_vec(), size.to_vec());
    let inputs = || format!("{written:?}, room {} and {}", text.len(), size.len());
    let (call, library, reference) = match written {
        Written::Contours { frame, levels, level } => {
            let mut lent = Lent::new(levels);
            let reference = calls::print_contours(Network { frame, levels }, level, &mut own, &mut own_size);
            let library = with_network!(
                library.print_contours,
                frame,
                lent,
                level,
                room.pointer(),
                room.len(),
                count.pointer(),
                count.len()
            );
            Made { call: "print_contours", library, reference, inputs: &inputs }.kept("levels", levels, &lent);
            ("print_contours", library, reference)
        }
        Written::Network { frame, levels } => {
            let mut lent = Lent::new(levels);
            let reference = calls::write_network(Network { frame, levels }, &mut own, &mut own_size);
            let library = with_network!(
                library.write_network,
                frame,
                lent,
                room.pointer(),
                room.len(),
                count.pointer(),
                count.len()
            );
            Made { call: "write_network", library, reference, inputs: &inputs }.kept("levels", levels, &lent);
            ("write_network", library, reference)
        }
        Written::Row { fields, levels, points } => {
            let (mut f, mut l) = (Lent::new(fields), Lent::new(levels));
            let reference = calls::write_row(fields, levels, points, &mut own, &mut own_size);
            // SAFETY: every pointer is lent with its own length.
            let library = unsafe {
                (library.write_row)(
                    f.pointer(),
                    f.len(),
                    l.pointer(),
                    l.len(),
                    points,
                    room.pointer(),
                    room.len(),
                    count.pointer(),
                    count.len(),
                )
            };
            Made { call: "write_row", library, reference, inputs: &inputs }
                .kept("fields", fields, &f)
                .kept("levels", levels, &l);
            ("write_row", library, reference)
        }
        Written::Sentence { refusal } => {
            let reference = calls::sentence(refusal, &mut own, &mut own_size);
            // SAFETY: every pointer is lent with its own length.
            let library =
                unsafe { (library.sentence)(refusal, room.pointer(), room.len(), count.pointer(), count.len()) };
            ("sentence", library, reference)
        }
    };
    let made = Made { call, library, reference, inputs: &inputs };
    made.answers_agree().left("text", text, &own, &room).left("size", size, &own_size, &count);
    (reference, own, own_size)
}

/// Reads a row on both sides; answers with the call's number.
pub fn read_row(library: &Library, line: &[u8], points: u32, fields: &[u32], levels: &[u32]) -> u32 {
    let (mut lent, mut f, mut l) = (Lent::new(line), Lent::new(fields), Lent::new(levels));
    let (mut own, mut own_levels) = (fields.to_vec(), levels.to_vec());
    let reference = calls::read_row(line, points, &mut own, &mut own_levels);
    // SAFETY: every pointer is lent with its own length.
    let library =
        unsafe { (library.read_row)(lent.pointer(), lent.len(), points, f.pointer(), f.len(), l.pointer(), l.len()) };
    let inputs =
        || format!("{:?}, points {points}, room {} and {}", String::from_utf8_lossy(line), fields.len(), levels.len());
    let made = Made { call: "read_row", library, reference, inputs: &inputs };
    made.answers_agree().kept("line", line, &lent).left("fields", fields, &own, &f).left(
        "levels",
        levels,
        &own_levels,
        &l,
    );
    reference
}

/// Reads a network on both sides; answers with the call's number.
pub fn read_network(library: &Library, text: &[u8], header: &[u32], levels: &[u32]) -> u32 {
    let (mut lent, mut h, mut l) = (Lent::new(text), Lent::new(header), Lent::new(levels));
    let (mut own, mut own_levels) = (header.to_vec(), levels.to_vec());
    let reference = calls::read_network(text, &mut own, &mut own_levels);
    // SAFETY: every pointer is lent with its own length.
    let library =
        unsafe { (library.read_network)(lent.pointer(), lent.len(), h.pointer(), h.len(), l.pointer(), l.len()) };
    let inputs = || format!("{:?}, room {} and {}", String::from_utf8_lossy(text), header.len(), levels.len());
    let made = Made { call: "read_network", library, reference, inputs: &inputs };
    made.answers_agree().kept("text", text, &lent).left("header", header, &own, &h).left(
        "levels",
        levels,
        &own_levels,
        &l,
    );
    reference
}

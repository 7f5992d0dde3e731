//! Register rows as text.

use crate::raw;
use crate::refusal::{Answer, Refusal};

/// As long as any register row with its CRLF.
pub const ROW_BYTES: usize = 86;

/// The fields of a register row but its levels.
#[derive(Clone, Copy, Debug, PartialEq, Eq)]
pub struct Row {
    pub identity: u32,
    pub aircraft: u32,
    pub mass: u32,
    pub kind: u32,
    pub time: u32,
    pub computed: bool,
}

/// Reads a register row, with its CRLF or without; `levels` gets one a point, in hundredths of a dB, 0 where not
/// computed.
pub fn read_row(line: &[u8], points: u32, levels: &mut [u32]) -> Answer<Row> {
    let mut fields = [0; 6];
    let (room, many) = (levels.as_mut_ptr(), levels.len());
    // SAFETY: each slice is lent with its own length, and those that are written to are borrowed for that alone.
    Refusal::of(unsafe {
        raw::okubinrafo_read_row(line.as_ptr(), line.len(), points, fields.as_mut_ptr(), fields.len(), room, many)
    })?;
    let [identity, aircraft, mass, kind, time, computed] = fields;
    Ok(Row { identity, aircraft, mass, kind, time, computed: computed == 1 })
}

/// Writes a register row with its CRLF and answers with the bytes written; `levels` has one a point in hundredths of a
/// dB, all zero where the row is not computed.
pub fn write_row<'a>(row: &Row, levels: &[u32], points: u32, text: &'a mut [u8]) -> Answer<&'a [u8]> {
    let fields = [row.identity, row.aircraft, row.mass, row.kind, row.time, u32::from(row.computed)];
    let mut size = [0];
    let (room, many) = (text.as_mut_ptr(), text.len());
    let (given, count) = (levels.as_ptr(), levels.len());
    // SAFETY: as above.
    Refusal::of(unsafe {
        raw::okubinrafo_write_row(fields.as_ptr(), fields.len(), given, count, points, room, many, size.as_mut_ptr(), 1)
    })?;
    Ok(&text[..size[0] as usize])
}

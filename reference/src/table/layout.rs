//! Where the records of a table stand. The version says how long a kind's record is.

/// Where the first count stands in the file; the others follow it.
pub const FIRST_COUNT: usize = 3;
/// Where the first record stands. No table is shorter.
pub const FIRST_RECORD: usize = 8;
/// A transition's record before its guard.
pub const TRANSITION_BYTES: usize = 7;

/// Where the record of this kind starts. The first transition's starts where that of a kind behind
/// the last one would.
pub fn kind_offset(version: u8, kind: usize) -> usize {
    // Direction and airtime; but for version 1, the device too.
    let kind_bytes = if version == 1 { 2 } else { 3 };
    FIRST_RECORD + kind_bytes * kind
}

//! Long handovers: for most of the time nothing is heard.

use super::recordings::{any_rows, hear, overheard, overheard_from};
use super::rng::Rng;
use super::tables::{sound_table, Shape};
use crate::recording::{Heard, Recording};
use crate::situation::Space;
use crate::table::Table;

/// Times around the limits of a recording and of either edition.
pub const EDGES: [u16; 8] = [0, 1, 4_095, 4_096, 4_097, 4_098, 65_534, 65_535];
/// What is heard takes no longer than this, but for a wait.
const HEARD: usize = 50;

/// Clocks that are compared with numbers up to the largest, and hardly anything else.
const FAR: Shape = Shape { states: 2, variables: 0, clocks: 1, limit: 255, ..Shape::TINY };
/// Packets that take the air for long.
const SLOW: Shape = Shape { states: 2, clocks: 1, limit: 3, airtime: 15, ..Shape::TINY };

/// Mostly around the last time of edition 1, and else up to the last there is.
pub fn late_time(rng: &mut Rng) -> u16 {
    let time = match rng.below(20) {
        0..=9 => rng.between(4_095, 4_098),
        10..=13 => rng.between(4_080, 4_110),
        14..=17 => rng.between(1_000, 10_000),
        18 => rng.between(10_000, 65_535),
        _ => rng.between(65_530, 65_535),
    };
    time as u16
}

/// A table whose situations times instants up to this time are no more than this.
pub fn narrow_table(rng: &mut Rng, last: u16, work: usize) -> Table {
    let shape = rng.pick(&[Shape::TINY, FAR, SLOW]);
    loop {
        let table = sound_table(rng, &shape);
        if Space::of(&table).count() * usize::from(last) <= work {
            return table;
        }
    }
}

/// A sound recording with a long wait before some row, and its last row at this time.
pub fn long_handover(rng: &mut Rng, table: &Table, last: u16) -> Recording {
    let heard_last = rng.between(1, HEARD) as u16;
    let mut recording = match rng.below(4) {
        0 | 1 => overheard_from(rng, table, last - heard_last, last),
        2 => overheard(rng, table, heard_last),
        _ => any_rows(rng, table, heard_last),
    };
    if recording.rows.is_empty() {
        let kind = rng.below(table.kinds.len()) as u8;
        hear(&mut recording, table, Heard { time: last, kind });
    }
    let wait = last - recording.last_time() as u16;
    // The rows from this one on are heard so much later.
    let first = rng.below(recording.rows.len());
    recording.rows[first..].iter_mut().for_each(|row| row.time += wait);
    recording
}

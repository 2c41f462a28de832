//! Random parts of all kinds, most of which no reading gives, to be written.

use super::buffers::length_near;
use super::crossed::cross;
use super::encode::encode_table;
use super::recordings::{any_rows, spoil_rows};
use super::rng::Rng;
use super::spoil::spoil_bytes;
use super::spoil_tables::{spoil_devices, spoil_layout, spoil_table};
use super::tables::{any_table, sound_table, Shape};
use super::unreached_states::unreached_states;
use super::witnesses::{guessed, spoil_witness};
use crate::edition::Edition;
use crate::parts::{Placed, RowParts, TableParts, GUARD_PLACES};
use crate::recording::{self, Heard};
use crate::table::{Kind, Table, COUNT_LIMITS};
use crate::witness::Row;
use crate::writing::{Parts, Writing};

/// No more rows than this are given of more; the filler stands for the rest.
const MOST_GIVEN: usize = 40;

/// A table's parts, a recording's and a witness's, each written or written and read back.
pub fn writings(rng: &mut Rng) -> Vec<Writing> {
    let shape = rng.pick(&[Shape::TINY, Shape::TINY, Shape::TINY, Shape::MIDDLE]);
    let table = sound_table(rng, &shape);
    let last = rng.between(0, 30) as u16;
    let heard = any_rows(rng, &table, last);
    let parts = [
        table_parts(rng, &table),
        recording_parts(rng, &table, &heard),
        witness_parts(rng, &table, &heard),
    ];
    parts.into_iter().map(|parts| writing(rng, parts)).collect()
}

fn writing(rng: &mut Rng, parts: Parts) -> Writing {
    let wanted = parts.wanted().unwrap_or(50);
    Writing { room: length_near(rng, wanted), back: rng.one_in(2), parts }
}

fn filler(rng: &mut Rng) -> u8 {
    match rng.below(4) {
        0 => rng.byte(),
        _ => rng.pick(&[0, 1, 255]),
    }
}

fn table_parts(rng: &mut Rng, table: &Table) -> Parts {
    let mut parts = TableParts::of(&match rng.below(14) {
        0..=3 => spoil_table(rng, table),
        6 | 7 => spoil_devices(rng, table),
        4 => any_table(rng, &Shape { kinds: 3, transitions: 6, ..Shape::LARGE }),
        5 => unreached_states(rng, table),
        _ => table.clone(),
    });
    parts.kinds.truncate(COUNT_LIMITS[3].1);
    parts.transitions.truncate(COUNT_LIMITS[4].1);
    parts.filler = filler(rng);
    for it in &mut parts.transitions {
        let length = usize::from(it.fields[6]).min(GUARD_PLACES);
        it.guard[length..].fill_with(|| rng.byte());
    }
    match rng.below(8) {
        0 => parts.counts[rng.below(5)] = rng.byte(),
        1 => spoil_length(rng, &mut parts.transitions),
        2 | 3 => beyond(rng, &mut parts),
        4 => parts.version = rng.pick(&[0, 1, 2, 3, 4, 128, 255]),
        _ => {}
    }
    Parts::Table(parts)
}

fn spoil_length(rng: &mut Rng, transitions: &mut [Placed]) {
    let number = rng.below(transitions.len());
    if let Some(it) = transitions.get_mut(number) {
        it.fields[6] = rng.pick(&[0, 1, it.fields[6].wrapping_add(1), 31, 32, 33, 34, 128, 255]);
    }
}

/// Records behind those that the counts cover, or a count that covers some of them.
fn beyond(rng: &mut Rng, parts: &mut TableParts) {
    if parts.kinds.len() < COUNT_LIMITS[3].1 {
        let [direction, airtime, device] = [rng.byte(), rng.byte(), rng.byte()];
        parts.kinds.push(Kind { direction, airtime, device });
    }
    if parts.transitions.len() < COUNT_LIMITS[4].1 {
        let fields = std::array::from_fn(|_| rng.byte());
        parts.transitions.push(Placed { fields, guard: std::array::from_fn(|_| rng.byte()) });
    }
    if rng.one_in(3) {
        let place = rng.pick(&[3, 4]);
        parts.counts[place] = parts.counts[place].wrapping_add(1);
    }
}

/// Mostly against the table itself, at times against a spoilt one or one with unreached states.
fn recording_parts(rng: &mut Rng, table: &Table, heard: &recording::Recording) -> Parts {
    let mut bytes = encode_table(table);
    match rng.below(24) {
        0 => bytes = spoil_bytes(rng, &bytes),
        1 => bytes = spoil_layout(rng, table),
        2 => bytes = encode_table(&unreached_states(rng, table)),
        3 => bytes = encode_table(&spoil_devices(rng, table)),
        _ => {}
    }
    let rows = match rng.one_in(2) {
        true => heard.rows.clone(),
        false => spoil_rows(rng, table, heard).rows,
    };
    let most = recording::FILE.most_rows as u16;
    Parts::Recording(bytes, row_parts(rng, rows, &[most, most + 1, 65_535], any_heard))
}

/// In form as often as not; at times rows share a time.
fn witness_parts(rng: &mut Rng, table: &Table, heard: &recording::Recording) -> Parts {
    let guess = guessed(rng, table, heard);
    let told = match rng.below(4) {
        0 => cross(rng, table, heard, &guess).map_or(guess, |(_, crossed)| crossed),
        1 => spoil_witness(rng, &guess),
        _ => guess,
    };
    let edition = rng.pick(&Edition::BOTH);
    let most = edition.file().most_rows as u32;
    // Beyond the limits of either edition, or with nothing in their lower halves.
    let counts = [most, most + 1, 4_609, 65_535, 65_536, 70_000, 1 << 24, u32::MAX];
    Parts::Witness(edition, row_parts(rng, told.rows, &counts, any_row))
}

fn any_heard(rng: &mut Rng) -> Heard {
    Heard { time: rng.draw() as u16, kind: rng.byte() }
}

fn any_row(rng: &mut Rng) -> Row {
    let time = rng.draw() as u16;
    Row { mark: rng.byte(), time, kind: rng.byte(), transition: rng.byte() }
}

/// The rows, or fewer, or others behind them; and their count, or another, or one of these.
fn row_parts<R, Count: Copy + From<u16>>(
    rng: &mut Rng,
    mut rows: Vec<R>,
    counts: &[Count],
    any: impl Fn(&mut Rng) -> R,
) -> RowParts<R, Count> {
    let count = rows.len();
    rows.truncate(MOST_GIVEN);
    match rng.below(4) {
        0 => rows.truncate(rng.below(count + 1)),
        1 => rows.extend((0..rng.between(1, 5)).map(|_| any(rng))),
        _ => {}
    }
    let near = [0, count.saturating_sub(1), count + 1];
    let count = match rng.below(16) {
        0 => Count::from(rng.pick(&near) as u16),
        1 => rng.pick(counts),
        2 | 3 => Count::from(rng.draw() as u16),
        _ => Count::from(count as u16),
    };
    RowParts { count, filler: filler(rng), rows }
}

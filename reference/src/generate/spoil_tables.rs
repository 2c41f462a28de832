//! Tables spoilt in their parts, and in where the records of their kinds stand.

use super::encode::encode_table;
use super::rng::Rng;
use super::spoil::match_length;
use crate::frame::LENGTH_BYTES;
use crate::table::{kind_offset, Kind, Table, Transition};

/// The two known ones, their neighbours, and the last byte.
const VERSIONS: [u8; 5] = [0, 1, 2, 3, 255];

/// Parts with one thing, or a few, out of order or just at a limit.
pub fn spoil_table(rng: &mut Rng, table: &Table) -> Table {
    let mut spoilt = table.clone();
    for _ in 0..=rng.below(2) {
        match rng.below(12) {
            0 => spoil_counts(rng, &mut spoilt),
            1 | 2 => spoil_kind(rng, &mut spoilt),
            3..=6 => spoil_transition(rng, &mut spoilt),
            7..=9 => spoil_guard(rng, &mut spoilt),
            10 => spoil_device(rng, &mut spoilt),
            _ => spoilt.version = rng.pick(&VERSIONS),
        }
    }
    spoilt
}

fn spoil_counts(rng: &mut Rng, table: &mut Table) {
    match rng.below(5) {
        0 => table.states = rng.pick(&[0, 1, 15, 16, 17, 255]),
        1 => table.variables = rng.pick(&[0, 3, 4, 5, 8, 255]),
        2 => table.clocks = rng.pick(&[0, 1, 2, 3, 255]),
        3 => {
            let count = rng.pick(&[0, 1, 2, 31, 32, 33, 40]);
            table.kinds.resize(count, Kind::in_version_1(1, 3));
        }
        _ => {
            let count = rng.pick(&[0, 1, 63, 64, 65, 70]);
            let filler = Transition { guard: vec![0], ..Transition::default() };
            table.transitions.resize(count, filler);
        }
    }
}

fn spoil_kind(rng: &mut Rng, table: &mut Table) {
    let number = rng.below(table.kinds.len());
    if let Some(kind) = table.kinds.get_mut(number) {
        match rng.below(2) {
            0 => kind.direction = rng.pick(&[0, 1, 2, 255]),
            _ => kind.airtime = rng.pick(&[0, 14, 15, 16, 255]),
        }
    }
}

/// Devices of one kind or of some: what the direction does not allow, what nothing allows, what
/// version 1 cannot tell. In version 1 only the parts are spoilt, for its bytes have no devices.
pub fn spoil_devices(rng: &mut Rng, table: &Table) -> Table {
    let mut spoilt = table.clone();
    for _ in 0..=rng.below(3) {
        spoil_device(rng, &mut spoilt);
    }
    if rng.one_in(4) {
        spoil_kind(rng, &mut spoilt);
    }
    spoilt
}

fn spoil_device(rng: &mut Rng, table: &mut Table) {
    let last = table.kinds.len().saturating_sub(1);
    let number = match rng.below(4) {
        0 => 0,
        1 => last,
        _ => rng.between(0, last),
    };
    if let Some(kind) = table.kinds.get_mut(number) {
        kind.device = match rng.below(4) {
            0 => kind.direction ^ 1,
            1 => rng.pick(&[0, 1, 2, 14, 15]),
            2 => rng.pick(&[16, 17, 31, 32, 127, 128, 129, 254, 255]),
            _ => rng.byte(),
        };
    }
}

/// A table's bytes with another version before the same records, or cut in the records of its
/// kinds, mostly before the last byte of one. The length matches.
pub fn spoil_layout(rng: &mut Rng, table: &Table) -> Vec<u8> {
    let mut bytes = encode_table(table);
    match rng.below(3) {
        0 => bytes[2] = rng.pick(&VERSIONS),
        1 => bytes[2] = if table.version == 1 { 2 } else { 1 },
        _ => {
            let end = kind_offset(table.version, rng.between(1, table.kinds.len()));
            bytes.truncate(end - rng.pick(&[0, 1, 1, 1, 2]));
        }
    }
    match_length(&mut bytes, LENGTH_BYTES);
    bytes
}

fn spoil_transition(rng: &mut Rng, table: &mut Table) {
    let [states, variables, clocks, kinds, _] = table.counts();
    let number = rng.below(table.transitions.len());
    let Some(it) = table.transitions.get_mut(number) else {
        return;
    };
    let near = |rng: &mut Rng, count: usize| (count + rng.below(3)).saturating_sub(1) as u8;
    match rng.below(7) {
        0 => it.from = near(rng, states),
        1 => it.to = near(rng, states),
        2 => it.kind = near(rng, kinds),
        3 => it.set = 1 << variables.min(7),
        4 => it.clear = rng.pick(&[1u8 << variables.min(7), it.set, 0x80]),
        5 => it.reset = rng.pick(&[1u8 << clocks.min(7), 0x80, 3]),
        _ => it.set |= it.clear,
    }
}

fn spoil_guard(rng: &mut Rng, table: &mut Table) {
    let [_, variables, clocks, ..] = table.counts();
    let number = rng.below(table.transitions.len());
    let Some(it) = table.transitions.get_mut(number) else {
        return;
    };
    let place = rng.below(it.guard.len());
    match rng.below(9) {
        0 => it.guard.clear(),
        1 => it.guard.resize(rng.pick(&[1, 31, 32, 33, 255, 256, 300]), 0),
        2 => it.guard.push(rng.byte() % 6),
        3 => drop(it.guard.pop()),
        4 => it.guard = vec![4; 32],
        5 => it.guard = [vec![4; rng.pick(&[30, 31, 32])], vec![0]].concat(),
        6 => it.guard = vec![rng.pick(&[1, 2]), clocks as u8, rng.byte()],
        7 => it.guard = vec![3, variables as u8],
        _ => {
            if let Some(byte) = it.guard.get_mut(place) {
                *byte = rng.pick(&[0, 1, 2, 3, 4, 5, 6, 254, 255]);
            }
        }
    }
}

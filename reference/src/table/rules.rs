//! The rules that reading and writing a table share, so that both give the same numbers.

use super::layout::FIRST_COUNT;
use super::{kind_offset, states, Kind, Table, Transition};
use crate::answer::Refusal;
use crate::situation::{Space, MOST_SITUATIONS};

/// Lowest and highest of states, variables, clocks, kinds and transitions.
pub const COUNT_LIMITS: [(usize, usize); 5] = [(1, 16), (0, 4), (0, 2), (1, 32), (0, 64)];
const GUARD_LENGTHS: std::ops::RangeInclusive<usize> = 1..=32;

pub fn check_version(version: u8) -> Result<(), Refusal> {
    let known = matches!(version, 1 | 2);
    known.then_some(()).ok_or(Refusal::new(11, 2))
}

pub fn check_counts(counts: [usize; 5]) -> Result<(), Refusal> {
    for (place, (count, (lowest, highest))) in counts.into_iter().zip(COUNT_LIMITS).enumerate() {
        if count < lowest || count > highest {
            return Err(Refusal::new(12, FIRST_COUNT + place));
        }
    }
    Ok(())
}

/// The kind with this number. Parts of version 1 can have no device but the one it gives.
pub fn check_kind(version: u8, kind: &Kind, number: usize) -> Result<(), Refusal> {
    let devices = if kind.direction == 0 { 0..=0 } else { 1..=15 };
    let in_range = kind.direction <= 1 && kind.airtime <= 15 && devices.contains(&kind.device);
    let can_be_told = version != 1 || *kind == Kind::in_version_1(kind.direction, kind.airtime);
    let in_order = in_range && can_be_told;
    in_order.then_some(()).ok_or(Refusal::new(14, kind_offset(version, number)))
}

/// All fields but the guard. `table` needs its counts and kinds only.
pub fn check_fields(table: &Table, it: &Transition, offset: usize) -> Result<(), Refusal> {
    let in_range = it.from < table.states
        && it.to < table.states
        && usize::from(it.kind) < table.kinds.len()
        && it.set >> table.variables == 0
        && it.clear >> table.variables == 0
        && it.reset >> table.clocks == 0
        && it.set & it.clear == 0;
    in_range.then_some(()).ok_or(Refusal::new(14, offset))
}

pub fn check_guard_length(length: usize, offset: usize) -> Result<(), Refusal> {
    let in_range = GUARD_LENGTHS.contains(&length);
    in_range.then_some(()).ok_or(Refusal::new(15, offset))
}

pub fn check_guard_form(table: &Table, it: &Transition, offset: usize) -> Result<(), Refusal> {
    table.guard(it).map(|_| ()).ok_or(Refusal::new(15, offset))
}

/// The last rules, once every record is in order: N, then states that cannot be reached.
pub fn check_whole(table: &Table) -> Result<(), Refusal> {
    if Space::of(table).count() > MOST_SITUATIONS {
        return Err(Refusal::new(16, 0));
    }
    states::lowest_unreached(table).map_or(Ok(()), |state| Err(Refusal::new(17, state)))
}

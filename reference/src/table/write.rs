//! Table parts into bytes, with the numbers that reading those bytes would give.

use super::layout::TRANSITION_BYTES;
use super::{kind_offset, rules, Table};
use crate::answer::{settle, Answer, Refusal};
use crate::frame::put;

pub fn write(table: &Table, room: &mut [u8]) -> Answer {
    settle(judge(table).and_then(|()| put(&bytes_of(table), room)))
}

/// The frame is always right here and no record can be cut short or left over, so only the
/// rules of version, counts, records, N and states can speak, in the order of reading.
fn judge(table: &Table) -> Result<(), Refusal> {
    rules::check_version(table.version)?;
    rules::check_counts(table.counts())?;
    for (number, kind) in table.kinds.iter().enumerate() {
        rules::check_kind(table.version, kind, number)?;
    }
    let mut offset = kind_offset(table.version, table.kinds.len());
    for transition in &table.transitions {
        rules::check_fields(table, transition, offset)?;
        rules::check_guard_length(transition.guard.len(), offset)?;
        rules::check_guard_form(table, transition, offset)?;
        offset += TRANSITION_BYTES + transition.guard.len();
    }
    rules::check_whole(table)
}

/// Only for judged parts: every count and guard length fits its byte.
fn bytes_of(table: &Table) -> Vec<u8> {
    let mut bytes = vec![0, 0, table.version];
    bytes.extend(table.counts().map(|count| count as u8));
    for (number, kind) in table.kinds.iter().enumerate() {
        bytes.extend([kind.direction, kind.airtime, kind.device]);
        // What this version has no place for.
        bytes.truncate(kind_offset(table.version, number + 1));
    }
    for it in &table.transitions {
        let guard_length = it.guard.len() as u8;
        bytes.extend([it.from, it.to, it.kind, it.set, it.clear, it.reset, guard_length]);
        bytes.extend(&it.guard);
    }
    let length = (bytes.len() - 2) as u16;
    bytes[..2].copy_from_slice(&length.to_be_bytes());
    bytes
}

//! Table bytes into parts, or the first refusal that applies to them.

use super::layout::{FIRST_COUNT, FIRST_RECORD, TRANSITION_BYTES};
use super::{kind_offset, rules, Kind, Table, Transition};
use crate::answer::Refusal;
use crate::frame::{length_matches, LENGTH_BYTES};

pub fn read(bytes: &[u8]) -> Result<Table, Refusal> {
    let table = read_records(bytes)?;
    rules::check_whole(&table)?;
    Ok(table)
}

/// Frame, counts and records in order; N and the states that can be reached are not judged.
pub fn read_records(bytes: &[u8]) -> Result<Table, Refusal> {
    if bytes.len() < FIRST_RECORD || !length_matches(bytes, LENGTH_BYTES) {
        return Err(Refusal::new(10, 0));
    }
    let version = bytes[2];
    rules::check_version(version)?;
    let counts: [usize; 5] = std::array::from_fn(|i| usize::from(bytes[FIRST_COUNT + i]));
    rules::check_counts(counts)?;
    let mut table = Table {
        version,
        states: bytes[FIRST_COUNT],
        variables: bytes[FIRST_COUNT + 1],
        clocks: bytes[FIRST_COUNT + 2],
        ..Table::default()
    };
    for number in 0..counts[3] {
        let kind = kind(bytes, version, number)?;
        rules::check_kind(version, &kind, number)?;
        table.kinds.push(kind);
    }
    let mut records = Records { bytes, at: kind_offset(version, counts[3]) };
    for _ in 0..counts[4] {
        let transition = records.transition(&table)?;
        table.transitions.push(transition);
    }
    if records.at < bytes.len() {
        return Err(Refusal::new(13, records.at));
    }
    Ok(table)
}

/// The record of the kind with this number, if all of it is there.
fn kind(bytes: &[u8], version: u8, number: usize) -> Result<Kind, Refusal> {
    let record = kind_offset(version, number);
    match bytes.get(record..kind_offset(version, number + 1)) {
        Some(&[direction, airtime]) => Ok(Kind::in_version_1(direction, airtime)),
        Some(&[direction, airtime, device]) => Ok(Kind { direction, airtime, device }),
        _ => Err(Refusal::new(13, record)),
    }
}

/// The transitions' records from front to back; every refusal names where its record starts.
struct Records<'a> {
    bytes: &'a [u8],
    at: usize,
}

impl<'a> Records<'a> {
    /// Takes the next bytes of the record that starts at `record`.
    fn take(&mut self, count: usize, record: usize) -> Result<&'a [u8], Refusal> {
        let end = self.at + count;
        let taken = self.bytes.get(self.at..end).ok_or(Refusal::new(13, record))?;
        self.at = end;
        Ok(taken)
    }

    fn transition(&mut self, table: &Table) -> Result<Transition, Refusal> {
        let record = self.at;
        let bytes = self.take(TRANSITION_BYTES, record)?;
        let mut transition = Transition {
            from: bytes[0],
            to: bytes[1],
            kind: bytes[2],
            set: bytes[3],
            clear: bytes[4],
            reset: bytes[5],
            guard: Vec::new(),
        };
        rules::check_fields(table, &transition, record)?;
        let length = usize::from(bytes[6]);
        rules::check_guard_length(length, record)?;
        transition.guard = self.take(length, record)?.to_vec();
        rules::check_guard_form(table, &transition, record)?;
        Ok(transition)
    }
}

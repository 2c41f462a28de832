//! Which kinds a table of each version may have, as a list, and how its bytes tell them.

use std::collections::BTreeSet;

use crate::answer::Refusal;
use crate::table::{Kind, Table};

const COUNTS: [(u8, u8); 5] = [(1, 16), (0, 4), (0, 2), (1, 32), (0, 64)];

/// Direction, airtime and device of every kind, one by one.
fn all_kinds(version: u8) -> BTreeSet<(u8, u8, u8)> {
    let mut kinds = BTreeSet::new();
    for airtime in 0..=15 {
        kinds.insert((0, airtime, 0));
        kinds.insert((1, airtime, 1));
        if version == 2 {
            kinds.extend((2..=15).map(|device| (1, airtime, device)));
        }
    }
    kinds
}

/// The number of the first of these that no table of this version has.
pub fn first_bad_kind(version: u8, kinds: &[Kind]) -> Option<usize> {
    let all = all_kinds(version);
    kinds.iter().position(|it| !all.contains(&(it.direction, it.airtime, it.device)))
}

/// How many bytes each kind's record has, if there is such a version.
fn record_length(version: u8) -> Option<usize> {
    [(1, 2), (2, 3)].into_iter().find(|it| it.0 == version).map(|it| it.1)
}

/// The kinds that a table's bytes tell and the bytes behind them, or the first refusal so far. The
/// records are taken from the front, one after the other.
pub fn kinds_told(bytes: &[u8]) -> Result<(Vec<Kind>, &[u8]), Refusal> {
    let stated = bytes.iter().take(2).fold(0, |high, low| 256 * high + usize::from(*low));
    if bytes.len() < 8 || bytes.len() != 2 + stated {
        return Err(Refusal::new(10, 0));
    }
    let (version, counts) = (bytes[2], &bytes[3..8]);
    let length = record_length(version).ok_or(Refusal::new(11, 2))?;
    let within = |(count, limits): (&u8, (u8, u8))| (limits.0..=limits.1).contains(count);
    if let Some(place) = counts.iter().zip(COUNTS).position(|it| !within(it)) {
        return Err(Refusal::new(12, 3 + place));
    }
    let mut kinds = Vec::new();
    let mut rest = &bytes[8..];
    for _ in 0..counts[3] {
        let offset = bytes.len() - rest.len();
        let (record, behind) = rest.split_at_checked(length).ok_or(Refusal::new(13, offset))?;
        // The devices that version 1 gives have the numbers of the directions.
        let device = record.get(2).copied().unwrap_or(record[0]);
        kinds.push(Kind { direction: record[0], airtime: record[1], device });
        if first_bad_kind(version, &kinds).is_some() {
            return Err(Refusal::new(14, offset));
        }
        rest = behind;
    }
    Ok((kinds, rest))
}

/// What writing these parts gives if version, counts or kinds are out of order.
pub fn kinds_refused(table: &Table) -> Option<Refusal> {
    let Some(length) = record_length(table.version) else {
        return Some(Refusal::new(11, 2));
    };
    let within = |(count, limits): &(usize, (u8, u8))| {
        (usize::from(limits.0)..=usize::from(limits.1)).contains(count)
    };
    if let Some(place) = table.counts().into_iter().zip(COUNTS).position(|it| !within(&it)) {
        return Some(Refusal::new(12, 3 + place));
    }
    let number = first_bad_kind(table.version, &table.kinds)?;
    Some(Refusal::new(14, 8 + (0..number).map(|_| length).sum::<usize>()))
}

/// A table whose kinds are in order, in version 1, its other bytes the same. Nothing if they are
/// not.
pub fn without_devices(bytes: &[u8]) -> Option<Vec<u8>> {
    in_version(1, bytes, |kind| vec![kind.direction, kind.airtime])
}

/// The same in version 2, with the device that is said for each kind to the unit.
pub fn with_devices(bytes: &[u8], mut device: impl FnMut() -> u8) -> Option<Vec<u8>> {
    in_version(2, bytes, |kind| {
        let device = if kind.direction == 0 { 0 } else { device() };
        vec![kind.direction, kind.airtime, device]
    })
}

fn in_version(version: u8, bytes: &[u8], record: impl FnMut(&Kind) -> Vec<u8>) -> Option<Vec<u8>> {
    let (kinds, rest) = kinds_told(bytes).ok()?;
    let records: Vec<u8> = kinds.iter().flat_map(record).collect();
    let body = [&[version], &bytes[3..8], &records[..], rest].concat();
    Some([&(body.len() as u16).to_be_bytes()[..], &body[..]].concat())
}

//! Parts written into a room, and what was written read back.

use crate::answer::{Answer, Refusal};
use crate::edition::Edition;
use crate::parts::{RecordingParts, TableParts, WitnessParts};
use crate::{recording, table, witness};

pub fn table_back(parts: &TableParts, room: &mut [u8]) -> (Answer, TableParts) {
    let written = table::write(&parts.covered(), room);
    back(written, room, |bytes| Ok(TableParts::of(&table::read(bytes)?)))
}

pub fn recording_back(
    table: &[u8],
    parts: &RecordingParts,
    room: &mut [u8],
) -> (Answer, RecordingParts) {
    let written = recording::write(table, &parts.covered(), room);
    back(written, room, |bytes| Ok(RecordingParts::of(&recording::read(table, bytes)?.1)))
}

pub fn witness_back(
    edition: Edition,
    parts: &WitnessParts,
    room: &mut [u8],
) -> (Answer, WitnessParts) {
    let written = witness::write(edition, &parts.covered(), room);
    back(written, room, |bytes| Ok(WitnessParts::of(&witness::read(edition, bytes)?)))
}

/// The first refusal of either beside parts that are all 0, else 0, 0 and 0 beside the parts.
fn back<Parts: Default>(
    written: Answer,
    room: &[u8],
    read: impl FnOnce(&[u8]) -> Result<Parts, Refusal>,
) -> (Answer, Parts) {
    if written.number != 0 {
        return (written, Parts::default());
    }
    match read(&room[..written.second as usize]) {
        Ok(parts) => (Answer::new(0, 0, 0), parts),
        Err(refusal) => (refusal.into(), Parts::default()),
    }
}

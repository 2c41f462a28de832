//! The tables of R-8 in every call: a refused one comes before all that is wrong behind it.

use super::{judged, validation, ROOM};
use crate::call::Call;
use crate::edition::Edition;
use crate::papers::recording;
use crate::parts::TableParts;
use crate::reaching::{tables, Reaching};
use crate::writing::Parts;

/// A packet to the unit and one from it; what a sound recording of those tables may be.
pub const HEARD: [(u16, u8); 2] = [(1, 1), (3, 0)];
/// The second is of an absent kind.
const UNSOUND: [(u16, u8); 2] = [(1, 1), (3, 9)];

pub fn calls() -> Vec<Call> {
    tables().iter().flat_map(calls_of).collect()
}

fn calls_of(it: &Reaching) -> Vec<Call> {
    let mut calls = Vec::new();
    let (heard, unsound) = (recording(&HEARD), recording(&UNSOUND));
    let table = || it.bytes.clone();
    judged(&mut calls, &it.bytes, &heard);
    calls.push(validation(&it.bytes, &unsound, 0));
    let nothing_lent = |recording: &[u8], edition: Edition| Call::Validate {
        edition,
        table: table(),
        recording: recording.to_vec(),
        budget: 0,
        scratch: vec![],
        room: vec![],
    };
    calls.extend([nothing_lent(&heard, Edition::One), nothing_lent(&[], Edition::Two)]);
    for room in [it.bytes.len() - 1, it.bytes.len()] {
        calls.push(Call::RewriteTable { bytes: table(), room: vec![0; room] });
    }
    for (bytes, room) in [(&heard, 0), (&heard, heard.len()), (&unsound, ROOM)] {
        let room = vec![0; room];
        calls.push(Call::RewriteRecording { table: table(), bytes: bytes.clone(), room });
    }
    let witnesses = [vec![], vec![0, 3, 1, 0, 0]];
    for ((edition, recording), witness) in Edition::BOTH.iter().zip([heard, unsound]).zip(witnesses)
    {
        calls.push(Call::Check { edition: *edition, table: table(), recording, witness });
    }
    calls
}

pub fn parts() -> Vec<Parts> {
    let tables = tables().into_iter().filter(Reaching::is_whole);
    tables.map(|it| Parts::Table(TableParts::of(&it.table))).collect()
}

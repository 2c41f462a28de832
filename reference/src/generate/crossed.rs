//! Packets that the unit missed, heard where others would be added.

use super::encode::{encode_recording, encode_table};
use super::learn::learn;
use super::recordings::{hear, overheard};
use super::rng::Rng;
use super::tables::protocol;
use crate::edition::Edition;
use crate::recording::{Heard, Recording, LAST_TIME};
use crate::table::Table;
use crate::witness::{read, Row, Witness, ADDED, NO_TRANSITION, REMOVED};

/// At most so many places are tried for a packet across a row.
const TRIES: usize = 6;
/// Either would do: the rows are the same.
const EDITION: Edition = Edition::Two;

/// A table, a recording up to this time or earlier, and a witness that would be permitted if
/// removed packets took no air. Without some of those packets it was the preferred one.
pub fn busy_air(rng: &mut Rng, last: u16) -> (Table, Recording, Witness) {
    loop {
        let table = protocol(rng);
        let recording = overheard(rng, &table, last);
        let learnt = learn(EDITION, &encode_table(&table), &encode_recording(&recording));
        let preferred = learnt.preferred.map(|bytes| read(EDITION, &bytes).expect("in form"));
        let across = preferred.and_then(|it| cross(rng, &table, &recording, &it));
        if let Some((recording, witness)) = across {
            return (table, recording, witness);
        }
    }
}

/// The recording with packets to the unit across some rows that this witness adds, and the witness
/// with those packets removed: at the instant of an added row, in its airtime, or so shortly before
/// it that it falls into theirs. Nothing if there is no place for any.
pub fn cross(
    rng: &mut Rng,
    table: &Table,
    recording: &Recording,
    witness: &Witness,
) -> Option<(Recording, Witness)> {
    let (mut recording, mut crossed) = (recording.clone(), witness.clone());
    for added in witness.rows.iter().filter(|row| row.mark == ADDED) {
        let tries = if rng.one_in(2) { TRIES } else { 0 };
        let heard = (0..tries).find_map(|_| {
            across(rng, table, added).filter(|packet| hear(&mut recording, table, *packet))
        });
        if let Some(Heard { time, kind }) = heard {
            let place = crossed.rows.partition_point(|row| row.time < time);
            let row = Row { mark: REMOVED, time, kind, transition: NO_TRANSITION };
            crossed.rows.insert(place, row);
        }
    }
    (crossed != *witness).then_some((recording, crossed))
}

/// Another packet, to the unit, that is on the air together with this row.
fn across(rng: &mut Rng, table: &Table, row: &Row) -> Option<Heard> {
    let kind = rng.below(table.kinds.len()) as u8;
    let first = u32::from(row.time).saturating_sub(table.airtime(kind)).max(1);
    let last = (u32::from(row.time) + table.airtime(row.kind)).min(LAST_TIME.into());
    let time = rng.between(first as usize, last as usize) as u16;
    (table.to_unit(kind) && (time, kind) != (row.time, row.kind)).then_some(Heard { time, kind })
}

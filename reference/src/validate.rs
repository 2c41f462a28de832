//! The validation of a recording: verdict, cost and preferred witness.

use crate::answer::{settle, Refusal, Verdict};
use crate::edition::Edition;
use crate::frame::put;
use crate::moves::Moves;
use crate::recording::{self, Recording};
use crate::rule::Rule;
use crate::search::Search;
use crate::set;
use crate::situation::Space;
use crate::table::Table;
use crate::witness;

/// Lends `scratch` to the search and leaves the witness at the start of `room`.
pub fn validate(
    edition: Edition,
    table: &[u8],
    recording: &[u8],
    budget: u32,
    scratch: &mut [u8],
    room: &mut [u8],
) -> Verdict {
    validate_rule(edition, Rule::NONE, table, recording, budget, scratch, room)
}

/// The same under a rule.
pub fn validate_rule(
    edition: Edition,
    rule: Rule,
    table: &[u8],
    recording: &[u8],
    budget: u32,
    scratch: &mut [u8],
    room: &mut [u8],
) -> Verdict {
    let read = recording::read(table, recording);
    settle(read.and_then(|(table, heard)| {
        validate_read(edition, rule, &table, &heard, budget, scratch, room)
    }))
}

/// The same, of parts that were read.
pub fn validate_read(
    edition: Edition,
    rule: Rule,
    table: &Table,
    recording: &Recording,
    budget: u32,
    scratch: &mut [u8],
    room: &mut [u8],
) -> Result<Verdict, Refusal> {
    rule.judge(Space::of(table).count())?;
    let space = Space::under(rule, table);
    let last_time = recording.last_time();
    let set_size = set::size(space.count());

    let scratch_wanted = (last_time + 1) * set_size;
    let layers = scratch.get_mut(..scratch_wanted).ok_or(Refusal::new(30, scratch_wanted))?;
    let room_wanted = edition.room(last_time, recording.rows.len()).ok_or(Refusal::new(31, 0))?;
    if room.len() < room_wanted {
        return Err(Refusal::new(31, room_wanted));
    }

    let instants = recording.instants();
    let moves = Moves::new(table, &space);
    let first = space.number(&space.first());
    let search = Search { instants: &instants, moves, layers, set_size };
    let verdict = match search.run(first, budget) {
        Err(verdict) => verdict,
        Ok((cost, found)) => {
            put(&witness::bytes_of(edition, &found), room)?;
            Verdict::new(0, cost, found.rows.len() as u64)
        }
    };
    layers.fill(0);
    Ok(verdict)
}

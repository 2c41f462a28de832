//! What the definitions say of an input, and a validation held against it.

use super::same;
use crate::answer::Verdict;
use crate::brute::Judged;
use crate::call::{Call, ORDINARY};
use crate::compare::hex;
use crate::edition::Edition;
use crate::generate::{dirty, encode_recording, encode_table, encode_witness, Rng};
use crate::recording::Recording;
use crate::rule::Rule;
use crate::table::Table;

/// A sound table and recording, as parts and as bytes, and a rule that is in range for them if
/// there is one.
pub struct Input {
    pub rule: Option<Rule>,
    pub table: Table,
    pub recording: Recording,
    pub table_bytes: Vec<u8>,
    pub recording_bytes: Vec<u8>,
}

impl Input {
    pub fn new(table: Table, recording: Recording) -> Input {
        let (table_bytes, recording_bytes) = (encode_table(&table), encode_recording(&recording));
        Input { rule: None, table, recording, table_bytes, recording_bytes }
    }

    pub fn under(rule: Rule, table: Table, recording: Recording) -> Input {
        Input { rule: Some(rule), ..Input::new(table, recording) }
    }

    /// The rule, or the one that forbids nothing.
    pub fn rule(&self) -> Rule {
        self.rule.unwrap_or(Rule::NONE)
    }

    /// What was found of it, with its files.
    pub fn describe(&self, found: &str) -> String {
        let (table, recording) = (hex(&self.table_bytes), hex(&self.recording_bytes));
        format!("{found}\nrule: {:?}\ntable: {table}\nrecording: {recording}", self.rule)
    }
}

/// The answer that the truth asks for at this budget.
fn expected(truth: &Judged, budget: u32) -> Verdict {
    let budget = u64::from(budget);
    let mut cost = 0;
    for (place, work) in truth.works.iter().enumerate() {
        cost += work;
        if cost > budget {
            return Verdict::new(2, budget, place as u64 + 1);
        }
    }
    match (truth.dead, &truth.preferred) {
        (Some((instant, counts)), _) => Verdict::rejected(cost, instant, counts),
        (None, Some(witness)) => Verdict::new(0, cost, witness.rows.len() as u64),
        (None, None) => unreachable!("a trace was found where no instant is dead"),
    }
}

/// Runs with dirty buffers longer than wanted, and then one byte short.
pub fn validate_one(
    rng: &mut Rng,
    input: &Input,
    truth: &Judged,
    edition: Edition,
    budget: u32,
) -> Result<(), String> {
    let scratch_wanted = scratch_wanted(input);
    let Some(room_wanted) = room_wanted(input, edition) else {
        return not_written(rng, input, edition, scratch_wanted);
    };
    let spare = rng.below(9);
    let (scratch, room) = (dirty(rng, scratch_wanted + spare), dirty(rng, room_wanted + spare));
    let outcome = call(input, edition, budget, &scratch, &room).run(&ORDINARY);
    same("answer", outcome.answer, expected(truth, budget))?;
    let mut scratch_after = scratch.clone();
    scratch_after[..scratch_wanted].fill(0);
    same("scratch", outcome.scratch == scratch_after, true)?;
    let mut room_after = room.clone();
    if let (0, Some(witness)) = (outcome.answer.number, &truth.preferred) {
        let bytes = encode_witness(edition, witness);
        room_after[..bytes.len()].copy_from_slice(&bytes);
    }
    same("room", outcome.room == room_after, true)?;

    let short_scratch = &scratch[..scratch_wanted - 1];
    refused(&call(input, edition, budget, short_scratch, &room), 30, scratch_wanted)?;
    let short_room = &room[..room_wanted - 1];
    refused(&call(input, edition, budget, &scratch, short_room), 31, room_wanted)
}

/// However large the room is; but a scratch too short comes first.
fn not_written(
    rng: &mut Rng,
    input: &Input,
    edition: Edition,
    scratch_wanted: usize,
) -> Result<(), String> {
    let budget = rng.draw() as u32;
    let scratch = dirty(rng, scratch_wanted);
    for room in [0, 1, 5, 23_045, 400_000] {
        let room = dirty(rng, room);
        refused(&call(input, edition, budget, &scratch, &room), 31, 0)?;
        let short = &scratch[..scratch_wanted - 1];
        refused(&call(input, edition, budget, short, &room), 30, scratch_wanted)?;
    }
    Ok(())
}

fn call(input: &Input, edition: Edition, budget: u32, scratch: &[u8], room: &[u8]) -> Call {
    let (table, recording) = (input.table_bytes.clone(), input.recording_bytes.clone());
    let (scratch, room) = (scratch.to_vec(), room.to_vec());
    match input.rule {
        None => Call::Validate { edition, table, recording, budget, scratch, room },
        Some(rule) => Call::ValidateRule { edition, rule, table, recording, budget, scratch, room },
    }
}

/// Every lent byte is as it was.
fn refused(call: &Call, number: u64, value: usize) -> Result<(), String> {
    let outcome = call.run(&ORDINARY);
    same("refusal", outcome.answer, Verdict::new(number, value as u64, 0))?;
    let (Call::Validate { scratch, room, .. } | Call::ValidateRule { scratch, room, .. }) = call
    else {
        unreachable!("a validation")
    };
    same("scratch and room kept", outcome.scratch == *scratch && outcome.room == *room, true)
}

/// (T+1) x S, of the larger N under a rule.
fn scratch_wanted(input: &Input) -> usize {
    let windows = (1..input.rule().window).fold(1, |twice, _| 2 * twice);
    (input.recording.last_time() + 1) * (situations(&input.table) * windows).div_ceil(8)
}

/// 5 + 5(T+n) in edition 1, which is written up to 4,096, and 9 + 5(T+n) in edition 2.
fn room_wanted(input: &Input, edition: Edition) -> Option<usize> {
    let last = input.recording.last_time();
    let rows = 5 * (last + input.recording.rows.len());
    match edition {
        Edition::One => (last <= 4_096).then_some(5 + rows),
        Edition::Two => Some(9 + rows),
    }
}

/// N, counted from the parts.
pub fn situations(table: &Table) -> usize {
    let mut situations = usize::from(table.states) << table.variables;
    for clock in 0..usize::from(table.clocks) {
        let limits = table.transitions.iter().map(|it| largest(&it.guard, clock));
        situations *= limits.max().unwrap_or(0) + 2;
    }
    let longest = table.kinds.iter().map(|kind| kind.airtime).max().unwrap_or(0);
    situations * (usize::from(longest) + 1)
}

/// The largest limit of a clock in a sound guard, by going through its bytes in a row.
fn largest(guard: &[u8], clock: usize) -> usize {
    let mut most = 0;
    let mut rest = guard;
    while let [code, after @ ..] = rest {
        if matches!(code, 1 | 2) && usize::from(after[0]) == clock {
            most = most.max(usize::from(after[1]));
        }
        let operands = match code {
            1 | 2 => 2,
            3 => 1,
            _ => 0,
        };
        rest = &after[operands..];
    }
    most
}

//! Recordings that are rejected where transitions on what was heard are too early or too late.

use super::buffers::{dirty, length_near};
use super::crowded::crowded;
use super::encode::{encode_recording, encode_table};
use super::guards::{waiting_guard, Names};
use super::learn::learn;
use super::recordings::{any_rows, hear, overheard};
use super::rng::Rng;
use super::tables::{any_table, Shape};
use crate::answer::{Counts, Verdict};
use crate::call::Call;
use crate::edition::Edition;
use crate::recording::{Heard, Recording};
use crate::table::{Kind, Table};
use crate::witness::read;

/// What is heard at the rejected instant as a rule; from the unit in each of these tables.
pub const TEST: u8 = 0;
/// No table and recording here want more scratch.
const MOST_SCRATCH: usize = 20_000;
/// Guards that are made stricter before an input is given up.
const TRIES: usize = 30;
const GUARD_BYTES: usize = 32;
/// Either would do: the rows are the same.
const EDITION: Edition = Edition::Two;

/// Validations of one input with every budget, with the cost and with one less.
pub fn rejections(rng: &mut Rng) -> Vec<Call> {
    let last = rng.pick(&[5, 14, 14, 14, 40]);
    let (table, recording) = match rng.one_in(8) {
        true => crowded(rng),
        false => rejection(rng, last),
    };
    let (table, recording) = (encode_table(&table), encode_recording(&recording));
    let edition = rng.pick(&Edition::BOTH);
    let learnt = learn(edition, &table, &recording);
    let cost = learnt.answer.second as u32;
    let mut calls = Vec::new();
    for budget in [u32::MAX, cost, cost - 1] {
        let [scratch, room] = [learnt.scratch, learnt.room].map(|wanted| {
            // Where the budget suffices, the counts are to be seen.
            let length = if budget < cost { length_near(rng, wanted) } else { wanted };
            dirty(rng, length)
        });
        let (table, recording) = (table.clone(), recording.clone());
        calls.push(Call::Validate { edition, table, recording, budget, scratch, room });
    }
    calls
}

/// Up to this time, 3 or more; nearly always with something to count.
pub fn rejection(rng: &mut Rng, last: u16) -> (Table, Recording) {
    loop {
        let mut limits = [rng.pick(&[2, 6, 9, 14, 20, 30, 100, 255]), rng.pick(&[1, 4, 9, 14])];
        if rng.one_in(3) {
            limits.reverse();
        }
        let mut table = asked_for(rng, limits);
        let mut recording = heard(rng, &table, last - 2);
        let names = Names::of(&table, limits);
        let Some(verdict) = rejected(rng, &mut table, &recording, &names) else { continue };
        if verdict.counts != Counts::default() || rng.one_in(10) {
            if rng.one_in(3) {
                let time = recording.last_time() as u16 + rng.between(1, 2) as u16;
                let kind = rng.below(table.kinds.len()) as u8;
                hear(&mut recording, &table, Heard { time, kind });
            }
            return (table, recording);
        }
    }
}

/// A table whose transitions on that kind have guards that turn on waiting. N may be above its
/// limit.
fn asked_for(rng: &mut Rng, limits: [u8; 2]) -> Table {
    let mut table = any_table(rng, &Shape::TINY);
    table.kinds[usize::from(TEST)] = Kind::in_version_1(0, table.kinds[usize::from(TEST)].airtime);
    let names = Names::of(&table, limits);
    for _ in 0..rng.between(1, 4) {
        let mut it = table.transitions.first().cloned().unwrap_or_default();
        it.from = rng.below(table.states.into()) as u8;
        it.kind = TEST;
        it.guard = vec![0];
        table.transitions.push(it);
    }
    for it in table.transitions.iter_mut().filter(|it| it.kind == TEST) {
        let most = rng.pick(&[3, 7, 12, GUARD_BYTES]);
        it.guard = waiting_guard(rng, &names, most);
    }
    table
}

/// That kind at the last time or before, behind others.
fn heard(rng: &mut Rng, table: &Table, last: u16) -> Recording {
    let time = rng.between(1, last.into()) as u16;
    let before = rng.below(time.into()) as u16;
    let mut recording = match rng.below(4) {
        0 => Recording::default(),
        1 => any_rows(rng, table, before),
        _ => overheard(rng, table, before),
    };
    while !hear(&mut recording, table, Heard { time, kind: TEST }) {
        recording.rows.pop();
    }
    recording
}

/// Makes guards stricter until the recording is rejected. Nothing if that takes too long, or N or
/// the scratch is too much.
fn rejected(
    rng: &mut Rng,
    table: &mut Table,
    recording: &Recording,
    names: &Names,
) -> Option<Verdict> {
    for _ in 0..TRIES {
        let learnt = learn(EDITION, &encode_table(table), &encode_recording(recording));
        if learnt.scratch > MOST_SCRATCH {
            return None;
        }
        if learnt.answer.number == 1 {
            return Some(learnt.answer);
        }
        let witness = read(EDITION, &learnt.preferred?).expect("in form");
        let kept = usize::from(witness.rows.last()?.transition);
        let guard = &mut table.transitions[kept].guard;
        *guard = stricter(rng, guard, names);
    }
    None
}

/// In place of a guard that holds: one that holds less often, comes last, or never does.
fn stricter(rng: &mut Rng, guard: &[u8], names: &Names) -> Vec<u8> {
    let most = (GUARD_BYTES - 1).saturating_sub(guard.len());
    let clock = names.clock(rng);
    let last = names.limits[usize::from(clock)];
    match rng.below(8) {
        0..=2 if names.clocks > 0 && most >= 4 => [&[5], guard, &names.above(clock)].concat(),
        3 if names.clocks > 0 => names.above(clock),
        4 | 5 if most >= 3 => [&[5], guard, &waiting_guard(rng, names, most)].concat(),
        6 if names.clocks > 0 => vec![5, 2, clock, last, 1, clock, last - 1],
        _ => vec![4, 0],
    }
}

//! Small inputs: verdict, cost, witness and lent buffers against the brute-force search.

use super::truth::{validate_one, Input};
use super::{same, Counts};
use crate::answer;
use crate::brute::{
    self, first_dead_instant, permitted_by_checker, possible_before, preference, ruled_out,
    witnesses, work, works, Judged,
};
use crate::edition::Edition;
use crate::generate::{any_rows, busy_air, overheard, rejection, sound_table, Rng, Shape};
use crate::recording::Recording;
use crate::table::Table;

/// Lists of packets that the search may go through: T up to 7 or so.
const MOST_TRACES: u64 = 20_000;
/// Choices of transitions along them, if every guard held.
const MOST_RUNS: u64 = 200_000;
/// Questions to the checker before a hunt is given up.
const MOST_CHECKS: u32 = 10_000;

pub fn test(rng: &mut Rng, counts: &mut Counts) -> Result<(), String> {
    let small = small(rng);
    test_one(rng, &small, counts).map_err(|text| small.describe(&text))
}

fn small(rng: &mut Rng) -> Input {
    let (table, recording) = match rng.below(4) {
        0 => {
            // Three kinds, and guards that leave few runs: not too many traces up to 7.
            let last = rng.between(4, 7) as u16;
            let (table, recording, _) = busy_air(rng, last);
            (table, recording)
        }
        1 => {
            let last = rng.between(3, 5) as u16;
            rejection(rng, last)
        }
        _ => any(rng),
    };
    Input::new(table, recording)
}

/// Whether the search may go through all traces up to this time.
pub fn few_traces(table: &Table, last: u32) -> bool {
    let (traces, runs) = (table.kinds.len() as u64 + 1, table.transitions.len() as u64 + 1);
    traces.pow(last) <= MOST_TRACES && runs.pow(last) <= MOST_RUNS
}

fn any(rng: &mut Rng) -> (Table, Recording) {
    let table = sound_table(rng, &Shape::TINY);
    let most = (1..=8).rev().find(|last| few_traces(&table, *last)).unwrap_or(1);
    // Short recordings say little, so the longer of two lengths.
    let last = rng.between(0, most as usize).max(rng.between(0, most as usize)) as u16;
    let recording = match rng.one_in(3) {
        true => overheard(rng, &table, last),
        false => any_rows(rng, &table, last),
    };
    (table, recording)
}

pub fn test_one(rng: &mut Rng, small: &Input, counts: &mut Counts) -> Result<(), String> {
    let truth = truth(small, counts)?;
    counts.inputs += 1;
    match truth.dead {
        None => counts.accepted += 1,
        Some((_, unready)) => {
            counts.rejected += 1;
            counts.pairs.note(unready);
        }
    }
    let mut total = 0;
    let mut budgets = vec![u32::MAX];
    for work in &truth.works {
        total += *work as u32;
        budgets.extend([total - 1, total, total + 1]);
    }
    budgets.extend([0, 1]);
    for budget in budgets {
        counts.validations += 1;
        let edition = rng.pick(&Edition::BOTH);
        validate_one(rng, small, &truth, edition, budget)
            .map_err(|it| format!("{edition:?}, budget {budget}: {it}"))?;
    }
    Ok(())
}

fn truth(small: &Input, counts: &mut Counts) -> Result<Judged, String> {
    let Input { table, recording, .. } = small;
    let last = recording.last_time();
    let rule = small.rule();
    let mut permitted = witnesses(rule, table, recording);
    permitted.sort_by_cached_key(|witness| preference(witness, last));
    counts.witnesses += permitted.len() as u64;
    if ruled_out(table, recording) {
        counts.narrowed += 1;
        counts.left_with_none += u64::from(permitted.is_empty());
    }
    let dead = first_dead_instant(rule, table, recording);
    same("some trace or a dead instant", permitted.is_empty(), dead.is_some())?;
    let works = works(rule, table, recording);
    same("instants worked", works.len() as u64, dead.unwrap_or(last as u64))?;
    for edition in Edition::BOTH {
        let asked = permitted_by_checker(
            edition,
            rule,
            (table, &small.table_bytes),
            (recording, &small.recording_bytes),
            MOST_CHECKS,
        );
        let Some(mut by_checker) = asked else {
            counts.hunts_left += 1;
            continue;
        };
        counts.checker_hunts += 1;
        by_checker.sort_by_cached_key(|witness| preference(witness, last));
        same("permitted lists", &by_checker, &permitted)?;
    }
    let dead = match (dead, works.last()) {
        (Some(instant), Some(work)) => Some((instant, counted(small, instant as u32, *work)?)),
        _ => None,
    };
    Ok(Judged { works, dead, preferred: permitted.into_iter().next() })
}

/// The counts of a dead instant with this work, from whole traces.
fn counted(small: &Input, instant: u32, expected: u64) -> Result<answer::Counts, String> {
    let Input { table, recording, .. } = small;
    let possible = possible_before(small.rule(), table, recording, instant);
    same("situations left by traces", work(table, &possible, instant), expected)?;
    let row = recording.rows.iter().find(|row| u32::from(row.time) == instant);
    let kind = row.ok_or("a dead instant without a row")?.kind;
    Ok(brute::counts(table, &possible, instant, kind))
}

//! Every mutation trace that the monitor satisfies, and with each choice of transitions the
//! witness that tells of it.

use super::likely::{is_likely_trace, last_guesses};
use super::monitor::Monitor;
use super::trace::{is_mutation, is_packet_trace, shares_the_air, together, traces, Trace};
use super::works::{Possible, Real};
use crate::recording::{Heard, Recording};
use crate::rule::Rule;
use crate::table::Table;
use crate::witness::{Row, Witness, ADDED, KEPT, NO_TRANSITION, REMOVED};

/// One witness for each satisfying mutation trace up to T that keeps the rule and each choice of
/// transitions.
pub fn witnesses(rule: Rule, table: &Table, recording: &Recording) -> Vec<Witness> {
    let mut found = Vec::new();
    for trace in mutation_traces(rule, table, recording, recording.last_time() as u32) {
        for run in Monitor::start().runs(table, &trace) {
            found.push(witness(recording, &trace, &run));
        }
    }
    found
}

/// The first instant that no trace passes: none up to it is a mutation trace of the rows up
/// to it, keeps the rule and satisfies the monitor.
pub fn first_dead_instant(rule: Rule, table: &Table, recording: &Recording) -> Option<u64> {
    let last = recording.last_time() as u32;
    let dead = (1..=last).find(|instant| {
        let heard = up_to(recording, *instant);
        let mut traces = mutation_traces(rule, table, &heard, *instant);
        !traces.any(|trace| Monitor::satisfies(table, &trace))
    });
    dead.map(u64::from)
}

/// What is possible just before an instant: every trace before it that is a mutation trace of the
/// rows before it and keeps the rule leaves some monitors, the air free from some tick on, and some
/// last rows.
pub fn possible_before(rule: Rule, table: &Table, recording: &Recording, instant: u32) -> Possible {
    let heard = up_to(recording, instant - 1);
    let left = |trace: Trace| {
        let airtime = |kind: u8| u32::from(table.kinds[usize::from(kind)].airtime);
        let last = together(&heard, &trace).pop();
        let free_from = last.map_or(0, |(time, kind)| time + airtime(kind) + 1);
        let guesses = last_guesses(rule, table, &heard, &trace);
        let real = move |monitor| Real { monitor, free_from, guesses: guesses.clone() };
        Monitor::after(table, &trace).into_iter().map(real)
    };
    mutation_traces(rule, table, &heard, instant - 1).flat_map(left).collect()
}

fn up_to(recording: &Recording, instant: u32) -> Recording {
    let heard = |row: &&Heard| u32::from(row.time) <= instant;
    Recording { rows: recording.rows.iter().filter(heard).copied().collect() }
}

/// Whether some trace would be a satisfying mutation trace if removed packets took no air.
pub fn ruled_out(table: &Table, recording: &Recording) -> bool {
    let mut traces = mutations(table, recording, recording.last_time() as u32)
        .filter(|trace| !shares_the_air(table, recording, trace));
    traces.any(|trace| Monitor::satisfies(table, &trace))
}

fn mutation_traces<'a>(
    rule: Rule,
    table: &'a Table,
    recording: &'a Recording,
    last: u32,
) -> impl Iterator<Item = Trace> + 'a {
    mutations(table, recording, last)
        .filter(|trace| shares_the_air(table, recording, trace))
        .filter(move |trace| is_likely_trace(rule, table, recording, trace))
}

/// Packet traces that lack no recorded packet but ones to the unit, whatever air those take.
fn mutations<'a>(
    table: &'a Table,
    recording: &'a Recording,
    last: u32,
) -> impl Iterator<Item = Trace> + 'a {
    traces(last, table.kinds.len() as u8)
        .filter(|trace| is_packet_trace(table, trace))
        .filter(|trace| is_mutation(table, recording, trace))
}

/// Recorded rows are kept if the trace has them and removed if not; its others are added.
fn witness(recording: &Recording, trace: &Trace, run: &[u8]) -> Witness {
    let mut rows: Vec<Row> = Vec::new();
    for Heard { time, kind } in recording.rows.iter().copied() {
        if !trace.contains(&(u32::from(time), kind)) {
            rows.push(Row { mark: REMOVED, time, kind, transition: NO_TRANSITION });
        }
    }
    for ((time, kind), transition) in trace.iter().copied().zip(run.iter().copied()) {
        let time = time as u16;
        let recorded = recording.rows.contains(&Heard { time, kind });
        let mark = if recorded { KEPT } else { ADDED };
        rows.push(Row { mark, time, kind, transition });
    }
    rows.sort_by_key(|row| row.time);
    Witness { rows }
}

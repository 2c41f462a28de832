//! The rules of a witness against a table and a recording, each stated of a row by itself.

use super::likely::{is_likely, Sent};
use super::monitor::Monitor;
use super::trace::{is_packet_trace, Trace};
use crate::answer::Answer;
use crate::edition::Edition;
use crate::recording::Recording;
use crate::rule::Rule;
use crate::table::Table;
use crate::witness::{Row, Witness, ADDED, KEPT, NO_TRANSITION, REMOVED};

/// What the checker should answer for parts that are sound but for the witness's rows.
pub fn expected_check(
    edition: Edition,
    rule: Rule,
    table: &Table,
    recording: &Recording,
    witness: &Witness,
) -> Answer {
    let rows = &witness.rows;
    let broken = (0..rows.len()).find(|number| {
        let rows = &rows[..=*number];
        breaks(edition, table, recording, rows) || !is_likely(rule, table, &sent(rows))
    });
    if let Some(number) = broken {
        return Answer::new(43, number as u64, 0);
    }
    let count = |marks: &[u8]| rows.iter().filter(|row| marks.contains(&row.mark)).count();
    if count(&[KEPT, REMOVED]) < recording.rows.len() {
        return Answer::new(43, rows.len() as u64, 0);
    }
    Answer::new(0, count(&[REMOVED, ADDED]) as u64, rows.len() as u64)
}

/// Whether the last of these rows breaks a rule, when none before it does.
fn breaks(edition: Edition, table: &Table, recording: &Recording, rows: &[Row]) -> bool {
    let Some((row, before)) = rows.split_last() else {
        return false;
    };
    breaks_form(edition, row, before)
        || breaks_account(table, recording, row, before)
        || !is_packet_trace(table, &entries(rows))
        || (row.mark != REMOVED && breaks_run(table, row, before))
}

fn breaks_form(edition: Edition, row: &Row, before: &[Row]) -> bool {
    let last = if edition == Edition::One { 4_096 } else { 65_535 };
    row.mark > 2
        || row.time < 1
        || row.time > last
        || (row.mark == REMOVED && row.transition != NO_TRANSITION)
        || before.iter().any(|it| it.time >= row.time)
}

/// Kept and added rows alone.
fn sent(rows: &[Row]) -> Vec<Sent> {
    let sent = rows.iter().filter(|row| row.mark != REMOVED);
    sent.map(|row| (row.mark == ADDED, row.kind)).collect()
}

/// Kept, removed and added rows together.
fn entries(rows: &[Row]) -> Trace {
    rows.iter().map(|row| (u32::from(row.time), row.kind)).collect()
}

/// Every kept or removed row so far accounted for the next recorded one.
fn breaks_account(table: &Table, recording: &Recording, row: &Row, before: &[Row]) -> bool {
    let accounted = before.iter().filter(|it| it.mark != ADDED).count();
    let left = &recording.rows[accounted..];
    let to_unit = || table.kinds[usize::from(row.kind)].direction == 1;
    let is_next = left.first().is_some_and(|it| it.time == row.time && it.kind == row.kind);
    left.iter().any(|it| it.time < row.time)
        || (row.mark != ADDED && !is_next)
        || (row.mark == REMOVED && !to_unit())
        || (row.mark == ADDED && left.iter().any(|it| it.time == row.time))
}

/// Replays the rows before and then this one with real clocks; each must fire.
fn breaks_run(table: &Table, row: &Row, before: &[Row]) -> bool {
    let mut monitor = Some(Monitor::start());
    for sent in before.iter().filter(|it| it.mark != REMOVED).chain([row]) {
        let packet = (u32::from(sent.time), sent.kind);
        monitor = monitor.and_then(|it| it.fire(table, sent.transition, packet));
    }
    monitor.is_none()
}

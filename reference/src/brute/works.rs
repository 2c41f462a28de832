//! The works again, from sets of real monitors that are capped only to be counted.

use std::collections::BTreeSet;

use super::likely::{no_guesses, one_more};
use super::monitor::{largest_limit, Monitor};
use crate::recording::{Heard, Recording};
use crate::rule::Rule;
use crate::table::Table;
use crate::witness::{Row, ADDED, KEPT, NO_TRANSITION, REMOVED};

/// What of the past can matter, with nothing left out but rows that no window reaches.
#[derive(Clone, Debug, PartialEq, Eq, PartialOrd, Ord)]
pub struct Real {
    pub monitor: Monitor,
    /// The first tick at which the air is free, from the next one on.
    pub free_from: u32,
    /// Which of the last l-1 kept or added rows were guesses, the latest last.
    pub guesses: Vec<bool>,
}

pub type Possible = BTreeSet<Real>;

/// The work of each instant from 1 to T, or to the first that leaves nothing.
pub fn works(rule: Rule, table: &Table, recording: &Recording) -> Vec<u64> {
    let mut works = Vec::new();
    let mut possible = start(rule);
    for time in 1..=recording.last_time() as u32 {
        works.push(work(table, &possible, time));
        let heard = heard(recording, time);
        let after = possible.iter().flat_map(|it| moves(rule, table, heard, it, time));
        possible = after.map(|it| it.1).collect();
        if possible.is_empty() {
            break;
        }
    }
    works
}

/// What is possible just before instant 1.
pub fn start(rule: Rule) -> Possible {
    let (monitor, guesses) = (Monitor::start(), no_guesses(rule));
    Possible::from([Real { monitor, free_from: 0, guesses }])
}

pub fn heard(recording: &Recording, time: u32) -> Option<Heard> {
    recording.rows.iter().copied().find(|row| u32::from(row.time) == time)
}

/// How many distinct situations these are just before this instant.
pub fn work(table: &Table, possible: &Possible, time: u32) -> u64 {
    let distinct: BTreeSet<_> = possible.iter().map(|it| situation(table, it, time)).collect();
    distinct.len() as u64
}

/// State, variables, clocks, air and guesses.
pub type Situation = (u8, u8, Vec<u32>, u32, Vec<bool>);

/// The situation of the paper: clock values above M as M+1, and the ticks of taken air.
pub fn situation(table: &Table, real: &Real, time: u32) -> Situation {
    let Real { monitor, free_from, guesses } = real;
    let clocks = (0..usize::from(table.clocks)).map(|clock| {
        let limits = table.transitions.iter().map(|it| largest_limit(&it.guard, clock).0);
        let highest = limits.max().unwrap_or(0) + 1;
        highest.min(time - monitor.last_reset[clock])
    });
    let air = free_from.saturating_sub(time);
    (monitor.state, monitor.variables, clocks.collect(), air, guesses.clone())
}

/// What each move of this instant leaves, with its row if it has one: nothing is on the air, or a
/// packet that finds it free, and whose row keeps the rule. In the order of preference.
pub fn moves(
    rule: Rule,
    table: &Table,
    heard: Option<Heard>,
    real: &Real,
    time: u32,
) -> Vec<(Option<Row>, Real)> {
    let mut after = Vec::new();
    let Real { monitor, free_from, guesses } = real;
    if heard.is_none() {
        after.push((None, Real { free_from: (*free_from).max(time + 1), ..real.clone() }));
    }
    if *free_from > time {
        return after;
    }
    let air_after = |kind: u8| time + u32::from(table.kinds[usize::from(kind)].airtime) + 1;
    let row = |mark, kind, transition| Some(Row { mark, time: time as u16, kind, transition });
    for (number, it) in table.transitions.iter().enumerate() {
        let number = number as u8;
        let keeps_or_adds = heard.is_none_or(|heard| heard.kind == it.kind);
        let fired = monitor.fire(table, number, (time, it.kind));
        let behind = one_more(rule, table, guesses, (heard.is_none(), it.kind));
        if let (true, Some(monitor), Some(guesses)) = (keeps_or_adds, fired, behind) {
            let mark = if heard.is_some() { KEPT } else { ADDED };
            let free_from = air_after(it.kind);
            after.push((row(mark, it.kind, number), Real { monitor, free_from, guesses }));
        }
    }
    let to_unit = |it: &Heard| table.kinds[usize::from(it.kind)].direction == 1;
    if let Some(Heard { kind, .. }) = heard.filter(to_unit) {
        let removed = Real { free_from: air_after(kind), ..real.clone() };
        after.push((row(REMOVED, kind, NO_TRANSITION), removed));
    }
    after
}

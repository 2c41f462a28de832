//! The counts of a rejection, from real monitors that are taken for situations only to be counted.

use std::collections::BTreeMap;

use super::readiness::readiness;
use super::works::{situation, Possible};
use crate::answer::Counts;
use crate::guard::Readiness;
use crate::table::Table;

/// Of the monitors possible just before this instant, at which this kind was heard.
pub fn counts(table: &Table, possible: &Possible, time: u32, kind: u8) -> Counts {
    let mut pairs = BTreeMap::new();
    for real in possible.iter().filter(|it| it.free_from <= time) {
        let monitor = real.monitor;
        let clocks = monitor.last_reset.map(|reset| time - reset);
        let situation = situation(table, real, time);
        for (number, it) in table.transitions.iter().enumerate() {
            if it.from == monitor.state && it.kind == kind {
                let now = readiness(&it.guard, monitor.variables, clocks);
                let known = pairs.insert((situation.clone(), number), now);
                assert!(known.is_none_or(|known| known == now), "one situation, two answers");
            }
        }
    }
    let times = |of: Readiness| pairs.values().filter(|it| **it == of).count() as u64;
    Counts::new(times(Readiness::NotYet), times(Readiness::NoMore))
}

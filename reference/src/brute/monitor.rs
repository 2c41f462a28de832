//! The monitor of Definition 2 with real clocks.

use super::readiness::readiness;
use super::trace::Trace;
use crate::guard::Readiness;
use crate::table::Table;

#[derive(Clone, Copy, Debug, PartialEq, Eq, PartialOrd, Ord)]
pub struct Monitor {
    pub state: u8,
    pub variables: u8,
    /// The tick of each clock's last reset.
    pub last_reset: [u32; 2],
}

impl Monitor {
    pub fn start() -> Monitor {
        Monitor { state: 0, variables: 0, last_reset: [0, 0] }
    }

    /// The monitor after this transition fired on a packet at this time, if it can.
    pub fn fire(&self, table: &Table, number: u8, packet: (u32, u8)) -> Option<Monitor> {
        let (time, kind) = packet;
        let it = table.transitions.get(usize::from(number))?;
        let clocks = [time - self.last_reset[0], time - self.last_reset[1]];
        if it.kind != kind || it.from != self.state {
            return None;
        }
        if readiness(&it.guard, self.variables, clocks) != Readiness::Yes {
            return None;
        }
        let mut after = *self;
        after.state = it.to;
        for variable in 0..8 {
            let bit = 1 << variable;
            if it.set & bit != 0 {
                after.variables |= bit;
            }
            if it.clear & bit != 0 {
                after.variables &= !bit;
            }
        }
        for clock in 0..2 {
            if it.reset & (1 << clock) != 0 {
                after.last_reset[clock] = time;
            }
        }
        Some(after)
    }

    /// Every choice of transitions that carries the monitor along all of this trace.
    pub fn runs(&self, table: &Table, trace: &[(u32, u8)]) -> Vec<Vec<u8>> {
        let Some((packet, rest)) = trace.split_first() else {
            return vec![Vec::new()];
        };
        let mut runs = Vec::new();
        for number in 0..table.transitions.len() as u8 {
            if let Some(after) = self.fire(table, number, *packet) {
                for mut run in after.runs(table, rest) {
                    run.insert(0, number);
                    runs.push(run);
                }
            }
        }
        runs
    }

    /// Whether some choice of transitions carries the monitor along all of this trace.
    pub fn satisfies(table: &Table, trace: &Trace) -> bool {
        !Monitor::after(table, trace).is_empty()
    }

    /// What each choice of transitions along all of this trace leaves.
    pub fn after(table: &Table, trace: &Trace) -> Vec<Monitor> {
        let mut possible = vec![Monitor::start()];
        for packet in trace {
            let numbers = 0..table.transitions.len() as u8;
            possible = numbers
                .flat_map(|number| possible.iter().map(move |it| it.fire(table, number, *packet)))
                .flatten()
                .collect();
            possible.sort();
            possible.dedup();
        }
        possible
    }
}

/// The largest limit compared with a clock in the guard at the front of these bytes, if any.
pub fn largest_limit(guard: &[u8], clock: usize) -> (u32, usize) {
    match guard[0] {
        0 => (0, 1),
        1 | 2 if usize::from(guard[1]) == clock => (u32::from(guard[2]), 3),
        1 | 2 => (0, 3),
        3 => (0, 2),
        4 => {
            let (limit, used) = largest_limit(&guard[1..], clock);
            (limit, 1 + used)
        }
        _ => {
            let (left, left_used) = largest_limit(&guard[1..], clock);
            let (right, right_used) = largest_limit(&guard[1 + left_used..], clock);
            (left.max(right), 1 + left_used + right_used)
        }
    }
}

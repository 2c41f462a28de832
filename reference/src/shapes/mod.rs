//! The inputs that are measured, each hard on a validation in another way.

mod air;
mod clocks;
mod ends;
mod few;
mod rules;
mod transitions;
mod wide;

pub use wide::wide;

use crate::recording::{Heard, Recording};
use crate::rule::Rule;
use crate::situation::Space;
use crate::table::{Kind, Table, Transition};

/// The T of most of them.
pub const LAST_TIME: u16 = 4_096;

/// A validation to measure. Each is accepted, since no other verdict needs every pass.
#[derive(Clone, Debug)]
pub struct Shape {
    pub name: &'static str,
    pub table: Table,
    pub recording: Recording,
    /// Where there is none, it is a call without a rule.
    pub rule: Option<Rule>,
}

/// In the order of their lines.
pub fn shapes() -> Vec<Shape> {
    vec![
        wide(),
        clocks::one_clock(),
        clocks::two_long_clocks(),
        air::airtimes(),
        transitions::all_enabled(),
        clocks::odd_clocks(),
        ends::dead_ends(),
        few::few_possible(),
        transitions::short_recording(),
        few::small_monitor(),
        few::uneven_handovers(),
        rules::one_of_three(),
        rules::three_of_eight(),
        rules::many_planes(),
    ]
}

impl Shape {
    fn new(name: &'static str, table: Table, recording: Recording) -> Shape {
        Shape { name, table, recording, rule: None }
    }

    fn under(self, rule: Rule) -> Shape {
        Shape { rule: Some(rule), ..self }
    }

    /// N, the larger one under a rule.
    pub fn situations(&self) -> usize {
        Space::under(self.rule.unwrap_or(Rule::NONE), &self.table).count()
    }

    pub fn last_time(&self) -> usize {
        self.recording.last_time()
    }

    /// The most that it could cost: T x N.
    pub fn most(&self) -> u64 {
        self.last_time() as u64 * self.situations() as u64
    }

    /// The rows up to this time alone. What is accepted stays so when its last rows are taken away.
    pub fn until(mut self, time: u16) -> Shape {
        self.recording.rows.retain(|row| row.time <= time);
        self
    }
}

/// States, variables and clocks come first, as in the file.
fn table(counts: [u8; 3], kinds: Vec<Kind>, transitions: Vec<Transition>) -> Table {
    let [states, variables, clocks] = counts;
    Table { version: 1, states, variables, clocks, kinds, transitions }
}

/// From a state to the one so many steps on, round and round. It lacks a guard.
fn onward(state: u8, states: u8, step: u8, kind: u8) -> Transition {
    Transition { from: state, to: (state + step) % states, kind, ..Transition::default() }
}

const fn from_unit(airtime: u8) -> Kind {
    Kind::in_version_1(0, airtime)
}

const fn to_unit(airtime: u8) -> Kind {
    Kind::in_version_1(1, airtime)
}

/// These kinds in turn at a steady pace, the last row at the last time.
fn steady(last_time: u16, pace: u16, kinds: &[u8]) -> Recording {
    let times = (1..=last_time / pace).map(|number| number * pace);
    let rows = times.zip(kinds.iter().cycle()).map(|(time, kind)| Heard { time, kind: *kind });
    Recording { rows: rows.collect() }
}

//! Recordings made for R-10: rejected, and the pairs that are not yet and no more counted by hand.

mod guards;
mod many;
mod small_monitor;

use crate::answer::{Counts, Verdict};
use crate::generate::encode_table;
use crate::papers::recording;
use crate::table::{Kind, Table, Transition};

#[derive(Clone)]
pub struct Counted {
    pub name: String,
    pub table: Vec<u8>,
    pub rows: Vec<(u16, u8)>,
    /// With every budget.
    pub verdict: Verdict,
}

impl Counted {
    pub fn recording(&self) -> Vec<u8> {
        recording(&self.rows)
    }

    pub fn last_time(&self) -> usize {
        self.rows.last().map_or(0, |row| row.0.into())
    }
}

pub fn recordings() -> Vec<Counted> {
    let groups = [small_monitor::recordings(), guards::recordings(), many::recordings()];
    groups.into_iter().flatten().collect()
}

/// Rejected at the last row.
fn at_last_row(
    name: impl Into<String>,
    table: Vec<u8>,
    rows: &[(u16, u8)],
    cost: u64,
    counts: Counts,
) -> Counted {
    let instant = rows[rows.len() - 1].0.into();
    let verdict = Verdict::rejected(cost, instant, counts);
    Counted { name: name.into(), table, rows: rows.to_vec(), verdict }
}

/// States, variables and clocks; then kinds from the unit, of these airtimes.
fn table(counts: [u8; 3], airtimes: &[u8], transitions: Vec<Transition>) -> Vec<u8> {
    let [states, variables, clocks] = counts;
    let kinds = airtimes.iter().map(|airtime| Kind::in_version_1(0, *airtime)).collect();
    encode_table(&Table { version: 1, states, variables, clocks, kinds, transitions })
}

/// From where to where, on which kind.
fn link(from: u8, to: u8, kind: u8, guard: &[u8]) -> Transition {
    Transition { from, to, kind, guard: guard.to_vec(), ..Transition::default() }
}

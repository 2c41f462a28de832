//! The checker of a witness: it follows the rows with real clocks and needs no room.

use crate::answer::{settle, Answer, Refusal};
use crate::edition::Edition;
use crate::guard::{Clocks, Readiness};
use crate::recording::{self, Heard, Recording};
use crate::rule::{Guesses, Rule};
use crate::situation::Space;
use crate::table::Table;
use crate::witness::{self, in_form, Row, ADDED, KEPT, REMOVED};

/// Accepted is 0 with the removed and added rows together, and all rows.
pub fn check_witness(edition: Edition, table: &[u8], recording: &[u8], witness: &[u8]) -> Answer {
    check_rule(edition, Rule::NONE, table, recording, witness)
}

/// The same under a rule.
pub fn check_rule(
    edition: Edition,
    rule: Rule,
    table: &[u8],
    recording: &[u8],
    witness: &[u8],
) -> Answer {
    let read = recording::read(table, recording);
    settle(read.and_then(|(table, heard)| check_read(edition, rule, &table, &heard, witness)))
}

/// The same, of a table and a recording that were read.
pub fn check_read(
    edition: Edition,
    rule: Rule,
    table: &Table,
    recording: &Recording,
    bytes: &[u8],
) -> Result<Answer, Refusal> {
    rule.judge(Space::of(table).count())?;
    let witness = witness::read_rows(edition, bytes)?;
    let mut follower = Follower::new(rule, table, recording);
    let mut before = None;
    for (number, row) in witness.rows.iter().enumerate() {
        if !in_form(edition, before, row) || !follower.follow(row) {
            return Err(Refusal::new(43, number));
        }
        before = Some(row);
    }
    if !follower.unaccounted.is_empty() {
        return Err(Refusal::new(43, witness.rows.len()));
    }
    let guessed = witness.rows.iter().filter(|row| row.mark != KEPT).count();
    Ok(Answer::new(0, guessed as u64, witness.rows.len() as u64))
}

/// The monitor after the rows so far, and the recorded rows not yet accounted for.
struct Follower<'a> {
    rule: Rule,
    table: &'a Table,
    unaccounted: &'a [Heard],
    state: u8,
    variables: u8,
    /// The tick of each clock's last reset; all start at tick 0.
    last_reset: Clocks,
    /// The first tick at which the air is free.
    free_from: u32,
    guesses: Guesses,
}

impl<'a> Follower<'a> {
    fn new(rule: Rule, table: &'a Table, recording: &'a Recording) -> Self {
        Follower {
            rule,
            table,
            unaccounted: &recording.rows,
            state: 0,
            variables: 0,
            last_reset: [0, 0],
            free_from: 0,
            guesses: 0,
        }
    }

    /// Whether this row in good form keeps the rules of table and recording.
    fn follow(&mut self, row: &Row) -> bool {
        let time = u32::from(row.time);
        let finds_air = time >= self.free_from;
        if !self.accounts(row) || !finds_air {
            return false;
        }
        if row.mark != REMOVED && !(self.fires(row) && self.is_likely(row)) {
            return false;
        }
        self.free_from = time + self.table.airtime(row.kind) + 1;
        true
    }

    fn accounts(&mut self, row: &Row) -> bool {
        let next = self.unaccounted.first();
        if next.is_some_and(|next| next.time < row.time) {
            return false;
        }
        if row.mark == ADDED {
            return next.is_none_or(|next| next.time != row.time);
        }
        if next != Some(&Heard { time: row.time, kind: row.kind }) {
            return false;
        }
        self.unaccounted = &self.unaccounted[1..];
        row.mark == KEPT || self.table.to_unit(row.kind)
    }

    fn fires(&mut self, row: &Row) -> bool {
        let time = u32::from(row.time);
        let Some(it) = self.table.transitions.get(usize::from(row.transition)) else {
            return false;
        };
        if it.kind != row.kind || it.from != self.state {
            return false;
        }
        let clocks = self.last_reset.map(|reset| time - reset);
        let guard = self.table.guard(it);
        let readiness = guard.map(|guard| guard.readiness(self.variables, &clocks));
        if readiness != Some(Readiness::Yes) {
            return false;
        }
        self.state = it.to;
        self.variables = (self.variables | it.set) & !it.clear;
        for (clock, reset) in self.last_reset.iter_mut().enumerate() {
            if it.reset >> clock & 1 == 1 {
                *reset = time;
            }
        }
        true
    }

    /// Whether a row that fires keeps the rule of guesses.
    fn is_likely(&mut self, row: &Row) -> bool {
        let guess = self.rule.is_guess(self.table, row.mark, row.kind);
        let keeps = self.rule.keeps(self.guesses, guess);
        self.guesses = self.rule.behind(self.guesses, guess);
        keeps
    }
}

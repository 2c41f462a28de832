//! Random witnesses of a recording.

use super::long::EDGES;
use super::rng::Rng;
use crate::brute::Monitor;
use crate::edition::Edition;
use crate::recording::{overlaps, Heard, Recording, LAST_TIME};
use crate::table::Table;
use crate::witness::{Row, Witness, ADDED, KEPT, NO_TRANSITION, REMOVED};

/// A guess made row by row, and a few rows after T: permitted unless it runs into a row
/// that can neither be kept nor removed; then it removes that row all the same.
pub fn guessed(rng: &mut Rng, table: &Table, recording: &Recording) -> Witness {
    let mut guess = Guess::new(table);
    let instants = recording.instants();
    let beyond = if rng.one_in(3) { rng.below(6) } else { 0 };
    let last = (instants.len() + beyond).min(usize::from(LAST_TIME));
    // A long one has few added rows as a rule.
    let eagerness = if last < 1_000 || rng.one_in(6) { rng.between(1, 6) } else { last / 4 };
    for time in 1..=last as u16 {
        let heard = instants.get(usize::from(time) - 1).copied().flatten();
        let mut firings = guess.firings(time);
        firings.retain(|(_, kind, _)| heard.is_none_or(|heard| heard == *kind));
        match heard {
            Some(kind) if firings.is_empty() || rng.one_in(5) => guess.remove(time, kind),
            Some(_) => guess.fire(KEPT, time, rng.pick(&firings)),
            None => {
                let next = recording.rows.iter().find(|row| row.time > time);
                let meets =
                    |kind| next.is_some_and(|it| overlaps(table, Heard { time, kind }, *it));
                firings.retain(|(_, kind, _)| !meets(*kind));
                if !firings.is_empty() && rng.one_in(eagerness) {
                    guess.fire(ADDED, time, rng.pick(&firings));
                }
            }
        }
    }
    guess.witness
}

/// A witness in the making.
struct Guess<'a> {
    table: &'a Table,
    witness: Witness,
    monitor: Monitor,
    free_from: u32,
}

/// Transition, kind and what it leaves.
type Firing = (u8, u8, Monitor);

impl<'a> Guess<'a> {
    fn new(table: &'a Table) -> Self {
        Guess { table, witness: Witness::default(), monitor: Monitor::start(), free_from: 0 }
    }

    /// Each that can happen now.
    fn firings(&self, time: u16) -> Vec<Firing> {
        let time = u32::from(time);
        if time < self.free_from {
            return Vec::new();
        }
        let numbered = self.table.transitions.iter().enumerate();
        numbered
            .filter_map(|(number, it)| {
                let number = number as u8;
                let after = self.monitor.fire(self.table, number, (time, it.kind))?;
                Some((number, it.kind, after))
            })
            .collect()
    }

    fn fire(&mut self, mark: u8, time: u16, (transition, kind, after): Firing) {
        self.push(Row { mark, time, kind, transition });
        self.monitor = after;
    }

    fn remove(&mut self, time: u16, kind: u8) {
        self.push(Row { mark: REMOVED, time, kind, transition: NO_TRANSITION });
    }

    fn push(&mut self, row: Row) {
        self.witness.rows.push(row);
        self.free_from = u32::from(row.time) + self.table.airtime(row.kind) + 1;
    }
}

/// Parts with a thing or a few out of order or just at a limit.
pub fn spoil_witness(rng: &mut Rng, witness: &Witness) -> Witness {
    let mut spoilt = witness.clone();
    for _ in 0..=rng.below(2) {
        if spoilt.rows.is_empty() || rng.one_in(8) {
            lengthen(rng, &mut spoilt);
        } else {
            spoil_row(rng, &mut spoilt);
        }
    }
    spoilt
}

fn lengthen(rng: &mut Rng, witness: &mut Witness) {
    if rng.one_in(4) {
        // So many rows of edition 2 take a third of a megabyte.
        let edition = if rng.one_in(20) { Edition::Two } else { Edition::One };
        let most = edition.file().most_rows;
        let count = rng.pick(&[most - 1, most, most + 1]);
        witness.rows.resize(count, Row { mark: ADDED, time: 1, kind: 0, transition: 0 });
        return;
    }
    let time = rng.pick(&EDGES);
    let transition = rng.pick(&[0, 1, NO_TRANSITION]);
    let mark = rng.below(4) as u8;
    witness.rows.push(Row { mark, time, kind: rng.below(3) as u8, transition });
}

fn spoil_row(rng: &mut Rng, witness: &mut Witness) {
    let count = witness.rows.len();
    let number = rng.below(count);
    let other = rng.below(count);
    let row = witness.rows[number];
    match rng.below(10) {
        0 => witness.rows[number].mark = rng.pick(&[KEPT, REMOVED, ADDED, 3, 255]),
        1 => witness.rows[number].time = row.time.wrapping_add(1),
        2 => witness.rows[number].time = row.time.wrapping_sub(1),
        3 => witness.rows[number].time = rng.pick(&EDGES),
        4 => witness.rows[number].kind = rng.pick(&[0, 1, 2, 255]),
        5 => witness.rows[number].transition = rng.pick(&[0, 1, 63, 64, 254, NO_TRANSITION]),
        6 => witness.rows.swap(number, other),
        7 => drop(witness.rows.remove(number)),
        8 => witness.rows[number].time = witness.rows[number.saturating_sub(1)].time,
        _ => witness.rows.insert(number, row),
    }
}

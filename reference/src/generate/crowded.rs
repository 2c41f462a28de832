//! Recordings that are rejected where many situations are possible, with many transitions each.

use super::rejections::TEST;
use super::rng::Rng;
use crate::recording::{Heard, Recording};
use crate::table::{Kind, Table, Transition};

/// The kind that changes variables, clocks and states at any instant.
const CHANGE: u8 = 1;
/// The same, but it has the air for a while.
const SLOW: u8 = 2;

/// Every guard on what is heard wants a clock that reads more than it can by then, or less than any
/// clock does; some want a variable too, or another clock that is behind.
pub fn crowded(rng: &mut Rng) -> (Table, Recording) {
    let time = rng.between(4, 7) as u16;
    let states = rng.between(1, 2) as u8;
    let kinds = [(0, 0), (rng.below(2) as u8, 0), (0, rng.between(1, 2) as u8)];
    let mut table = Table {
        version: rng.pick(&[1, 2]),
        states,
        variables: rng.between(2, 4) as u8,
        clocks: 2,
        kinds: kinds.map(|(direction, airtime)| Kind::in_version_1(direction, airtime)).into(),
        transitions: Vec::new(),
    };
    for step in 0..rng.between(6, 10) as u8 {
        let (from, kind) = (step % states, if step % 4 == 3 { SLOW } else { CHANGE });
        let guard = vec![0];
        let changed =
            Transition { from, to: (step / 2) % states, kind, guard, ..change(rng, &table) };
        table.transitions.push(changed);
    }
    for _ in 0..rng.between(6, 40) {
        let (from, to) = (rng.below(states.into()) as u8, rng.below(states.into()) as u8);
        let guard = far(rng, &table, time as u8);
        table.transitions.push(Transition { from, to, kind: TEST, guard, ..Transition::default() });
    }
    (table, Recording { rows: vec![Heard { time, kind: TEST }] })
}

fn change(rng: &mut Rng, table: &Table) -> Transition {
    let mask = (1 << table.variables) - 1;
    let set = rng.byte() & rng.byte() & mask;
    let clear = rng.byte() & rng.byte() & mask & !set;
    Transition { set, clear, reset: rng.below(4) as u8, ..Transition::default() }
}

/// Up to this instant no clock reads more than it.
fn far(rng: &mut Rng, table: &Table, instant: u8) -> Vec<u8> {
    let clock = rng.below(2) as u8;
    let variable = rng.below(table.variables.into()) as u8;
    let low = instant + rng.between(1, 4) as u8;
    let high = low - rng.below(4) as u8;
    match rng.below(8) {
        0 => vec![2, clock, low],
        1 => vec![4, 1, clock, low],
        2 => vec![5, 3, variable, 2, clock, low],
        3 => vec![5, 4, 3, variable, 4, 1, clock, low],
        4 | 5 => vec![5, 2, clock, low, 1, 1 - clock, high],
        6 => vec![1, clock, 0],
        _ => vec![5, 2, clock, low, 1, clock, low - 1],
    }
}

//! A table with ways that lead nowhere.

use super::{from_unit, onward, table, to_unit, Shape, LAST_TIME};
use crate::recording::{Heard, Recording};
use crate::table::Transition;

/// The kind of the last row.
const CLOSING: u8 = 3;
const PACE: u16 = 64;

/// A variable that was set stays so, and the last row needs all four unset: 15 of 16 situations last
/// up to the end and cannot pass it, however early they became possible. So the way back has to
/// look at all moves of most situations, and takes them out. 16 x 16 x 8 x 16 x 2 = 65,536.
pub fn dead_ends() -> Shape {
    let kinds = vec![from_unit(1), to_unit(0), to_unit(1), from_unit(0)];
    let transitions = (0..16).flat_map(from_state).collect();
    Shape::new("dead ends", table([16, 4, 2], kinds, transitions), recording())
}

fn from_state(state: u8) -> [Transition; 4] {
    let (variable, other) = (state % 4, (state + 1) % 4);
    let way = |step: u8, kind: u8| onward(state, 16, step, kind);
    [
        Transition { set: 1 << variable, guard: vec![4, 1, 0, 1], ..way(1, 0) },
        // Not both above 14 and the variable.
        Transition { reset: 1, guard: vec![4, 5, 4, 1, 1, 14, 3, variable], ..way(3, 1) },
        // At most 6 or the variable false.
        Transition {
            set: 1 << other,
            reset: 2,
            guard: vec![4, 5, 4, 1, 0, 6, 3, variable],
            ..way(5, 2)
        },
        // No variable.
        Transition { guard: vec![5, 4, 3, 0, 5, 4, 3, 1, 5, 4, 3, 2, 4, 3, 3], ..way(7, CLOSING) },
    ]
}

/// Before the last row only packets that may be missed, so that nothing ends early.
fn recording() -> Recording {
    let kind = |time: u16| match time {
        LAST_TIME => CLOSING,
        _ => 1 + (time / PACE % 2) as u8,
    };
    let times = (1..=LAST_TIME / PACE).map(|number| number * PACE);
    Recording { rows: times.map(|time| Heard { time, kind: kind(time) }).collect() }
}

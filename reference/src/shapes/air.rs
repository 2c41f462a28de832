//! A table whose airtimes are what is special.

use super::{from_unit, onward, steady, table, to_unit, Shape, LAST_TIME};
use crate::table::{Kind, Transition};

/// Airtimes of all lengths, 0 to 15: 16 x 16 x 16 x 16 = 65,536. Of 16 situations 15 can only wait
/// for the air, packets leave situations that lie apart, and a row finds few with the air free.
pub fn airtimes() -> Shape {
    let transitions = (0..16).flat_map(from_state).collect();
    // A row leaves all with the same air, and it takes some ticks until they differ again.
    let recording = steady(LAST_TIME, 256, &[3, 0, 9, 14]);
    Shape::new("airtimes to 15", table([16, 4, 1], kinds(), transitions), recording)
}

/// Each has its number for airtime, and the even ones are from the unit.
fn kinds() -> Vec<Kind> {
    let kind =
        |airtime: u8| if airtime.is_multiple_of(2) { from_unit(airtime) } else { to_unit(airtime) };
    (0..16).map(kind).collect()
}

/// In each state the shortest and the longest, and two others, so that each is somewhere.
fn from_state(state: u8) -> [Transition; 4] {
    let (variable, other) = (state % 4, (state + 1) % 4);
    let way = |step: u8, kind: u8| onward(state, 16, step, kind % 16);
    [
        Transition { set: 1 << variable, reset: 1, guard: vec![2, 0, 2], ..way(1, 0) },
        // Not both the variable and at least 5.
        Transition { clear: 1 << other, guard: vec![4, 5, 3, variable, 2, 0, 5], ..way(3, 15) },
        Transition { clear: 1 << variable, guard: vec![1, 0, 14], ..way(5, state) },
        Transition { set: 1 << other, reset: 1, guard: vec![0], ..way(7, state + 8) },
    ]
}

//! Wide tables and long recordings: nearly every situation becomes possible and stays so, because
//! most guards leave some way open and each packet to the unit may be missed.

use super::{from_unit, onward, steady, table, to_unit, Shape, LAST_TIME};
use crate::table::{Table, Transition};

/// A row is heard every so many ticks.
pub const PACE: u16 = 64;
/// Those of `busy`, all four.
pub const KINDS_IN_TURN: [u8; 4] = [1, 2, 3, 0];

/// The one that R-12 asks for. 16 states, 4 variables, one clock with M 6, one with M 14, airtimes
/// 0 and 1: N is 16 x 16 x 8 x 16 x 2 = 65,536.
pub fn wide() -> Shape {
    Shape::new("wide", busy(16, 4, [6, 14], 1), steady(LAST_TIME, PACE, &KINDS_IN_TURN))
}

/// A table with much to do everywhere. The limits of the clocks are their M, and two of four kinds
/// have this airtime.
pub fn busy(states: u8, variables: u8, limits: [u8; 2], airtime: u8) -> Table {
    let kinds = vec![from_unit(airtime), from_unit(0), to_unit(airtime), to_unit(0)];
    let transitions = (0..states).flat_map(|state| from_state(state, states, variables, limits));
    table([states, variables, 2], kinds, transitions.collect())
}

/// Four ways out of each state, one on each kind.
fn from_state(state: u8, states: u8, variables: u8, limits: [u8; 2]) -> [Transition; 4] {
    let variable = state % variables;
    let bit = 1 << variable;
    let way = |step: u8, kind: u8| onward(state, states, step, kind);
    [
        // Not (clock 0 at most 1): sets a variable.
        Transition { set: bit, guard: vec![4, 1, 0, 1], ..way(1, 0) },
        // Clock 1 at most its M or the variable false, as not (not .. and ..): resets clock 0.
        Transition { reset: 1, guard: vec![4, 5, 4, 1, 1, limits[1], 3, variable], ..way(3, 1) },
        // Clock 0 at most its M and clock 1 at least 2: clears the variable.
        Transition { clear: bit, guard: vec![5, 1, 0, limits[0], 2, 1, 2], ..way(5, 2) },
        // True: resets clock 1, and in some states both.
        Transition {
            reset: if state.is_multiple_of(3) { 3 } else { 2 },
            guard: vec![0],
            ..way(7, 3)
        },
    ]
}

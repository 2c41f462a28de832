//! Validations under a rule of guesses: the last rows are the last digits of a situation, so that
//! neighbours differ in guesses, not in clocks.

use super::wide::{busy, KINDS_IN_TURN, PACE};
use super::{from_unit, onward, steady, table, to_unit, Shape, LAST_TIME};
use crate::rule::Rule;
use crate::table::{Table, Transition};

/// The unit, and the only device that sends to it.
const UNIT: u8 = 0;
const OTHER: u8 = 1;

/// Two rows are remembered, so N is four times as large: 4 x 16 x 16 x 8 x 8 = 65,536.
pub fn one_of_three() -> Shape {
    ruled("rule 1 of 3", busy(16, 4, [6, 6], 0), Rule::new(UNIT, 3, 1))
}

/// Seven rows are remembered, so N is 128 times as large: 128 x 4 x 4 x 8 x 4 = 65,536. With at
/// most 3 guesses, at most half of them become possible.
pub fn three_of_eight() -> Shape {
    ruled("rule 3 of 8", busy(4, 2, [6, 2], 0), Rule::new(OTHER, 8, 3))
}

/// Seven rows are remembered and there is no clock at all: 128 x 16 x 16 x 2 = 65,536. No two
/// situations differ in clocks alone, so nothing can be moved together on their account.
pub fn many_planes() -> Shape {
    let kinds = vec![from_unit(1), from_unit(0), to_unit(1), to_unit(0)];
    let transitions = (0..16).flat_map(without_clocks).collect();
    ruled("many planes", table([16, 4, 0], kinds, transitions), Rule::new(UNIT, 8, 7))
}

fn ruled(name: &'static str, table: Table, rule: Rule) -> Shape {
    Shape::new(name, table, steady(LAST_TIME, PACE, &KINDS_IN_TURN)).under(rule)
}

/// Four ways out of each state, one on each kind; each changes a variable.
fn without_clocks(state: u8) -> [Transition; 4] {
    let (variable, other) = (state % 4, (state + 1) % 4);
    let way = |step: u8, kind: u8| onward(state, 16, step, kind);
    [
        Transition { set: 1 << variable, guard: vec![4, 3, variable], ..way(1, 0) },
        Transition { clear: 1 << variable, guard: vec![3, variable], ..way(3, 1) },
        // Not both variables.
        Transition { set: 1 << other, guard: vec![4, 5, 3, variable, 3, other], ..way(5, 2) },
        Transition { clear: 1 << other, guard: vec![0], ..way(7, 3) },
    ]
}

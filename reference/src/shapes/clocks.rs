//! Tables whose clocks are what is special. A situation's clocks move together at each tick, so a
//! search may move runs of situations that differ in clocks alone; here these runs are long, or fit
//! no word.

use super::{from_unit, onward, steady, table, to_unit, Shape, LAST_TIME};
use crate::table::Transition;

/// Rows are rare, since it takes a clock 255 ticks to have all its values again.
const LONG_PACE: u16 = 128;

/// One clock as long as 16 states and 4 variables leave room for: 16 x 16 x 256 = 65,536. Runs of
/// 256 situations differ in this clock alone.
pub fn one_clock() -> Shape {
    let kinds = vec![from_unit(0), from_unit(0), to_unit(0), to_unit(0)];
    let transitions = (0..16).flat_map(with_one_clock).collect();
    let recording = steady(LAST_TIME, LONG_PACE, &[1, 2, 3, 0]);
    Shape::new("one clock of 255", table([16, 4, 1], kinds, transitions), recording)
}

/// Only packets to the unit, which may be missed, reset the clock.
fn with_one_clock(state: u8) -> [Transition; 4] {
    let (variable, other) = (state % 4, (state + 1) % 4);
    let way = |step: u8, kind: u8| onward(state, 16, step, kind);
    [
        // Not at most 3.
        Transition { set: 1 << variable, guard: vec![4, 1, 0, 3], ..way(1, 0) },
        // Not both the variable and at least 200 or so.
        Transition {
            clear: 1 << other,
            guard: vec![4, 5, 3, variable, 2, 0, 200 + state],
            ..way(3, 1)
        },
        Transition { clear: 1 << variable, guard: vec![5, 1, 0, 254, 2, 0, 2], ..way(5, 2) },
        Transition { set: 1 << other, reset: 1, guard: vec![0], ..way(7, 3) },
    ]
}

/// Nothing but two clocks, each as long as N allows: 256 x 256 = 65,536, in one run.
pub fn two_long_clocks() -> Shape {
    let kinds = vec![from_unit(0), to_unit(0)];
    let way = |kind: u8, reset: u8, guard: &[u8]| Transition {
        kind,
        reset,
        guard: guard.to_vec(),
        ..Transition::default()
    };
    let transitions = vec![
        // Not both at least 254.
        way(0, 0, &[4, 5, 2, 0, 254, 2, 1, 254]),
        way(0, 1, &[2, 1, 100]),
        way(1, 1, &[2, 0, 3]),
        // At most 250 and at least 5.
        way(1, 2, &[5, 1, 0, 250, 2, 1, 5]),
        way(1, 3, &[0]),
    ];
    let recording = steady(LAST_TIME, LONG_PACE, &[1, 0]);
    Shape::new("clocks 256 x 256", table([1, 0, 2], kinds, transitions), recording)
}

/// Clocks of 13 and 21 values and three values of air, so that runs seldom begin or end where a
/// byte does, let alone a word: 10 x 8 x 13 x 21 x 3 = 65,520.
pub fn odd_clocks() -> Shape {
    let kinds = vec![from_unit(2), from_unit(0), to_unit(1), to_unit(0)];
    let transitions = (0..10).flat_map(with_odd_clocks).collect();
    let recording = steady(LAST_TIME, 64, &[1, 2, 3, 0]);
    Shape::new("13 x 21", table([10, 3, 2], kinds, transitions), recording)
}

fn with_odd_clocks(state: u8) -> [Transition; 4] {
    let (variable, other) = (state % 3, (state + 1) % 3);
    let way = |step: u8, kind: u8| onward(state, 10, step, kind);
    [
        Transition { set: 1 << variable, guard: vec![4, 1, 0, 1], ..way(1, 0) },
        // Not both above 19 and the variable.
        Transition {
            clear: 1 << other,
            reset: 1,
            guard: vec![4, 5, 4, 1, 1, 19, 3, variable],
            ..way(3, 1)
        },
        Transition { clear: 1 << variable, guard: vec![5, 1, 0, 11, 2, 1, 2], ..way(7, 2) },
        Transition { set: 1 << other, reset: 2, guard: vec![0], ..way(9, 3) },
    ]
}

//! Tables with all 64 transitions.

use super::{from_unit, steady, table, to_unit, Shape};
use crate::recording::{Heard, Recording};
use crate::table::Transition;

const MOST: u8 = 64;

/// One state and 64 transitions that can always fire, each to another place: 16 x 64 x 64 = 65,536
/// situations with 65 moves each, more than which there cannot be. So T is smaller here.
pub fn all_enabled() -> Shape {
    let kinds = vec![from_unit(0), from_unit(0), to_unit(0), to_unit(0)];
    let transitions = (0..MOST).map(always).collect();
    let recording = steady(512, 64, &[1, 2, 3, 0]);
    Shape::new("64 transitions", table([1, 4, 2], kinds, transitions), recording)
}

/// One for each way to give the four variables values and each choice of clocks to reset. On each
/// kind there are all these choices, so a row fixes no clock.
fn always(number: u8) -> Transition {
    let values = number % 16;
    Transition {
        kind: values % 4,
        set: values,
        clear: 15 - values,
        reset: number / 16,
        guard: match number {
            // Not both 0 and at least 62: holds always, and makes M of the clocks 62.
            0 => vec![4, 5, 1, 0, 0, 2, 0, 62],
            1 => vec![4, 5, 1, 1, 0, 2, 1, 62],
            _ => vec![0],
        },
        ..Transition::default()
    }
}

/// Guards of 31 bytes, a table as large as it may be, and 16 ticks: reading the table and whatever
/// is made ready for the search weigh most. 16 x 16 x 16 x 16 = 65,536.
pub fn short_recording() -> Shape {
    let kinds = vec![from_unit(0), from_unit(0), to_unit(0), to_unit(0)];
    let transitions = (0..MOST).map(long_guarded).collect();
    let rows = [(5, 0), (9, 2), (12, 1), (16, 3)].map(|(time, kind)| Heard { time, kind });
    let recording = Recording { rows: rows.to_vec() };
    Shape::new("short recording", table([16, 4, 2], kinds, transitions), recording)
}

/// Four ways out of each state, one on each kind.
fn long_guarded(number: u8) -> Transition {
    let (state, kind) = (number / 4, number % 4);
    let bit = 1 << (state % 4);
    let (set, clear) = if kind % 2 == 0 { (bit, 0) } else { (0, bit) };
    let to = (state + 2 * kind + 1) % 16;
    let guard = if kind < 3 { window(number) } else { not_both(number) };
    Transition { from: state, to, kind, set, clear, reset: kind, guard }
}

/// Eight parts of 3 bytes: each clock is in a window, however often this is said, and a variable
/// is false.
fn window(number: u8) -> Vec<u8> {
    let early = number % 3;
    let parts = [
        [1, 0, 14],
        [2, 0, 1],
        [1, 1, 14],
        [2, 1, 1],
        [1, 0, 14 - early],
        [2, 1, early],
        [4, 3, number % 4],
        [1, 1, 14 - early],
    ];
    all(&parts.map(Vec::from))
}

/// Not both clocks late, five bounds on them, and a variable is true.
fn not_both(number: u8) -> Vec<u8> {
    let late = 9 + number % 5;
    let parts = [
        vec![4, 5, 2, 0, late, 2, 1, late],
        vec![1, 0, 14],
        vec![2, 0, 1],
        vec![1, 1, 14],
        vec![2, 1, 1],
        vec![1, 0, late],
        vec![3, number / 4 % 4],
    ];
    all(&parts)
}

/// All of these guards, as each and the rest.
fn all(guards: &[Vec<u8>]) -> Vec<u8> {
    let (last, before) = guards.split_last().expect("some guard");
    let each = before.iter().flat_map(|guard| [&[5], &guard[..]].concat());
    each.chain(last.iter().copied()).collect()
}

//! One pair at a time: a guard of some form in one situation.

use super::{at_last_row, link, table, Counted};
use crate::answer::Counts;
use crate::brute::largest_limit;
use crate::guard::Readiness::{self, NoMore, NotYet};
use crate::table::Transition;

const START: u8 = 0;
const TEST: u8 = 1;

/// START leads from state 0 to 1, sets variable 0 and resets clock 1; TEST stays in state 1 and has
/// the guard; neither takes air. So one situation is possible before a TEST: variable 0 is true and
/// variable 1 false, clock 0 reads its time and clock 1 the ticks since START.
fn guarded(guard: &[u8]) -> Vec<u8> {
    let start = Transition { set: 1, reset: 2, ..link(0, 1, START, &[0]) };
    table([2, 2, 2], &[0, 0], vec![start, link(1, 1, TEST, guard)])
}

/// Up to the START that was heard, another one may have been added in its place at any instant
/// before, and what clock 1 reads above its largest limit is one value. Behind it, one situation
/// an instant.
fn cost(guard: &[u8], start: u16, test: u16) -> u64 {
    let highest = u64::from(largest_limit(guard, 1).0) + 1;
    let works = (1..=u64::from(start)).map(|instant| 1 + (instant - 1).min(highest));
    works.sum::<u64>() + u64::from(test - start)
}

/// A guard, the times of START and TEST, and what it answers.
type Case = (&'static [u8], u16, u16, Readiness);

pub fn recordings() -> Vec<Counted> {
    let groups = [LIMITS, LONGEST, UNCHANGING, WITH_VARIABLES, WINDOWS, TWO_CLOCKS, NESTED];
    let mut all: Vec<Counted> = groups
        .concat()
        .into_iter()
        .map(|(guard, start, test, readiness)| recording(guard, start, test, readiness))
        .collect();
    all.extend(long_negations());
    all.extend(late());
    all
}

fn recording(guard: &[u8], start: u16, test: u16, readiness: Readiness) -> Counted {
    let counts = match readiness {
        NotYet => Counts::new(1, 0),
        _ => Counts::new(0, 1),
    };
    let rows = [(start, START), (test, TEST)];
    let name = format!("{guard:?} at {test}, {} after", test - start);
    at_last_row(name, guarded(guard), &rows, cost(guard, start, test), counts)
}

/// Clock 0 reads the time of TEST, 2 or more; clock 1 reads 1 or more.
const LIMITS: &[Case] = &[
    // At most: too late for ever.
    (&[1, 0, 0], 1, 2, NoMore),
    (&[1, 0, 1], 1, 2, NoMore),
    (&[1, 0, 3], 1, 4, NoMore),
    (&[1, 0, 3], 1, 5, NoMore),
    (&[1, 0, 3], 1, 200, NoMore),
    (&[1, 0, 254], 1, 255, NoMore),
    (&[1, 0, 255], 1, 256, NoMore),
    (&[1, 0, 255], 1, 300, NoMore),
    (&[1, 1, 0], 1, 2, NoMore),
    (&[1, 1, 1], 1, 3, NoMore),
    (&[1, 1, 254], 1, 256, NoMore),
    (&[1, 1, 255], 1, 257, NoMore),
    // At least: after 1 tick, and after up to 254.
    (&[2, 0, 3], 1, 2, NotYet),
    (&[2, 0, 254], 1, 2, NotYet),
    (&[2, 0, 255], 1, 2, NotYet),
    (&[2, 0, 255], 1, 128, NotYet),
    (&[2, 0, 255], 1, 254, NotYet),
    (&[2, 1, 2], 1, 2, NotYet),
    (&[2, 1, 254], 1, 2, NotYet),
    (&[2, 1, 255], 1, 2, NotYet),
    (&[2, 1, 255], 1, 255, NotYet),
    // Not at most: after 1 tick, and after up to 255.
    (&[4, 1, 0, 2], 1, 2, NotYet),
    (&[4, 1, 0, 255], 1, 2, NotYet),
    (&[4, 1, 0, 255], 1, 255, NotYet),
    (&[4, 1, 1, 1], 1, 2, NotYet),
    (&[4, 1, 1, 127], 1, 2, NotYet),
    (&[4, 1, 1, 254], 1, 2, NotYet),
    (&[4, 1, 1, 255], 1, 3, NotYet),
    // Not at least: too late for ever, some since the tick before.
    (&[4, 2, 0, 0], 1, 2, NoMore),
    (&[4, 2, 0, 2], 1, 2, NoMore),
    (&[4, 2, 0, 254], 1, 256, NoMore),
    (&[4, 2, 0, 255], 1, 255, NoMore),
    (&[4, 2, 1, 0], 1, 2, NoMore),
    (&[4, 2, 1, 1], 1, 2, NoMore),
    (&[4, 2, 1, 5], 1, 6, NoMore),
    (&[4, 2, 1, 255], 1, 256, NoMore),
];

/// After 255 ticks and not before.
const LONGEST: &[Case] = &[
    (&[4, 1, 1, 255], 1, 2, NotYet),
    (&[4, 1, 1, 255], 2, 3, NotYet),
    (&[4, 1, 1, 255], 5, 6, NotYet),
    (&[4, 4, 4, 1, 1, 255], 1, 2, NotYet),
    (&[5, 4, 1, 1, 255, 0], 1, 2, NotYet),
    (&[5, 3, 0, 4, 1, 1, 255], 1, 2, NotYet),
    (&[5, 2, 1, 9, 4, 1, 1, 255], 3, 4, NotYet),
    (&[5, 4, 1, 1, 255, 2, 0, 9], 1, 2, NotYet),
    (&[4, 5, 3, 0, 1, 1, 255], 2, 3, NotYet),
    (&[4, 5, 1, 1, 255, 4, 3, 1], 1, 2, NotYet),
    (&[4, 5, 4, 3, 1, 1, 1, 255], 4, 5, NotYet),
];

/// Waiting changes no variable.
const UNCHANGING: &[Case] = &[
    (&[4, 0], 1, 2, NoMore),
    (&[4, 4, 4, 0], 3, 9, NoMore),
    (&[3, 1], 1, 2, NoMore),
    (&[4, 3, 0], 1, 2, NoMore),
    (&[4, 4, 3, 1], 2, 3, NoMore),
    (&[5, 3, 0, 3, 1], 1, 2, NoMore),
    (&[5, 3, 1, 4, 3, 1], 1, 5, NoMore),
    (&[5, 0, 4, 0], 1, 2, NoMore),
    (&[4, 5, 3, 0, 0], 1, 2, NoMore),
    (&[4, 5, 4, 3, 1, 4, 4, 3, 0], 1, 2, NoMore),
];

/// At 4 clock 0 is above 3 and below 9.
const WITH_VARIABLES: &[Case] = &[
    (&[5, 3, 0, 2, 0, 9], 1, 4, NotYet),
    (&[5, 2, 0, 9, 3, 0], 1, 4, NotYet),
    (&[5, 3, 1, 2, 0, 9], 1, 4, NoMore),
    (&[5, 2, 0, 9, 3, 1], 1, 4, NoMore),
    (&[5, 4, 3, 0, 2, 0, 9], 1, 4, NoMore),
    (&[5, 4, 3, 1, 2, 0, 9], 1, 4, NotYet),
    (&[5, 3, 0, 1, 0, 3], 1, 4, NoMore),
    // Not both.
    (&[4, 5, 3, 0, 1, 0, 9], 1, 4, NotYet),
    (&[4, 5, 4, 3, 1, 1, 0, 9], 1, 4, NotYet),
    (&[4, 5, 3, 0, 2, 0, 3], 1, 4, NoMore),
    // One or the other.
    (&[4, 5, 4, 3, 1, 4, 2, 0, 9], 1, 4, NotYet),
    (&[4, 5, 4, 3, 1, 4, 1, 0, 3], 1, 4, NoMore),
];

const WINDOWS: &[Case] = &[
    // At least 5 and at most 3: before both, between them, and after.
    (&[5, 2, 0, 5, 1, 0, 3], 1, 2, NoMore),
    (&[5, 2, 0, 5, 1, 0, 3], 1, 4, NoMore),
    (&[5, 2, 0, 5, 1, 0, 3], 1, 9, NoMore),
    (&[5, 1, 0, 3, 2, 0, 5], 1, 2, NoMore),
    (&[5, 2, 1, 5, 1, 1, 3], 1, 2, NoMore),
    (&[5, 2, 1, 5, 1, 1, 3], 2, 6, NoMore),
    (&[5, 2, 0, 255, 1, 0, 254], 1, 2, NoMore),
    (&[5, 4, 1, 0, 255, 1, 0, 255], 1, 2, NoMore),
    (&[4, 4, 5, 2, 0, 5, 1, 0, 4], 1, 2, NoMore),
    // Exactly 5, and exactly 255.
    (&[5, 2, 0, 5, 1, 0, 5], 1, 2, NotYet),
    (&[5, 2, 0, 5, 1, 0, 5], 1, 4, NotYet),
    (&[5, 2, 0, 5, 1, 0, 5], 1, 6, NoMore),
    (&[5, 2, 0, 5, 1, 0, 5], 1, 100, NoMore),
    (&[5, 2, 1, 255, 1, 1, 255], 1, 2, NotYet),
    (&[5, 2, 0, 255, 1, 0, 255], 1, 254, NotYet),
    (&[5, 2, 0, 255, 1, 0, 255], 1, 256, NoMore),
    // Not from 3 to 9, nor ever behind 4.
    (&[4, 5, 2, 0, 3, 1, 0, 9], 1, 4, NotYet),
    (&[4, 5, 2, 0, 3, 1, 0, 9], 1, 9, NotYet),
    (&[4, 5, 2, 0, 3, 2, 0, 4], 1, 4, NoMore),
    (&[4, 5, 1, 0, 9, 1, 0, 7], 1, 4, NotYet),
];

/// The second time less the first is how far clock 1 is behind clock 0.
const TWO_CLOCKS: &[Case] = &[
    // Clock 0 at least 9 and clock 1 at most 5: if it is 4 behind or more.
    (&[5, 2, 0, 9, 1, 1, 5], 3, 4, NoMore),
    (&[5, 2, 0, 9, 1, 1, 5], 4, 5, NotYet),
    (&[5, 2, 0, 9, 1, 1, 5], 5, 6, NotYet),
    (&[5, 2, 0, 9, 1, 1, 5], 3, 8, NoMore),
    (&[5, 2, 0, 9, 1, 1, 5], 4, 8, NotYet),
    (&[5, 2, 0, 9, 1, 1, 5], 4, 10, NoMore),
    (&[5, 4, 1, 0, 8, 4, 2, 1, 6], 3, 4, NoMore),
    (&[5, 4, 1, 0, 8, 4, 2, 1, 6], 4, 5, NotYet),
    (&[4, 4, 5, 4, 4, 2, 0, 9, 1, 1, 5], 3, 4, NoMore),
    (&[4, 4, 5, 4, 4, 2, 0, 9, 1, 1, 5], 4, 5, NotYet),
    // Clock 0 at most 9 and clock 1 at least 5: if it is 4 behind or less.
    (&[5, 1, 0, 9, 2, 1, 5], 4, 5, NotYet),
    (&[5, 1, 0, 9, 2, 1, 5], 5, 6, NoMore),
    (&[5, 2, 1, 5, 1, 0, 9], 5, 6, NoMore),
    // Exactly 7 and exactly 5.
    (&[5, 5, 2, 0, 7, 1, 0, 7, 5, 2, 1, 5, 1, 1, 5], 1, 2, NoMore),
    (&[5, 5, 2, 0, 7, 1, 0, 7, 5, 2, 1, 5, 1, 1, 5], 2, 3, NotYet),
    (&[5, 5, 2, 0, 7, 1, 0, 7, 5, 2, 1, 5, 1, 1, 5], 3, 4, NoMore),
    // Both, or clock 0 at least 99.
    (&[4, 5, 4, 5, 2, 0, 9, 1, 1, 5, 4, 2, 0, 99], 3, 4, NotYet),
    // Either is at least 60; both are.
    (&[4, 5, 4, 2, 0, 60, 4, 2, 1, 60], 3, 4, NotYet),
    (&[5, 2, 0, 60, 2, 1, 60], 3, 4, NotYet),
    (&[5, 1, 0, 60, 1, 1, 60], 3, 62, NoMore),
];

const NESTED: &[Case] = &[
    // Eight limits, which leave 20 of clock 0 and 9 to 50 of clock 1.
    (
        &[
            5, 2, 0, 3, 5, 1, 0, 90, 5, 2, 0, 12, 5, 1, 0, 40, 5, 2, 1, 9, 5, 1, 1, 50, 5, 2, 0,
            20, 1, 0, 20,
        ],
        2,
        4,
        NotYet,
    ),
    (
        &[
            5, 2, 0, 3, 5, 1, 0, 90, 5, 2, 0, 12, 5, 1, 0, 40, 5, 2, 1, 9, 5, 1, 1, 50, 5, 2, 0,
            20, 1, 0, 20,
        ],
        12,
        13,
        NoMore,
    ),
    // At least 3, but not 3 to 6 nor 7 to 9; and then at most 9 too.
    (&[5, 2, 0, 3, 5, 4, 5, 2, 0, 3, 1, 0, 6, 4, 5, 2, 0, 7, 1, 0, 9], 1, 4, NotYet),
    (&[5, 1, 0, 9, 5, 2, 0, 3, 5, 4, 5, 2, 0, 3, 1, 0, 6, 4, 5, 2, 0, 7, 1, 0, 9], 1, 4, NoMore),
    // Leaning to the left, with a variable at the very inside.
    (&[5, 5, 5, 5, 3, 0, 2, 0, 9, 2, 1, 8, 1, 0, 12, 1, 1, 10], 1, 3, NotYet),
    (&[5, 5, 5, 5, 3, 1, 2, 0, 9, 2, 1, 8, 1, 0, 12, 1, 1, 10], 1, 3, NoMore),
];

/// Guards of up to 32 bytes that are nearly all not, before these at 4.
fn long_negations() -> Vec<Counted> {
    let inner: [(usize, &[u8], Readiness); 6] = [
        (31, &[0], NoMore),
        (30, &[3, 1], NoMore),
        (29, &[1, 0, 9], NotYet),
        (28, &[2, 0, 9], NotYet),
        (29, &[2, 0, 3], NoMore),
        (28, &[1, 0, 3], NoMore),
    ];
    let long = |(times, inner, readiness): (usize, &[u8], Readiness)| {
        let guard = [&vec![4; times][..], inner].concat();
        recording(&guard, 1, 4, readiness)
    };
    inner.into_iter().map(long).collect()
}

/// Around the last time of edition 1; all clocks but what START resets have been above M for long.
fn late() -> Vec<Counted> {
    let (at_most_3, at_least_3) = ([1, 1, 3], [2, 1, 3]);
    vec![
        recording(&at_least_3, 4_094, 4_095, NotYet),
        recording(&at_least_3, 4_095, 4_097, NotYet),
        recording(&at_most_3, 4_092, 4_096, NoMore),
        recording(&at_most_3, 4_092, 4_097, NoMore),
    ]
}

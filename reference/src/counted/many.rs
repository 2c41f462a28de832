//! Many pairs at one instant, with numbers that can be summed up, and what is next to them and must
//! not be counted.

use super::{at_last_row, link, table, Counted};
use crate::answer::{Counts, Verdict};
use crate::table::Transition;

/// What the row asks for that is rejected. No other row is heard unless it is said.
const TEST: u8 = 0;

pub fn recordings() -> Vec<Counted> {
    let mut all = vec![
        behind(10, &[(20, 15)]),
        behind(10, &[(12, 5)]),
        behind(30, &(0..20).map(|it| (31 + it, 30)).collect::<Vec<_>>()),
        behind(40, &(0..60).map(|it| (41 + it, 40)).collect::<Vec<_>>()),
        behind(60, &(0..60).map(|it| (61 + it, 60)).collect::<Vec<_>>()),
        behind(60, &(0..60).map(|it| (62 + it / 2, 63)).collect::<Vec<_>>()),
    ];
    // The last has more pairs than 16 bits can count.
    all.extend([(12, 5), (20, 20), (40, 31)].map(|(test, each)| two_resets(test, each)));
    all.extend((5..=8).map(variables));
    all.extend([(3, 8), (0, 8), (1, 6), (15, 18), (15, 17)].map(|it| slow(it.0, it.1)));
    all.extend([same_kind_elsewhere(), other_kinds(), same_record(7), same_record(64)]);
    all.extend((3..=6).map(before_the_last_row));
    all
}

/// A kind that may be added at any instant, takes no air and resets this clock.
fn reset(kind: u8, clock: u8) -> Transition {
    Transition { reset: 1 << clock, ..link(0, 0, kind, &[0]) }
}

/// Clock 0 at least this and clock 1 at most that.
fn both(low: u8, high: u8) -> [u8; 7] {
    [5, 2, 0, low, 1, 1, high]
}

/// Clock 0 reads the time, and clock 1 each number up to it, of which those above its largest limit
/// are one. Each guard wants a later clock 0, and until then clock 1 must not grow too far.
fn behind(test: u16, limits: &[(u8, u8)]) -> Counted {
    let highest = limits.iter().map(|it| u64::from(it.1) + 1).max().unwrap_or(0);
    let reads = |instant: u64| instant.min(highest);
    let comes = |(low, high): &(u8, u8)| {
        let wait = u64::from(*low) - u64::from(test);
        u64::from(*high).saturating_sub(wait).min(reads(test.into()))
    };
    let not_yet: u64 = limits.iter().map(comes).sum();
    let pairs = reads(test.into()) * limits.len() as u64;
    let mut transitions = vec![reset(1, 1)];
    transitions.extend(limits.iter().map(|it| link(0, 0, TEST, &both(it.0, it.1))));
    at_last_row(
        format!("clock 1 behind clock 0 at {test}, {} guards", limits.len()),
        table([1, 0, 2], &[0, 0], transitions),
        &[(test, TEST)],
        (1..=u64::from(test)).map(reads).sum(),
        Counts::new(not_yet, pairs - not_yet),
    )
}

/// Each clock reads each number up to the time. They read the same only if neither was reset, for
/// no tick resets both. So many guards come in any case, and as many if clock 0 is ahead by 2 or
/// more.
fn two_resets(test: u16, each: u64) -> Counted {
    let low = test as u8 + 4;
    let mut transitions = vec![reset(1, 0), reset(2, 1)];
    for _ in 0..each {
        transitions.push(link(0, 0, TEST, &[2, 0, low]));
        transitions.push(link(0, 0, TEST, &both(low, low - 2)));
    }
    let situations = |instant: u64| instant * instant - instant + 1;
    let time = u64::from(test);
    let ahead = (time - 1) * (time - 2) / 2;
    let counts = Counts::new(each * (situations(time) + ahead), each * (situations(time) - ahead));
    at_last_row(
        format!("two clocks and their resets at {test}, {each} guards each"),
        table([1, 0, 2], &[0, 0, 0], transitions),
        &[(test, TEST)],
        (1..=time).map(situations).sum(),
        counts,
    )
}

/// Four kinds set a variable each, one a tick: all 16 assignments are possible from instant 5 on.
/// Each variable is in a guard that comes, in one that comes if it is false, and in one that is too
/// late.
fn variables(test: u16) -> Counted {
    let set = |it: u8| Transition { set: 1 << it, ..link(0, 0, 1 + it, &[0]) };
    let mut transitions: Vec<Transition> = (0..4).map(set).collect();
    for it in 0..4 {
        transitions.push(link(0, 0, TEST, &[5, 3, it, 2, 0, 9]));
        transitions.push(link(0, 0, TEST, &[5, 4, 3, it, 4, 1, 0, 8]));
        transitions.push(link(0, 0, TEST, &[5, 3, it, 1, 0, 4]));
    }
    // Of 4 variables none is true, then up to 1, 2, 3 and 4 of them.
    let works = [1, 5, 11, 15].into_iter().chain(std::iter::repeat(16));
    at_last_row(
        format!("all variables at {test}"),
        table([1, 4, 1], &[0; 5], transitions),
        &[(test, TEST)],
        works.take(test.into()).sum(),
        Counts::new(4 * 8 + 4 * 8, 4 * 8 + 4 * 8 + 4 * 16),
    )
}

/// A kind with this airtime leads from state 0 to 1 and resets the clock, which then reads 1 and
/// more; where it reads no more than the airtime, the air is still taken. A guard in state 1 comes,
/// and another, like one in state 0, never does.
fn slow(airtime: u8, test: u16) -> Counted {
    let sent = Transition { reset: 1, ..link(0, 1, 1, &[0]) };
    let transitions = vec![
        sent,
        link(1, 0, TEST, &[2, 0, 30]),
        link(1, 1, TEST, &[5, 2, 0, 30, 1, 0, 29]),
        link(0, 0, TEST, &[4, 0]),
    ];
    let time = u64::from(test);
    let free = time - 1 - u64::from(airtime);
    at_last_row(
        format!("airtime {airtime} at {test}"),
        table([2, 0, 1], &[0, airtime], transitions),
        &[(test, TEST)],
        (1..=time).sum(),
        Counts::new(free, free + 1),
    )
}

/// State 0 alone is possible: what leads to 1 and 2 never fires. Transitions on the same kind leave
/// those states.
fn same_kind_elsewhere() -> Counted {
    let transitions = vec![
        link(0, 1, 1, &[4, 0]),
        link(1, 2, 1, &[0]),
        link(1, 1, TEST, &[2, 0, 9]),
        link(2, 0, TEST, &[1, 0, 0]),
        link(0, 2, TEST, &[2, 0, 8]),
        link(2, 2, TEST, &[2, 0, 9]),
    ];
    let table = table([3, 0, 1], &[0, 0], transitions);
    at_last_row("the same kind from other states", table, &[(5, TEST)], 5, Counts::new(1, 0))
}

/// Transitions on other kinds leave the same state, some of which are not ready either.
fn other_kinds() -> Counted {
    let transitions = vec![
        link(0, 0, 1, &[2, 0, 9]),
        link(0, 0, TEST, &[1, 0, 2]),
        link(0, 0, 1, &[1, 0, 2]),
        link(0, 0, 2, &[0]),
        link(0, 0, 1, &[4, 0]),
        link(0, 0, TEST, &[4, 2, 0, 3]),
    ];
    let table = table([1, 0, 1], &[0, 0, 0], transitions);
    at_last_row("other kinds from the same state", table, &[(5, TEST)], 5, Counts::new(0, 2))
}

/// The same record so many times, in turn with one that is too late.
fn same_record(times: u64) -> Counted {
    let guards: [&[u8]; 2] = [&[2, 0, 9], &[1, 0, 2]];
    let transitions = (0..times).map(|it| link(0, 0, TEST, guards[it as usize % 2])).collect();
    at_last_row(
        format!("the same record {times} times"),
        table([1, 0, 1], &[0], transitions),
        &[(4, TEST)],
        4,
        Counts::new(times.div_ceil(2), times / 2),
    )
}

/// TEST is rejected, and rows of other kinds stand before and behind it, whose transitions are too
/// late, or too early.
fn before_the_last_row(test: u16) -> Counted {
    let transitions = vec![
        link(0, 0, 1, &[0]),
        link(0, 0, 1, &[2, 0, 9]),
        link(0, 0, 2, &[1, 0, 1]),
        link(0, 0, 2, &[1, 0, 2]),
        link(0, 0, TEST, &[2, 0, 9]),
    ];
    let (rows, instant) = (vec![(1, 1), (2, 1), (test, TEST), (test + 1, 2)], u64::from(test));
    Counted {
        name: format!("another kind behind {test}"),
        table: table([1, 0, 1], &[0, 0, 0], transitions),
        rows,
        verdict: Verdict::rejected(instant, instant, Counts::new(1, 0)),
    }
}

//! Calls at the limits of the paper, and one beyond each.

mod counted;
mod devices;
mod longer;
mod parts;
mod states;
mod unlikely;

pub use parts::writings;
pub use states::HEARD;
pub use unlikely::{IN_RANGE, OUT_OF_RANGE, WIDTHS};

use crate::answer::Verdict;
use crate::call::{Call, ORDINARY};
use crate::edition::Edition;
use crate::generate::encode_table;
use crate::narrowed::ACK_AIRTIME;
use crate::papers::{recording, small_monitor_with, ACK, DATA, RETRY, SMALL_MONITOR};
use crate::table::{Kind, Table, Transition};

/// Enough for every call here.
const SCRATCH: usize = 65_536;
const ROOM: usize = 23_045;

/// States, variables, the largest number that each clock is compared with, the largest airtime,
/// and N.
pub const SIZES: [(u8, u8, &[u8], u8, usize); 8] = [
    (1, 0, &[255, 253], 0, 65_535),
    (1, 0, &[254, 254], 0, 65_536),
    (16, 4, &[14, 14], 0, 65_536),
    (16, 4, &[14], 15, 65_536),
    (5, 2, &[27, 111], 0, 65_540),
    (15, 0, &[36, 113], 0, 65_550),
    (1, 0, &[255, 254], 0, 65_792),
    (16, 4, &[14, 15], 0, 69_632),
];

/// What the one clock of a table with two states is compared with, so that a set of its situations
/// has 9 to 16 bytes: a whole word, and a last one of every length.
pub const LAST_WORD_BOUNDS: [u8; 8] = [33, 37, 41, 45, 49, 53, 57, 61];

/// 1 with each bit changed in turn, and with all set.
const VERSIONS: [u8; 9] = [0, 3, 5, 9, 17, 33, 65, 129, 255];

/// A table of that size: a kind from the unit, one to it, and two transitions a state.
pub fn sized(states: u8, variables: u8, bounds: &[u8], airtime: u8) -> Table {
    let from_state = |state: u8| {
        let next = (state + 1) % states;
        let bit = if variables == 0 { 0 } else { 1 << (state % variables) };
        let base = Transition { from: state, ..Transition::default() };
        [
            Transition { to: next, kind: 0, set: bit, guard: all(&[1], bounds), ..base.clone() },
            Transition {
                to: next,
                kind: 1,
                clear: bit,
                reset: 1,
                guard: all(&[4, 2], bounds),
                ..base
            },
        ]
    };
    Table {
        version: 1,
        states,
        variables,
        clocks: bounds.len() as u8,
        kinds: vec![Kind::in_version_1(0, airtime), Kind::in_version_1(1, 0)],
        transitions: (0..states).flat_map(from_state).collect(),
    }
}

/// These codes of each clock and its bound, all of them.
fn all(codes: &[u8], bounds: &[u8]) -> Vec<u8> {
    let with = |guard: Vec<u8>, (clock, bound): (u8, &u8)| {
        [&[5][..], codes, &[clock, *bound], &guard[..]].concat()
    };
    (0..).zip(bounds).fold(vec![0], with)
}

pub fn calls() -> Vec<Call> {
    let mut calls = Vec::new();
    for (states, variables, bounds, airtime, _) in SIZES {
        let table = encode_table(&sized(states, variables, bounds, airtime));
        for rows in [&[][..], &[(1, 0)], &[(1, 1), (2, 0)], &[(1, 0), (6, 1)], &[(7, 0)]] {
            judged(&mut calls, &table, &recording(rows));
        }
    }
    // At 70 nearly every situation is possible: none has a clock of 0, and few others are left out.
    for bound in LAST_WORD_BOUNDS {
        let table = encode_table(&sized(2, 0, &[bound], 0));
        for rows in [&[(70, 0)][..], &[(70, 1)], &[(1, 1), (35, 0), (70, 1)]] {
            judged(&mut calls, &table, &recording(rows));
        }
    }
    for rows in recordings() {
        judged(&mut calls, &SMALL_MONITOR, &recording(&rows));
    }
    for (airtime, rows) in after_ack() {
        judged(&mut calls, &small_monitor_with(ACK_AIRTIME, airtime), &recording(&rows));
    }
    calls.extend(states::calls());
    calls.extend(devices::calls());
    calls.extend(longer::calls());
    calls.extend(counted::calls());
    calls.extend(unlikely::calls());
    let one = recording(&[(1, DATA)]);
    for table in changed_tables() {
        calls.push(validation(&table, &one, 10_000));
        calls.push(Call::RewriteTable { bytes: table, room: vec![0; ROOM] });
    }
    for version in VERSIONS {
        let mut bytes = one.clone();
        bytes[2] = version;
        calls.push(validation(&SMALL_MONITOR, &bytes, 10_000));
        let table = SMALL_MONITOR.to_vec();
        calls.push(Call::RewriteRecording { table, bytes, room: vec![0; ROOM] });
    }
    calls
}

/// In edition 1.
fn validation(table: &[u8], recording: &[u8], budget: u32) -> Call {
    Call::Validate {
        edition: Edition::One,
        table: table.to_vec(),
        recording: recording.to_vec(),
        budget,
        scratch: vec![0; SCRATCH],
        room: vec![0; ROOM],
    }
}

/// With every budget and more, with the cost and its neighbours, and the witness checked.
fn judged(calls: &mut Vec<Call>, table: &[u8], recording: &[u8]) {
    let whole = validation(table, recording, u32::MAX);
    let outcome = whole.run(&ORDINARY);
    let Verdict { number, second: cost, third: rows, .. } = outcome.answer;
    calls.push(whole);
    if number > 1 {
        return;
    }
    for budget in cost.saturating_sub(1)..=cost + 1 {
        calls.push(validation(table, recording, budget as u32));
    }
    if number == 0 {
        let witness = outcome.room[..5 + 5 * rows as usize].to_vec();
        let (edition, table, recording) = (Edition::One, table.to_vec(), recording.to_vec());
        let room = vec![0; ROOM];
        calls.push(Call::RewriteWitness { edition, bytes: witness.clone(), room });
        calls.push(Call::Check { edition, table, recording, witness });
    }
}

/// Times and row counts at their limits and one beyond, and times around the last of edition 1.
fn recordings() -> Vec<Vec<(u16, u8)>> {
    let every = |rows: u16, pace: u16, kind: u8| (1..=rows).map(|n| (n * pace, kind)).collect();
    vec![
        vec![(4_096, DATA)],
        vec![(1, DATA), (4_096, ACK)],
        vec![(1, DATA), (4_095, DATA), (4_097, DATA)],
        vec![(0, DATA)],
        vec![(1, 3)],
        vec![(1, DATA), (4, ACK), (4_096, RETRY)],
        every(512, 8, DATA),
        every(512, 1, ACK),
        every(512, 8, RETRY),
        every(513, 1, ACK),
    ]
}

/// Airtimes of ACK, and RETRY 4 ticks after the last instant that ACK at 1 takes, or 4 after the
/// next one: DATA, which comes 4 to 6 before, can be added then and not before.
fn after_ack() -> Vec<(u8, [(u16, u8); 2])> {
    let with = |airtime: u8, retry: u8| (airtime, [(1, ACK), (retry.into(), RETRY)]);
    (0..=15).flat_map(|it| [with(it, it + 5), with(it, it + 6)]).collect()
}

/// The small monitor with counts at their limits, below and above; with other versions; and cut at
/// the ends of its records and one byte before them, with a length that matches.
fn changed_tables() -> Vec<Vec<u8>> {
    let counts = [(3, 0), (3, 17), (4, 5), (5, 3), (6, 0), (6, 33), (7, 65), (3, 16), (4, 4)];
    let bytes = counts.into_iter().chain(VERSIONS.map(|version| (2, version)));
    let cut = |end: usize| [&[0, end as u8 - 2], &SMALL_MONITOR[2..end]].concat();
    let ends = [10, 12, 14, 22, 32, 47, 57].into_iter().flat_map(|end| [end - 1, end]);
    bytes.map(|(place, byte)| small_monitor_with(place, byte)).chain(ends.map(cut)).collect()
}

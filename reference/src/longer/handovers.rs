//! Recordings with late last times, of tables so small that works and witness can be said.

use crate::answer::{Counts, Verdict};
use crate::edition::Edition;
use crate::generate::encode_table;
use crate::papers::recording;
use crate::table::{Kind, Table, Transition};
use crate::witness::{Row, Witness, ADDED, KEPT};

pub struct Handover {
    pub name: String,
    pub table: Vec<u8>,
    pub rows: Vec<(u16, u8)>,
    /// With every budget, and where its edition is written.
    pub answer: Verdict,
    /// After acceptance. Of a recording that is refused, all its rows kept.
    pub witness: Witness,
    /// S.
    pub set_size: usize,
}

impl Handover {
    pub fn recording(&self) -> Vec<u8> {
        recording(&self.rows)
    }

    pub fn last_time(&self) -> usize {
        self.rows.last().map_or(0, |row| row.0.into())
    }

    /// Whether edition 1 is not written.
    pub fn is_late(&self) -> bool {
        self.last_time() > 4_096
    }

    /// (T+1) x S.
    pub fn scratch(&self) -> usize {
        (self.last_time() + 1) * self.set_size
    }

    /// 5 + 5(T+n), and 9 + 5(T+n).
    pub fn room(&self, edition: Edition) -> usize {
        let head = if edition == Edition::One { 5 } else { 9 };
        head + 5 * (self.last_time() + self.rows.len())
    }
}

pub fn handovers() -> Vec<Handover> {
    let mut all: Vec<Handover> = [4_095, 4_096, 4_097, 65_535].map(filled).into();
    for (last, limit) in [(4_096, 255), (4_097, 255), (12_000, 255), (65_535, 40)] {
        all.extend([waited(last, limit), waited_too_long(last, limit)]);
    }
    for (last, limit) in [(4_096, 9), (4_097, 9), (4_352, 255), (65_535, 38)] {
        all.extend([long_ago(last, limit), just_before(last, limit)]);
    }
    for last in [4_097, 65_535] {
        all.push(slow(&[(last, 0)]));
    }
    for (first, last) in [(4_080, 4_096), (4_081, 4_097), (4_081, 9_000), (65_519, 65_535)] {
        all.extend([slow(&[(first, 0), (last, 2)]), slow(&[(first, 1), (last, 0)])]);
    }
    all.extend(overlapping());
    all
}

fn transition(kind: u8, guard: &[u8], reset: u8) -> Transition {
    Transition { kind, guard: guard.to_vec(), reset, ..Transition::default() }
}

/// One state, and kinds of these airtimes, all from the unit but the one with this number.
fn one_state(clocks: u8, airtimes: &[u8], to_unit: usize, transitions: &[Transition]) -> Vec<u8> {
    let kind =
        |(number, airtime): (usize, &u8)| Kind::in_version_1(u8::from(number == to_unit), *airtime);
    encode_table(&Table {
        version: 1,
        states: 1,
        variables: 0,
        clocks,
        kinds: airtimes.iter().enumerate().map(kind).collect(),
        transitions: transitions.to_vec(),
    })
}

const NONE: usize = usize::MAX;

fn row(mark: u8, time: u16, kind: u8) -> Row {
    // Each kind has one transition, and they are in the same order.
    Row { mark, time, kind, transition: kind }
}

/// N is M+2 and S an eighth of it.
fn with_limit(limit: u8) -> usize {
    (usize::from(limit) + 2).div_ceil(8)
}

/// The packet comes at most 1 tick after the one before it. Before each instant but the first the
/// clock reads 1, or 2 and more; what reads more can do nothing. So every tick must be filled.
fn filled(last: u16) -> Handover {
    let mut rows: Vec<Row> = (1..last).map(|time| row(ADDED, time, 0)).collect();
    rows.push(row(KEPT, last, 0));
    Handover {
        name: format!("every tick up to {last}"),
        table: one_state(1, &[0], NONE, &[transition(0, &[1, 0, 1], 1)]),
        rows: vec![(last, 0)],
        answer: Verdict::new(0, 2 * u64::from(last) - 1, last.into()),
        witness: Witness { rows },
        set_size: with_limit(1),
    }
}

/// Kind 0 comes when the clock reads the limit or more, kind 1 when it reads no more than that.
/// Nothing resets it, so one situation is possible before each instant.
fn waiting(limit: u8) -> Vec<u8> {
    let transitions = [transition(0, &[2, 0, limit], 0), transition(1, &[1, 0, limit], 0)];
    one_state(1, &[0, 0], NONE, &transitions)
}

fn waited(last: u16, limit: u8) -> Handover {
    Handover {
        name: format!("at least {limit} at {last}"),
        table: waiting(limit),
        rows: vec![(last, 0)],
        answer: Verdict::new(0, last.into(), 1),
        witness: Witness { rows: vec![row(KEPT, last, 0)] },
        set_size: with_limit(limit),
    }
}

fn waited_too_long(last: u16, limit: u8) -> Handover {
    Handover {
        name: format!("at most {limit} at {last}"),
        rows: vec![(last, 1)],
        answer: Verdict::rejected(last.into(), last.into(), Counts::new(0, 1)),
        witness: Witness::default(),
        ..waited(last, limit)
    }
}

/// The same with a kind 2 that comes at any time and resets the clock: before instant t it may read
/// 1 to t, of which all above the limit are one.
fn ticking(last: u16, kind: u8, limit: u8) -> Handover {
    let at_least = transition(0, &[2, 0, limit], 0);
    let at_most = transition(1, &[1, 0, limit], 0);
    let works = (1..=u64::from(last)).map(|instant| instant.min(u64::from(limit) + 1));
    Handover {
        name: format!("kind {kind} at {last} with a reset"),
        table: one_state(1, &[0, 0, 0], NONE, &[at_least, at_most, transition(2, &[0], 1)]),
        rows: vec![(last, kind)],
        answer: Verdict::new(0, works.sum(), 1),
        witness: Witness { rows: vec![row(KEPT, last, kind)] },
        set_size: with_limit(limit),
    }
}

/// The clock was never reset.
fn long_ago(last: u16, limit: u8) -> Handover {
    ticking(last, 0, limit)
}

/// The clock must have been reset, and the latest instant is preferred.
fn just_before(last: u16, limit: u8) -> Handover {
    let rows = vec![row(ADDED, last - 1, 2), row(KEPT, last, 1)];
    let it = ticking(last, 1, limit);
    let answer = Verdict::new(0, it.answer.second, 2);
    Handover { answer, witness: Witness { rows }, ..it }
}

/// No guards; kinds 0 and 1 take the air for 15 ticks, kind 1 being to the unit. N is 16.
pub fn slow_table() -> Vec<u8> {
    one_state(0, &[15, 15, 0], 1, &[0, 1, 2].map(|kind| transition(kind, &[0], 0)))
}

/// Up to the first row the air may be taken for 0 to 15 ticks, once there was time for it. Behind a
/// row that takes it, one situation is possible for 16 instants, and then it begins again.
fn slow(rows: &[(u16, u8)]) -> Handover {
    let first = u64::from(rows[0].0);
    let work = |instant: u64| match instant.checked_sub(first + 16) {
        _ if instant <= first => instant.min(16),
        since => (since.unwrap_or(0) + 1).min(16),
    };
    let last = u64::from(rows[rows.len() - 1].0);
    let kept = rows.iter().map(|(time, kind)| row(KEPT, *time, *kind)).collect();
    Handover {
        name: format!("slow packets {rows:?}"),
        table: slow_table(),
        rows: rows.to_vec(),
        answer: Verdict::new(0, (1..=last).map(work).sum(), rows.len() as u64),
        witness: Witness { rows: kept },
        set_size: 2,
    }
}

/// A packet in the air of the one before, up to the last time and past it: 24.
fn overlapping() -> Vec<Handover> {
    let pairs = [
        (4_081, 4_096),
        (4_090, 4_097),
        (65_519, 65_534),
        (65_520, 65_535),
        (65_521, 65_535),
        (65_530, 65_531),
        (65_534, 65_535),
    ];
    let refused = |(first, last): (u16, u16)| {
        let rows = [(first, 0), (last, 2)];
        Handover { answer: Verdict::new(24, 1, 0), ..slow(&rows) }
    };
    pairs.into_iter().map(refused).collect()
}

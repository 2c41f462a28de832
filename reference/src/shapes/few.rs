//! Inputs with little to search.

use super::{from_unit, table, to_unit, Shape, LAST_TIME};
use crate::papers::{ACK, DATA, RETRY, SMALL_MONITOR};
use crate::recording::{Heard, Recording};
use crate::table::{self, Transition};

/// A beat every so many ticks.
const BEAT: u16 = 16;
/// So long after it the reply.
const REPLY: u16 = 3;

/// The table is as wide as it may be, 16 x 16 x 256 = 65,536, but guards fix the instant of each
/// packet: one situation is possible, or two between a reply and the next beat. Whatever is done
/// once for each situation of the table, or for each word of a set, is all that takes time.
pub fn few_possible() -> Shape {
    let kinds = vec![from_unit(0), to_unit(0), from_unit(0)];
    let mut transitions: Vec<Transition> = (0..16).flat_map(from_state).collect();
    // Never comes, and makes M 254.
    transitions.push(Transition { kind: 2, guard: vec![2, 0, 254], ..Transition::default() });
    Shape::new("few possible", table([16, 4, 1], kinds, transitions), beats())
}

fn from_state(state: u8) -> [Transition; 2] {
    let bit = 1 << (state % 4);
    let exactly = |limit: u16| vec![5, 1, 0, limit as u8, 2, 0, limit as u8];
    let base = Transition { from: state, ..Transition::default() };
    [
        Transition {
            to: (state + 1) % 16,
            clear: bit,
            reset: 1,
            guard: exactly(BEAT),
            ..base.clone()
        },
        Transition { to: state, kind: 1, set: bit, guard: exactly(REPLY), ..base },
    ]
}

/// A reply to each beat but the last, which is at the last time.
fn beats() -> Recording {
    let beat = |time: u16| [Heard { time, kind: 0 }, Heard { time: time + REPLY, kind: 1 }];
    let mut rows: Vec<Heard> = (1..=LAST_TIME / BEAT).flat_map(|it| beat(it * BEAT)).collect();
    rows.pop();
    Recording { rows }
}

/// The small monitor of the papers, with as many rows as may be: an everyday input, 48 situations.
pub fn small_monitor() -> Shape {
    let table = table::read(&SMALL_MONITOR).expect("sound");
    let handovers = (0..LAST_TIME / HANDOVER).flat_map(|it| handover(it * HANDOVER));
    Shape::new("small monitor", table, Recording { rows: handovers.collect() })
}

/// The ticks of one handover with its rest.
const HANDOVER: u16 = 32;

/// One that is replied to, and one that is heard without its reply and tried again.
fn handover(start: u16) -> [Heard; 4] {
    let heard = |after: u16, kind: u8| Heard { time: start + after, kind };
    [heard(8, DATA), heard(10, ACK), heard(27, DATA), heard(32, RETRY)]
}

/// The same monitor, and times drawn anew for each handover: what was worked out for one seldom
/// serves for the next.
pub fn uneven_handovers() -> Shape {
    let table = table::read(&SMALL_MONITOR).expect("sound");
    let mut draw = Draw(1);
    let (mut rows, mut time) = (Vec::new(), 0);
    while time + LONGEST < LAST_TIME {
        time += 6 + draw.below(24);
        rows.push(Heard { time, kind: DATA });
        let (after, kind) = match draw.below(2) {
            0 => (2, ACK),
            _ => (5, RETRY),
        };
        time += after + draw.below(2);
        rows.push(Heard { time, kind });
    }
    Shape::new("uneven handovers", table, Recording { rows })
}

/// More than the ticks of one of them.
const LONGEST: u16 = 36;

/// The same numbers in each run.
struct Draw(u32);

impl Draw {
    fn below(&mut self, limit: u16) -> u16 {
        self.0 = self.0.wrapping_mul(1_103_515_245).wrapping_add(12_345);
        (self.0 >> 16) as u16 % limit
    }
}

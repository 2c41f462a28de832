//! Handovers, witnesses and parts of R-5: times and counts around the limits of either edition.
//! What each gives is worked out by hand.

mod files;
mod handovers;
mod parts;

pub use files::{edition_1, edition_2, files, Told};
pub use handovers::{handovers, slow_table, Handover};
pub use parts::{parts, Given};

use crate::answer::Refusal;
use crate::edition::Edition;
use crate::witness::{Row, ADDED, KEPT, NO_TRANSITION, REMOVED};

fn refusal(number: u64, value: usize) -> Option<Refusal> {
    Some(Refusal::new(number, value))
}

/// Around the last time of edition 1 and up to the last there is, and whether edition 1 has it.
const TIMES: [(u16, bool); 12] = [
    (1, true),
    (4_095, true),
    (4_096, true),
    (4_097, false),
    (4_098, false),
    (4_352, false),
    (8_192, false),
    (16_385, false),
    (32_768, false),
    (61_440, false),
    (65_534, false),
    (65_535, false),
];

/// A row at each of so many times from 1 on, and whatever is left at the last time there is.
fn rows_at_every_time(count: usize) -> Vec<Row> {
    let at = |number: usize| {
        let time = number.min(65_535) as u16;
        match number % 8 {
            0 => Row { mark: REMOVED, time, kind: 0, transition: NO_TRANSITION },
            1 => Row { mark: KEPT, time, kind: 1, transition: 0 },
            _ => Row { mark: ADDED, time, kind: 1, transition: 63 },
        }
    };
    (1..=count).map(at).collect()
}

/// What such rows are refused with: a count above the limit, or the first row past the last time.
fn refused_at_every_time(edition: Edition, count: usize) -> Option<Refusal> {
    match edition {
        Edition::One if count > 4_608 => refusal(42, 3),
        Edition::One if count > 4_096 => refusal(43, 4_096),
        Edition::Two if count > 65_535 => refusal(42, 5),
        _ => None,
    }
}

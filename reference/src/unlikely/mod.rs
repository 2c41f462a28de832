//! Tables, recordings and witnesses made for R-7, with what rules of guesses make of them.

mod forced;
mod open;
mod spans;

pub use forced::{forced, Forced};
pub use open::{open, Open};
pub use spans::{spans, Span};

use crate::table::{Kind, Table, Transition};

/// Which radio a packet comes from: its direction and device.
pub const RADIOS: [(u8, u8); 5] = [(0, 0), (1, 1), (1, 15), (1, 2), (1, 9)];

/// In version 1 where that can tell of all kinds, in every second turn; else in version 2.
fn version(kinds: &[Kind], turn: usize) -> u8 {
    let told = kinds.iter().all(|it| *it == Kind::in_version_1(it.direction, it.airtime));
    if told && turn.is_multiple_of(2) {
        1
    } else {
        2
    }
}

/// No variables, no clocks, and every packet off the air at the next tick: N is the states.
fn table(states: u8, kinds: Vec<Kind>, transitions: Vec<Transition>, turn: usize) -> Table {
    let version = version(&kinds, turn);
    Table { version, states, variables: 0, clocks: 0, kinds, transitions }
}

fn kind((direction, device): (u8, u8)) -> Kind {
    Kind { direction, airtime: 0, device }
}

fn link(from: u8, to: u8, kind: u8, guard: &[u8]) -> Transition {
    Transition { from, to, kind, guard: guard.to_vec(), ..Transition::default() }
}

/// The most guesses in any so many consecutive rows, of a list that tells which rows are guesses.
fn most_guesses(guesses: &[bool], window: u8) -> usize {
    let count = |rows: &[bool]| rows.iter().filter(|it| **it).count();
    let ends = 1..=guesses.len();
    let windows = ends.map(|end| count(&guesses[end.saturating_sub(window.into())..end]));
    windows.max().unwrap_or(0)
}

//! Random guards that turn on waiting.

use super::rng::Rng;
use crate::table::Table;

/// What a guard may name: variables, clocks, and the largest limit of each clock.
#[derive(Clone, Copy, Debug)]
pub struct Names {
    pub variables: u8,
    pub clocks: u8,
    pub limits: [u8; 2],
}

impl Names {
    pub fn of(table: &Table, limits: [u8; 2]) -> Names {
        Names { variables: table.variables, clocks: table.clocks, limits }
    }

    pub fn clock(&self, rng: &mut Rng) -> u8 {
        rng.below(self.clocks.into()) as u8
    }

    /// Often the lowest or the highest, or next to them.
    fn limit(&self, rng: &mut Rng, clock: u8) -> u8 {
        let highest = self.limits[usize::from(clock)];
        match rng.one_in(4) {
            true => rng.pick(&[0, 1, highest.saturating_sub(1), highest]),
            false => rng.between(0, highest.into()) as u8,
        }
    }

    fn at_most(&self, rng: &mut Rng, clock: u8) -> Vec<u8> {
        vec![1, clock, self.limit(rng, clock)]
    }

    fn at_least(&self, rng: &mut Rng, clock: u8) -> Vec<u8> {
        vec![2, clock, self.limit(rng, clock)]
    }

    /// The last guard to come.
    pub fn above(&self, clock: u8) -> Vec<u8> {
        vec![4, 1, clock, self.limits[usize::from(clock)]]
    }

    fn variable(&self, rng: &mut Rng) -> Vec<u8> {
        let named = vec![3, rng.below(self.variables.into()) as u8];
        match rng.one_in(2) {
            true => named,
            false => [vec![4], named].concat(),
        }
    }
}

/// Of at most so many bytes, two or more. At times as long as that, by enough times not.
pub fn waiting_guard(rng: &mut Rng, names: &Names, most: usize) -> Vec<u8> {
    let mut guard = shorter(rng, names, most);
    if rng.one_in(10) {
        guard.splice(0..0, vec![4; most - guard.len()]);
    }
    guard
}

fn shorter(rng: &mut Rng, names: &Names, most: usize) -> Vec<u8> {
    let clocks = names.clocks > 0;
    let clock = names.clock(rng);
    match rng.below(16) {
        0 | 1 if clocks && most >= 3 => names.at_most(rng, clock),
        2 | 3 if clocks && most >= 3 => names.at_least(rng, clock),
        4 | 5 if clocks && most >= 7 => window(rng, names, clock),
        6 | 7 if clocks && most >= 7 => {
            // Of two clocks, it depends on how far they are apart.
            let other = names.clocks - 1 - clock;
            let (left, right) = (names.at_least(rng, clock), names.at_most(rng, other));
            both(rng, left, right)
        }
        8 if names.variables > 0 && most >= 3 => names.variable(rng),
        15 if clocks && most >= 4 => names.above(clock),
        9 | 10 if names.variables > 0 && most >= 7 => {
            let (left, right) = (names.variable(rng), shorter(rng, names, most - 4));
            both(rng, left, right)
        }
        11 | 12 if most >= 3 => [vec![4], shorter(rng, names, most - 1)].concat(),
        13 if most >= 5 => {
            let (left, right) = halves(rng, names, most - 1);
            both(rng, left, right)
        }
        // One or the other.
        14 if most >= 8 => {
            let (left, right) = halves(rng, names, most - 4);
            [vec![4, 5, 4], left, vec![4], right].concat()
        }
        _ => vec![0],
    }
}

/// Two guards that take so many bytes together.
fn halves(rng: &mut Rng, names: &Names, most: usize) -> (Vec<u8>, Vec<u8>) {
    let left_most = rng.between(2, most - 2);
    let left = shorter(rng, names, left_most);
    let right = shorter(rng, names, most - left.len());
    (left, right)
}

fn both(rng: &mut Rng, left: Vec<u8>, right: Vec<u8>) -> Vec<u8> {
    match rng.one_in(2) {
        true => [vec![5], left, right].concat(),
        false => [vec![5], right, left].concat(),
    }
}

/// From one limit to one near it, which may be below it.
fn window(rng: &mut Rng, names: &Names, clock: u8) -> Vec<u8> {
    let low = names.limit(rng, clock);
    let highest = names.limits[usize::from(clock)];
    let high = (usize::from(low) + rng.below(5)).saturating_sub(2).min(highest.into()) as u8;
    both(rng, vec![2, clock, low], vec![1, clock, high])
}

//! Guards alone: waits tried one by one against the waits at which something changes.

use super::{same, Counts};
use crate::brute::{largest_limit, readiness};
use crate::compare::hex;
use crate::generate::{waiting_guard, Names, Rng};
use crate::guard::{Guard, Readiness};

/// Readings tried of each guard.
const TRIES: usize = 20;

pub fn test(rng: &mut Rng, counts: &mut Counts) -> Result<(), String> {
    let limits = [rng.pick(&[1, 5, 20, 254, 255]), rng.pick(&[1, 5, 20, 254, 255])];
    let names = Names { variables: rng.below(5) as u8, clocks: rng.below(3) as u8, limits };
    let most = rng.between(3, 32);
    let bytes = waiting_guard(rng, &names, most);
    let guard = Guard::read(&bytes, names.variables, names.clocks).ok_or("not a guard")?;
    for _ in 0..TRIES {
        let variables = rng.byte() & ((1 << names.variables) - 1);
        let clocks = [0, 1].map(|clock| reading(rng, limits[clock]));
        let now = guard.readiness(variables, &clocks);
        let text = || format!("guard {}, {variables}, {clocks:?}", hex(&bytes));
        same("readiness", now, readiness(&bytes, variables, clocks))
            .and_then(|()| {
                // As a situation writes it: above the largest limit all readings are one.
                let written = [0, 1].map(|it| clocks[it].min(largest_limit(&bytes, it).0 + 1));
                same("as written", now, guard.readiness(variables, &written))
            })
            .map_err(|it| format!("{}: {it}", text()))?;
        counts.guards[match now {
            Readiness::Yes => 0,
            Readiness::NotYet => 1,
            Readiness::NoMore => 2,
        }] += 1;
    }
    Ok(())
}

/// Around the limits, and far beyond them.
fn reading(rng: &mut Rng, limit: u8) -> u32 {
    let near = usize::from(limit) + 3;
    match rng.below(8) {
        0 => rng.between(0, 2) as u32,
        1 => rng.between(near - 4, near) as u32,
        2 => rng.between(250, 66_000) as u32,
        _ => rng.between(0, near) as u32,
    }
}

//! Tables with states that cannot be reached.

use super::rng::Rng;
use crate::table::{Table, COUNT_LIMITS};

/// A sound table changed so that, nearly always, some state cannot be reached. At times N is above
/// its limit too.
pub fn unreached_states(rng: &mut Rng, table: &Table) -> Table {
    let mut table = table.clone();
    match rng.below(8) {
        0 => more_states(rng, &mut table),
        1 => table.transitions.iter_mut().for_each(|it| std::mem::swap(&mut it.from, &mut it.to)),
        2 => table.transitions.iter_mut().for_each(|it| {
            it.from = rng.below(table.states.into()) as u8;
            it.to = rng.below(table.states.into()) as u8;
        }),
        _ if table.states == 1 => more_states(rng, &mut table),
        _ => cut_off(rng, &mut table),
    }
    if rng.one_in(6) {
        too_many_situations(rng, &mut table);
    }
    table
}

/// Both clocks have 257 values.
fn too_many_situations(rng: &mut Rng, table: &mut Table) {
    let number = rng.below(table.transitions.len());
    if let Some(it) = table.transitions.get_mut(number) {
        table.clocks = 2;
        it.guard = vec![5, 1, 0, 255, 2, 1, 255];
    }
}

/// States that no transition names.
fn more_states(rng: &mut Rng, table: &mut Table) {
    let most = COUNT_LIMITS[0].1;
    table.states = rng.between(most.min(usize::from(table.states) + 1), most) as u8;
}

/// Nothing leads to one or some states but themselves. They may lead to each other, to themselves
/// and out; what only they led to is unreached too.
fn cut_off(rng: &mut Rng, table: &mut Table) {
    let one = rng.between(1, usize::from(table.states) - 1) as u8;
    let some = rng.one_in(2);
    let (unreached, reached): (Vec<u8>, Vec<u8>) =
        (0..table.states).partition(|state| *state == one || (some && *state > 0 && rng.one_in(3)));
    for it in &mut table.transitions {
        if reached.contains(&it.from) && unreached.contains(&it.to) {
            match rng.one_in(2) {
                true => it.from = rng.pick(&unreached),
                false => it.to = rng.pick(&reached),
            }
        }
    }
}

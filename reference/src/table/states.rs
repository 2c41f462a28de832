//! Which states of a table can be reached.

use super::Table;

/// The lowest state that no way along transitions from state 0 leads to, whatever their guards.
/// Of a table whose counts and records are in order.
pub fn lowest_unreached(table: &Table) -> Option<usize> {
    let mut reached = vec![false; usize::from(table.states)];
    reached[0] = true;
    let mut waiting = vec![0];
    while let Some(state) = waiting.pop() {
        for it in table.transitions.iter().filter(|it| it.from == state) {
            let to = &mut reached[usize::from(it.to)];
            if !*to {
                *to = true;
                waiting.push(it.to);
            }
        }
    }
    reached.iter().position(|reached| !reached)
}

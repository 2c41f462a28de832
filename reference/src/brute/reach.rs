//! Which states lead to which, as a relation.

use std::collections::BTreeSet;

use crate::table::Table;

/// The lowest state that state 0 does not lead to by transitions, however many and whatever their
/// guards. Every state leads to itself by none of them; the relation is composed with itself until
/// nothing is new.
pub fn lowest_unreached(table: &Table) -> Option<usize> {
    let mut leads: BTreeSet<(u8, u8)> = (0..table.states).map(|state| (state, state)).collect();
    leads.extend(table.transitions.iter().map(|it| (it.from, it.to)));
    loop {
        let on = |(from, via): &(u8, u8)| {
            let from = *from;
            leads.range((*via, 0)..=(*via, u8::MAX)).map(move |(_, to)| (from, *to))
        };
        let longer: BTreeSet<(u8, u8)> = leads.iter().flat_map(on).collect();
        if longer == leads {
            break;
        }
        leads = longer;
    }
    (0..table.states).find(|state| !leads.contains(&(0, *state))).map(usize::from)
}

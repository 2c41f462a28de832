//! The order among witnesses of one recording: the smallest key is the preferred one's.

use crate::witness::{Witness, ADDED, KEPT};

/// At each instant 1 to T: a kept row, then a removed row or nothing, then an added row; then the
/// transition. The earliest instant where two witnesses differ decides, as lists of pairs compare.
pub fn preference(witness: &Witness, last: usize) -> Vec<(u8, u8)> {
    let choice = |instant| {
        let row = witness.rows.iter().find(|row| usize::from(row.time) == instant);
        match row.map(|row| (row.mark, row.transition)) {
            Some((KEPT, transition)) => (0, transition),
            Some((ADDED, transition)) => (2, transition),
            _ => (1, 0),
        }
    };
    (1..=last).map(choice).collect()
}

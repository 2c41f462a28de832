//! The desk's small monitor: RETRY comes 4 to 6 ticks after DATA by transition 2, and DATA 4 ticks
//! or more after RETRY by transition 4. DATA and RETRY have the air for one tick more.

use super::{at_last_row, Counted};
use crate::answer::Counts;
use crate::papers::{ACK, DATA, RETRY, SMALL_MONITOR};

pub fn recordings() -> Vec<Counted> {
    let of = |rows: &[(u16, u8)], cost: u64, not_yet: u64, no_more: u64| {
        let name = format!("small monitor {rows:?}");
        at_last_row(name, SMALL_MONITOR.to_vec(), rows, cost, Counts::new(not_yet, no_more))
    };
    let mut all = vec![
        // The clock reads 2, and one tick later 3.
        of(&[(1, DATA), (3, RETRY)], 3, 1, 0),
        of(&[(1, DATA), (4, RETRY)], 5, 1, 0),
        // DATA may have been at 1; at 2 it has the air.
        of(&[(3, RETRY)], 6, 1, 0),
        of(&[(4, RETRY)], 11, 2, 0),
        // ACK leaves no place for another DATA. The clock reads 7, and is written so: M is 6.
        of(&[(1, DATA), (5, ACK), (6, ACK), (8, RETRY)], 16, 0, 1),
        of(&[(1, DATA), (3, ACK), (4, ACK), (5, ACK), (6, ACK), (7, ACK), (8, RETRY)], 13, 0, 1),
        // After DATA at 1 it is too late. An ACK may have been added, and DATA again: at 6, or at
        // 5 and 6, it is too early, and at 7 it has the air.
        of(&[(1, DATA), (5, ACK), (8, RETRY)], 20, 1, 1),
        of(&[(1, DATA), (4, ACK), (8, RETRY)], 26, 2, 1),
        // By transition 4.
        of(&[(1, DATA), (6, RETRY), (8, DATA)], 15, 1, 0),
    ];
    // Nothing behind a rejected row changes what was counted.
    for (number, behind) in [(0, (9, ACK)), (4, (12, DATA)), (6, (10, RETRY)), (7, (10, ACK))] {
        let mut longer = all[number].clone();
        longer.name.push_str(" and more");
        longer.rows.push(behind);
        all.push(longer);
    }
    all
}

//! Guards and waiting, worked out from the waits at which something changes: none is tried.

use crate::guard::Readiness;

/// Whether something holds now, and the waits at which that changes, the shortest first.
struct Waits {
    now: bool,
    changes: Vec<u32>,
}

/// What the guard at the front of these bytes answers.
pub fn readiness(guard: &[u8], variables: u8, clocks: [u32; 2]) -> Readiness {
    let (waits, _) = waits(guard, variables, clocks);
    match (waits.now, waits.changes.is_empty()) {
        (true, _) => Readiness::Yes,
        (false, false) => Readiness::NotYet,
        (false, true) => Readiness::NoMore,
    }
}

/// Of the guard at the front of these bytes, and how many bytes it takes.
fn waits(guard: &[u8], variables: u8, clocks: [u32; 2]) -> (Waits, usize) {
    let always = |now: bool| Waits { now, changes: Vec::new() };
    match guard[0] {
        0 => (always(true), 1),
        // A clock is at most the limit until it reads one more.
        1 => (not(reached(clocks[usize::from(guard[1])], u32::from(guard[2]) + 1)), 3),
        2 => (reached(clocks[usize::from(guard[1])], u32::from(guard[2])), 3),
        3 => (always(variables & (1 << guard[1]) != 0), 2),
        4 => {
            let (inner, used) = waits(&guard[1..], variables, clocks);
            (not(inner), 1 + used)
        }
        _ => {
            let (left, left_used) = waits(&guard[1..], variables, clocks);
            let (right, right_used) = waits(&guard[1 + left_used..], variables, clocks);
            (both(&left, &right), 1 + left_used + right_used)
        }
    }
}

/// Whether a clock that reads this has reached that value.
fn reached(reads: u32, value: u32) -> Waits {
    match value.checked_sub(reads) {
        None | Some(0) => Waits { now: true, changes: Vec::new() },
        Some(wait) => Waits { now: false, changes: vec![wait] },
    }
}

fn not(inner: Waits) -> Waits {
    Waits { now: !inner.now, changes: inner.changes }
}

fn both(left: &Waits, right: &Waits) -> Waits {
    let now = left.now && right.now;
    let mut changes = [&left.changes[..], &right.changes].concat();
    changes.sort();
    changes.dedup();
    let mut before = now;
    changes.retain(|wait| {
        let after = left.after(*wait) && right.after(*wait);
        std::mem::replace(&mut before, after) != after
    });
    Waits { now, changes }
}

impl Waits {
    fn after(&self, wait: u32) -> bool {
        let changed = self.changes.iter().filter(|it| **it <= wait).count();
        self.now == changed.is_multiple_of(2)
    }
}

//! The search: forward for what is possible, backward for what can last, and then a walk.
//!
//! Layer t-1 of the lent bytes is the set of situations possible just before instant t.

use crate::answer::{Counts, Verdict};
use crate::guard::Readiness;
use crate::moves::{Fired, Moves};
use crate::set;
use crate::witness::{Row, Witness, ADDED, KEPT, NO_TRANSITION, REMOVED};

pub struct Search<'a> {
    /// The kind heard at each of the instants 1 to T, if any.
    pub instants: &'a [Option<u8>],
    pub moves: Moves<'a>,
    /// One set more than there are instants.
    pub layers: &'a mut [u8],
    pub set_size: usize,
}

impl Search<'_> {
    /// Cost and preferred witness; or the verdict where the recording is not accepted.
    pub fn run(mut self, first: usize, budget: u32) -> Result<(u64, Witness), Verdict> {
        let cost = self.forward(first, budget)?;
        self.prune();
        Ok((cost, self.walk(first)))
    }

    /// Fills the layers, counting the work of each instant before its moves.
    ///
    /// The running total only grows, so the cost passes the budget exactly if some running
    /// total does, and the work of an instant counts before its moves can reject.
    fn forward(&mut self, first: usize, budget: u32) -> Result<u64, Verdict> {
        let first_layer = &mut self.layers[..self.set_size];
        first_layer.fill(0);
        set::insert(first_layer, first);
        let mut cost = 0;
        for (place, heard) in self.instants.iter().enumerate() {
            let number = place as u64 + 1;
            let (now, next) = two_layers(self.layers, self.set_size, place);
            cost += set::count(now);
            if cost > u64::from(budget) {
                return Err(Verdict::new(2, u64::from(budget), number));
            }
            next.fill(0);
            advance(&mut self.moves, *heard, now, next);
            if set::is_empty(next) {
                // Where nothing is heard, each situation idles.
                let kind = heard.expect("a rejected instant has a row");
                return Err(Verdict::rejected(cost, number, counts(&self.moves, kind, now)));
            }
        }
        Ok(cost)
    }

    /// Leaves in each layer only the situations from which instant T can be passed.
    fn prune(&mut self) {
        for (place, heard) in self.instants.iter().enumerate().rev() {
            let (now, next) = two_layers(self.layers, self.set_size, place);
            keep_lasting(&self.moves, *heard, now, next);
        }
    }

    /// The first move in the order of preference that stays inside the pruned layers.
    fn walk(&self, first: usize) -> Witness {
        let mut witness = Witness::default();
        let mut situation = first;
        for place in 0..self.instants.len() {
            let (row, after) = self.choose(place, situation);
            witness.rows.extend(row);
            situation = after;
        }
        witness
    }

    /// First keeping, then removing; first nothing, then adding; among transitions the lower
    /// number. The row, if there is one, and the situation that is left.
    fn choose(&self, place: usize, situation: usize) -> (Option<Row>, usize) {
        let time = place as u16 + 1;
        let next = &self.layers[self.set_size * (place + 1)..][..self.set_size];
        match self.instants[place] {
            None => self.idle_or_add(time, situation, next),
            Some(kind) => {
                let (row, after) = self.keep_or_remove(time, situation, kind, next);
                (Some(row), after)
            }
        }
    }

    fn idle_or_add(&self, time: u16, situation: usize, next: &[u8]) -> (Option<Row>, usize) {
        let (idle, addable) = self.moves.of(situation);
        if set::contains(next, idle) {
            return (None, idle);
        }
        let it = addable.iter().find(|it| set::contains(next, usize::from(it.next)));
        let it = it.expect(LASTS);
        let row = Row { mark: ADDED, time, kind: it.kind, transition: it.transition };
        (Some(row), usize::from(it.next))
    }

    fn keep_or_remove(&self, time: u16, situation: usize, kind: u8, next: &[u8]) -> (Row, usize) {
        let kept = self.moves.kept(situation, kind).filter(|it| set::contains(next, it.1));
        if let Some((transition, after)) = kept.min_by_key(|it| it.0) {
            return (Row { mark: KEPT, time, kind, transition }, after);
        }
        let after = self.moves.removed(situation, kind).expect(LASTS);
        (Row { mark: REMOVED, time, kind, transition: NO_TRANSITION }, after)
    }
}

/// Why some move is left to choose.
const LASTS: &str = "a pruned layer holds only situations that last";

/// The set before an instant and the set after it.
fn two_layers(layers: &mut [u8], size: usize, place: usize) -> (&mut [u8], &mut [u8]) {
    layers[size * place..size * (place + 2)].split_at_mut(size)
}

/// Where nothing is heard, each situation idles or fires on a row that may be added; where a row is,
/// it fires on that row or the row is removed.
fn advance(moves: &mut Moves, heard: Option<u8>, now: &[u8], next: &mut [u8]) {
    match heard {
        None => set::for_each(now, |situation| {
            let (idle, addable) = moves.meet(situation);
            set::insert(next, idle);
            for it in addable {
                set::insert(next, usize::from(it.next));
            }
        }),
        Some(kind) => set::for_each(now, |situation| {
            moves.meet(situation);
            for (_, after) in moves.kept(situation, kind) {
                set::insert(next, after);
            }
            if let Some(removed) = moves.removed(situation, kind) {
                set::insert(next, removed);
            }
        }),
    }
}

/// Of the situations just before an instant that a row of this kind cannot pass.
fn counts(moves: &Moves, kind: u8, now: &[u8]) -> Counts {
    let mut counts = Counts::default();
    set::for_each(now, |situation| {
        for readiness in moves.readiness(situation, kind) {
            match readiness {
                Readiness::Yes => unreachable!("it would have passed"),
                Readiness::NotYet => counts.not_yet += 1,
                Readiness::NoMore => counts.no_more += 1,
            }
        }
    });
    counts
}

fn keep_lasting(moves: &Moves, heard: Option<u8>, now: &mut [u8], next: &[u8]) {
    let lasts = |it: &Fired| set::contains(next, usize::from(it.next));
    match heard {
        None => set::retain(now, |situation| {
            let (idle, addable) = moves.of(situation);
            set::contains(next, idle) || addable.iter().any(lasts)
        }),
        Some(kind) => set::retain(now, |situation| {
            moves.kept(situation, kind).any(|it| set::contains(next, it.1))
                || moves.removed(situation, kind).is_some_and(|it| set::contains(next, it))
        }),
    }
}

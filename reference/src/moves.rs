//! The moves out of each situation.
//!
//! What a situation can do does not depend on the instant, only which of it is allowed
//! does. So each situation's moves are worked out when it is first met, and then looked up.

use crate::guard::{Guard, Readiness};
use crate::situation::Space;
use crate::table::{Table, Transition};
use crate::witness::ADDED;

/// A transition that can fire, and the situation it leaves a tick later if its row is added.
#[derive(Clone, Copy, Debug)]
pub struct Fired {
    /// Numbers of situations stay below 65,536.
    pub next: u16,
    pub kind: u8,
    pub transition: u8,
}

#[derive(Clone, Copy)]
struct Known {
    /// How many can fire, and how many of these on a row that may be added: they come first.
    fired: u8,
    addable: u8,
    /// The situation a tick later if nothing is sent.
    idle: u16,
    first_fired: u32,
}

/// No situation has its first transition there.
const NOT_MET: Known = Known { fired: 0, addable: 0, idle: 0, first_fired: u32::MAX };

/// A transition with its guard read.
struct Guarded<'a> {
    number: u8,
    parts: &'a Transition,
    guard: Guard,
    airtime: u32,
}

pub struct Moves<'a> {
    table: &'a Table,
    space: &'a Space,
    /// The transitions from each state, in the order of their numbers.
    by_state: Vec<Vec<Guarded<'a>>>,
    known: Vec<Known>,
    fired: Vec<Fired>,
}

impl<'a> Moves<'a> {
    /// Of a sound table.
    pub fn new(table: &'a Table, space: &'a Space) -> Self {
        let mut by_state: Vec<Vec<Guarded>> = Vec::new();
        by_state.resize_with(usize::from(table.states), Vec::new);
        for (number, parts) in table.transitions.iter().enumerate() {
            let guard = table.guard(parts).expect("a sound table has sound guards");
            let airtime = table.airtime(parts.kind);
            let guarded = Guarded { number: number as u8, parts, guard, airtime };
            by_state[usize::from(parts.from)].push(guarded);
        }
        let known = vec![NOT_MET; space.count()];
        Moves { table, space, by_state, known, fired: Vec::new() }
    }

    /// The situation that idling leaves, and the transitions that can fire on added rows, lowest
    /// first.
    #[inline]
    pub fn meet(&mut self, situation: usize) -> (usize, &[Fired]) {
        if self.known[situation].first_fired == NOT_MET.first_fired {
            self.known[situation] = self.work_out(situation);
        }
        self.of(situation)
    }

    /// The same, for a situation that was met before.
    pub fn of(&self, situation: usize) -> (usize, &[Fired]) {
        let known = self.known[situation];
        let start = known.first_fired as usize;
        let addable = &self.fired[start..start + usize::from(known.addable)];
        (usize::from(known.idle), addable)
    }

    /// The transitions that can fire on a recorded row of this kind, in any order, each with the
    /// situation that it leaves if the row is kept. Of a situation that was met before.
    pub fn kept(&self, situation: usize, kind: u8) -> impl Iterator<Item = (u8, usize)> + '_ {
        let known = self.known[situation];
        let start = known.first_fired as usize;
        let fired = &self.fired[start..start + usize::from(known.fired)];
        fired
            .iter()
            .filter(move |it| it.kind == kind)
            .map(|it| (it.transition, self.space.without_guess(usize::from(it.next))))
    }

    /// The situation that removing a recorded row of this kind leaves, if it may be removed:
    /// it is to the unit and finds the air free.
    pub fn removed(&self, situation: usize, kind: u8) -> Option<usize> {
        let it = self.space.situation(situation);
        let airtime = self.table.airtime(kind);
        (it.air == 0 && self.table.to_unit(kind))
            .then(|| self.space.number(&self.space.removed(&it, airtime)))
    }

    /// Of the transitions of this kind from the situation's state, what each guard answers; nothing
    /// if the air is taken.
    pub fn readiness(&self, situation: usize, kind: u8) -> impl Iterator<Item = Readiness> + '_ {
        let it = self.space.situation(situation);
        self.by_state[usize::from(it.state)]
            .iter()
            .filter(move |by| it.air == 0 && by.parts.kind == kind)
            .map(move |by| by.guard.readiness(it.variables, &it.clocks))
    }

    /// Once for each situation, while looking up is the innermost step of the search.
    #[cold]
    fn work_out(&mut self, number: usize) -> Known {
        let it = self.space.situation(number);
        let rule = self.space.rule();
        let is_guess = |kind: u8| rule.is_guess(self.table, ADDED, kind);
        let idle = self.space.number(&self.space.idle(&it)) as u16;
        let first_fired = self.fired.len();
        if it.air == 0 {
            // What fires is yes, and the waits after 0 make no difference to that.
            let able = self.by_state[usize::from(it.state)]
                .iter()
                .filter(|by| by.guard.holds_after(0, it.variables, &it.clocks));
            self.fired.extend(able.map(|by| {
                let guess = is_guess(by.parts.kind);
                let next = self.space.fired(&it, by.parts, by.airtime, guess);
                let (kind, transition) = (by.parts.kind, by.number);
                Fired { next: self.space.number(&next) as u16, kind, transition }
            }));
        }
        let fired = &mut self.fired[first_fired..];
        let may_add = |by: &Fired| rule.keeps(it.guesses, is_guess(by.kind));
        fired.sort_by_key(|by| !may_add(by));
        let addable = fired.partition_point(may_add) as u8;
        Known { fired: fired.len() as u8, addable, idle, first_fired: first_fired as u32 }
    }
}

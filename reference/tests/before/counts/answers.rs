//! What guards answer, by R-10 and by other rules.

use std::ops::RangeInclusive;

use lutarosa_reference::guard::{Clocks, Guard, Readiness};
use lutarosa_reference::situation::Situation;
use Readiness::{NoMore, NotYet, Yes};

use super::known::Known;

/// A guard in a situation.
#[derive(Clone, Copy)]
pub struct Asked<'a> {
    guard: &'a Guard,
    variables: u8,
    clocks: Clocks,
    /// M+1 of each clock.
    highest: Clocks,
    /// All variables there are.
    mask: u8,
}

/// Longer than any that matters.
const WAITS: RangeInclusive<u32> = 1..=300;

impl<'a> Asked<'a> {
    pub fn new(known: &'a Known, guard: &'a Guard, it: &Situation) -> Asked<'a> {
        Asked {
            guard,
            variables: it.variables,
            clocks: it.clocks,
            highest: known.highest,
            mask: (1 << known.variables) - 1,
        }
    }

    fn holds(&self) -> bool {
        self.guard.holds_after(0, self.variables, &self.clocks)
    }

    fn later(&self, waits: Clocks) -> Asked<'a> {
        let clocks = [self.clocks[0] + waits[0], self.clocks[1] + waits[1]];
        Asked { clocks, ..*self }
    }

    fn answer_if(&self, comes: impl FnOnce() -> bool) -> Readiness {
        match self.holds() {
            true => Yes,
            false if comes() => NotYet,
            false => NoMore,
        }
    }

    /// By R-10.
    pub fn answer(&self) -> Readiness {
        self.after(WAITS)
    }

    /// With these waits alone.
    pub fn after(&self, mut waits: RangeInclusive<u32>) -> Readiness {
        self.answer_if(|| waits.any(|wait| self.later([wait; 2]).holds()))
    }

    /// With clocks that gain these ticks in a wait.
    pub fn waiting(&self, gains: fn(u32) -> Clocks) -> Readiness {
        self.answer_if(|| WAITS.clone().any(|wait| self.later(gains(wait)).holds()))
    }

    /// With clocks that read this where they should read that; M+1 comes first.
    pub fn reading(&self, reads: fn(u32, u32) -> u32) -> Readiness {
        let read = |it: Asked<'a>| Asked {
            // An absent clock reads 0 and is not asked for.
            clocks: [0, 1].map(|clock| match it.clocks[clock] {
                0 => 0,
                ticks => reads(self.highest[clock], ticks),
            }),
            ..it
        };
        read(*self).answer_if(|| WAITS.clone().any(|wait| read(self.later([wait; 2])).holds()))
    }

    /// With M where a clock reads more.
    pub fn capped(&self) -> Asked<'a> {
        let clocks = [0, 1].map(|clock| self.clocks[clock].min(self.highest[clock] - 1));
        Asked { clocks, ..*self }
    }

    pub fn apart(&self) -> Readiness {
        let [first, second] = self.highest;
        let mut waits = (0..=first).flat_map(|it| (0..=second).map(move |other| [it, other]));
        self.answer_if(|| waits.any(|waits| self.later(waits).holds()))
    }

    pub fn with_any_variables(&self) -> Readiness {
        let any = (0..=self.mask).any(|variables| {
            let changed = Asked { variables, ..*self };
            WAITS.clone().any(|wait| changed.later([wait; 2]).holds())
        });
        self.answer_if(|| any)
    }

    /// A negation that does not hold answers this, by what its inside, which holds, would answer to
    /// a wait.
    pub fn negated(&self, answers: fn(Readiness) -> Readiness) -> Readiness {
        match self.guard {
            Guard::Not(inner) if !self.holds() => {
                let inner = Asked { guard: inner, ..*self };
                let comes = WAITS.clone().any(|wait| inner.later([wait; 2]).holds());
                answers(if comes { NotYet } else { NoMore })
            }
            _ => self.answer(),
        }
    }

    /// A conjunction that does not hold answers this, by what its halves do.
    pub fn halves(&self, answers: fn(Readiness, Readiness) -> Readiness) -> Readiness {
        match self.guard {
            Guard::And(left, right) if !self.holds() => {
                let half = |guard: &'a Guard| Asked { guard, ..*self }.halves(answers);
                answers(half(left), half(right))
            }
            _ => self.answer(),
        }
    }
}

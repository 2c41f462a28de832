//! Situations: what of the past can still matter, and their numbers.

use crate::guard::Clocks;
use crate::rule::{Guesses, Rule};
use crate::table::{Table, Transition};

pub const MOST_SITUATIONS: usize = 65_536;

#[derive(Clone, Copy, Debug, PartialEq, Eq)]
pub struct Situation {
    pub state: u8,
    pub variables: u8,
    /// A value above the largest limit M is written as M+1; an absent clock is always 0.
    pub clocks: Clocks,
    /// For how many ticks the air is still taken.
    pub air: u32,
    pub guesses: Guesses,
}

/// The situations of a table under a rule, numbered like digits: state, variables, clocks, air,
/// guesses. The last digit of all is whether the latest row was a guess.
#[derive(Clone, Debug)]
pub struct Space {
    rule: Rule,
    states: u32,
    assignments: u32,
    /// M+2 for each clock, and 1 for an absent one.
    clock_values: Clocks,
    /// A+1, A being the largest airtime.
    air_values: u32,
}

impl Space {
    /// Of a table whose counts and records are in order, without a rule.
    pub fn of(table: &Table) -> Space {
        Space::under(Rule::NONE, table)
    }

    /// The same under a rule that is in range.
    pub fn under(rule: Rule, table: &Table) -> Space {
        let mut largest = [0; 2];
        for transition in &table.transitions {
            if let Some(guard) = table.guard(transition) {
                guard.raise_limits(&mut largest);
            }
        }
        let present = |clock: usize| clock < usize::from(table.clocks);
        let values = |clock: usize| if present(clock) { largest[clock] + 2 } else { 1 };
        let longest = table.kinds.iter().map(|kind| kind.airtime).max().unwrap_or(0);
        Space {
            rule,
            states: u32::from(table.states),
            assignments: 1 << table.variables,
            clock_values: [values(0), values(1)],
            air_values: u32::from(longest) + 1,
        }
    }

    pub fn rule(&self) -> Rule {
        self.rule
    }

    /// N of the paper, the larger one under a rule. At most 16 x 16 x 257 x 257 x 16 x 128, so it
    /// cannot overflow.
    pub fn count(&self) -> usize {
        let clocks = self.clock_values[0] as usize * self.clock_values[1] as usize;
        let base = self.states as usize * self.assignments as usize * clocks;
        (base * self.air_values as usize) << self.rule.remembered()
    }

    pub fn number(&self, it: &Situation) -> usize {
        let mut number = u32::from(it.state);
        number = number * self.assignments + u32::from(it.variables);
        number = number * self.clock_values[0] + it.clocks[0];
        number = number * self.clock_values[1] + it.clocks[1];
        number = number * self.air_values + it.air;
        (number << self.rule.remembered() | u32::from(it.guesses)) as usize
    }

    pub fn situation(&self, number: usize) -> Situation {
        let remembered = self.rule.remembered();
        let guesses = number & ((1 << remembered) - 1);
        let mut rest = (number >> remembered) as u32;
        let mut digit = |values: u32| {
            let digit = rest % values;
            rest /= values;
            digit
        };
        let air = digit(self.air_values);
        let second = digit(self.clock_values[1]);
        let first = digit(self.clock_values[0]);
        let variables = digit(self.assignments) as u8;
        let (state, clocks) = (digit(self.states) as u8, [first, second]);
        Situation { state, variables, clocks, air, guesses: guesses as Guesses }
    }

    /// The situation that differs from this one in that the latest row was no guess.
    pub fn without_guess(&self, number: usize) -> usize {
        let latest = usize::from(self.rule.remembered() > 0);
        number & !latest
    }

    /// The one situation possible just before instant 1.
    pub fn first(&self) -> Situation {
        Situation { state: 0, variables: 0, clocks: self.aged([0, 0]), air: 0, guesses: 0 }
    }

    /// What is left a tick later when nothing is sent.
    pub fn idle(&self, it: &Situation) -> Situation {
        Situation { clocks: self.aged(it.clocks), air: it.air.saturating_sub(1), ..*it }
    }

    /// What is left a tick after a packet of this airtime that the monitor did not get.
    pub fn removed(&self, it: &Situation, airtime: u32) -> Situation {
        Situation { air: airtime, ..self.idle(it) }
    }

    /// What is left a tick after this transition fired on a packet of this airtime, which was a
    /// guess or not.
    pub fn fired(&self, it: &Situation, by: &Transition, airtime: u32, guess: bool) -> Situation {
        let reset = |clock: usize| by.reset >> clock & 1 == 1;
        let after = |clock: usize| if reset(clock) { 0 } else { it.clocks[clock] };
        Situation {
            state: by.to,
            variables: (it.variables | by.set) & !by.clear,
            clocks: self.aged([after(0), after(1)]),
            air: airtime,
            guesses: self.rule.behind(it.guesses, guess),
        }
    }

    /// One tick more on each clock, never past its highest value.
    fn aged(&self, clocks: Clocks) -> Clocks {
        std::array::from_fn(|clock| (clocks[clock] + 1).min(self.clock_values[clock] - 1))
    }
}

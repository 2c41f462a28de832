//! NumMissing of document 003, a measured loss rate: in any so many consecutive kept or added rows
//! at most so many are added rows from a device. Such an added row is a guess.

use crate::answer::Refusal;
use crate::situation::MOST_SITUATIONS;
use crate::table::Table;
use crate::witness::ADDED;

const LAST_DEVICE: u8 = 15;
const WINDOWS: std::ops::RangeInclusive<u8> = 1..=8;

/// As a caller gives it; it may be out of range.
#[derive(Clone, Copy, Debug, PartialEq, Eq, PartialOrd, Ord)]
pub struct Rule {
    pub device: u8,
    /// l of the paper: how many rows are looked at together.
    pub window: u8,
    /// k of the paper: how many of them may be guesses.
    pub most: u8,
}

/// Which of the last l-1 kept or added rows were guesses, the latest in bit 0. Where there were
/// fewer rows, the missing ones were none.
pub type Guesses = u8;

impl Rule {
    /// Forbids nothing and remembers no row. The calls without a rule are calls with this one.
    pub const NONE: Rule = Rule { device: 0, window: 1, most: 1 };

    pub const fn new(device: u8, window: u8, most: u8) -> Rule {
        Rule { device, window, most }
    }

    /// Numbers 25 and 26, for a table with so many situations.
    pub fn judge(&self, situations: usize) -> Result<(), Refusal> {
        let in_range = self.device <= LAST_DEVICE
            && WINDOWS.contains(&self.window)
            && self.most <= self.window;
        if !in_range {
            return Err(Refusal::new(25, 0));
        }
        if situations << self.remembered() > MOST_SITUATIONS {
            return Err(Refusal::new(26, 0));
        }
        Ok(())
    }

    /// How many rows before the next one matter: l-1. Of a rule in range, like all below.
    pub fn remembered(&self) -> u32 {
        u32::from(self.window) - 1
    }

    pub fn is_guess(&self, table: &Table, mark: u8, kind: u8) -> bool {
        mark == ADDED && table.kinds[usize::from(kind)].device == self.device
    }

    /// Whether a kept or added row after these keeps the rule. The windows that end before it do.
    pub fn keeps(&self, before: Guesses, guess: bool) -> bool {
        before.count_ones() + u32::from(guess) <= u32::from(self.most)
    }

    /// What is remembered behind such a row.
    pub fn behind(&self, before: Guesses, guess: bool) -> Guesses {
        let places = (1 << self.remembered()) - 1;
        (before << 1 | u8::from(guess)) & places
    }
}

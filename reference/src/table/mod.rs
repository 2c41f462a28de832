//! The table: a monitor and its kinds of packet.

mod layout;
mod read;
mod rules;
mod states;
mod write;

pub use layout::kind_offset;
pub use read::{read, read_records};
pub use rules::COUNT_LIMITS;
pub use write::write;

use crate::guard::Guard;

#[derive(Clone, Copy, Debug, PartialEq, Eq, Default)]
pub struct Kind {
    /// 0 from the unit, 1 to it.
    pub direction: u8,
    pub airtime: u8,
    /// The radio that sends it: 0 is the unit.
    pub device: u8,
}

impl Kind {
    /// As version 1 has it, where the direction says which device it is.
    pub const fn in_version_1(direction: u8, airtime: u8) -> Kind {
        let device = if direction == 0 { 0 } else { 1 };
        Kind { direction, airtime, device }
    }
}

#[derive(Clone, Debug, PartialEq, Eq, Default)]
pub struct Transition {
    pub from: u8,
    pub to: u8,
    pub kind: u8,
    pub set: u8,
    pub clear: u8,
    pub reset: u8,
    /// In the prefix form of the file; its length is the guard length.
    pub guard: Vec<u8>,
}

/// The parts of a table. They may be unsound: writing judges them as reading would.
#[derive(Clone, Debug, PartialEq, Eq, Default)]
pub struct Table {
    pub version: u8,
    pub states: u8,
    pub variables: u8,
    pub clocks: u8,
    pub kinds: Vec<Kind>,
    pub transitions: Vec<Transition>,
}

impl Table {
    /// The five counts in the order of the file.
    pub fn counts(&self) -> [usize; 5] {
        [
            usize::from(self.states),
            usize::from(self.variables),
            usize::from(self.clocks),
            self.kinds.len(),
            self.transitions.len(),
        ]
    }

    /// The guard of a transition, or nothing if it is malformed.
    pub fn guard(&self, transition: &Transition) -> Option<Guard> {
        Guard::read(&transition.guard, self.variables, self.clocks)
    }

    pub fn to_unit(&self, kind: u8) -> bool {
        self.kinds[usize::from(kind)].direction == 1
    }

    pub fn airtime(&self, kind: u8) -> u32 {
        u32::from(self.kinds[usize::from(kind)].airtime)
    }
}

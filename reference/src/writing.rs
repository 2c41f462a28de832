//! A call that writes parts, alone or with what was written read back.

use crate::answer::Answer;
use crate::back::{recording_back, table_back, witness_back};
use crate::edition::Edition;
use crate::parts::{RecordingParts, TableParts, WitnessParts};
use crate::{recording, table, witness};

#[derive(Clone, Debug)]
pub enum Parts {
    Table(TableParts),
    /// Written against the bytes of a table.
    Recording(Vec<u8>, RecordingParts),
    Witness(Edition, WitnessParts),
}

#[derive(Clone, Debug)]
pub struct Writing {
    pub parts: Parts,
    pub back: bool,
    /// The length of the room.
    pub room: usize,
}

impl Parts {
    pub fn write(&self, room: &mut [u8]) -> Answer {
        match self {
            Parts::Table(parts) => table::write(&parts.covered(), room),
            Parts::Recording(table, parts) => recording::write(table, &parts.covered(), room),
            Parts::Witness(edition, parts) => witness::write(*edition, &parts.covered(), room),
        }
    }

    /// The answer, and every number of the parts that were read back.
    pub fn back(&self, room: &mut [u8]) -> (Answer, Vec<u8>) {
        match self {
            Parts::Table(parts) => {
                let (answer, parts) = table_back(parts, room);
                (answer, parts.numbers())
            }
            Parts::Recording(table, parts) => {
                let (answer, parts) = recording_back(table, parts, room);
                (answer, parts.numbers())
            }
            Parts::Witness(edition, parts) => {
                let (answer, parts) = witness_back(*edition, parts, room);
                (answer, parts.numbers())
            }
        }
    }

    /// How many bytes they take, if they can be written: found by lending too few.
    pub fn wanted(&self) -> Option<usize> {
        let answer = self.write(&mut []);
        (answer.number == 33).then_some(answer.second as usize)
    }
}

impl Writing {
    /// The answer, and every number of the parts that were read back, if they were.
    pub fn run(&self, room: &mut [u8]) -> (Answer, Vec<u8>) {
        match self.back {
            true => self.parts.back(room),
            false => (self.parts.write(room), Vec::new()),
        }
    }
}

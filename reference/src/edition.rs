//! The two editions of a witness: how each is laid out, and how far its rows reach.

use crate::frame::RowFile;

/// The caller of every function that reads or writes a witness names one.
#[derive(Clone, Copy, Debug, PartialEq, Eq)]
pub enum Edition {
    One,
    Two,
}

impl Edition {
    pub const BOTH: [Edition; 2] = [Edition::One, Edition::Two];

    pub const fn file(self) -> RowFile {
        let (number_bytes, version, most_rows) = match self {
            Edition::One => (2, 1, 4_608),
            Edition::Two => (4, 2, 65_535),
        };
        RowFile { number: 40, number_bytes, version, most_rows, row_bytes: 5 }
    }

    /// The last time that a row may have.
    pub const fn last_time(self) -> u16 {
        match self {
            Edition::One => 4_096,
            Edition::Two => 65_535,
        }
    }

    /// The room that a validation wants for T and n: 5 + 5(T+n) or 9 + 5(T+n). Nothing if no
    /// witness up to T is written in this edition, however large the room.
    pub fn room(self, last_time: usize, rows: usize) -> Option<usize> {
        let written = last_time <= usize::from(self.last_time());
        written.then(|| self.file().size(last_time + rows))
    }
}

//! Parts as they are lent: a fixed number of places, of which the counts and the guard lengths
//! cover some. What the others hold is 0 after reading and ignored in writing.

use crate::edition::Edition;
use crate::recording::{self, Heard, Recording};
use crate::table::{Kind, Table, Transition, COUNT_LIMITS};
use crate::witness::{Row, Witness};

pub const GUARD_PLACES: usize = 32;
const KIND_PLACES: usize = COUNT_LIMITS[3].1;
const TRANSITION_PLACES: usize = COUNT_LIMITS[4].1;
/// For either edition.
const WITNESS_PLACES: usize = Edition::Two.file().most_rows;

/// A transition's fields up to its guard length, in the order of the file, and its guard's places.
#[derive(Clone, Copy, Debug, PartialEq, Eq)]
pub struct Placed {
    pub fields: [u8; 7],
    pub guard: [u8; GUARD_PLACES],
}

/// The first places hold what is listed, all others the filler.
#[derive(Clone, Debug, PartialEq, Eq, Default)]
pub struct TableParts {
    pub version: u8,
    /// States, variables, clocks, kinds and transitions.
    pub counts: [u8; 5],
    pub filler: u8,
    pub kinds: Vec<Kind>,
    pub transitions: Vec<Placed>,
}

impl Placed {
    /// A guard longer than its places keeps its length and its first bytes.
    pub fn of(it: &Transition) -> Placed {
        let mut guard = [0; GUARD_PLACES];
        guard.iter_mut().zip(&it.guard).for_each(|(place, byte)| *place = *byte);
        let length = it.guard.len().min(255) as u8;
        Placed { fields: [it.from, it.to, it.kind, it.set, it.clear, it.reset, length], guard }
    }

    /// A length beyond the places is refused as a length, whatever follows the places.
    fn covered(&self) -> Transition {
        let [from, to, kind, set, clear, reset, length] = self.fields;
        let mut guard = self.guard.to_vec();
        guard.resize(usize::from(length), 0);
        Transition { from, to, kind, set, clear, reset, guard }
    }
}

impl TableParts {
    /// With 0 in every place that the table does not fill.
    pub fn of(table: &Table) -> TableParts {
        TableParts {
            version: table.version,
            counts: table.counts().map(|count| count as u8),
            filler: 0,
            kinds: table.kinds.clone(),
            transitions: table.transitions.iter().map(Placed::of).collect(),
        }
    }

    /// A count beyond the places is refused as a count, whatever follows the places.
    pub fn covered(&self) -> Table {
        let [states, variables, clocks, kinds, transitions] = self.counts;
        Table {
            version: self.version,
            states,
            variables,
            clocks,
            kinds: (0..kinds.into()).map(|place| self.kind(place)).collect(),
            transitions: (0..transitions.into())
                .map(|place| self.transition(place).covered())
                .collect(),
        }
    }

    fn kind(&self, place: usize) -> Kind {
        let [direction, airtime, device] = [self.filler; 3];
        let filler = Kind { direction, airtime, device };
        self.kinds.get(place).copied().unwrap_or(filler)
    }

    fn transition(&self, place: usize) -> Placed {
        let filler = Placed { fields: [self.filler; 7], guard: [self.filler; GUARD_PLACES] };
        self.transitions.get(place).copied().unwrap_or(filler)
    }

    /// Every number: the version and the counts, then field by field what each place holds.
    pub fn numbers(&self) -> Vec<u8> {
        let kinds = || (0..KIND_PLACES).map(|place| self.kind(place));
        let transitions = || (0..TRANSITION_PLACES).map(|place| self.transition(place));
        let mut numbers = vec![self.version];
        numbers.extend(self.counts);
        numbers.extend(kinds().map(|kind| kind.direction));
        numbers.extend(kinds().map(|kind| kind.airtime));
        numbers.extend(kinds().map(|kind| kind.device));
        for field in 0..7 {
            numbers.extend(transitions().map(|it| it.fields[field]));
        }
        numbers.extend(transitions().flat_map(|it| it.guard));
        numbers
    }
}

/// The places of rows, filled as those of a table are.
#[derive(Clone, Debug, PartialEq, Eq, Default)]
pub struct RowParts<R, Count> {
    pub count: Count,
    pub filler: u8,
    pub rows: Vec<R>,
}

pub type RecordingParts = RowParts<Heard, u16>;
pub type WitnessParts = RowParts<Row, u32>;

/// A row that parts have so many places for.
pub trait Filled: Copy {
    const PLACES: usize;

    /// Its every byte is the filler.
    fn filled(filler: u8) -> Self;
}

impl Filled for Heard {
    const PLACES: usize = recording::FILE.most_rows;

    fn filled(filler: u8) -> Heard {
        Heard { time: u16::from_be_bytes([filler; 2]), kind: filler }
    }
}

impl Filled for Row {
    const PLACES: usize = WITNESS_PLACES;

    fn filled(filler: u8) -> Row {
        let time = u16::from_be_bytes([filler; 2]);
        Row { mark: filler, time, kind: filler, transition: filler }
    }
}

impl<R: Filled, Count: Copy + Into<u32>> RowParts<R, Count> {
    fn first(&self, count: usize) -> impl Iterator<Item = R> + '_ {
        let place = |place| self.rows.get(place).copied().unwrap_or(R::filled(self.filler));
        (0..count).map(place)
    }

    fn places(&self) -> impl Iterator<Item = R> + '_ {
        self.first(R::PLACES)
    }

    /// A count beyond the places is refused as a count, be it one more or many.
    fn covered_rows(&self) -> Vec<R> {
        let count: u32 = self.count.into();
        self.first((count as usize).min(R::PLACES + 1)).collect()
    }
}

impl RecordingParts {
    /// Of no more rows than there are places.
    pub fn of(recording: &Recording) -> RecordingParts {
        let rows = recording.rows.clone();
        RowParts { count: rows.len() as u16, filler: 0, rows }
    }

    pub fn covered(&self) -> Recording {
        Recording { rows: self.covered_rows() }
    }

    pub fn numbers(&self) -> Vec<u8> {
        let mut numbers = self.count.to_be_bytes().to_vec();
        numbers.extend(self.places().flat_map(|row| row.time.to_be_bytes()));
        numbers.extend(self.places().map(|row| row.kind));
        numbers
    }
}

impl WitnessParts {
    /// Of no more rows than there are places.
    pub fn of(witness: &Witness) -> WitnessParts {
        let rows = witness.rows.clone();
        RowParts { count: rows.len() as u32, filler: 0, rows }
    }

    pub fn covered(&self) -> Witness {
        Witness { rows: self.covered_rows() }
    }

    pub fn numbers(&self) -> Vec<u8> {
        let mut numbers = self.count.to_be_bytes().to_vec();
        numbers.extend(self.places().map(|row| row.mark));
        numbers.extend(self.places().flat_map(|row| row.time.to_be_bytes()));
        numbers.extend(self.places().map(|row| row.kind));
        numbers.extend(self.places().map(|row| row.transition));
        numbers
    }
}

//! The recording: what the sniffer heard, judged against a table.

use crate::answer::{settle, Answer, Refusal};
use crate::frame::{big_endian, put, RowFile};
use crate::table::{self, Table};

pub const FILE: RowFile =
    RowFile { number: 20, number_bytes: 2, version: 1, most_rows: 512, row_bytes: 3 };
/// The last that two bytes can say, so only 0 is out of range.
pub const LAST_TIME: u16 = 65_535;

#[derive(Clone, Copy, Debug, PartialEq, Eq, Default)]
pub struct Heard {
    pub time: u16,
    pub kind: u8,
}

/// The parts of a recording. They may be unsound: writing judges them.
#[derive(Clone, Debug, PartialEq, Eq, Default)]
pub struct Recording {
    pub rows: Vec<Heard>,
}

impl Recording {
    /// T of the paper: the last recorded time, 0 if there is none.
    pub fn last_time(&self) -> usize {
        self.rows.last().map_or(0, |row| usize::from(row.time))
    }

    /// Of a sound recording: the kind heard at each of the instants 1 to T, if any; instant t
    /// stands at place t-1.
    pub fn instants(&self) -> Vec<Option<u8>> {
        let mut instants = vec![None; self.last_time()];
        for row in &self.rows {
            instants[usize::from(row.time) - 1] = Some(row.kind);
        }
        instants
    }
}

/// Reads both files; the table's numbers come first.
pub fn read(table: &[u8], bytes: &[u8]) -> Result<(Table, Recording), Refusal> {
    let table = table::read(table)?;
    let recording = read_against(&table, bytes)?;
    Ok((table, recording))
}

/// Reads a recording against a table that is sound.
pub fn read_against(table: &Table, bytes: &[u8]) -> Result<Recording, Refusal> {
    let rows = FILE
        .body(bytes)?
        .chunks_exact(FILE.row_bytes)
        .map(|row| Heard { time: big_endian(row[0], row[1]), kind: row[2] })
        .collect();
    let recording = Recording { rows };
    check_rows(table, &recording)?;
    Ok(recording)
}

/// Writes parts against a table, whose numbers come first.
pub fn write(table: &[u8], recording: &Recording, room: &mut [u8]) -> Answer {
    settle(write_against(table, recording, room))
}

fn write_against(table: &[u8], it: &Recording, room: &mut [u8]) -> Result<Answer, Refusal> {
    let table = table::read(table)?;
    if it.rows.len() > FILE.most_rows {
        return Err(FILE.bad_count());
    }
    check_rows(&table, it)?;
    put(&bytes_of(it), room)
}

fn bytes_of(recording: &Recording) -> Vec<u8> {
    let mut bytes = FILE.head(recording.rows.len());
    for row in &recording.rows {
        bytes.extend(row.time.to_be_bytes());
        bytes.push(row.kind);
    }
    bytes
}

/// Rows front to back, and in each its fields before its place after the row before.
fn check_rows(table: &Table, recording: &Recording) -> Result<(), Refusal> {
    let mut before: Option<Heard> = None;
    for (number, row) in recording.rows.iter().enumerate() {
        let time_known = (1..=LAST_TIME).contains(&row.time);
        if !time_known || usize::from(row.kind) >= table.kinds.len() {
            return Err(Refusal::new(23, number));
        }
        if before.is_some_and(|before| overlaps(table, before, *row)) {
            return Err(Refusal::new(24, number));
        }
        before = Some(*row);
    }
    Ok(())
}

/// Definition 1: the next packet comes more than the airtime after the one before.
pub fn overlaps(table: &Table, before: Heard, row: Heard) -> bool {
    u32::from(row.time) <= u32::from(before.time) + table.airtime(before.kind)
}

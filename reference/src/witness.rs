//! The witness: which rows were kept, removed or added, and by which transition.

use crate::answer::{settle, Answer, Refusal};
use crate::edition::Edition;
use crate::frame::{big_endian, put};

pub const KEPT: u8 = 0;
pub const REMOVED: u8 = 1;
pub const ADDED: u8 = 2;
/// Stands where a removed row would have its transition.
pub const NO_TRANSITION: u8 = 255;

#[derive(Clone, Copy, Debug, PartialEq, Eq, Default)]
pub struct Row {
    pub mark: u8,
    pub time: u16,
    pub kind: u8,
    pub transition: u8,
}

/// The parts of a witness of either edition. They may be unsound: writing judges their form.
#[derive(Clone, Debug, PartialEq, Eq, Default)]
pub struct Witness {
    pub rows: Vec<Row>,
}

/// Reads a witness and judges its form.
pub fn read(edition: Edition, bytes: &[u8]) -> Result<Witness, Refusal> {
    let witness = read_rows(edition, bytes)?;
    check_form(edition, &witness)?;
    Ok(witness)
}

/// Frame, version and count alone. The checker needs the rows unjudged, because the first
/// row that breaks any rule counts, be it a rule of form or one of table and recording.
pub fn read_rows(edition: Edition, bytes: &[u8]) -> Result<Witness, Refusal> {
    let file = edition.file();
    let rows = file
        .body(bytes)?
        .chunks_exact(file.row_bytes)
        .map(|row| Row {
            mark: row[0],
            time: big_endian(row[1], row[2]),
            kind: row[3],
            transition: row[4],
        })
        .collect();
    Ok(Witness { rows })
}

pub fn write(edition: Edition, witness: &Witness, room: &mut [u8]) -> Answer {
    settle(write_judged(edition, witness, room))
}

fn write_judged(edition: Edition, it: &Witness, room: &mut [u8]) -> Result<Answer, Refusal> {
    let file = edition.file();
    if it.rows.len() > file.most_rows {
        return Err(file.bad_count());
    }
    check_form(edition, it)?;
    put(&bytes_of(edition, it), room)
}

/// Only for a witness with no more rows than the edition may have.
pub fn bytes_of(edition: Edition, witness: &Witness) -> Vec<u8> {
    let mut bytes = edition.file().head(witness.rows.len());
    for row in &witness.rows {
        let [high, low] = row.time.to_be_bytes();
        bytes.extend([row.mark, high, low, row.kind, row.transition]);
    }
    bytes
}

fn check_form(edition: Edition, witness: &Witness) -> Result<(), Refusal> {
    let mut before = None;
    for (number, row) in witness.rows.iter().enumerate() {
        if !in_form(edition, before, row) {
            return Err(Refusal::new(43, number));
        }
        before = Some(row);
    }
    Ok(())
}

/// Whether a row keeps the rules of form after the row before it.
pub fn in_form(edition: Edition, before: Option<&Row>, row: &Row) -> bool {
    let fields = row.mark <= ADDED
        && (1..=edition.last_time()).contains(&row.time)
        && (row.mark != REMOVED || row.transition == NO_TRANSITION);
    fields && before.is_none_or(|before| row.time > before.time)
}

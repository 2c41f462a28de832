//! Parts as the files of a case.
//!
//! A file of parts has the layout of what is written, but for two things: where the length would
//! stand is how many records are given (of a table one byte for the kinds and one for the
//! transitions), and where the version would stand the filler, which every place holds that no
//! record gives. A witness has the layout of edition 1 in either edition, but for a count of four
//! bytes at 3, and its rows from 7 on. Of a table the version of its parts stands behind the five counts, at 8, and then
//! come direction, airtime and device of each kind that is given, whatever the version. A table's
//! transitions are two further files: seven fields each, and the 32 places of each guard. A
//! recording's table is the file before it.

use crate::parts::{RecordingParts, TableParts, WitnessParts};
use crate::table::Kind;
use crate::writing::Parts;

pub fn files(parts: &Parts) -> Vec<Vec<u8>> {
    match parts {
        Parts::Table(parts) => table(parts),
        Parts::Recording(table, parts) => vec![table.clone(), recording(parts)],
        Parts::Witness(_, parts) => vec![witness(parts)],
    }
}

fn table(parts: &TableParts) -> Vec<Vec<u8>> {
    let mut first = vec![parts.kinds.len() as u8, parts.transitions.len() as u8, parts.filler];
    first.extend(parts.counts);
    first.push(parts.version);
    let fields = |kind: &Kind| [kind.direction, kind.airtime, kind.device];
    first.extend(parts.kinds.iter().flat_map(fields));
    let fields = parts.transitions.iter().flat_map(|it| it.fields).collect();
    let guards = parts.transitions.iter().flat_map(|it| it.guard).collect();
    vec![first, fields, guards]
}

fn recording(parts: &RecordingParts) -> Vec<u8> {
    let mut bytes = head(parts.rows.len(), parts.filler, &parts.count.to_be_bytes());
    for row in &parts.rows {
        bytes.extend(row.time.to_be_bytes());
        bytes.push(row.kind);
    }
    bytes
}

fn witness(parts: &WitnessParts) -> Vec<u8> {
    let mut bytes = head(parts.rows.len(), parts.filler, &parts.count.to_be_bytes());
    for row in &parts.rows {
        let [high, low] = row.time.to_be_bytes();
        bytes.extend([row.mark, high, low, row.kind, row.transition]);
    }
    bytes
}

fn head(given: usize, filler: u8, count: &[u8]) -> Vec<u8> {
    [&(given as u16).to_be_bytes()[..], &[filler], count].concat()
}

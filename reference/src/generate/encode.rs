//! Parts into bytes without any judging, so that unsound parts can be had as bytes too.
//! Numbers too large for their bytes lose their upper part. Version 1 has no place for devices;
//! any other that is not known gets the layout of version 2.

use crate::edition::Edition;
use crate::recording::Recording;
use crate::table::Table;
use crate::witness::Witness;

pub fn encode_table(table: &Table) -> Vec<u8> {
    let mut body = vec![table.version, table.states, table.variables, table.clocks];
    body.push(table.kinds.len() as u8);
    body.push(table.transitions.len() as u8);
    for kind in &table.kinds {
        body.push(kind.direction);
        body.push(kind.airtime);
        if table.version != 1 {
            body.push(kind.device);
        }
    }
    for it in &table.transitions {
        body.extend([it.from, it.to, it.kind, it.set, it.clear, it.reset]);
        body.push(it.guard.len() as u8);
        body.extend(&it.guard);
    }
    with_length(body)
}

pub fn encode_recording(recording: &Recording) -> Vec<u8> {
    let mut body = vec![1];
    body.extend((recording.rows.len() as u16).to_be_bytes());
    for row in &recording.rows {
        body.extend([(row.time >> 8) as u8, row.time as u8, row.kind]);
    }
    with_length(body)
}

pub fn encode_witness(edition: Edition, witness: &Witness) -> Vec<u8> {
    let count = witness.rows.len();
    let mut body = match edition {
        Edition::One => vec![1],
        // Four bytes for the count, of which two come here.
        Edition::Two => vec![2, (count >> 24) as u8, (count >> 16) as u8],
    };
    body.extend((count as u16).to_be_bytes());
    for row in &witness.rows {
        body.extend([row.mark, (row.time >> 8) as u8, row.time as u8, row.kind, row.transition]);
    }
    match edition {
        Edition::One => with_length(body),
        Edition::Two => [&(body.len() as u32).to_be_bytes(), &body[..]].concat(),
    }
}

fn with_length(body: Vec<u8>) -> Vec<u8> {
    [&(body.len() as u16).to_be_bytes(), &body[..]].concat()
}

//! The handovers, witnesses and parts of R-5 in every call, with rooms around what is wanted.

use super::ROOM;
use crate::call::Call;
use crate::edition::Edition;
use crate::generate::{encode_witness, learn};
use crate::longer::{files, handovers, parts, slow_table, Given, Handover, Told};
use crate::papers::{recording, ACK, DATA, PAPERS, RETRY, SMALL_MONITOR};
use crate::witness::{read, Row, Witness, ADDED, KEPT};
use crate::writing::{Parts, Writing};

/// More than the largest room that a recording of one row wants.
const LARGE_ROOM: usize = 331_000;
/// Where edition 1 is not written, none of these is enough.
const ROOMS: [usize; 4] = [0, 5, ROOM, LARGE_ROOM];
/// More rows than this are given few times.
const MANY_ROWS: usize = 5_000;
/// Bytes of a witness that is given once.
const LONG_FILE: usize = 300_000;

pub fn calls() -> Vec<Call> {
    let mut calls: Vec<Call> = handovers().iter().flat_map(calls_of).collect();
    calls.extend(small_monitor().iter().flat_map(calls_of));
    calls.extend(files().iter().zip(0..).flat_map(|(it, turn)| rewrites(it, turn)));
    calls.extend(papers());
    calls.extend(late_rows());
    calls.extend((1..=17).map(last_packet));
    calls
}

/// Validations in both editions, and the witness checked and rewritten in both.
fn calls_of(it: &Handover) -> Vec<Call> {
    let mut calls = Vec::new();
    let cost = it.answer.second as u32;
    for edition in Edition::BOTH {
        let (scratch, room) = (it.scratch(), it.room(edition));
        let mut add = |budget, scratch, room| {
            calls.push(validation(it, edition, budget, scratch, room));
        };
        add(u32::MAX, scratch, room);
        if it.answer.number > 1 {
            calls.push(check(it, edition, encode_witness(edition, &it.witness)));
            continue;
        }
        add(cost, scratch, room);
        add(cost - 1, scratch, room);
        add(cost, scratch, room - 1);
        add(cost, scratch - 1, room);
        if edition == Edition::One && it.is_late() {
            for room in ROOMS {
                add(cost, scratch, room);
                add(cost, scratch - 1, room);
            }
        }
    }
    match it.answer.number {
        0 => calls.extend(told(it)),
        1 => {}
        _ => {
            let (table, bytes) = (it.table.clone(), it.recording());
            let room = vec![0; bytes.len()];
            calls.push(Call::RewriteRecording { table, bytes, room });
        }
    }
    calls
}

fn check(it: &Handover, edition: Edition, witness: Vec<u8>) -> Call {
    Call::Check { edition, table: it.table.clone(), recording: it.recording(), witness }
}

fn validation(it: &Handover, edition: Edition, budget: u32, scratch: usize, room: usize) -> Call {
    Call::Validate {
        edition,
        table: it.table.clone(),
        recording: it.recording(),
        budget,
        scratch: vec![0; scratch],
        room: vec![0; room],
    }
}

/// The witness in both editions, and without its last row; one with many rows in edition 2 alone.
fn told(it: &Handover) -> Vec<Call> {
    let mut calls = Vec::new();
    let many = it.witness.rows.len() > MANY_ROWS;
    for edition in if many { &[Edition::Two][..] } else { &Edition::BOTH } {
        let edition = *edition;
        let witness = encode_witness(edition, &it.witness);
        calls.push(check(it, edition, witness.clone()));
        if !many {
            let mut fewer = it.witness.clone();
            fewer.rows.pop();
            calls.push(check(it, edition, encode_witness(edition, &fewer)));
            let room = vec![0; witness.len()];
            calls.push(Call::RewriteWitness { edition, bytes: witness, room });
        }
    }
    calls
}

/// The desk's small monitor, late. What it answers is not said here but asked.
fn small_monitor() -> Vec<Handover> {
    let mut all = Vec::new();
    for last in [4_096, 4_097, 65_535] {
        all.push(asked(&[(last - 5, DATA), (last - 3, ACK), (last, RETRY)]));
        all.push(asked(&[(1, DATA), (last, DATA)]));
        all.push(asked(&[(last - 2, DATA), (last, DATA)]));
        all.push(asked(&[(4, ACK), (last, ACK)]));
    }
    all
}

fn asked(rows: &[(u16, u8)]) -> Handover {
    let (table, recording) = (SMALL_MONITOR.to_vec(), recording(rows));
    let learnt = learn(Edition::Two, &table, &recording);
    let witness = learnt.preferred.map(|it| read(Edition::Two, &it).expect("in form"));
    Handover {
        name: format!("small monitor {rows:?}"),
        table,
        rows: rows.to_vec(),
        answer: learnt.answer,
        witness: witness.unwrap_or_default(),
        set_size: 6,
    }
}

/// A sound one gets a room that is just enough and one that is not; the others are refused by
/// rewriting and, if not for a row, by the checker: one without a frame by either in turn.
fn rewrites(it: &Told, turn: usize) -> Vec<Call> {
    let edition = it.edition;
    let rewrite = |room: usize| {
        let (bytes, room) = (it.bytes.clone(), vec![0; room]);
        Call::RewriteWitness { edition, bytes, room }
    };
    let check = || Call::Check {
        edition,
        table: SMALL_MONITOR.to_vec(),
        recording: recording(&[(1, DATA)]),
        witness: it.bytes.clone(),
    };
    let wanted = it.bytes.len();
    match it.refusal.map(|refusal| refusal.number) {
        None if wanted > LONG_FILE => vec![rewrite(wanted)],
        None => vec![rewrite(wanted), rewrite(wanted - 1)],
        Some(40) if turn.is_multiple_of(2) => vec![check()],
        Some(41 | 42) if wanted < LONG_FILE => vec![rewrite(wanted), check()],
        Some(_) => vec![rewrite(wanted)],
    }
}

/// The paper's recordings in edition 2, and each witness given as either edition.
fn papers() -> Vec<Call> {
    let mut calls = Vec::new();
    for paper in PAPERS {
        let (table, recording) = (|| SMALL_MONITOR.to_vec(), || paper.recording());
        // 9 + 5(T+n).
        let last = paper.rows.last().map_or(0, |row| usize::from(row.0));
        let wanted = 9 + 5 * (last + paper.rows.len());
        for room in [wanted, wanted - 1, wanted - 4, wanted - 5, ROOM] {
            calls.push(Call::Validate {
                edition: Edition::Two,
                table: table(),
                recording: recording(),
                budget: paper.budget,
                scratch: vec![0; 100],
                room: vec![0; room],
            });
        }
        if paper.answer.number > 0 {
            continue;
        }
        let pairs = Edition::BOTH.map(|edition| (edition, paper.witness(Edition::Two)));
        for (edition, witness) in pairs.into_iter().chain([(Edition::Two, paper.witness.to_vec())])
        {
            calls.push(Call::Check { edition, table: table(), recording: recording(), witness });
        }
    }
    calls
}

/// The small monitor heard DATA at 1, and is told of one more row: within edition 1's times and past
/// them, in the air of the row before, and with a clock that reads more than a guard allows.
fn late_rows() -> Vec<Call> {
    let row = |mark, time, kind, transition| Row { mark, time, kind, transition };
    let first = [row(KEPT, 1, DATA, 0), row(ADDED, 3, ACK, 1)];
    let mut calls = Vec::new();
    for last in [4_094, 4_095, 4_096, 4_097, 4_098, 4_100, 8_193, 65_529, 65_534, 65_535] {
        let data = row(ADDED, last - 2, DATA, 0);
        let behind = [
            vec![row(ADDED, last, DATA, 0)],
            vec![data, row(ADDED, last - 1, ACK, 1)],
            vec![data, row(ADDED, last, ACK, 1)],
            vec![row(ADDED, last - 5, DATA, 0), row(ADDED, last, RETRY, 2)],
            vec![row(ADDED, last - 5, DATA, 0), row(ADDED, last, ACK, 1)],
        ];
        for rows in behind {
            let rows = [&first[..], &rows].concat();
            calls.extend(checks(&rows));
        }
    }
    // The clock would be in time if it read 4,096 ticks less, or a multiple of that.
    for since in [1, 2, 15].map(|times| times * 4_096) {
        for ticks in 1..=6 {
            let (kind, transition) = if ticks <= 3 { (ACK, 1) } else { (RETRY, 2) };
            calls.extend(checks(&[first[0], row(ADDED, 1 + since + ticks, kind, transition)]));
        }
    }
    calls
}

/// A slow packet so many ticks before a row at the last time there is, which finds the air free from
/// 16 on.
fn last_packet(ticks: u16) -> Call {
    let row = |mark, time, kind| Row { mark, time, kind, transition: kind };
    let rows = vec![row(KEPT, 1, 2), row(ADDED, 65_535 - ticks, 0), row(ADDED, 65_535, 2)];
    Call::Check {
        edition: Edition::Two,
        table: slow_table(),
        recording: recording(&[(1, 2)]),
        witness: encode_witness(Edition::Two, &Witness { rows }),
    }
}

/// In both editions, of the small monitor, which heard DATA at 1.
fn checks(rows: &[Row]) -> [Call; 2] {
    Edition::BOTH.map(|edition| Call::Check {
        edition,
        table: SMALL_MONITOR.to_vec(),
        recording: recording(&[(1, DATA)]),
        witness: encode_witness(edition, &Witness { rows: rows.to_vec() }),
    })
}

/// Parts that can be written get a room that is just enough and one that is not.
pub fn writings() -> Vec<Writing> {
    parts().into_iter().flat_map(writings_of).collect()
}

fn writings_of(it: Given) -> Vec<Writing> {
    let many = it.parts.rows.len() > MANY_ROWS;
    let parts = Parts::Witness(it.edition, it.parts);
    let with = |room: usize, back: bool| Writing { parts: parts.clone(), back, room };
    match parts.wanted() {
        Some(wanted) if many => vec![with(wanted, true)],
        Some(wanted) => vec![with(wanted, false), with(wanted, true), with(wanted - 1, false)],
        None => vec![with(80, false), with(0, true)],
    }
}

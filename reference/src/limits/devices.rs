//! The tables of R-6 in every call, and the paper's recordings with ACK from the last device.

use super::{judged, validation, ROOM};
use crate::call::Call;
use crate::devices::{each_device, parts, tables, Given, Told};
use crate::edition::Edition;
use crate::papers::{recording, Paper, ACK_DEVICE_2, PAPERS, SMALL_MONITOR_2};
use crate::writing::{Parts, Writing};

pub fn calls() -> Vec<Call> {
    let mut calls: Vec<Call> = tables().iter().zip(0..).flat_map(calls_of).collect();
    let mut table = SMALL_MONITOR_2.to_vec();
    table[ACK_DEVICE_2] = 15;
    for paper in PAPERS {
        calls.push(validation(&table, &paper.recording(), paper.budget));
    }
    judged(&mut calls, &table, &PAPERS[4].recording());
    judged(&mut calls, &table, &PAPERS[7].recording());
    calls.extend(PAPERS.iter().flat_map(other_files));
    calls
}

/// Recordings have no version 2, nor have witnesses of edition 1.
fn other_files(paper: &Paper) -> Vec<Call> {
    let in_2 = |bytes: &[u8]| [&bytes[..2], &[2], &bytes[3..]].concat();
    let (table, recording) = (|| SMALL_MONITOR_2.to_vec(), paper.recording());
    let room = vec![0; ROOM];
    let mut calls = vec![Call::RewriteRecording {
        table: table(),
        bytes: in_2(&recording),
        room: room.clone(),
    }];
    if paper.answer.number == 0 {
        let witness = in_2(paper.witness);
        let edition = Edition::One;
        calls.push(Call::RewriteWitness { edition, bytes: witness.clone(), room });
        calls.push(Call::Check { edition, table: table(), recording, witness });
    }
    calls
}

/// A sound table is written again and judges a recording; the others are refused by one of the
/// calls, each in its turn.
fn calls_of((it, turn): (&Told, usize)) -> Vec<Call> {
    let heard = recording(&[(1, 0)]);
    let table = || it.bytes.clone();
    let rewrite = |room: usize| Call::RewriteTable { bytes: table(), room: vec![0; room] };
    if it.refusal.is_none() {
        let exact = it.bytes.len();
        return vec![rewrite(exact), rewrite(exact - 1), validation(&it.bytes, &heard, 9)];
    }
    let call = match turn % 5 {
        0 => validation(&it.bytes, &heard, 9),
        1 => {
            let edition = Edition::BOTH[turn / 5 % 2];
            Call::Check { edition, table: table(), recording: heard, witness: vec![] }
        }
        2 => Call::RewriteRecording { table: table(), bytes: heard, room: vec![0; ROOM] },
        _ => rewrite(ROOM),
    };
    vec![call]
}

pub fn writings() -> Vec<Writing> {
    let each = each_device().into_iter().zip([true, false].into_iter().cycle());
    let mut writings: Vec<Writing> = each.flat_map(|(it, back)| writings_of(it, &[back])).collect();
    writings.extend(parts().into_iter().flat_map(|it| writings_of(it, &[false, true])));
    writings
}

/// Parts that can be written get a room that is just enough and one that is not.
fn writings_of(it: Given, back: &[bool]) -> Vec<Writing> {
    let parts = Parts::Table(it.parts);
    let with = |room: usize, back: bool| Writing { parts: parts.clone(), back, room };
    match parts.wanted() {
        Some(wanted) => {
            vec![with(wanted, false), with(wanted, true), with(wanted - 1, back[0])]
        }
        None => back.iter().map(|back| with(if *back { 80 } else { 0 }, *back)).collect(),
    }
}

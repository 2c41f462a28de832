//! The recordings of R-10, with the cost as budget, with more, and with one less.

use crate::brute::with_devices;
use crate::call::Call;
use crate::counted::{recordings, Counted};
use crate::edition::Edition;
use crate::generate::learn;

pub fn calls() -> Vec<Call> {
    recordings().iter().zip(0..).flat_map(calls_of).collect()
}

/// By the table in either version, and in either edition where it is written.
fn calls_of((it, turn): (&Counted, usize)) -> Vec<Call> {
    let in_2 = with_devices(&it.table, || 1 + (turn % 15) as u8).expect("sound");
    let written_in_1 = it.last_time() <= usize::from(Edition::One.last_time());
    let first = if written_in_1 { Edition::One } else { Edition::Two };
    let cost = it.verdict.second as u32;
    let third = if turn.is_multiple_of(2) { first } else { Edition::Two };
    let validation = |edition, table: &[u8], budget: u32| {
        let (table, recording) = (table.to_vec(), it.recording());
        let wanted = learn(edition, &table, &recording);
        let (scratch, room) = (vec![0; wanted.scratch], vec![0; wanted.room]);
        Call::Validate { edition, table, recording, budget, scratch, room }
    };
    vec![
        validation(first, &it.table, cost),
        validation(Edition::Two, &in_2, u32::MAX),
        validation(third, &it.table, cost - 1),
    ]
}

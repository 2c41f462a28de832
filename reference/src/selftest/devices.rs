//! Tables of both versions: their kinds and devices against the list of all kinds, and the same
//! table in either version against the same recordings and witnesses.

use super::{same, Counts};
use crate::answer::{Answer, Refusal};
use crate::back::table_back;
use crate::brute::{kinds_refused, kinds_told, with_devices, without_devices};
use crate::call::{Call, ORDINARY};
use crate::compare::hex;
use crate::edition::Edition;
use crate::generate::{
    any_bytes, any_rows, dirty, encode_recording, encode_table, encode_witness, guessed,
    length_near, overheard, sound_table, spoil_bytes, spoil_devices, spoil_layout, spoil_rows,
    spoil_table, spoil_witness, Rng, Shape,
};
use crate::parts::TableParts;
use crate::rewrite::rewrite_table;
use crate::table::{self, kind_offset, Table};

pub fn test(rng: &mut Rng, counts: &mut Counts) -> Result<(), String> {
    let shape = rng.pick(&[Shape::TINY, Shape::MIDDLE, Shape::LARGE]);
    let sound = sound_table(rng, &shape);
    let bytes = encode_table(&sound);
    comes_back(&sound, &bytes).map_err(|it| format!("{it}\ntable: {}", hex(&bytes)))?;
    for bytes in [
        encode_table(&spoil_devices(rng, &sound)),
        encode_table(&spoil_table(rng, &sound)),
        spoil_layout(rng, &sound),
        spoil_bytes(rng, &bytes),
        any_bytes(rng),
        bytes.clone(),
    ] {
        let refused = read(&bytes).map_err(|it| format!("{it}\ntable: {}", hex(&bytes)))?;
        counts.kinds_read += 1;
        counts.kinds_refused += u64::from(refused);
    }
    for parts in [spoil_devices(rng, &sound), spoil_table(rng, &sound), sound.clone()] {
        let refused = written(&parts).map_err(|it| format!("{it}\nparts: {parts:?}"))?;
        counts.kinds_written += 1;
        counts.kinds_not_written += u64::from(refused);
    }
    // A validation by a large table takes long.
    let small = if shape.transitions > Shape::MIDDLE.transitions {
        sound_table(rng, &Shape::TINY)
    } else {
        sound
    };
    counts.both_versions += both_versions(rng, &small)?;
    Ok(())
}

/// Bytes and parts, version and devices too.
fn comes_back(sound: &Table, bytes: &[u8]) -> Result<(), String> {
    let parts = TableParts::of(sound);
    let mut room = vec![0xA5; bytes.len()];
    same("rewritten", rewrite_table(bytes, &mut room), Answer::new(0, bytes.len() as u64, 0))?;
    same("bytes", &room[..], bytes)?;
    let mut room = vec![0xA5; bytes.len()];
    same("parts", table_back(&parts, &mut room), (Answer::new(0, 0, 0), parts))?;
    same("bytes of the parts", &room[..], bytes)
}

/// Whether version, counts or kinds refuse these bytes.
fn read(bytes: &[u8]) -> Result<bool, String> {
    let read = table::read(bytes);
    match kinds_told(bytes) {
        Err(refusal) => {
            same("read", read, Err(refusal))?;
            Ok(true)
        }
        Ok((kinds, behind)) => {
            let first_transition = bytes.len() - behind.len();
            same("first transition", kind_offset(bytes[2], kinds.len()), first_transition)?;
            match read {
                Ok(table) => {
                    same("version", table.version, bytes[2])?;
                    same("kinds", table.kinds, kinds)?;
                }
                Err(refusal) => comes_later(refusal, first_transition)?,
            }
            Ok(false)
        }
    }
}

/// Whether version, counts or kinds refuse these parts.
fn written(parts: &Table) -> Result<bool, String> {
    let answer = table::write(parts, &mut []);
    let refused = kinds_refused(parts);
    match refused {
        Some(refusal) => same("write", answer, refusal.into())?,
        None if answer.number != 33 => {
            let refusal = Refusal { number: answer.number, value: answer.second };
            comes_later(refusal, kind_offset(parts.version, parts.kinds.len()))?;
        }
        None => {}
    }
    Ok(refused.is_some())
}

/// A transition's record is named, or bytes left over, or the table as a whole is refused.
fn comes_later(refusal: Refusal, first_transition: usize) -> Result<(), String> {
    let of_records = matches!(refusal.number, 13..=15);
    let later = of_records && refusal.value >= first_transition as u64;
    same("a refusal behind the kinds", later || matches!(refusal.number, 16 | 17), true)
}

/// Demand 3 knows no versions. Gives how many calls were the same.
fn both_versions(rng: &mut Rng, table: &Table) -> Result<u64, String> {
    let bytes = encode_table(table);
    let one = without_devices(&bytes).ok_or("kinds of a sound table")?;
    let two = with_devices(&bytes, || rng.between(1, 15) as u8).ok_or("kinds of a sound table")?;
    let last = rng.between(0, 12) as u16;
    let heard = match rng.one_in(2) {
        true => overheard(rng, table, last),
        false => any_rows(rng, table, last),
    };
    let heard = if rng.one_in(6) { spoil_rows(rng, table, &heard) } else { heard };
    let recording = encode_recording(&heard);
    let calls = calls(rng, table, &recording);
    for call in &calls {
        let [first, second, third] =
            [&bytes, &one, &two].map(|table| with_table(call, table).run(&ORDINARY));
        let all = same("version 1", &second, &first).and(same("version 2", &third, &first));
        all.map_err(|it| format!("{it}\n{}\none: {}\ntwo: {}", call.name(), hex(&one), hex(&two)))?;
    }
    Ok(calls.len() as u64)
}

/// Every call that takes a table and leaves no trace of its version. The table is still missing.
fn calls(rng: &mut Rng, table: &Table, recording: &[u8]) -> Vec<Call> {
    let mut calls = Vec::new();
    for _ in 0..3 {
        let budget = if rng.one_in(2) { u32::MAX } else { rng.below(100) as u32 };
        let scratch_length = rng.pick(&[60_000, 60_000, 100]);
        let room_length = rng.pick(&[300, 300, 20]);
        let (scratch, room) = (dirty(rng, scratch_length), dirty(rng, room_length));
        let recording = recording.to_vec();
        let edition = rng.pick(&Edition::BOTH);
        calls.push(Call::Validate { edition, table: vec![], recording, budget, scratch, room });
    }
    if let Ok(heard) = crate::recording::read_against(table, recording) {
        let guess = guessed(rng, table, &heard);
        for witness in [spoil_witness(rng, &guess), guess] {
            let edition = rng.pick(&Edition::BOTH);
            let (recording, witness) = (recording.to_vec(), encode_witness(edition, &witness));
            calls.push(Call::Check { edition, table: vec![], recording, witness });
        }
    }
    let room_length = length_near(rng, recording.len());
    let (bytes, room) = (recording.to_vec(), dirty(rng, room_length));
    calls.push(Call::RewriteRecording { table: vec![], bytes, room });
    calls
}

fn with_table(call: &Call, bytes: &[u8]) -> Call {
    let mut call = call.clone();
    match &mut call {
        Call::Validate { table, .. }
        | Call::Check { table, .. }
        | Call::RewriteRecording { table, .. } => *table = bytes.to_vec(),
        // A rule asks for devices, so it tells versions apart.
        Call::ValidateRule { .. } | Call::CheckRule { .. } => {}
        Call::RewriteTable { .. } | Call::RewriteWitness { .. } => {}
    }
    call
}

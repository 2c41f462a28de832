//! Random calls: for one table and recording, each public function several times.

use super::buffers::{dirty, length_near};
use super::crossed::busy_air;
use super::encode::{encode_recording, encode_table, encode_witness};
use super::learn::learn;
use super::long::{late_time, long_handover, narrow_table};
use super::recordings::{any_rows, overheard, spoil_rows};
use super::rng::Rng;
use super::spoil::{any_bytes, spoil_bytes, spoil_witness_bytes};
use super::spoil_tables::{spoil_devices, spoil_layout, spoil_table};
use super::tables::{any_table, sound_table, Shape};
use super::unreached_states::unreached_states;
use super::witnesses::{guessed, spoil_witness};
use crate::answer::Verdict;
use crate::call::Call;
use crate::edition::Edition;
use crate::recording::Recording;
use crate::situation::Space;
use crate::table::Table;
use crate::witness::Witness;

/// Situations times instants that a random validation may look at: as a rule, and at times.
const USUAL_WORK: usize = 60_000;
const RARE_WORK: usize = 2_000_000;
/// No recording is longer than this but for those that are meant to be.
const USUAL_LAST_TIME: usize = 4_096;

/// A sound table and recording as parts, and the bytes made of them, which may be spoilt.
struct Base {
    table: Table,
    recording: Recording,
    /// A witness that would be permitted if removed packets took no air.
    crossed: Option<Witness>,
    /// Of the witnesses that are asked for and given.
    edition: Edition,
    table_bytes: Vec<u8>,
    recording_bytes: Vec<u8>,
}

pub fn calls(rng: &mut Rng) -> Vec<Call> {
    if rng.one_in(10) {
        return wild_calls(rng);
    }
    let base = base(rng);
    let mut calls = Vec::new();
    let preferred = validations(rng, &base, &mut calls);
    checks(rng, &base, preferred, &mut calls);
    rewrites(rng, &base, &mut calls);
    calls
}

/// Files that are any bytes at all, alone or behind a sound table.
fn wild_calls(rng: &mut Rng) -> Vec<Call> {
    let table = encode_table(&sound_table(rng, &Shape::TINY));
    let recording = encode_recording(&Recording::default());
    let wild = any_bytes(rng);
    let edition = rng.pick(&Edition::BOTH);
    let room = dirty(rng, 50);
    vec![
        Call::RewriteTable { bytes: wild.clone(), room: room.clone() },
        Call::RewriteRecording { table: table.clone(), bytes: wild.clone(), room: room.clone() },
        Call::RewriteWitness { edition, bytes: wild.clone(), room: room.clone() },
        Call::Check { edition, table: table.clone(), recording, witness: wild.clone() },
        Call::Validate { edition, table, recording: wild, budget: 9, scratch: room.clone(), room },
    ]
}

fn base(rng: &mut Rng) -> Base {
    let (table, recording, crossed) = match rng.below(36) {
        0..=11 => {
            let last = if rng.one_in(8) { rng.between(5, 300) } else { rng.between(5, 40) };
            let (table, recording, witness) = busy_air(rng, last as u16);
            (table, recording, Some(witness))
        }
        12 => {
            let last = late_time(rng);
            let table = narrow_table(rng, last, RARE_WORK);
            let recording = long_handover(rng, &table, last);
            (table, recording, None)
        }
        _ => {
            let (table, recording) = any(rng);
            (table, recording, None)
        }
    };
    let mut base = Base {
        table_bytes: encode_table(&table),
        recording_bytes: encode_recording(&recording),
        table,
        recording,
        crossed,
        edition: rng.pick(&Edition::BOTH),
    };
    if rng.one_in(3) {
        spoil(rng, &mut base);
    }
    base
}

/// A table of any size and a recording of it.
fn any(rng: &mut Rng) -> (Table, Recording) {
    let table = match rng.below(40) {
        0..=15 => sound_table(rng, &Shape::TINY),
        16..=31 => sound_table(rng, &Shape::MIDDLE),
        32..=37 => sound_table(rng, &Shape::LARGE),
        38 => any_table(rng, &Shape::LARGE),
        _ => sound_table(rng, &Shape::WIDE),
    };
    let last = last_time(rng, &table);
    let recording = match rng.one_in(2) {
        true => any_rows(rng, &table, last),
        false => overheard(rng, &table, last),
    };
    (table, recording)
}

fn last_time(rng: &mut Rng, table: &Table) -> u16 {
    let situations = Space::of(table).count();
    let work = match rng.below(5_000) {
        0 => usize::MAX,
        1..=50 => RARE_WORK,
        _ => USUAL_WORK,
    };
    let most = (work / situations).clamp(2, USUAL_LAST_TIME);
    let last = match rng.below(10) {
        0 => most,
        1 => rng.between(0, most),
        _ => rng.between(0, most.min(40)),
    };
    last as u16
}

fn spoil(rng: &mut Rng, base: &mut Base) {
    match rng.below(12) {
        0 | 1 => base.table_bytes = encode_table(&spoil_table(rng, &base.table)),
        2 | 3 => base.table_bytes = spoil_bytes(rng, &base.table_bytes),
        4 | 5 => {
            let spoilt = spoil_rows(rng, &base.table, &base.recording);
            base.recording_bytes = encode_recording(&spoilt);
        }
        6 => base.recording_bytes = spoil_bytes(rng, &base.recording_bytes),
        7 => std::mem::swap(&mut base.table_bytes, &mut base.recording_bytes),
        8 => base.table_bytes = encode_table(&unreached_states(rng, &base.table)),
        9 => base.table_bytes = encode_table(&spoil_devices(rng, &base.table)),
        10 => base.table_bytes = spoil_layout(rng, &base.table),
        _ => match rng.one_in(2) {
            true => base.table_bytes = any_bytes(rng),
            false => base.recording_bytes = any_bytes(rng),
        },
    }
}

/// Adds validations with budgets around the cost and rooms around what is wanted, and gives
/// the preferred witness if there is one.
fn validations(rng: &mut Rng, base: &Base, calls: &mut Vec<Call>) -> Option<Vec<u8>> {
    let learnt = learn(base.edition, &base.table_bytes, &base.recording_bytes);
    let costly = learnt.scratch > 1_000_000;
    let budgets = budgets(rng, learnt.answer, if costly { 1 } else { 4 });
    for (place, budget) in budgets.into_iter().enumerate() {
        // The first of several shows the verdict.
        let enough = place == 0 && !costly;
        let [scratch, room] = [learnt.scratch, learnt.room].map(|wanted| {
            let length = if enough { wanted } else { length_near(rng, wanted) };
            dirty(rng, length)
        });
        let (table, recording) = (base.table_bytes.clone(), base.recording_bytes.clone());
        let edition = base.edition;
        calls.push(Call::Validate { edition, table, recording, budget, scratch, room });
    }
    learnt.preferred
}

pub fn budgets(rng: &mut Rng, learnt: Verdict, most: usize) -> Vec<u32> {
    if learnt.number > 2 {
        return vec![rng.draw() as u32];
    }
    let cost = learnt.second as u32;
    let mut budgets = vec![u32::MAX];
    for _ in 1..most {
        budgets.push(match rng.below(7) {
            0 | 1 => cost,
            2 => cost + 1,
            3 | 4 => cost.saturating_sub(1),
            5 => 0,
            _ => rng.below(cost as usize + 1) as u32,
        });
    }
    budgets
}

fn checks(rng: &mut Rng, base: &Base, preferred: Option<Vec<u8>>, calls: &mut Vec<Call>) {
    let edition = base.edition;
    let guess = guessed(rng, &base.table, &base.recording);
    let spoilt = spoil_witness(rng, &guess);
    let mut told = vec![guess, spoilt];
    told.extend(base.crossed.clone());
    let mut witnesses = Vec::new();
    if let Some(preferred) = preferred {
        witnesses.push(spoil_witness_bytes(rng, edition, &preferred));
        if let Ok(parts) = crate::witness::read(edition, &preferred) {
            told.push(spoil_witness(rng, &parts));
        }
        witnesses.push(preferred);
    }
    if rng.one_in(6) {
        told.push(Witness::default());
    }
    witnesses.extend(told.iter().map(|it| encode_witness(told_in(rng, edition), it)));
    match rng.below(6) {
        0 => witnesses.push(any_bytes(rng)),
        1 => witnesses.push(base.recording_bytes.clone()),
        _ => {}
    }
    for witness in witnesses {
        let room_length = length_near(rng, witness.len());
        let room = dirty(rng, room_length);
        calls.push(Call::RewriteWitness { edition, bytes: witness.clone(), room });
        let (table, recording) = (base.table_bytes.clone(), base.recording_bytes.clone());
        calls.push(Call::Check { edition, table, recording, witness });
    }
}

/// The edition, or at times the other one.
fn told_in(rng: &mut Rng, edition: Edition) -> Edition {
    if rng.one_in(6) {
        rng.pick(&Edition::BOTH)
    } else {
        edition
    }
}

fn rewrites(rng: &mut Rng, base: &Base, calls: &mut Vec<Call>) {
    let room_length = length_near(rng, base.table_bytes.len());
    calls.push(Call::RewriteTable {
        bytes: base.table_bytes.clone(),
        room: dirty(rng, room_length),
    });
    let room_length = length_near(rng, base.recording_bytes.len());
    calls.push(Call::RewriteRecording {
        table: base.table_bytes.clone(),
        bytes: base.recording_bytes.clone(),
        room: dirty(rng, room_length),
    });
}

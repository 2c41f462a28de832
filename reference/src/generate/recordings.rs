//! Random recordings of a table's packets.

use super::long::EDGES;
use super::rng::Rng;
use crate::brute::Monitor;
use crate::recording::{overlaps, Heard, Recording, FILE, LAST_TIME};
use crate::table::Table;

/// What a sniffer may hear of a monitor that keeps to its table: some packets are lost, and
/// some that the unit missed are heard; now and then there is one that nobody can have sent,
/// so that a rejection comes late. Sound always.
pub fn overheard(rng: &mut Rng, table: &Table, last: u16) -> Recording {
    overheard_from(rng, table, 1, last)
}

/// The same of a monitor that sends nothing before the first time.
pub fn overheard_from(rng: &mut Rng, table: &Table, first: u16, last: u16) -> Recording {
    let mut recording = Recording::default();
    let loss = rng.between(2, 6);
    for packet in some_run(rng, table, first, last) {
        if !rng.one_in(loss) {
            hear(&mut recording, table, packet);
        }
    }
    let (low, high) = (usize::from(first), usize::from(last) + 1);
    let odd_time = if rng.one_in(3) { rng.between(low, high) } else { 0 };
    for time in first..=last {
        let kind = rng.below(table.kinds.len()) as u8;
        if usize::from(time) == odd_time || (table.to_unit(kind) && rng.one_in(12)) {
            hear(&mut recording, table, Heard { time, kind });
        }
    }
    recording
}

/// What a sniffer may hear that is deaf to most packets from one device. Sound always.
pub fn hardly_heard(rng: &mut Rng, table: &Table, device: u8, last: u16) -> Recording {
    let mut recording = Recording::default();
    for packet in some_run(rng, table, 1, last) {
        let from_it = table.kinds[usize::from(packet.kind)].device == device;
        if !from_it || rng.one_in(4) {
            hear(&mut recording, table, packet);
        }
    }
    recording
}

/// The packets of a monitor that keeps to its table. It waits now and then, but not so long that
/// nothing can follow.
fn some_run(rng: &mut Rng, table: &Table, first: u16, last: u16) -> Vec<Heard> {
    let mut sent: Vec<Heard> = Vec::new();
    let mut monitor = Monitor::start();
    let pace = rng.between(1, 4);
    for time in first..=last {
        let taken = sent.last().is_some_and(|it| overlaps(table, *it, Heard { time, kind: 0 }));
        let can_wait =
            |rng: &mut Rng| some_firing(rng, table, &monitor, u32::from(time) + 1).is_some();
        if taken || (!rng.one_in(pace) && can_wait(rng)) {
            continue;
        }
        if let Some((kind, after)) = some_firing(rng, table, &monitor, time.into()) {
            monitor = after;
            sent.push(Heard { time, kind });
        }
    }
    sent
}

fn some_firing(rng: &mut Rng, table: &Table, it: &Monitor, time: u32) -> Option<(u8, Monitor)> {
    let count = table.transitions.len();
    let first = rng.below(count);
    (0..count).find_map(|step| {
        let number = (first + step) % count;
        let kind = table.transitions[number].kind;
        let after = it.fire(table, number as u8, (time, kind))?;
        Some((kind, after))
    })
}

/// Adds the row at its place if the recording stays sound with it, and says so.
pub fn hear(recording: &mut Recording, table: &Table, row: Heard) -> bool {
    let rows = &mut recording.rows;
    let place = rows.partition_point(|it| it.time < row.time);
    let (before, after) = rows.split_at(place);
    let fits = rows.len() < FILE.most_rows
        && before.last().is_none_or(|it| !overlaps(table, *it, row))
        && after.first().is_none_or(|it| !overlaps(table, row, *it));
    if fits {
        rows.insert(place, row);
    }
    fits
}

/// Any sound rows of the table's kinds up to this time.
pub fn any_rows(rng: &mut Rng, table: &Table, last: u16) -> Recording {
    let mut recording = Recording::default();
    let pace = rng.between(1, 4);
    for time in 1..=last {
        if rng.one_in(pace) {
            let kind = rng.below(table.kinds.len()) as u8;
            hear(&mut recording, table, Heard { time, kind });
        }
    }
    recording
}

/// Parts with a thing or a few out of order or just at a limit.
pub fn spoil_rows(rng: &mut Rng, table: &Table, recording: &Recording) -> Recording {
    let mut spoilt = recording.clone();
    for _ in 0..=rng.below(2) {
        let count = spoilt.rows.len();
        let number = rng.below(count);
        match rng.below(7) {
            0 => spoilt.rows.resize(rng.pick(&[511, 512, 513, 600]), Heard { time: 1, kind: 0 }),
            1 if count >= 2 => spoilt.rows.swap(number, (number + 1) % count),
            2 if count >= 2 => {
                let before = spoilt.rows[number.saturating_sub(1)];
                let after = u32::from(before.time) + rng.below(4) as u32;
                spoilt.rows[number].time = after as u16;
            }
            3 if count >= 1 => {
                spoilt.rows[number].time = rng.pick(&EDGES);
            }
            4 if count >= 1 => {
                let kinds = table.kinds.len() as u8;
                spoilt.rows[number].kind = rng.pick(&[kinds - 1, kinds, 255]);
            }
            5 if count >= 1 => drop(spoilt.rows.remove(number)),
            _ => spoilt.rows.push(Heard { time: LAST_TIME, kind: 0 }),
        }
    }
    spoilt
}

//! Parts at the limits of the paper, and one beyond each, to be written.

use super::{devices, longer, sized, states, ROOM, SIZES};
use crate::edition::Edition;
use crate::generate::encode_table;
use crate::papers::{small_monitor_with, ACK, DATA, SMALL_MONITOR};
use crate::parts::{RecordingParts, RowParts, TableParts, WitnessParts, GUARD_PLACES};
use crate::recording::Heard;
use crate::table::{self, Kind, Table, Transition};
use crate::witness::{Row, ADDED, KEPT, NO_TRANSITION, REMOVED};
use crate::writing::{Parts, Writing};

/// What the places beyond those given hold.
const FILLERS: [u8; 3] = [0, 1, 255];
const TIMES: [u16; 5] = [0, 1, 4_096, 4_097, 65_535];

/// Parts that can be written get rooms that are empty, one short, exact and longer; the others show
/// that a number comes before the room's.
pub fn writings() -> Vec<Writing> {
    let mut writings = Vec::new();
    for parts in short_parts() {
        let rooms = match parts.wanted() {
            Some(wanted) => vec![0, wanted - 1, wanted, wanted + 9],
            None => vec![0, 80],
        };
        for room in rooms {
            for back in [false, true] {
                writings.push(Writing { parts: parts.clone(), back, room });
            }
        }
    }
    for parts in long_parts().into_iter().chain(states::parts()) {
        let wanted = parts.wanted().unwrap_or(ROOM);
        writings.push(Writing { parts: parts.clone(), back: false, room: wanted - 1 });
        writings.push(Writing { parts, back: true, room: wanted });
    }
    writings.extend(devices::writings());
    writings.extend(longer::writings());
    writings
}

/// Each with every filler.
fn short_parts() -> Vec<Parts> {
    let mut all = Vec::new();
    for filler in FILLERS {
        all.extend(tables().into_iter().map(|it| Parts::Table(TableParts { filler, ..it })));
        all.extend(recordings().into_iter().map(|it| against(&SMALL_MONITOR, it, filler)));
        for table in unsound_tables() {
            all.push(against(&table, rows(513, &[]), filler));
        }
        all.extend(witnesses().into_iter().map(|it| in_1(RowParts { filler, ..it })));
    }
    all
}

/// As many records as there may be, and a witness with as many as its count may say.
fn long_parts() -> [Parts; 5] {
    [
        Parts::Table(TableParts::of(&full_table(1))),
        Parts::Table(TableParts::of(&full_table(2))),
        against(&SMALL_MONITOR, full_recording(), 0),
        in_1(full_witness(4_096)),
        in_1(full_witness(4_608)),
    ]
}

/// The witnesses here are of edition 1; `longer` has the others.
fn in_1(parts: WitnessParts) -> Parts {
    Parts::Witness(Edition::One, parts)
}

fn against(table: &[u8], parts: RecordingParts, filler: u8) -> Parts {
    Parts::Recording(table.to_vec(), RowParts { filler, ..parts })
}

fn small_monitor() -> TableParts {
    TableParts::of(&table::read(&SMALL_MONITOR).expect("the paper's own table is sound"))
}

/// One state, two variables and clocks, and two transitions; its first record is at 8 and the
/// transitions at 10 and 18.
fn masks() -> TableParts {
    let transition =
        Transition { set: 1, clear: 2, reset: 3, guard: vec![0], ..Default::default() };
    TableParts::of(&Table {
        version: 1,
        states: 1,
        variables: 2,
        clocks: 2,
        kinds: vec![Kind::in_version_1(1, 15)],
        transitions: vec![transition; 2],
    })
}

fn tables() -> Vec<TableParts> {
    let mut tables = vec![small_monitor(), masks(), TableParts::default()];
    let counts: [&[u8]; 5] =
        [&[0, 1, 16, 17, 255], &[4, 5, 255], &[2, 3, 255], &[0, 1, 32, 33, 255], &[64, 65, 255]];
    for (place, counts) in counts.iter().enumerate() {
        for count in *counts {
            let mut it = masks();
            it.counts[place] = *count;
            tables.push(it);
        }
    }
    // Fewer than are given: the records beyond the counts are no parts.
    for transitions in 0..5 {
        let mut it = small_monitor();
        it.counts[4] = transitions;
        tables.push(it);
    }
    for (direction, airtime) in [(0, 0), (1, 15), (2, 0), (0, 16), (255, 255)] {
        let mut it = masks();
        it.kinds[0] = Kind::in_version_1(direction, airtime);
        tables.push(it);
    }
    let fields: [&[u8]; 6] =
        [&[1, 255], &[1, 255], &[1, 255], &[3, 4, 128], &[0, 3, 4, 128], &[0, 4, 128]];
    for (place, values) in fields.iter().enumerate() {
        for value in *values {
            tables.push(with_field(masks(), 1, place, *value));
        }
    }
    tables.extend(guards());
    for (states, variables, bounds, airtime, _) in SIZES {
        tables.push(TableParts::of(&sized(states, variables, bounds, airtime)));
    }
    tables
}

fn with_field(mut it: TableParts, transition: usize, place: usize, value: u8) -> TableParts {
    it.transitions[transition].fields[place] = value;
    it
}

/// Each length over places that hold a guard of each length, and lengths before and behind fields
/// that are out of range.
fn guards() -> Vec<TableParts> {
    let mut tables = Vec::new();
    let mut deepest = [4; GUARD_PLACES];
    deepest[GUARD_PLACES - 1] = 0;
    for guard in [[0; GUARD_PLACES], deepest, [255; GUARD_PLACES]] {
        for length in [0, 1, 2, 31, 32, 33, 255] {
            let mut it = with_field(masks(), 1, 6, length);
            it.transitions[1].guard = guard;
            tables.push(it);
        }
    }
    for length in [0, 33, 255] {
        tables.push(with_field(with_field(masks(), 0, 6, length), 1, 0, 1));
        tables.push(with_field(with_field(masks(), 0, 0, 1), 1, 6, length));
        tables.push(with_field(with_field(masks(), 1, 0, 1), 1, 6, length));
    }
    tables
}

/// Every count at its limit, and every guard. Each state leads to the next, and the last to itself.
/// In version 2 there is no longer table.
fn full_table(version: u8) -> Table {
    let transition = |number: u8| Transition {
        from: number.min(15),
        to: (number + 1).min(15),
        kind: 31,
        guard: [vec![4; GUARD_PLACES - 1], vec![0]].concat(),
        ..Transition::default()
    };
    Table {
        version,
        states: 16,
        variables: 4,
        clocks: 2,
        kinds: vec![Kind::in_version_1(1, 15); 32],
        transitions: (0..64).map(transition).collect(),
    }
}

/// A table for each of its numbers that bytes can have.
fn unsound_tables() -> Vec<Vec<u8>> {
    let changed = [(2, 3), (3, 17), (7, 6), (8, 2), (20, 33)];
    let changed = changed.map(|(place, byte)| small_monitor_with(place, byte));
    let over = encode_table(&sized(1, 0, &[255, 254], 0));
    let unreached = small_monitor_with(3, 4);
    [vec![]].into_iter().chain(changed).chain([over, unreached]).collect()
}

fn rows<R: Copy, Count>(count: Count, rows: &[R]) -> RowParts<R, Count> {
    RowParts { count, filler: 0, rows: rows.to_vec() }
}

fn recordings() -> Vec<RecordingParts> {
    let heard = |list: &[(u16, u8)]| -> Vec<Heard> {
        list.iter().map(|(time, kind)| Heard { time: *time, kind: *kind }).collect()
    };
    let sound = heard(&[(1, DATA), (3, ACK), (4, ACK), (4_096, DATA)]);
    let mut all = vec![];
    // Fewer and more than are given, up to and beyond the limit.
    for count in [0, 1, 3, 4, 5, 511, 512, 513, 65_535] {
        all.push(rows(count, &sound));
    }
    for time in TIMES {
        all.push(rows(1, &heard(&[(time, ACK)])));
        all.push(rows(2, &heard(&[(4, ACK), (time, DATA)])));
    }
    for kind in [2, 3, 255] {
        all.push(rows(1, &heard(&[(9, kind)])));
        all.push(rows(2, &heard(&[(9, DATA), (8, kind)])));
    }
    for (time, kind) in [(9, DATA), (10, DATA), (11, DATA), (8, ACK), (10, ACK), (11, ACK)] {
        all.push(rows(2, &heard(&[(9, DATA), (time, kind)])));
        all.push(rows(2, &heard(&[(9, ACK), (time, kind)])));
    }
    // The first row that breaks a rule is named, and none beyond the count.
    let spoilt = heard(&[(1, ACK), (2, ACK), (2, ACK), (0, 9)]);
    for count in 0..=4 {
        all.push(rows(count, &spoilt));
    }
    all
}

/// 512 rows, the last one at the last time.
fn full_recording() -> RecordingParts {
    let row = |number: u16| Heard { time: 8 * number, kind: DATA };
    rows(512, &(1..=512).map(row).collect::<Vec<_>>())
}

fn row(mark: u8, time: u16, kind: u8, transition: u8) -> Row {
    Row { mark, time, kind, transition }
}

fn witnesses() -> Vec<WitnessParts> {
    let removed = row(REMOVED, 4, 2, NO_TRANSITION);
    let added = row(ADDED, 4, 3, 9);
    let last = row(ADDED, 4_096, 255, NO_TRANSITION);
    let sound = [row(KEPT, 1, 0, 0), removed, row(ADDED, 5, 3, 9), last];
    let mut all = vec![];
    for count in [0, 1, 3, 4, 5, 4_607, 4_608, 4_609, 65_535] {
        all.push(rows(count, &sound));
    }
    for mark in [KEPT, REMOVED, ADDED, 3, 255] {
        for transition in [0, 254, NO_TRANSITION] {
            all.push(rows(1, &[row(mark, 4, 255, transition)]));
        }
    }
    for time in TIMES {
        all.push(rows(1, &[row(KEPT, time, 0, 0)]));
        all.push(rows(2, &[row(KEPT, 4, 0, 0), row(ADDED, time, 0, 0)]));
    }
    // No two rows stand at one time, whatever their marks and kinds.
    let marks = [row(KEPT, 4, 2, 0), removed, row(ADDED, 4, 2, 0), added];
    for first in marks {
        for second in marks {
            all.push(rows(2, &[first, second]));
        }
    }
    for third in [row(ADDED, 5, 5, 0), removed, row(KEPT, 3, 0, 0)] {
        all.push(rows(3, &[removed, row(ADDED, 5, 3, 9), third]));
    }
    all
}

/// So many rows: one at each time, and those for which no time is left at the last one.
fn full_witness(count: u16) -> WitnessParts {
    let at = |number: u16| match number % 8 {
        0 => row(REMOVED, number.min(4_096), 0, NO_TRANSITION),
        _ => row(ADDED, number.min(4_096), 1, 63),
    };
    rows(count.into(), &(1..=count).map(at).collect::<Vec<_>>())
}

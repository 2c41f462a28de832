//! Writing parts that no reading gave, and reading them back, with answers worked out by hand from
//! the list.

mod common;

use common::{answer, monitor_with};
use lutarosa_reference::back::{recording_back, table_back, witness_back};
use lutarosa_reference::edition::Edition;
use lutarosa_reference::papers::{ACK, DATA, SMALL_MONITOR};
use lutarosa_reference::parts::{Placed, RecordingParts, RowParts, TableParts, WitnessParts};
use lutarosa_reference::recording::Heard;
use lutarosa_reference::table::{read, Kind};
use lutarosa_reference::witness::{Row, ADDED, KEPT, REMOVED};
use lutarosa_reference::writing::Parts;

/// Neither writing, with room or without, nor reading back gives anything else.
fn refused(parts: &Parts, number: u64, value: u64) {
    let expected = answer(number, value, 0);
    let mut room = [0x5A; 100];
    assert_eq!(parts.write(&mut room), expected, "{parts:?}");
    assert_eq!(parts.write(&mut []), expected);
    let (it, numbers) = parts.back(&mut room);
    assert_eq!(it, expected);
    assert!(numbers.iter().all(|number| *number == 0));
    assert_eq!(room, [0x5A; 100]);
}

/// These bytes and no others, if there is room for them, and these numbers back, with 0 between.
fn written(parts: &Parts, bytes: &[u8], all: usize, numbers: &[(usize, u8)]) {
    let wanted = bytes.len();
    let mut room = vec![0x5A; wanted - 1];
    assert_eq!(parts.write(&mut room), answer(33, wanted as u64, 0));
    assert_eq!(parts.back(&mut room), (answer(33, wanted as u64, 0), vec![0; all]));
    assert_eq!(room, vec![0x5A; wanted - 1]);
    for spare in [0, 3] {
        let expected_room = [bytes, &vec![0x5A; spare]].concat();
        let mut room = vec![0x5A; wanted + spare];
        assert_eq!(parts.write(&mut room), answer(0, wanted as u64, 0));
        assert_eq!(room, expected_room);
        let mut expected = vec![0; all];
        numbers.iter().for_each(|(place, number)| expected[*place] = *number);
        let mut room = vec![0x5A; wanted + spare];
        assert_eq!(parts.back(&mut room), (answer(0, 0, 0), expected));
        assert_eq!(room, expected_room);
    }
}

/// Two states, two variables, one clock; the kind is at 8, the transitions are at 10 and 19. Every
/// place beyond, in a record too, holds rubbish.
fn table() -> TableParts {
    let guard = |bytes: &[u8]| {
        let mut guard = [0xEE; 32];
        guard[..bytes.len()].copy_from_slice(bytes);
        guard
    };
    TableParts {
        version: 1,
        counts: [2, 2, 1, 1, 2],
        filler: 0xEE,
        kinds: vec![Kind::in_version_1(1, 15), Kind { direction: 9, airtime: 99, device: 199 }],
        transitions: vec![
            Placed { fields: [0, 1, 0, 1, 2, 1, 2], guard: guard(&[3, 1]) },
            Placed { fields: [1, 0, 0, 0, 3, 0, 3], guard: guard(&[1, 0, 7]) },
            Placed { fields: [99; 7], guard: [99; 32] },
        ],
    }
}

fn with_count(place: usize, count: u8) -> Parts {
    let mut it = table();
    it.counts[place] = count;
    Parts::Table(it)
}

fn with_fields(changes: &[(usize, usize, u8)]) -> Parts {
    let mut it = table();
    for (transition, place, value) in changes {
        it.transitions[*transition].fields[*place] = *value;
    }
    Parts::Table(it)
}

#[test]
fn a_table_comes_back_without_what_lies_beyond() {
    let bytes = [
        &[0, 27, 1, 2, 2, 1, 1, 2, 1, 15][..],
        &[0, 1, 0, 1, 2, 1, 2, 3, 1],
        &[1, 0, 0, 0, 3, 0, 3, 1, 0, 7],
    ]
    .concat();
    // The version, 5 counts, 3 columns of 32, 7 of 64, and 64 guards of 32 places from 550 on.
    let numbers = [
        (0, 1),
        (1, 2),
        (2, 2),
        (3, 1),
        (4, 1),
        (5, 2),
        (6, 1),
        (38, 15),
        (70, 1),
        (103, 1),
        (166, 1),
        (294, 1),
        (358, 2),
        (359, 3),
        (422, 1),
        (486, 2),
        (487, 3),
        (550, 3),
        (551, 1),
        (582, 1),
        (584, 7),
    ];
    written(&Parts::Table(table()), &bytes, 2_598, &numbers);
    // In version 2 the kind has one byte more, and its device is what it was or another.
    for device in [1, 9, 15] {
        let head = [&[0, 28, 2, 2, 2, 1, 1, 2, 1, 15, device], &bytes[10..]].concat();
        let mut parts = TableParts { version: 2, ..table() };
        parts.kinds[0].device = device;
        let mut numbers = numbers;
        (numbers[0].1, numbers[8].1) = (2, device);
        written(&Parts::Table(parts), &head, 2_598, &numbers);
    }
}

/// The kind, to the unit, is at 8 in both versions; a second one is at 10 or 11.
#[test]
fn number_14_devices() {
    let with = |version: u8, direction: u8, device: u8| {
        let mut parts = TableParts { version, ..table() };
        parts.kinds[0] = Kind { direction, airtime: 15, device };
        Parts::Table(parts)
    };
    for device in (0..=255).filter(|device| *device != 1) {
        refused(&with(1, 1, device), 14, 8);
    }
    for device in (0..=255).filter(|device| !(1..=15).contains(device)) {
        refused(&with(2, 1, device), 14, 8);
    }
    for device in 1..=255 {
        refused(&with(1, 0, device), 14, 8);
        refused(&with(2, 0, device), 14, 8);
    }
    for (version, offset) in [(1, 10), (2, 11)] {
        let mut parts = TableParts { version, ..table() };
        parts.counts[3] = 2;
        parts.kinds[1] = Kind { direction: 1, airtime: 0, device: 16 };
        refused(&Parts::Table(parts.clone()), 14, offset);
        parts.kinds[1].device = 1;
        assert_eq!(Parts::Table(parts.clone()).wanted(), Some(if version == 1 { 31 } else { 33 }));
        // A kind before it that is out of range comes first, one behind it does not.
        parts.kinds[0].airtime = 16;
        parts.kinds[1].device = 0;
        refused(&Parts::Table(parts), 14, 8);
    }
}

/// Before the counts, whatever they are.
#[test]
fn number_11_version() {
    for version in [0, 3, 4, 128, 255] {
        refused(&Parts::Table(TableParts { version, ..table() }), 11, 2);
        let Parts::Table(parts) = with_count(0, 17) else { unreachable!() };
        refused(&Parts::Table(TableParts { version, ..parts }), 11, 2);
    }
}

#[test]
fn number_12_whatever_the_records_hold() {
    let beyond: [&[u8]; 5] = [&[0, 17, 255], &[5, 255], &[3, 255], &[0, 33, 255], &[65, 255]];
    for (place, counts) in beyond.iter().enumerate() {
        for count in *counts {
            refused(&with_count(place, *count), 12, 3 + place as u64);
        }
    }
    refused(&Parts::Table(TableParts { version: 1, ..TableParts::default() }), 12, 3);
    refused(&Parts::Table(TableParts { version: 2, ..TableParts::default() }), 12, 3);
    refused(&Parts::Table(TableParts::default()), 11, 2);
}

#[test]
fn number_14_fields() {
    let values: [&[u8]; 6] = [&[2], &[2, 255], &[1], &[4, 8], &[4, 128], &[2, 128]];
    for (place, values) in values.iter().enumerate() {
        for value in *values {
            refused(&with_fields(&[(1, place, *value)]), 14, 19);
        }
    }
    // Set and clear meet.
    refused(&with_fields(&[(0, 3, 3)]), 14, 10);
    // The records that a count covers beyond those that it should.
    refused(&with_count(3, 2), 14, 10);
    refused(&with_count(4, 3), 14, 29);
}

#[test]
fn number_15_guard_lengths_in_their_place() {
    for length in [0, 33, 255] {
        refused(&with_fields(&[(0, 6, length)]), 15, 10);
        refused(&with_fields(&[(1, 6, length)]), 15, 19);
        // A field of an earlier record, or of its own, comes first; a later one's does not.
        refused(&with_fields(&[(1, 6, length), (0, 0, 2)]), 14, 10);
        refused(&with_fields(&[(0, 6, length), (0, 0, 2)]), 14, 10);
        refused(&with_fields(&[(0, 6, length), (1, 0, 2)]), 15, 10);
    }
    // Within the limits the length covers too few bytes, or rubbish.
    for length in [1, 3, 32] {
        refused(&with_fields(&[(0, 6, length)]), 15, 10);
    }
    let mut deepest = table();
    deepest.transitions[0].fields[6] = 32;
    deepest.transitions[0].guard = [4; 32];
    refused(&Parts::Table(deepest.clone()), 15, 10);
    deepest.transitions[0].guard[31] = 0;
    let mut room = [0; 59];
    assert_eq!(Parts::Table(deepest.clone()).write(&mut room), answer(0, 59, 0));
    let back = table_back(&deepest, &mut room).1;
    assert_eq!(back.transitions[0].guard, deepest.transitions[0].guard);
}

/// 2 x 4 x 9 x 16 is 1,152; with 4 variables and M at 126 it is 2 x 16 x 128 x 16.
#[test]
fn number_16_situations() {
    let sized = |limit: u8| {
        let mut it = table();
        it.counts[1] = 4;
        it.transitions[1].guard[2] = limit;
        it
    };
    assert_eq!(table_back(&sized(126), &mut [0; 29]).0, answer(0, 0, 0));
    refused(&Parts::Table(sized(127)), 16, 0);
}

/// State 0 leads to 1 and back. Records beyond the counts lead nowhere.
#[test]
fn number_17_unreached_states() {
    refused(&with_count(0, 3), 17, 2);
    refused(&with_count(0, 16), 17, 2);
    refused(&with_count(4, 0), 17, 1);
    refused(&with_fields(&[(0, 1, 0)]), 17, 1);
    refused(&with_fields(&[(0, 0, 1)]), 17, 1);
    let mut swapped = table();
    swapped.transitions.swap(0, 1);
    assert_eq!(Parts::Table(swapped.clone()).wanted(), Some(29));
    swapped.counts[4] = 1;
    refused(&Parts::Table(swapped), 17, 1);
}

#[test]
fn the_smallest_table_of_a_filler_alone() {
    let filled = |filler, transitions| TableParts {
        version: 1,
        counts: [1, 0, 0, 1, transitions],
        filler,
        ..TableParts::default()
    };
    assert_eq!(table_back(&filled(0, 0), &mut [0; 10]).0, answer(0, 0, 0));
    refused(&Parts::Table(filled(0, 64)), 15, 10);
    refused(&Parts::Table(filled(1, 1)), 14, 10);
    refused(&Parts::Table(filled(255, 0)), 14, 8);
}

fn heard(count: u16, filler: u8, rows: &[(u16, u8)]) -> RecordingParts {
    let row = |it: &(u16, u8)| Heard { time: it.0, kind: it.1 };
    RowParts { count, filler, rows: rows.iter().map(row).collect() }
}

fn recording(count: u16, filler: u8, rows: &[(u16, u8)]) -> Parts {
    Parts::Recording(SMALL_MONITOR.to_vec(), heard(count, filler, rows))
}

#[test]
fn a_recording_comes_back_without_what_lies_beyond() {
    let parts = recording(2, 0xEE, &[(1, DATA), (65_535, ACK), (0, 99)]);
    let bytes = [0, 9, 1, 0, 2, 0, 1, DATA, 255, 255, ACK];
    // The count, 512 times of two bytes and 512 kinds.
    written(&parts, &bytes, 1_538, &[(1, 2), (3, 1), (4, 255), (5, 255), (1_027, ACK)]);
    written(&recording(0, 1, &[(0, 99)]), &[0, 3, 1, 0, 0], 1_538, &[]);
    // Filler 1 is the row (257, RETRY).
    let bytes = [0, 9, 1, 0, 2, 0, 1, DATA, 1, 1, 1];
    let numbers = [(1, 2), (3, 1), (4, 1), (5, 1), (1_027, 1)];
    written(&recording(2, 1, &[(1, DATA)]), &bytes, 1_538, &numbers);
}

#[test]
fn numbers_22_to_24() {
    for count in [513, 65_535] {
        refused(&recording(count, 0, &[(0, 9)]), 22, 3);
    }
    for (time, kind) in [(0, DATA), (9, 3), (9, 255), (4_097, 3), (65_535, 255)] {
        refused(&recording(2, 0, &[(1, DATA), (time, kind)]), 23, 1);
    }
    refused(&recording(512, 0, &[(1, DATA)]), 23, 1);
    refused(&recording(512, 1, &[(1, DATA)]), 24, 2);
    refused(&recording(2, 0, &[(9, DATA), (10, ACK)]), 24, 1);
    refused(&recording(2, 0, &[(9, ACK), (9, ACK)]), 24, 1);
    refused(&recording(3, 0, &[(9, ACK), (8, ACK), (0, ACK)]), 24, 1);
}

#[test]
fn the_table_comes_before_the_count() {
    let parts = heard(513, 0, &[]);
    refused(&Parts::Recording(vec![], parts.clone()), 10, 0);
    refused(&Parts::Recording(monitor_with(&[(2, 9)]), parts.clone()), 11, 2);
    refused(&Parts::Recording(monitor_with(&[(20, 33)]), parts.clone()), 15, 14);
    refused(&Parts::Recording(monitor_with(&[(3, 4)]), parts), 17, 3);
}

fn witness(edition: Edition, count: u32, filler: u8, rows: &[(u8, u16, u8, u8)]) -> Parts {
    let row = |it: &(u8, u16, u8, u8)| Row { mark: it.0, time: it.1, kind: it.2, transition: it.3 };
    Parts::Witness(edition, RowParts { count, filler, rows: rows.iter().map(row).collect() })
}

#[test]
fn a_witness_comes_back_without_what_lies_beyond() {
    let rows = [(REMOVED, 258, 9, 255), (ADDED, 259, 8, 7), (3, 0, 0, 0)];
    let row_bytes = [1, 1, 2, 9, 255, 2, 1, 3, 8, 7];
    // The count of four bytes, 65,535 marks, times of two bytes, kinds and transitions.
    let all = 4 + 5 * 65_535;
    let numbers = [
        (3, 2),
        (4, 1),
        (5, 2),
        (65_539, 1),
        (65_540, 2),
        (65_541, 1),
        (65_542, 3),
        (196_609, 9),
        (196_610, 8),
        (262_144, 255),
        (262_145, 7),
    ];
    let heads = [&[0, 13, 1, 0, 2][..], &[0, 0, 0, 15, 2, 0, 0, 0, 2]];
    let empty = [&[0, 3, 1, 0, 0][..], &[0, 0, 0, 5, 2, 0, 0, 0, 0]];
    for (edition, (head, empty)) in Edition::BOTH.into_iter().zip(heads.into_iter().zip(empty)) {
        let bytes = [head, &row_bytes].concat();
        written(&witness(edition, 2, 0xEE, &rows), &bytes, all, &numbers);
        written(&witness(edition, 0, 255, &[]), empty, all, &[]);
    }
}

#[test]
fn numbers_42_and_43() {
    for (edition, most, offset) in [(Edition::One, 4_608, 3), (Edition::Two, 65_535, 5)] {
        for count in [most + 1, 65_536, 65_537, 70_000, 131_072, u32::MAX] {
            refused(&witness(edition, count, 0, &[(9, 0, 0, 0)]), 42, offset);
            refused(&witness(edition, count, 0, &[(KEPT, 1, 0, 0)]), 42, offset);
        }
        refused(&witness(edition, most, 0, &[(KEPT, 1, 0, 0)]), 43, 1);
        // Filler 1 is a removed row with transition 1.
        refused(&witness(edition, 1, 1, &[]), 43, 0);
        for row in [(3, 4, 0, 0), (255, 4, 0, 0), (KEPT, 0, 0, 0), (REMOVED, 4, 0, 254)] {
            refused(&witness(edition, 2, 0, &[(KEPT, 3, 0, 0), row]), 43, 1);
        }
        // At one time, and before it.
        for row in [(KEPT, 3, 1, 0), (ADDED, 3, 1, 0), (REMOVED, 3, 1, 255), (ADDED, 2, 1, 0)] {
            refused(&witness(edition, 2, 0, &[(REMOVED, 3, 0, 255), row]), 43, 1);
        }
    }
    for time in [4_097, 65_535] {
        let rows = [(KEPT, 3, 0, 0), (ADDED, time, 0, 0)];
        refused(&witness(Edition::One, 2, 0, &rows), 43, 1);
        assert_eq!(witness(Edition::Two, 2, 0, &rows).wanted(), Some(19));
    }
    // Edition 1's limits are not edition 2's: the fourth row is the filler, at 0.
    for count in [4_609, 65_535] {
        let rows = [(KEPT, 1, 0, 0), (KEPT, 2, 0, 0), (KEPT, 4_097, 0, 0)];
        refused(&witness(Edition::Two, count, 0, &rows), 43, 3);
        refused(&witness(Edition::One, count, 0, &rows), 42, 3);
    }
}

#[test]
fn as_many_as_there_are_places() {
    let rows: Vec<_> = (1..=512).map(|number| (8 * number, DATA)).collect();
    let (it, back) = recording_back(&SMALL_MONITOR, &heard(512, 0, &rows), &mut [0; 1_541]);
    assert_eq!((it, back), (answer(0, 0, 0), heard(512, 0, &rows)));
    // A row at every time; the count may be higher, but then some row has no time left.
    let at = |time| if time <= 512 { (REMOVED, time, 0, 255) } else { (ADDED, time, 1, 0) };
    for (edition, last, room) in [(Edition::One, 4_096, 20_485), (Edition::Two, 65_535, 327_684)] {
        let rows: Vec<_> = (1..=last).map(at).collect();
        let Parts::Witness(_, parts) = witness(edition, last.into(), 0, &rows) else {
            unreachable!()
        };
        let back: (_, WitnessParts) = witness_back(edition, &parts, &mut vec![0; room]);
        assert!(back == (answer(0, 0, 0), parts));
    }
    let rows: Vec<_> = (1..=4_608).map(|time: u16| at(time.min(4_096))).collect();
    refused(&witness(Edition::One, 4_608, 0, &rows), 43, 4_096);
    refused(&witness(Edition::Two, 4_608, 0, &rows), 43, 4_096);
    let small_monitor = TableParts::of(&read(&SMALL_MONITOR).unwrap());
    assert_eq!(table_back(&small_monitor, &mut [0; 68]), (answer(0, 0, 0), small_monitor));
}

//! Numbers 10 to 17, with answers worked out by hand from the list.
//!
//! The small monitor's kinds stand at 8, 10 and 12; its transitions at 14, 22, 32, 47 and 57;
//! it ends at 68.

mod common;

use common::{answer, chain, changed, file, monitor_with, resized};
use lutarosa_reference::answer::Refusal;
use lutarosa_reference::papers::{SMALL_MONITOR, SMALL_MONITOR_2};
use lutarosa_reference::rewrite::rewrite_table;
use lutarosa_reference::table::{read, write, Kind, Table, Transition};

fn refused(bytes: &[u8], number: u64, value: usize) {
    assert_eq!(read(bytes), Err(Refusal::new(number, value)), "{bytes:02x?}");
    let mut room = [0x5A; 200];
    assert_eq!(rewrite_table(bytes, &mut room), answer(number, value as u64, 0));
    assert_eq!(room, [0x5A; 200]);
}

#[test]
fn sound_bytes_come_back() {
    let table = read(&SMALL_MONITOR).unwrap();
    assert_eq!(table.counts(), [3, 0, 1, 3, 5]);
    let mut room = [0x5A; 70];
    assert_eq!(rewrite_table(&SMALL_MONITOR, &mut room), answer(0, 68, 0));
    assert_eq!(room[..68], SMALL_MONITOR);
    assert_eq!(room[68..], [0x5A; 2]);
    let mut room = [0x5A; 67];
    assert_eq!(rewrite_table(&SMALL_MONITOR, &mut room), answer(33, 68, 0));
    assert_eq!(room, [0x5A; 67]);
    // The smallest table: one state, one kind, no transition.
    let smallest = file(&[1, 1, 0, 0, 1, 0, 0, 0]);
    assert_eq!(rewrite_table(&smallest, &mut room), answer(0, 10, 0));
}

#[test]
fn number_10_frame() {
    refused(&[], 10, 0);
    refused(&[0], 10, 0);
    for length in 2..8 {
        refused(&resized(&SMALL_MONITOR, length), 10, 0);
    }
    refused(&monitor_with(&[(1, 65)]), 10, 0);
    refused(&monitor_with(&[(1, 67), (2, 9)]), 10, 0);
    refused(&vec![0; 70_000], 10, 0);
    // The length wraps round to match only in its lower bytes.
    refused(&vec![0; 65_538], 10, 0);
    // 65,535 bytes after the length do match.
    let mut longest = vec![0; 65_537];
    longest[..3].copy_from_slice(&[255, 255, 3]);
    refused(&longest, 11, 2);
}

#[test]
fn number_11_version() {
    refused(&monitor_with(&[(2, 0)]), 11, 2);
    refused(&monitor_with(&[(2, 3), (3, 0)]), 11, 2);
    refused(&monitor_with(&[(2, 255), (3, 0)]), 11, 2);
    // Version 2 is known, and then the counts are tried.
    refused(&monitor_with(&[(2, 2), (3, 0)]), 12, 3);
    refused(&file(&[2, 1, 0, 0, 1, 65]), 12, 7);
}

#[test]
fn number_12_counts_front_to_back() {
    refused(&monitor_with(&[(3, 0)]), 12, 3);
    refused(&monitor_with(&[(3, 17)]), 12, 3);
    refused(&monitor_with(&[(4, 5)]), 12, 4);
    refused(&monitor_with(&[(5, 3)]), 12, 5);
    refused(&monitor_with(&[(6, 0)]), 12, 6);
    refused(&monitor_with(&[(6, 33)]), 12, 6);
    refused(&monitor_with(&[(7, 65)]), 12, 7);
    refused(&monitor_with(&[(7, 65), (5, 3), (6, 0)]), 12, 5);
    // Counts come before the records, however few bytes there are.
    refused(&[0, 6, 1, 1, 0, 0, 1, 65], 12, 7);
}

#[test]
fn number_13_cut_short_or_left_over() {
    refused(&[0, 6, 1, 1, 0, 0, 1, 0], 13, 8);
    refused(&[0, 7, 1, 1, 0, 0, 1, 0, 9], 13, 8);
    refused(&resized(&SMALL_MONITOR, 11), 13, 10);
    refused(&resized(&SMALL_MONITOR, 14), 13, 14);
    refused(&resized(&SMALL_MONITOR, 20), 13, 14);
    // The seven bytes are there and the guard is not.
    refused(&resized(&SMALL_MONITOR, 21), 13, 14);
    refused(&resized(&SMALL_MONITOR, 67), 13, 57);
    refused(&resized(&SMALL_MONITOR, 69), 13, 68);
    refused(&resized(&SMALL_MONITOR, 80), 13, 68);
    // Absent bytes come before fields: six bytes of a record with a bad first field.
    refused(&resized(&monitor_with(&[(14, 9)]), 20), 13, 14);
}

#[test]
fn number_14_fields() {
    refused(&monitor_with(&[(8, 2)]), 14, 8);
    refused(&monitor_with(&[(11, 16)]), 14, 10);
    refused(&monitor_with(&[(13, 255)]), 14, 12);
    for field in 14..17 {
        refused(&monitor_with(&[(field, 3)]), 14, 14);
    }
    // No variables, so no bit of either mask; one clock, so bit 0 only.
    refused(&monitor_with(&[(17, 1)]), 14, 14);
    refused(&monitor_with(&[(18, 1)]), 14, 14);
    refused(&monitor_with(&[(19, 2)]), 14, 14);
    refused(&monitor_with(&[(57, 3)]), 14, 57);
    // Front to back, and fields before the guard's length.
    refused(&monitor_with(&[(57, 3), (12, 2)]), 14, 12);
    refused(&monitor_with(&[(14, 3), (20, 0)]), 14, 14);
}

#[test]
fn number_14_set_and_clear_meet() {
    let table = |set, clear| file(&[1, 1, 2, 0, 1, 1, 0, 0, 0, 0, 0, set, clear, 0, 1, 0]);
    assert!(read(&table(1, 2)).is_ok());
    assert!(read(&table(3, 0)).is_ok());
    refused(&table(1, 1), 14, 10);
    refused(&table(3, 2), 14, 10);
    refused(&table(4, 0), 14, 10);
}

#[test]
fn number_15_guards() {
    refused(&monitor_with(&[(20, 0)]), 15, 14);
    refused(&monitor_with(&[(20, 33)]), 15, 14);
    // A length out of range comes before absent guard bytes, and those before the form.
    refused(&monitor_with(&[(63, 33)]), 15, 57);
    refused(&monitor_with(&[(63, 32), (64, 9)]), 13, 57);
    // Unknown code, missing bytes, extra bytes, absent clock, absent variable.
    refused(&monitor_with(&[(21, 6)]), 15, 14);
    refused(&monitor_with(&[(21, 1)]), 15, 14);
    refused(&monitor_with(&[(29, 0)]), 15, 22);
    refused(&monitor_with(&[(30, 1)]), 15, 22);
    refused(&changed(&SMALL_MONITOR, &[(64, 3), (65, 0)]), 15, 57);
    // A guard must not run on into the next record.
    refused(&monitor_with(&[(21, 4)]), 15, 14);
}

#[test]
fn guards_of_32_bytes() {
    let table = |guard: &[u8]| {
        let mut body = vec![1, 1, 1, 0, 1, 1, 0, 0, 0, 0, 0, 0, 0, 0, guard.len() as u8];
        body.extend(guard);
        file(&body)
    };
    let chain = |nots: usize, last: u8| [vec![4; nots], vec![last]].concat();
    assert!(read(&table(&chain(31, 0))).is_ok());
    refused(&table(&chain(31, 4)), 15, 10);
    refused(&table(&chain(32, 0)), 15, 10);
    // Fifteen ands and sixteen trues are 31 bytes.
    let ands = [vec![5; 15], vec![0; 16]].concat();
    assert!(read(&table(&ands)).is_ok());
    refused(&table(&ands[..30]), 15, 10);
}

/// The kinds stand at 8, 11 and 14, and the transitions at 17 and on.
#[test]
fn version_2() {
    let with = |changes: &[(usize, u8)]| changed(&SMALL_MONITOR_2, changes);
    let table = read(&SMALL_MONITOR_2).unwrap();
    let parts = Table { version: 1, ..table.clone() };
    assert_eq!((table.version, parts), (2, read(&SMALL_MONITOR).unwrap()));
    let mut room = [0x5A; 72];
    assert_eq!(rewrite_table(&SMALL_MONITOR_2, &mut room), answer(0, 71, 0));
    assert_eq!(room[..71], SMALL_MONITOR_2);
    assert_eq!(rewrite_table(&SMALL_MONITOR_2, &mut room[..70]), answer(33, 71, 0));
    for device in 1..=15 {
        let bytes = with(&[(16, device)]);
        assert_eq!(read(&bytes).unwrap().kinds[2], Kind { direction: 1, airtime: 0, device });
        assert_eq!(rewrite_table(&bytes, &mut room), answer(0, 71, 0));
        assert_eq!(room[..71], bytes);
    }
    for device in [0, 16, 17, 127, 128, 255] {
        refused(&with(&[(16, device)]), 14, 14);
    }
    for device in [1, 2, 15, 16, 255] {
        refused(&with(&[(10, device)]), 14, 8);
        refused(&with(&[(13, device)]), 14, 11);
    }
    // All three bytes must be there before any is looked at.
    refused(&resized(&SMALL_MONITOR_2, 8), 13, 8);
    refused(&resized(&with(&[(8, 9)]), 10), 13, 8);
    refused(&resized(&SMALL_MONITOR_2, 11), 13, 11);
    refused(&resized(&SMALL_MONITOR_2, 16), 13, 14);
    refused(&resized(&SMALL_MONITOR_2, 17), 13, 17);
    refused(&resized(&SMALL_MONITOR_2, 72), 13, 71);
    // Transitions are named where they stand.
    refused(&with(&[(17, 3)]), 14, 17);
    refused(&with(&[(23, 0)]), 15, 17);
    refused(&with(&[(60, 3)]), 14, 60);
    refused(&with(&[(3, 4)]), 17, 3);
    // The smallest table.
    assert!(read(&file(&[2, 1, 0, 0, 1, 0, 0, 0, 0])).is_ok());
    refused(&file(&[2, 1, 0, 0, 1, 0, 0, 0]), 13, 8);
    refused(&file(&[1, 1, 0, 0, 1, 0, 0, 0, 0]), 13, 10);
}

/// Kinds from the unit get device 0, kinds to it device 1.
#[test]
fn version_1_gives_devices() {
    let devices: Vec<u8> = parts().kinds.iter().map(|kind| kind.device).collect();
    assert_eq!((parts().version, devices), (1, vec![0, 0, 1]));
}

#[test]
fn writing_versions_and_devices() {
    writes(&Table { version: 0, ..parts() }, 11, 2);
    writes(&Table { version: 3, states: 0, ..parts() }, 11, 2);
    let with = |version: u8, devices: [u8; 3]| {
        let mut table = Table { version, ..parts() };
        table.kinds.iter_mut().zip(devices).for_each(|(kind, device)| kind.device = device);
        table
    };
    // Version 1 can tell no other device, version 2 those of the direction.
    writes(&with(1, [0, 0, 2]), 14, 12);
    writes(&with(1, [0, 0, 0]), 14, 12);
    writes(&with(1, [0, 1, 2]), 14, 10);
    writes(&with(2, [0, 0, 0]), 14, 14);
    writes(&with(2, [0, 1, 16]), 14, 11);
    writes(&with(2, [15, 1, 16]), 14, 8);
    let mut room = [0; 71];
    assert_eq!(write(&with(2, [0, 0, 2]), &mut room), answer(0, 71, 0));
    assert_eq!(room[..], changed(&SMALL_MONITOR_2, &[(16, 2)]));
    // The records behind move with the kinds'.
    let mut table = with(2, [0, 0, 2]);
    table.transitions[0].to = 3;
    writes(&table, 14, 17);
    // Version 1's device comes before the transition's field.
    table.version = 1;
    writes(&table, 14, 12);
}

/// 8 + 3 x 32 + 39 x 64.
#[test]
fn the_longest_table_has_2_600_bytes() {
    let transition = Transition { guard: [vec![4; 31], vec![0]].concat(), ..Default::default() };
    let kinds = vec![Kind { direction: 1, airtime: 15, device: 15 }; 32];
    let transitions = vec![transition; 64];
    let table = Table { version: 2, states: 1, variables: 0, clocks: 0, kinds, transitions };
    let mut room = [0; 2_600];
    assert_eq!(write(&table, &mut room[..2_599]), answer(33, 2_600, 0));
    assert_eq!(write(&table, &mut room), answer(0, 2_600, 0));
    assert_eq!(read(&room), Ok(table));
}

/// 16 x 16 x 256 is 65,536, and with M one higher it is 65,792.
#[test]
fn number_16_situations() {
    let table = |limit| chain(16, 4, &[1, 0, limit]);
    assert!(read(&table(254)).is_ok());
    refused(&table(255), 16, 0);
    // Left over bytes come before it.
    refused(&resized(&table(255), 162), 13, 160);
    // Airtime counts too, and so does a clock that no guard names: 16 x 16 x 256 x 2.
    refused(&changed(&table(254), &[(9, 1)]), 16, 0);
    refused(&changed(&table(254), &[(5, 2)]), 16, 0);
    // A clock compared with 0 has 0 and above: 16 x 16 x 2 x 2.
    let zero = changed(&table(0), &[(5, 2), (9, 15)]);
    assert!(read(&zero).is_ok());
}

/// The small monitor leads from 0 to 1 at 14, from 1 to 2 at 32, from 2 to 1 at 57, and back to 0.
#[test]
fn number_17_unreached_states() {
    // More states than are led to: the lowest of them.
    refused(&monitor_with(&[(3, 4)]), 17, 3);
    refused(&monitor_with(&[(3, 16)]), 17, 3);
    // Nothing leads out of 0, or to 2; but 2 may lead to 1.
    refused(&monitor_with(&[(15, 0)]), 17, 1);
    refused(&monitor_with(&[(14, 1)]), 17, 1);
    refused(&monitor_with(&[(33, 1)]), 17, 2);
    refused(&monitor_with(&[(33, 0)]), 17, 2);
    assert!(read(&monitor_with(&[(15, 2)])).is_ok());
    // A state that leads to itself alone, and one whose link never holds.
    let two = |from: u8, to: u8| file(&[1, 2, 0, 0, 1, 1, 0, 0, from, to, 0, 0, 0, 0, 2, 4, 0]);
    refused(&two(1, 1), 17, 1);
    refused(&two(0, 0), 17, 1);
    refused(&two(1, 0), 17, 1);
    assert!(read(&two(0, 1)).is_ok());
    // No transition at all.
    let none = |states: u8| file(&[1, states, 0, 0, 1, 0, 0, 0]);
    assert!(read(&none(1)).is_ok());
    refused(&none(2), 17, 1);
    refused(&none(16), 17, 1);
}

/// In the chain state 0 leads to 1 at 10, and 14 to 15 at 150.
#[test]
fn number_17_comes_last() {
    let table = |limit, changes: &[(usize, u8)]| changed(&chain(16, 4, &[1, 0, limit]), changes);
    refused(&table(254, &[(11, 0)]), 17, 1);
    refused(&table(254, &[(151, 14)]), 17, 15);
    refused(&table(255, &[(11, 0)]), 16, 0);
    refused(&resized(&table(254, &[(11, 0)]), 161), 13, 160);
    refused(&resized(&table(254, &[(11, 0)]), 159), 13, 150);
    refused(&table(254, &[(11, 0), (152, 1)]), 14, 150);
    refused(&table(254, &[(11, 0), (157, 6)]), 15, 150);
}

fn parts() -> Table {
    read(&SMALL_MONITOR).unwrap()
}

fn writes(table: &Table, number: u64, value: u64) {
    let mut room = [0x5A; 100];
    assert_eq!(write(table, &mut room), answer(number, value, 0));
    assert_eq!(room, [0x5A; 100]);
    assert_eq!(write(table, &mut []), answer(number, value, 0));
}

#[test]
fn writing_counts_out_of_range() {
    writes(&Table { states: 0, ..parts() }, 12, 3);
    writes(&Table { variables: 5, kinds: Vec::new(), ..parts() }, 12, 4);
    writes(&Table { clocks: 3, ..parts() }, 12, 5);
    writes(&Table { kinds: Vec::new(), ..parts() }, 12, 6);
    writes(&Table { kinds: vec![Kind::default(); 289], ..parts() }, 12, 6);
    writes(&Table { transitions: vec![Transition::default(); 65], ..parts() }, 12, 7);
    writes(&Table { transitions: vec![Transition::default(); 256], ..parts() }, 12, 7);
}

#[test]
fn writing_records_out_of_range() {
    let with = |number: usize, guard: Vec<u8>| {
        let mut table = parts();
        table.transitions[number].guard = guard;
        table
    };
    writes(&with(0, Vec::new()), 15, 14);
    writes(&with(4, vec![0; 33]), 15, 57);
    // 257 does not pass for 1.
    writes(&with(4, vec![0; 257]), 15, 57);
    // A longer guard moves the records behind it.
    let mut table = with(0, vec![4, 4, 0]);
    table.transitions[1].guard = vec![9];
    writes(&table, 15, 24);
    // In its place: an earlier record's field comes first, a later one's does not.
    let mut table = with(2, Vec::new());
    table.transitions[3].from = 3;
    writes(&table, 15, 32);
    table.transitions[2].kind = 3;
    writes(&table, 14, 32);
    table.kinds[1].direction = 2;
    writes(&table, 14, 10);
}

#[test]
fn writing_too_many_situations() {
    let mut table = Table { states: 16, variables: 4, ..parts() };
    table.transitions[4].guard = vec![4, 1, 0, 255];
    writes(&table, 16, 0);
}

#[test]
fn writing_unreached_states() {
    writes(&Table { states: 4, ..parts() }, 17, 3);
    writes(&Table { transitions: Vec::new(), ..parts() }, 17, 1);
    let mut table = parts();
    table.transitions[2].to = 1;
    writes(&table, 17, 2);
}

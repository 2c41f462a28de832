//! Numbers 20 to 24, 30 and 31, with answers worked out by hand from the list.

mod common;

use common::{answer, chain, file, monitor_with, resized, verdict};
use lutarosa_reference::answer::Refusal;
use lutarosa_reference::edition::Edition;
use lutarosa_reference::papers::{recording, ACK, DATA, RETRY, SMALL_MONITOR};
use lutarosa_reference::recording::{read, write, Heard, Recording};
use lutarosa_reference::rewrite::rewrite_recording;
use lutarosa_reference::validate::validate;

fn refused_with(table: &[u8], bytes: &[u8], number: u64, value: usize) {
    let it = read(table, bytes).map(|it| it.1);
    assert_eq!(it, Err(Refusal::new(number, value)), "{bytes:02x?}");
    let mut room = [0x5A; 40];
    let expected = answer(number, value as u64, 0);
    assert_eq!(rewrite_recording(table, bytes, &mut room), expected);
    assert_eq!(validate(Edition::One, table, bytes, 9, &mut [], &mut room), expected.into());
    assert_eq!(room, [0x5A; 40]);
}

fn refused(bytes: &[u8], number: u64, value: usize) {
    refused_with(&SMALL_MONITOR, bytes, number, value);
}

fn heard(rows: &[(u16, u8)]) -> Recording {
    Recording { rows: rows.iter().map(|(time, kind)| Heard { time: *time, kind: *kind }).collect() }
}

#[test]
fn sound_bytes_come_back() {
    let rows = [(1, DATA), (3, ACK), (4_097, ACK), (65_535, RETRY)];
    let bytes = recording(&rows);
    assert_eq!(read(&SMALL_MONITOR, &bytes).unwrap().1, heard(&rows));
    let mut room = [0x5A; 18];
    assert_eq!(rewrite_recording(&SMALL_MONITOR, &bytes, &mut room), answer(0, 17, 0));
    assert_eq!(room[..17], bytes);
    assert_eq!(room[17], 0x5A);
    assert_eq!(rewrite_recording(&SMALL_MONITOR, &bytes, &mut room[..16]), answer(33, 17, 0));
}

#[test]
fn number_20_frame_and_21_version() {
    refused(&[], 20, 0);
    refused(&[0, 0], 20, 0);
    refused(&[0, 2, 1, 0], 20, 0);
    refused(&[0, 4, 1, 0, 0], 20, 0);
    refused(&[0, 3, 2, 9, 9], 21, 2);
    refused(&[0, 3, 0, 0, 0], 21, 2);
    refused(&vec![0; 70_000], 20, 0);
}

#[test]
fn number_22_count() {
    refused(&[0, 3, 1, 0, 1], 22, 3);
    refused(&file(&[1, 0, 0, 0]), 22, 3);
    refused(&file(&[1, 0, 1, 0, 1]), 22, 3);
    refused(&resized(&recording(&[(1, DATA)]), 9), 22, 3);
    refused(&recording(&vec![(1, DATA); 513]), 22, 3);
    // 512 rows may be there; the second overlaps the first.
    refused(&recording(&vec![(1, DATA); 512]), 24, 1);
    // 21,844 rows fill a length of 65,535, and the count is still too high.
    refused(&recording(&vec![(1, DATA); 21_844]), 22, 3);
}

#[test]
fn number_23_row_out_of_range() {
    refused(&recording(&[(0, DATA)]), 23, 0);
    refused(&recording(&[(1, DATA), (0, DATA)]), 23, 1);
    refused(&recording(&[(4_097, DATA), (65_535, 3)]), 23, 1);
    refused(&recording(&[(1, 3)]), 23, 0);
    refused(&recording(&[(1, DATA), (9, 255)]), 23, 1);
    // In one row 23 comes before 24; a 24 in an earlier row comes first.
    refused(&recording(&[(5, DATA), (1, 3)]), 23, 1);
    refused(&recording(&[(5, DATA), (1, DATA), (0, DATA)]), 24, 1);
}

#[test]
fn number_24_overlap() {
    refused(&recording(&[(1, DATA), (2, ACK)]), 24, 1);
    refused(&recording(&[(1, ACK), (1, ACK)]), 24, 1);
    refused(&recording(&[(1, ACK), (2, DATA), (3, ACK)]), 24, 2);
    refused(&recording(&[(7, ACK), (6, ACK)]), 24, 1);
    // DATA at 65,535 takes the air past the last time there is.
    refused(&recording(&[(65_535, DATA), (65_535, ACK)]), 24, 1);
    refused(&recording(&[(65_535, DATA), (1, ACK)]), 24, 1);
    refused(&recording(&[(65_534, DATA), (65_535, ACK)]), 24, 1);
    assert!(read(&SMALL_MONITOR, &recording(&[(65_533, DATA), (65_535, ACK)])).is_ok());
    assert!(read(&SMALL_MONITOR, &recording(&[(1, ACK), (2, DATA), (4, ACK)])).is_ok());
}

#[test]
fn the_table_comes_first() {
    refused_with(&monitor_with(&[(2, 9)]), &[], 11, 2);
    refused_with(&[], &recording(&[(0, 9)]), 10, 0);
    refused_with(&monitor_with(&[(3, 4)]), &[], 17, 3);
    refused_with(&monitor_with(&[(3, 4)]), &recording(&[(1, DATA)]), 17, 3);
}

#[test]
fn writing() {
    let mut room = [0x5A; 9];
    let mut put = |it: &Recording| write(&SMALL_MONITOR, it, &mut room);
    assert_eq!(put(&heard(&[(1, ACK); 513])), answer(22, 3, 0));
    assert_eq!(put(&heard(&[(1, ACK); 65_536])), answer(22, 3, 0));
    assert_eq!(put(&heard(&[(1, ACK), (2, 3)])), answer(23, 1, 0));
    assert_eq!(put(&heard(&[(1, ACK), (1, ACK)])), answer(24, 1, 0));
    assert_eq!(put(&heard(&[(1, ACK), (2, ACK)])), answer(33, 11, 0));
    assert_eq!(put(&heard(&[(258, ACK)])), answer(0, 8, 0));
    assert_eq!(room, [0, 6, 1, 0, 1, 1, 2, ACK, 0x5A]);
    let unsound = monitor_with(&[(20, 0)]);
    assert_eq!(write(&unsound, &heard(&[(0, 0)]), &mut room), answer(15, 14, 0));
    let unreached = monitor_with(&[(3, 4)]);
    assert_eq!(write(&unreached, &heard(&[(1, ACK); 513]), &mut room), answer(17, 3, 0));
}

/// T is 6 and n is 3: 7 sets of 6 bytes, and 5 + 5 x 9 of room.
#[test]
fn numbers_30_and_31() {
    let bytes = recording(&[(1, DATA), (3, ACK), (6, RETRY)]);
    let run = |scratch: usize, room: usize| {
        let (mut scratch, mut room) = (vec![0x5A; scratch], vec![0x5A; room]);
        let it = validate(Edition::One, &SMALL_MONITOR, &bytes, 13, &mut scratch, &mut room);
        let clean = scratch.iter().chain(&room).all(|byte| *byte == 0x5A);
        (it, clean)
    };
    assert_eq!(run(41, 0), (verdict(30, 42, 0), true));
    assert_eq!(run(0, 50), (verdict(30, 42, 0), true));
    assert_eq!(run(42, 49), (verdict(31, 50, 0), true));
    assert_eq!(run(42, 50), (verdict(0, 13, 3), false));
    // The budget is looked at only after them.
    let it = validate(Edition::One, &SMALL_MONITOR, &bytes, 0, &mut [0; 42], &mut [0; 49]);
    assert_eq!(it, verdict(31, 50, 0));
}

/// N 10 is not a multiple of 8: S is 2.
#[test]
fn a_set_is_rounded_up() {
    let table = chain(5, 0, &[0]);
    let empty = recording(&[]);
    let it = validate(Edition::One, &table, &empty, 0, &mut [0; 1], &mut [0; 5]);
    assert_eq!(it, verdict(30, 2, 0));
    let it = validate(Edition::One, &table, &empty, 0, &mut [0; 2], &mut [0; 5]);
    assert_eq!(it, verdict(0, 0, 0));
}

/// T is 4,096 or 4,097 and n is 1: T + 1 sets of 6 bytes. Past 4,096 no room is enough for edition 1,
/// and the scratch is looked at before it.
#[test]
fn numbers_30_and_31_around_edition_1s_last_time() {
    let run = |edition: Edition, last: u16, scratch: usize, room: usize| {
        let (mut scratch, mut room) = (vec![0x5A; scratch], vec![0x5A; room]);
        let bytes = recording(&[(last, ACK)]);
        let it = validate(edition, &SMALL_MONITOR, &bytes, 0, &mut scratch, &mut room);
        let clean = scratch.iter().chain(&room).all(|byte| *byte == 0x5A);
        (it, clean)
    };
    let exhausted = (verdict(2, 0, 1), false);
    assert_eq!(run(Edition::One, 4_096, 24_582, 20_490), exhausted);
    assert_eq!(run(Edition::One, 4_096, 24_582, 20_489), (verdict(31, 20_490, 0), true));
    assert_eq!(run(Edition::One, 4_096, 24_581, 20_490), (verdict(30, 24_582, 0), true));
    for room in [0, 5, 20_494, 20_495, 331_000] {
        assert_eq!(run(Edition::One, 4_097, 24_588, room), (verdict(31, 0, 0), true));
        assert_eq!(run(Edition::One, 4_097, 24_587, room), (verdict(30, 24_588, 0), true));
        assert_eq!(run(Edition::One, 65_535, 393_216, room), (verdict(31, 0, 0), true));
        assert_eq!(run(Edition::One, 65_535, 393_215, room), (verdict(30, 393_216, 0), true));
    }
    for (last, scratch, room) in
        [(4_096, 24_582, 20_494), (4_097, 24_588, 20_499), (65_535, 393_216, 327_689)]
    {
        let [wanted_scratch, wanted_room] = [scratch as u64, room as u64];
        assert_eq!(run(Edition::Two, last, scratch, room), exhausted);
        let short = (verdict(31, wanted_room, 0), true);
        assert_eq!(run(Edition::Two, last, scratch, room - 1), short);
        let short = (verdict(30, wanted_scratch, 0), true);
        assert_eq!(run(Edition::Two, last, scratch - 1, room - 1), short);
    }
}

//! Numbers 40 to 43, with answers worked out by hand from the rules.

mod common;

use common::{answer, file, monitor_with};
use lutarosa_reference::answer::{Answer, Refusal};
use lutarosa_reference::check::check_witness;
use lutarosa_reference::edition::Edition;
use lutarosa_reference::papers::{recording, ACK, DATA, RETRY, SMALL_MONITOR};
use lutarosa_reference::rewrite::rewrite_witness;
use lutarosa_reference::witness::{bytes_of, read, write, Row, Witness, ADDED, KEPT, REMOVED};

type Parts = (u8, u16, u8, u8);

fn witness(rows: &[Parts]) -> Witness {
    let row = |it: &Parts| Row { mark: it.0, time: it.1, kind: it.2, transition: it.3 };
    Witness { rows: rows.iter().map(row).collect() }
}

fn refused_in(edition: Edition, bytes: &[u8], number: u64, value: usize) {
    assert_eq!(read(edition, bytes), Err(Refusal::new(number, value)), "{edition:?}");
    let mut room = [0x5A; 40];
    assert_eq!(rewrite_witness(edition, bytes, &mut room), answer(number, value as u64, 0));
    assert_eq!(room, [0x5A; 40]);
}

fn refused(bytes: &[u8], number: u64, value: usize) {
    refused_in(Edition::One, bytes, number, value);
}

fn bad_form_in(edition: Edition, rows: &[Parts], row: u64) {
    refused_in(edition, &bytes_of(edition, &witness(rows)), 43, row as usize);
    assert_eq!(write(edition, &witness(rows), &mut []), answer(43, row, 0));
}

fn bad_form(rows: &[Parts], row: u64) {
    Edition::BOTH.into_iter().for_each(|edition| bad_form_in(edition, rows, row));
}

fn in_form_in(edition: Edition, rows: &[Parts]) {
    let it = witness(rows);
    assert_eq!(read(edition, &bytes_of(edition, &it)), Ok(it));
}

fn in_form(rows: &[Parts]) {
    Edition::BOTH.into_iter().for_each(|edition| in_form_in(edition, rows));
}

#[test]
fn numbers_40_to_42() {
    refused(&[], 40, 0);
    refused(&[0, 2, 1, 0], 40, 0);
    refused(&[0, 4, 1, 0, 0], 40, 0);
    refused(&vec![0; 70_000], 40, 0);
    refused(&[0, 3, 2, 0, 9], 41, 2);
    refused(&[0, 3, 1, 0, 1], 42, 3);
    refused(&file(&[1, 0, 1, 0, 0, 1, 0]), 42, 3);
    refused(&file(&[1, 0, 0, 0]), 42, 3);
    let many = |count| bytes_of(Edition::One, &witness(&vec![(ADDED, 1, 0, 0); count]));
    refused(&many(4_609), 42, 3);
    refused(&many(4_608), 43, 1);
}

/// Four bytes of length, version 2, four bytes of count.
#[test]
fn numbers_40_to_42_of_edition_2() {
    let refused = |bytes: &[u8], number, value| refused_in(Edition::Two, bytes, number, value);
    refused(&[], 40, 0);
    refused(&[0, 0, 0, 0], 40, 0);
    refused(&[0, 0, 0, 4, 2, 0, 0, 0], 40, 0);
    refused(&[0, 0, 0, 6, 2, 0, 0, 0, 0], 40, 0);
    refused(&[0, 0, 0, 4, 2, 0, 0, 0, 0], 40, 0);
    // The lower or the upper half of the length is right.
    refused(&[0, 1, 0, 5, 2, 0, 0, 0, 0], 40, 0);
    refused(&[255, 255, 0, 5, 2, 0, 0, 0, 0], 40, 0);
    refused(&vec![0; 70_000], 40, 0);
    // Its own bytes, as the other edition counts them.
    refused(&[0, 7, 2, 0, 0, 0, 0, 0, 0], 40, 0);
    refused(&[0, 3, 1, 0, 0], 40, 0);
    for version in [0, 1, 3, 255] {
        refused(&[0, 0, 0, 5, version, 9, 9, 9, 9], 41, 4);
    }
    refused(&[0, 0, 0, 5, 2, 0, 0, 0, 1], 42, 5);
    refused(&[0, 0, 0, 5, 2, 0, 1, 0, 0], 42, 5);
    refused(&[0, 0, 0, 5, 2, 1, 0, 0, 0], 42, 5);
    refused(&[0, 0, 0, 6, 2, 0, 0, 0, 0, 0], 42, 5);
    refused(&[0, 0, 0, 10, 2, 0, 1, 0, 1, 0, 0, 1, 0, 0], 42, 5);
    let many = |count| bytes_of(Edition::Two, &witness(&vec![(ADDED, 1, 0, 0); count]));
    refused(&many(4_609), 43, 1);
    refused(&many(65_535), 43, 1);
    refused(&many(65_536), 42, 5);
    refused(&many(70_000), 42, 5);
}

#[test]
fn times_past_edition_1s_last() {
    for time in [4_097, 4_098, 32_768, 65_534, 65_535] {
        bad_form_in(Edition::One, &[(KEPT, time, 0, 0)], 0);
        bad_form_in(Edition::One, &[(KEPT, 4_096, 0, 0), (ADDED, time, 0, 0)], 1);
        in_form_in(Edition::Two, &[(KEPT, time, 0, 0)]);
        in_form_in(Edition::Two, &[(KEPT, 4_096, 0, 0), (ADDED, time, 0, 0)]);
        bad_form_in(Edition::Two, &[(KEPT, time, 0, 0), (ADDED, 4_096, 0, 0)], 1);
    }
    bad_form(&[(KEPT, 4_096, 0, 0), (KEPT, 4_096, 0, 0)], 1);
}

#[test]
fn form_of_one_row() {
    bad_form(&[(3, 1, 0, 0)], 0);
    bad_form(&[(255, 1, 0, 0)], 0);
    bad_form(&[(KEPT, 0, 0, 0)], 0);
    bad_form(&[(REMOVED, 1, 0, 0)], 0);
    // Kind and transition may be any byte in a form.
    in_form(&[(KEPT, 1, 255, 255), (ADDED, 2, 200, 255), (REMOVED, 4_096, 99, 255)]);
}

#[test]
fn form_of_two_rows() {
    let at =
        |time, kind| [(KEPT, time, kind, 0), (REMOVED, time, kind, 255), (ADDED, time, kind, 0)];
    for first in at(2, 0) {
        for second in at(1, 0).into_iter().chain(at(2, 0)).chain(at(2, 1)) {
            bad_form(&[first, second], 1);
            bad_form(&[first, second, (KEPT, 3, 0, 0)], 1);
            bad_form(&[(KEPT, 1, 0, 0), first, second], 2);
        }
        for second in at(3, 0) {
            in_form(&[first, second]);
        }
    }
}

#[test]
fn writing() {
    let two = witness(&[(KEPT, 258, 3, 4), (REMOVED, 300, 5, 255)]);
    let mut room = [0x5A; 16];
    assert_eq!(write(Edition::One, &two, &mut room), answer(0, 15, 0));
    assert_eq!(room, [0, 13, 1, 0, 2, 0, 1, 2, 3, 4, 1, 1, 44, 5, 255, 0x5A]);
    assert_eq!(rewrite_witness(Edition::One, &room[..15], &mut [0; 14]), answer(33, 15, 0));
    let mut room = [0x5A; 20];
    assert_eq!(write(Edition::Two, &two, &mut room), answer(0, 19, 0));
    let head = [0, 0, 0, 15, 2, 0, 0, 0, 2];
    assert_eq!(room, [&head[..], &[0, 1, 2, 3, 4, 1, 1, 44, 5, 255, 0x5A]].concat()[..]);
    assert_eq!(rewrite_witness(Edition::Two, &room[..19], &mut [0; 18]), answer(33, 19, 0));
    for (count, refused) in [(4_609, [(42, 3), (43, 0)]), (65_537, [(42, 3), (42, 5)])] {
        let many = witness(&vec![(KEPT, 0, 0, 0); count]);
        for (edition, (number, value)) in Edition::BOTH.into_iter().zip(refused) {
            assert_eq!(write(edition, &many, &mut []), answer(number, value, 0));
        }
    }
}

/// The small monitor heard these rows, and is told this.
fn check_in(edition: Edition, heard: &[(u16, u8)], rows: &[Parts]) -> Answer {
    let told = bytes_of(edition, &witness(rows));
    check_witness(edition, &SMALL_MONITOR, &recording(heard), &told)
}

/// The same in either edition, where no time is past edition 1's last.
fn check(heard: &[(u16, u8)], rows: &[Parts]) -> Answer {
    let [one, two] = Edition::BOTH.map(|edition| check_in(edition, heard, rows));
    assert_eq!(one, two);
    one
}

const DATA_KEPT: Parts = (KEPT, 1, DATA, 0);

#[test]
fn accepted_witnesses() {
    assert_eq!(check(&[], &[]), answer(0, 0, 0));
    assert_eq!(check(&[(1, DATA)], &[DATA_KEPT]), answer(0, 0, 1));
    assert_eq!(check(&[(1, ACK)], &[(REMOVED, 1, ACK, 255)]), answer(0, 1, 1));
    // Rows after the last recorded time are permitted, up to the last time there is.
    let beyond = [DATA_KEPT, (ADDED, 4, ACK, 1), (ADDED, 4_096, DATA, 0)];
    assert_eq!(check(&[(1, DATA)], &beyond), answer(0, 2, 3));
}

/// With ACK at airtime 2, what is removed at 1 takes 2 and 3 as well; with airtime 0 it does not.
#[test]
fn removed_rows_take_their_airtime() {
    let added = |airtime: u8, time: u16| {
        let rows = witness(&[(REMOVED, 1, ACK, 255), (ADDED, time, DATA, 0)]);
        let table = monitor_with(&[(13, airtime)]);
        let told = bytes_of(Edition::One, &rows);
        check_witness(Edition::One, &table, &recording(&[(1, ACK)]), &told)
    };
    for (airtime, time) in [(2, 1), (2, 2), (2, 3), (0, 1), (15, 16)] {
        assert_eq!(added(airtime, time), answer(43, 1, 0), "{airtime} {time}");
    }
    for (airtime, time) in [(2, 4), (2, 9), (0, 2), (15, 17)] {
        assert_eq!(added(airtime, time), answer(0, 2, 2), "{airtime} {time}");
    }
}

/// DATA at 1 takes 2 as well, so ACK cannot have been on the air there.
#[test]
fn removed_rows_find_the_air_free() {
    let removed = |time: u16| {
        let rows = [(ADDED, 1, DATA, 0), (REMOVED, time, ACK, 255), (KEPT, 4, ACK, 1)];
        check(&[(time, ACK), (4, ACK)], &rows)
    };
    assert_eq!(removed(2), answer(43, 1, 0));
    assert_eq!(removed(3), answer(0, 2, 3));
}

/// What is removed takes the air and leaves the monitor as it was: ACK at 4 is still in time.
#[test]
fn removed_rows_leave_the_monitor_as_it_was() {
    let rows = [DATA_KEPT, (REMOVED, 3, ACK, 255), (KEPT, 4, ACK, 1)];
    assert_eq!(check(&[(1, DATA), (3, ACK), (4, ACK)], &rows), answer(0, 1, 3));
    let rows = [DATA_KEPT, (REMOVED, 3, ACK, 255), (KEPT, 5, ACK, 1)];
    assert_eq!(check(&[(1, DATA), (3, ACK), (5, ACK)], &rows), answer(43, 2, 0));
}

#[test]
fn number_43_accounts() {
    // Nothing breaks a rule, but rows are unaccounted for: the row count.
    assert_eq!(check(&[(1, DATA)], &[]), answer(43, 0, 0));
    assert_eq!(check(&[(1, DATA), (4, ACK)], &[DATA_KEPT]), answer(43, 1, 0));
    // A row of an earlier time is passed over.
    assert_eq!(check(&[(1, ACK)], &[(ADDED, 2, DATA, 0)]), answer(43, 0, 0));
    // A kept or removed row that is not the next one: time, kind, none left.
    assert_eq!(check(&[(2, DATA)], &[DATA_KEPT]), answer(43, 0, 0));
    assert_eq!(check(&[(1, ACK)], &[DATA_KEPT]), answer(43, 0, 0));
    assert_eq!(check(&[(1, DATA)], &[DATA_KEPT, (KEPT, 4, ACK, 1)]), answer(43, 1, 0));
    // Removed, but from the unit.
    assert_eq!(check(&[(1, DATA)], &[(REMOVED, 1, DATA, 255)]), answer(43, 0, 0));
    // Added at the time of an unaccounted one, which a removal behind it cannot mend.
    let behind = [(ADDED, 1, DATA, 0), (REMOVED, 1, ACK, 255)];
    assert_eq!(check(&[(1, ACK)], &behind), answer(43, 0, 0));
    // Added as what was recorded, instead of kept.
    assert_eq!(check(&[(1, DATA)], &[(ADDED, 1, DATA, 0)]), answer(43, 0, 0));
    // An added row before the recorded one is no trouble, but the end is.
    assert_eq!(check(&[(9, ACK)], &[(ADDED, 1, DATA, 0)]), answer(43, 1, 0));
}

#[test]
fn number_43_air_and_firing() {
    let heard = &[(1, DATA)];
    // DATA at 1 takes 2 as well; at 3 the air is free.
    assert_eq!(check(heard, &[DATA_KEPT, (ADDED, 2, ACK, 1)]), answer(43, 1, 0));
    assert_eq!(check(heard, &[DATA_KEPT, (ADDED, 3, ACK, 1)]), answer(0, 1, 2));
    // No such transition, another kind's, another state's.
    for transition in [5, 64, 255, 1, 2, 4] {
        assert_eq!(check(heard, &[(KEPT, 1, DATA, transition)]), answer(43, 0, 0));
    }
    // Guards: ACK at most 3 ticks after DATA, RETRY from 4 to 6.
    assert_eq!(check(heard, &[DATA_KEPT, (ADDED, 4, ACK, 1)]), answer(0, 1, 2));
    assert_eq!(check(heard, &[DATA_KEPT, (ADDED, 5, ACK, 1)]), answer(43, 1, 0));
    for (time, fires) in [(4, false), (5, true), (7, true), (8, false), (4_096, false)] {
        let it = check(heard, &[DATA_KEPT, (ADDED, time, RETRY, 2)]);
        assert_eq!(it, if fires { answer(0, 1, 2) } else { answer(43, 1, 0) });
    }
}

/// The first row that breaks any rule, of form or not.
#[test]
fn number_43_first_of_all_rules() {
    let late_form = [DATA_KEPT, (ADDED, 2, ACK, 1), (9, 9, 9, 9)];
    assert_eq!(check(&[(1, DATA)], &late_form), answer(43, 1, 0));
    let early_form = [(KEPT, 0, DATA, 0), (ADDED, 2, ACK, 1)];
    assert_eq!(check(&[(1, DATA)], &early_form), answer(43, 0, 0));
    let unknown_kind = [(ADDED, 1, 200, 0)];
    assert_eq!(check(&[], &unknown_kind), answer(43, 0, 0));
    assert_eq!(check(&[], &[(REMOVED, 1, 200, 255)]), answer(43, 0, 0));
}

/// A recording past edition 1's last time has no number of its own there.
#[test]
fn edition_1_of_a_late_recording() {
    let late = &[(1, DATA), (4_097, ACK)];
    let rows = [DATA_KEPT, (REMOVED, 4_097, ACK, 255)];
    assert_eq!(check_in(Edition::One, late, &rows), answer(43, 1, 0));
    assert_eq!(check_in(Edition::One, late, &rows[..1]), answer(43, 1, 0));
    assert_eq!(check_in(Edition::One, late, &[]), answer(43, 0, 0));
    assert_eq!(check_in(Edition::Two, late, &rows), answer(0, 1, 2));
    assert_eq!(check_in(Edition::Two, late, &rows[..1]), answer(43, 1, 0));
    let beyond = [DATA_KEPT, (ADDED, 4, ACK, 1), (ADDED, 65_535, DATA, 0)];
    assert_eq!(check_in(Edition::One, &late[..1], &beyond), answer(43, 2, 0));
    assert_eq!(check_in(Edition::Two, &late[..1], &beyond), answer(0, 2, 3));
}

/// Clocks read all ticks: ACK comes at most 3 after DATA, RETRY 4 to 6.
#[test]
fn clocks_and_air_at_late_times() {
    let told = |time, kind, transition| {
        check_in(Edition::Two, &[(1, DATA)], &[DATA_KEPT, (ADDED, time, kind, transition)])
    };
    for time in [255, 256, 257, 260, 4_096, 4_097, 4_099, 4_101, 8_193, 32_769, 65_535] {
        assert_eq!(told(time, ACK, 1), answer(43, 1, 0));
        assert_eq!(told(time, RETRY, 2), answer(43, 1, 0));
    }
    // DATA at 65,534 takes 65,535 as well; at 65,533 it is off the air by then.
    let acked = [DATA_KEPT, (ADDED, 4, ACK, 1)];
    let late = |data: u16, time: u16, kind, transition| {
        let rows =
            [&acked[..], &[(ADDED, data, DATA, 0), (ADDED, time, kind, transition)]].concat();
        check_in(Edition::Two, &[(1, DATA)], &rows)
    };
    assert_eq!(late(65_534, 65_535, ACK, 1), answer(43, 3, 0));
    assert_eq!(late(65_533, 65_535, ACK, 1), answer(0, 3, 4));
    assert_eq!(late(65_532, 65_535, ACK, 1), answer(0, 3, 4));
    assert_eq!(late(65_531, 65_535, ACK, 1), answer(43, 3, 0));
    assert_eq!(late(65_531, 65_535, RETRY, 2), answer(0, 3, 4));
    assert_eq!(late(65_529, 65_535, RETRY, 2), answer(0, 3, 4));
    assert_eq!(late(65_528, 65_535, RETRY, 2), answer(43, 3, 0));
}

#[test]
fn table_then_recording_then_witness() {
    let bad_witness = [0, 9];
    for edition in Edition::BOTH {
        let check = |table: &[u8], heard: &[u8]| check_witness(edition, table, heard, &bad_witness);
        assert_eq!(check(&monitor_with(&[(2, 0)]), &[]), answer(11, 2, 0));
        assert_eq!(check(&monitor_with(&[(3, 4)]), &[]), answer(17, 3, 0));
        assert_eq!(check(&SMALL_MONITOR, &[]), answer(20, 0, 0));
        assert_eq!(check(&SMALL_MONITOR, &recording(&[(0, DATA)])), answer(23, 0, 0));
        assert_eq!(check(&SMALL_MONITOR, &recording(&[(1, DATA)])), answer(40, 0, 0));
    }
}

//! The desk's program: how its input is cut up, and its lines.

mod common;

use common::{chain, file, monitor_with};
use lutarosa_reference::desk::{report, run};
use lutarosa_reference::papers::{recording, ACK, DATA, RETRY, SMALL_MONITOR};

fn input(table: &[u8], recording: &[u8], budget: u32) -> Vec<u8> {
    [table, recording, &budget.to_be_bytes()].concat()
}

fn lines(rows: &[(u16, u8)], budget: u32) -> String {
    report(&input(&SMALL_MONITOR, &recording(rows), budget))
}

#[test]
fn verdicts() {
    assert_eq!(lines(&[], 0), "accepted 0 0\n");
    assert_eq!(lines(&[(1, DATA)], 1), "accepted 1 1\nkept 1 0 0\n");
    assert_eq!(lines(&[(1, RETRY)], 1), "rejected 1 1 0 0\n");
    assert_eq!(lines(&[(1, DATA), (3, RETRY)], 3), "rejected 3 3 1 0\n");
    assert_eq!(lines(&[(1, DATA), (3, RETRY)], 2), "exhausted 2 3\n");
    let late = &[(1, DATA), (5, ACK), (6, ACK), (8, RETRY)];
    assert_eq!(lines(late, 16), "rejected 16 8 0 1\n");
    assert_eq!(lines(late, 15), "exhausted 15 8\n");
    assert_eq!(lines(&[(1, DATA), (5, ACK), (8, RETRY)], 20), "rejected 20 8 1 1\n");
    assert_eq!(lines(&[(1, DATA), (3, ACK), (6, RETRY)], 7), "exhausted 7 5\n");
    assert_eq!(lines(&[(1, DATA), (2, DATA)], 7), "refused 24 1\n");
    let unreached = input(&monitor_with(&[(3, 4)]), &recording(&[(1, DATA), (2, DATA)]), 7);
    assert_eq!(report(&unreached), "refused 17 3\n");
    let added = "accepted 5 3\nkept 1 0 0\nadded 3 2 1\nkept 4 0 0\n";
    assert_eq!(lines(&[(1, DATA), (4, DATA)], 5), added);
}

#[test]
fn too_few_and_too_many_bytes() {
    assert_eq!(report(&[]), "refused 5 0\n");
    assert_eq!(report(&[0; 3]), "refused 5 0\n");
    assert_eq!(report(&[0; 4]), "refused 10 0\n");
    assert_eq!(report(&[0; 8_192]), "refused 10 0\n");
    assert_eq!(report(&[0; 8_193]), "refused 6 0\n");
    assert_eq!(report(&[0; 70_000]), "refused 6 0\n");
}

#[test]
fn streams_are_read_to_one_past_the_limit() {
    let of = |bytes: &[u8]| {
        let mut output = Vec::new();
        run(bytes, &mut output).unwrap();
        String::from_utf8(output).unwrap()
    };
    assert_eq!(of(&[0; 8_193]), "refused 6 0\n");
    assert_eq!(of(&input(&SMALL_MONITOR, &recording(&[]), 0)), "accepted 0 0\n");
}

#[test]
fn the_table_is_what_its_length_states_or_all() {
    // One byte before the budget: no two length bytes, so it is all table.
    assert_eq!(report(&[7, 0, 0, 0, 0]), "refused 10 0\n");
    // A length past the end: all of it is table, and the length does not match.
    assert_eq!(report(&[0, 66, 1, 0, 0, 0, 0]), "refused 10 0\n");
    // Nothing after a sound table: the recording is empty.
    assert_eq!(report(&input(&SMALL_MONITOR, &[], 0)), "refused 20 0\n");
    // A byte after the recording belongs to it.
    let mut longer = recording(&[(1, DATA)]);
    longer.push(0);
    assert_eq!(report(&input(&SMALL_MONITOR, &longer, 9)), "refused 20 0\n");
}

/// 16 states, 4 variables, one clock with M 254: N is 65,536 and S is 8,192, so eight sets
/// are all the scratch there is.
#[test]
fn scratch_of_65_536() {
    let table = chain(16, 4, &[1, 0, 254]);
    let heard = |time| input(&table, &recording(&[(time, 0)]), 100_000);
    assert_eq!(report(&heard(8)), "refused 30 73728\n");
    assert!(report(&heard(7)).starts_with("accepted "));
}

/// The desk keeps edition 1, which is not written past 4,096, and its scratch, which is looked at
/// first. One state and one kind to the unit: N is 1 and S is 1. The small monitor's S is 6.
#[test]
fn last_times_past_4_096() {
    let table = file(&[1, 1, 0, 0, 1, 0, 1, 0]);
    let heard = |time, budget| report(&input(&table, &recording(&[(time, 0)]), budget));
    assert_eq!(heard(4_096, 4_096), "accepted 4096 1\nremoved 4096 0 255\n");
    assert_eq!(heard(4_096, 4_095), "exhausted 4095 4096\n");
    for time in [4_097, 4_608, 65_534, 65_535] {
        assert_eq!(heard(time, u32::MAX), "refused 31 0\n");
        assert_eq!(heard(time, 0), "refused 31 0\n");
    }
    assert_eq!(lines(&[(10_921, ACK)], 0), "refused 31 0\n");
    assert_eq!(lines(&[(10_922, ACK)], 0), "refused 30 65538\n");
    assert_eq!(lines(&[(65_535, ACK)], u32::MAX), "refused 30 393216\n");
    assert_eq!(lines(&[(65_535, DATA), (65_535, ACK)], u32::MAX), "refused 24 1\n");
}

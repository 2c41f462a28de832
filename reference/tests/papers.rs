//! P1 to P12, with every lent byte.

mod common;

use common::{answer, verdict};
use lutarosa_reference::answer::Verdict;
use lutarosa_reference::check::check_witness;
use lutarosa_reference::desk::report;
use lutarosa_reference::edition::Edition;
use lutarosa_reference::papers::{
    recording, ACK, DATA, PAPERS, RETRY, SMALL_MONITOR, SMALL_MONITOR_2,
};
use lutarosa_reference::validate::validate;

const DIRT: u8 = 0xC3;

/// Verdict, scratch and room.
type Outcome = (Verdict, Vec<u8>, Vec<u8>);

/// N is 48, so S is 6; (T+1) x 6 of scratch, and 5 + 5(T+n) or 9 + 5(T+n) of room.
fn run_in(edition: Edition, rows: &[(u16, u8)], budget: u32) -> Outcome {
    let last = rows.last().map_or(0, |row| usize::from(row.0));
    let head = if edition == Edition::One { 5 } else { 9 };
    let mut scratch = vec![DIRT; 6 * (last + 1) + 3];
    let mut room = vec![DIRT; head + 5 * (last + rows.len()) + 3];
    let it = validate(edition, &SMALL_MONITOR, &recording(rows), budget, &mut scratch, &mut room);
    (it, scratch, room)
}

fn run(rows: &[(u16, u8)], budget: u32) -> Outcome {
    run_in(Edition::One, rows, budget)
}

#[test]
fn twelve_recordings_get_the_stated_answers() {
    assert_eq!(PAPERS.len(), 14, "P6 and P12 are two each");
    for (paper, edition) in PAPERS.iter().flat_map(|it| Edition::BOTH.map(|by| (it, by))) {
        let (it, scratch, room) = run_in(edition, paper.rows, paper.budget);
        assert_eq!(it, paper.answer, "{}", paper.name);
        let witness = paper.witness(edition);
        assert_eq!(room[..witness.len()], witness, "{}", paper.name);
        assert!(room[witness.len()..].iter().all(|byte| *byte == DIRT), "{}", paper.name);
        let wanted = scratch.len() - 3;
        let kept = if it.number > 2 { 0 } else { wanted };
        assert!(scratch[..kept].iter().all(|byte| *byte == 0), "{}", paper.name);
        assert!(scratch[kept..].iter().all(|byte| *byte == DIRT), "{}", paper.name);
    }
}

/// P1 and P2 in edition 2, with the bytes written out.
#[test]
fn two_witnesses_of_edition_2() {
    let one = [0, 0, 0, 5, 2, 0, 0, 0, 0];
    assert_eq!(run_in(Edition::Two, &[], 0).2[..9], one);
    assert_eq!(PAPERS[0].witness(Edition::Two), one);
    let two = [0, 0, 0, 10, 2, 0, 0, 0, 1, 0, 0, 1, 0, 0];
    assert_eq!(run_in(Edition::Two, &[(1, DATA)], 1).2[..14], two);
    assert_eq!(PAPERS[1].witness(Edition::Two), two);
}

/// The budget shows each running total: it is exhausted one below and passed at it.
#[test]
fn works_of_p5_are_1_1_1_2_3_5() {
    let rows = &[(1, DATA), (3, ACK), (6, RETRY)];
    let totals = [1, 2, 3, 5, 8, 13];
    for (place, total) in totals.into_iter().enumerate() {
        let instant = place as u64 + 1;
        assert_eq!(run(rows, total - 1).0, verdict(2, u64::from(total) - 1, instant));
        let next = match totals.get(place + 1) {
            Some(_) => verdict(2, u64::from(total), instant + 1),
            None => verdict(0, 13, 3),
        };
        assert_eq!(run(rows, total).0, next);
    }
}

/// The rejecting instant's work counts, so one below the cost is exhausted there.
#[test]
fn rejection_at_its_cost_and_exhaustion_below() {
    let rows = &[(1, DATA), (3, DATA)];
    assert_eq!(run(rows, 3).0, verdict(1, 3, 3));
    assert_eq!(run(rows, 2).0, verdict(2, 2, 3));
    assert_eq!(run(rows, 0).0, verdict(2, 0, 1));
}

#[test]
fn nothing_recorded_costs_nothing_and_wants_one_set() {
    let mut scratch = [DIRT; 6];
    let mut room = [DIRT; 5];
    let empty = recording(&[]);
    let it = validate(Edition::One, &SMALL_MONITOR, &empty, 0, &mut scratch, &mut room);
    assert_eq!((it, scratch, room), (verdict(0, 0, 0), [0; 6], [0, 3, 1, 0, 0]));
}

#[test]
fn own_witnesses_are_accepted_and_the_empty_one_is_not() {
    for paper in PAPERS.iter().filter(|paper| paper.answer.number == 0) {
        let rows = paper.answer.third;
        for edition in Edition::BOTH {
            let witness = paper.witness(edition);
            let it = check_witness(edition, &SMALL_MONITOR, &paper.recording(), &witness);
            assert_eq!((it.number, it.third), (0, rows), "{}", paper.name);
        }
    }
    let heard = recording(&[(1, DATA)]);
    for edition in Edition::BOTH {
        let empty = PAPERS[0].witness(edition);
        assert_eq!(check_witness(edition, &SMALL_MONITOR, &heard, &empty), answer(43, 0, 0));
    }
}

#[test]
fn whole_output_of_p5() {
    for table in [&SMALL_MONITOR[..], &SMALL_MONITOR_2] {
        let input = [table, &PAPERS[4].recording(), &10_000u32.to_be_bytes()].concat();
        let lines = "accepted 13 3\nkept 1 0 0\nremoved 3 2 255\nkept 6 1 2\n";
        assert_eq!(report(&input), lines);
    }
}

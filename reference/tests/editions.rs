//! R-5 makes handovers longer: what was made for it, and how often the recorded cases tell it from
//! other rules.

mod before;
mod recorded;

use std::collections::BTreeMap;

use before::editions::{Other, AGAIN, OTHERS};
use lutarosa_reference::answer::{Answer, Verdict};
use lutarosa_reference::back::witness_back;
use lutarosa_reference::call::{Call, Outcome, ORDINARY};
use lutarosa_reference::cases::{MOST_IN_FILES, MOST_ROOM, MOST_SCRATCH};
use lutarosa_reference::check::check_witness;
use lutarosa_reference::desk::report;
use lutarosa_reference::edition::Edition;
use lutarosa_reference::generate::encode_witness;
use lutarosa_reference::longer::{files, handovers, parts, Handover};
use lutarosa_reference::parts::WitnessParts;
use lutarosa_reference::recording;
use lutarosa_reference::rewrite::rewrite_witness;
use lutarosa_reference::witness::{write, KEPT};
use lutarosa_reference::writing::{Parts, Writing};
use recorded::RECORDED;

fn told(other: &Other) -> [usize; 2] {
    let write = |it: &Writing, room: &mut [u8]| other.write(it, room);
    recorded::told(RECORDED.outcomes(), &other.engine, &RECORDED.witnesses, write)
}

#[test]
fn recorded_cases_tell_other_rules() {
    recorded::all_told(OTHERS.iter().map(|it| (it.name, it.told, told(it))));
}

#[test]
fn the_rule_written_again_is_the_same() {
    assert_eq!(told(&AGAIN), [0, 0]);
}

#[test]
fn recorded_cases_keep_within_what_the_batch_program_lends() {
    for [files, scratch, room] in &RECORDED.sizes {
        assert!(*files <= MOST_IN_FILES && *scratch <= MOST_SCRATCH && *room <= MOST_ROOM);
    }
}

/// Validations of each edition with T up to 4,096, past it, and at the last time there is.
#[test]
fn late_last_times_come_often() {
    let mut times = [[0; 3]; 2];
    for call in &RECORDED.calls {
        let Call::Validate { edition, table, recording, .. } = call else { continue };
        let Ok((_, heard)) = recording::read(table, recording) else { continue };
        let place = match heard.last_time() {
            4_090..=4_096 => 0,
            4_097..=4_103 => 1,
            65_530.. => 2,
            _ => continue,
        };
        times[usize::from(*edition == Edition::Two)][place] += 1;
    }
    println!("T 4,090 to 4,096, 4,097 to 4,103, 65,530 and more: {times:?}");
    assert!(times.iter().flatten().all(|times| *times >= 40));
}

/// The desk keeps edition 1 and its scratch.
#[test]
fn the_desk_with_late_last_times() {
    let (mut not_written, mut no_scratch) = (0, 0);
    for it in handovers().iter().filter(|it| it.is_late()) {
        let input = [&it.table[..], &it.recording(), &u32::MAX.to_be_bytes()].concat();
        assert!(RECORDED.desk.contains(&input), "{}", it.name);
        let lines = match it.answer.number {
            24 => "refused 24 1\n".to_string(),
            _ if it.scratch() > 65_536 => {
                no_scratch += 1;
                format!("refused 30 {}\n", it.scratch())
            }
            _ => {
                not_written += 1;
                "refused 31 0\n".to_string()
            }
        };
        assert_eq!(report(&input), lines, "{}", it.name);
    }
    assert!(not_written >= 5 && no_scratch >= 5, "{not_written}, {no_scratch}");
}

#[test]
fn witnesses_are_refused_as_is_said() {
    for it in files() {
        let mut room = vec![0x5A; it.bytes.len()];
        let answer = rewrite_witness(it.edition, &it.bytes, &mut room);
        match it.refusal {
            Some(refusal) => {
                assert_eq!(answer, refusal.into(), "{}", it.name);
                assert!(room.iter().all(|byte| *byte == 0x5A), "{}", it.name);
            }
            None => {
                assert_eq!(answer, Answer::new(0, it.bytes.len() as u64, 0), "{}", it.name);
                assert!(room == it.bytes, "{}", it.name);
            }
        }
    }
}

#[test]
fn parts_are_refused_as_is_said() {
    for it in parts() {
        let witness = it.parts.covered();
        let answer = write(it.edition, &witness, &mut []);
        let mut room = vec![0x5A; 9 + 5 * it.parts.rows.len().max(3)];
        let (back_answer, back) = witness_back(it.edition, &it.parts, &mut room);
        match it.refusal {
            Some(refusal) => {
                assert_eq!(answer, refusal.into(), "{}", it.name);
                assert_eq!(back_answer, answer, "{}", it.name);
                assert!(back == WitnessParts::default(), "{}", it.name);
                assert!(room.iter().all(|byte| *byte == 0x5A), "{}", it.name);
            }
            None => {
                let head = if it.edition == Edition::One { 5 } else { 9 };
                let wanted = head + 5 * u64::from(it.parts.count);
                assert_eq!(answer, Answer::new(33, wanted, 0), "{}", it.name);
                assert_eq!(back_answer, Answer::new(0, 0, 0), "{}", it.name);
                assert!(back == WitnessParts::of(&witness), "{}", it.name);
            }
        }
    }
}

fn run(it: &Handover, edition: Edition, budget: u32, scratch: usize, room: usize) -> Outcome {
    let (table, recording) = (it.table.clone(), it.recording());
    let (scratch, room) = (vec![0xC3; scratch], vec![0xC3; room]);
    Call::Validate { edition, table, recording, budget, scratch, room }.run(&ORDINARY)
}

/// The answer that is said, with every lent byte; at the cost, one below it, and a byte short.
fn judged_as_is_said(it: &Handover, edition: Edition) {
    let (scratch, room) = (it.scratch(), it.room(edition));
    let cost = it.answer.second;
    for budget in [u32::MAX, cost as u32] {
        let outcome = run(it, edition, budget, scratch + 3, room + 3);
        assert_eq!(outcome.answer, it.answer, "{}", it.name);
        let mut expected = vec![0xC3; room + 3];
        if it.answer.number == 0 {
            let bytes = encode_witness(edition, &it.witness);
            expected[..bytes.len()].copy_from_slice(&bytes);
        }
        assert!(outcome.room == expected, "{}", it.name);
        assert!(outcome.scratch == [&vec![0; scratch][..], &[0xC3; 3]].concat(), "{}", it.name);
    }
    // The last work is what the budget lacks, so it is exhausted at the last instant.
    let exhausted = Verdict::new(2, cost - 1, it.last_time() as u64);
    assert_eq!(run(it, edition, cost as u32 - 1, scratch, room).answer, exhausted, "{}", it.name);
    let short = Verdict::new(31, room as u64, 0);
    assert_eq!(run(it, edition, 0, scratch, room - 1).answer, short, "{}", it.name);
    let short = Verdict::new(30, scratch as u64, 0);
    assert_eq!(run(it, edition, 0, scratch - 1, 0).answer, short, "{}", it.name);
}

#[test]
fn handovers_are_judged_as_is_said() {
    for it in handovers() {
        if it.answer.number == 24 {
            for edition in Edition::BOTH {
                assert_eq!(run(&it, edition, 9, 9, 9).answer, it.answer, "{}", it.name);
            }
            continue;
        }
        judged_as_is_said(&it, Edition::Two);
        if !it.is_late() {
            judged_as_is_said(&it, Edition::One);
            continue;
        }
        for room in [0, 5, 23_045, 331_000] {
            let refused = |short: usize| run(&it, Edition::One, 0, it.scratch() - short, room);
            assert_eq!(refused(0).answer, Verdict::new(31, 0, 0), "{}", it.name);
            assert!(refused(0).room.iter().chain(&refused(0).scratch).all(|byte| *byte == 0xC3));
            assert_eq!(refused(1).answer, Verdict::new(30, it.scratch() as u64, 0), "{}", it.name);
        }
    }
}

#[test]
fn their_witnesses_are_permitted() {
    for it in handovers().iter().filter(|it| it.answer.number == 0) {
        let rows = &it.witness.rows;
        let guessed = rows.iter().filter(|row| row.mark != KEPT).count() as u64;
        let check = |edition: Edition| {
            let witness = encode_witness(edition, &it.witness);
            check_witness(edition, &it.table, &it.recording(), &witness)
        };
        assert_eq!(check(Edition::Two), Answer::new(0, guessed, rows.len() as u64), "{}", it.name);
        let in_1 = match rows.iter().position(|row| row.time > 4_096) {
            // Too many for two bytes of length.
            _ if rows.len() > 13_106 => Answer::new(40, 0, 0),
            Some(late) => Answer::new(43, late as u64, 0),
            None => check(Edition::Two),
        };
        assert_eq!(check(Edition::One), in_1, "{}", it.name);
    }
}

/// How often each number was answered to what has this name.
type Numbers = BTreeMap<(&'static str, u64), usize>;

fn often(answered: &Numbers, name: &'static str, numbers: &[u64]) {
    for number in numbers {
        let times = answered.get(&(name, *number)).copied().unwrap_or(0);
        assert!(times >= 20, "{name}: {number} x {times}");
    }
}

#[test]
fn every_number_comes_often_in_either_edition() {
    let mut answered = Numbers::new();
    for (call, outcome) in RECORDED.outcomes() {
        *answered.entry((call.name(), outcome.answer.number)).or_default() += 1;
    }
    for name in ["validate", "validate, edition 2"] {
        often(&answered, name, &[0, 1, 2, 30, 31]);
    }
    for name in ["check", "check, edition 2"] {
        often(&answered, name, &[0, 40, 41, 42, 43]);
    }
    for name in ["rewrite witness", "rewrite witness, edition 2"] {
        often(&answered, name, &[0, 33, 40, 41, 42, 43]);
    }
}

#[test]
fn every_number_comes_often_in_writing_either_edition() {
    let mut answered = Numbers::new();
    for it in &RECORDED.witnesses {
        let Parts::Witness(edition, _) = it.parts else { unreachable!("witnesses alone") };
        let name = match (edition, it.back) {
            (Edition::One, false) => "write",
            (Edition::One, true) => "write and read back",
            (Edition::Two, false) => "write, edition 2",
            (Edition::Two, true) => "write and read back, edition 2",
        };
        let answer = it.run(&mut vec![0; it.room]).0;
        *answered.entry((name, answer.number)).or_default() += 1;
    }
    for name in ["write", "write, edition 2"] {
        often(&answered, name, &[0, 33, 42, 43]);
    }
    for name in ["write and read back", "write and read back, edition 2"] {
        often(&answered, name, &[0, 42, 43]);
    }
}

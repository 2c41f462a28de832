//! R-3 leaves fewer mutation traces: how often the recorded cases tell it from the rules before it
//! and from itself half made.

mod before;
mod recorded;

use std::collections::BTreeMap;

use before::air::{BEFORE, NEEDS_NO_AIR, NOW, TAKES_NO_AIR};
use lutarosa_reference::answer::{Answer, Verdict};
use lutarosa_reference::brute::{counts, first_dead_instant, possible_before, works};
use lutarosa_reference::call::{Call, Engine, Outcome, ORDINARY};
use lutarosa_reference::edition::Edition;
use lutarosa_reference::narrowed::{CHECKED, NARROWED};
use lutarosa_reference::papers::RETRY;
use lutarosa_reference::recording::read;
use lutarosa_reference::rule::Rule;
use lutarosa_reference::witness::{read_rows, REMOVED};
use recorded::RECORDED;

const LEAST: usize = 20;

const REJECTED: &str = "accepted before, rejected now";
const OTHER_VERDICT: &str = "another verdict otherwise";
const OTHER_COST: &str = "same verdict, another cost";
const OTHER_WITNESS: &str = "accepted in both, another witness";
const SAME_TIME: &str = "check: two rows at one time";
const IN_REMOVED: &str = "check: a row in the airtime of a removed one";
const REMOVED_IN: &str = "check: a removed row in the airtime of another";

type Tally = BTreeMap<&'static str, usize>;

/// How the recorded cases differ under other rules.
fn tally(other: &Engine) -> Tally {
    let mut tally = Tally::new();
    for (call, now) in RECORDED.usual() {
        let before = call.run(other);
        if before != *now {
            *tally.entry(call.name()).or_default() += 1;
        }
        for name in differences(call, &before, now) {
            *tally.entry(name).or_default() += 1;
        }
    }
    tally.iter().for_each(|(name, times)| println!("{times} x {name}"));
    tally
}

fn differences(call: &Call, before: &Outcome, now: &Outcome) -> Vec<&'static str> {
    let (old, new) = (before.answer, now.answer);
    match call {
        Call::Validate { .. } => {
            let verdict = match (old.number, new.number) {
                (0, 1) => Some(REJECTED),
                (old, new) => (old != new).then_some(OTHER_VERDICT),
            };
            let cost = (old.number == new.number && old.second != new.second).then_some(OTHER_COST);
            let witness = (old.number == 0 && new.number == 0 && before.room != now.room)
                .then_some(OTHER_WITNESS);
            [verdict, cost, witness].into_iter().flatten().collect()
        }
        Call::Check { edition, witness, .. } if (old.number, new.number) == (0, 43) => {
            vec![reason(*edition, witness, new.second as usize)]
        }
        _ => Vec::new(),
    }
}

/// Why a witness is refused at this row that was permitted before. All rows before it are a packet
/// trace, so it meets the one just before it.
fn reason(edition: Edition, witness: &[u8], place: usize) -> &'static str {
    let rows = read_rows(edition, witness).expect("43 comes after it").rows;
    match (rows[place - 1], rows[place]) {
        (before, row) if before.time == row.time => SAME_TIME,
        (_, row) if row.mark == REMOVED => REMOVED_IN,
        _ => IN_REMOVED,
    }
}

fn often(tally: &Tally, name: &str) {
    let times = tally.get(name).copied().unwrap_or(0);
    assert!(times >= LEAST, "{name}: {times}");
}

#[test]
fn recorded_cases_tell_the_rules_before() {
    let tally = tally(&BEFORE);
    for name in [REJECTED, OTHER_COST, OTHER_WITNESS, SAME_TIME, IN_REMOVED, REMOVED_IN] {
        often(&tally, name);
    }
    often(&tally, "rewrite witness");
}

#[test]
fn recorded_cases_tell_rules_half_made() {
    for (engine, check) in [(NEEDS_NO_AIR, REMOVED_IN), (TAKES_NO_AIR, IN_REMOVED)] {
        let tally = tally(&engine);
        for name in [REJECTED, OTHER_COST, check] {
            often(&tally, name);
        }
    }
}

#[test]
fn the_rules_written_again_are_the_same() {
    assert_eq!(tally(&NOW), Tally::new());
}

/// Two rows never share an instant, so there are at most T of them.
#[test]
fn preferred_witnesses_have_at_most_a_row_an_instant() {
    for (call, outcome) in RECORDED.outcomes() {
        let Call::Validate { table, recording, .. } = call else { continue };
        let Verdict { number: 0, third: rows, .. } = outcome.answer else { continue };
        let (_, heard) = read(table, recording).expect("accepted");
        assert!(rows <= heard.last_time() as u64);
    }
}

#[test]
fn recordings_accepted_before_and_rejected_now() {
    for it in NARROWED {
        let (table, recording) = (it.table(), it.recording());
        let edition = Edition::One;
        let validation = Call::Validate {
            edition,
            table: table.clone(),
            recording: recording.clone(),
            budget: 10_000,
            scratch: vec![0; 42],
            room: vec![0; 45],
        };
        let (parts, heard) = read(&table, &recording).expect("sound");
        assert_eq!(first_dead_instant(Rule::NONE, &parts, &heard), Some(it.now.third));
        assert_eq!(works(Rule::NONE, &parts, &heard).iter().sum::<u64>(), it.now.second);
        let instant = it.now.third as u32;
        let possible = possible_before(Rule::NONE, &parts, &heard, instant);
        assert_eq!(counts(&parts, &possible, instant, RETRY), it.now.counts);
        let check = Call::Check { edition, table, recording, witness: it.witness.to_vec() };
        let now = validation.run(&ORDINARY);
        assert_eq!((now.answer, now.room), (it.now, vec![0; 45]));
        assert_eq!(check.run(&ORDINARY).answer, CHECKED.into());
        let before = validation.run(&BEFORE);
        assert_eq!((before.answer, &before.room[..20]), (it.before, it.witness));
        assert_eq!(check.run(&BEFORE).answer, Answer::new(0, 2, 3).into());
    }
}

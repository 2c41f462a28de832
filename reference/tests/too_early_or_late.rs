//! R-10 counts what was too early and too late: what was made for it, and how often the recorded
//! cases tell it from other rules.

mod before;
mod recorded;

use std::mem::offset_of;

use before::counts::{Other, AGAIN, OTHERS};
use lutarosa_reference::answer::{Counts, Verdict};
use lutarosa_reference::brute::judge_long;
use lutarosa_reference::call::{Call, ORDINARY};
use lutarosa_reference::counted::{recordings, Counted};
use lutarosa_reference::desk::report;
use lutarosa_reference::edition::Edition;
use lutarosa_reference::generate::learn;
use lutarosa_reference::recording::read;
use lutarosa_reference::rule::Rule;
use recorded::RECORDED;

const LEAST: usize = 20;
/// More pairs take long with so many rules.
const MOST_PAIRS: u64 = 3_000;
/// The same of real monitors.
const MOST_MONITORS: usize = 2_000;

/// The recorded validations that were not refused.
fn validations() -> impl Iterator<Item = (&'static [u8], &'static [u8], Verdict)> {
    RECORDED.outcomes().filter_map(|(call, outcome)| match call {
        Call::Validate { table, recording, .. } if outcome.answer.number <= 2 => {
            Some((&table[..], &recording[..], outcome.answer))
        }
        _ => None,
    })
}

fn told(other: &Other) -> usize {
    let few = |it: &Counts| it.not_yet + it.no_more <= MOST_PAIRS;
    validations()
        .filter(|(table, recording, now)| {
            few(&now.counts) && other.rule.judge(table, recording, *now) != *now
        })
        .count()
}

#[test]
fn recorded_cases_tell_other_rules() {
    recorded::all_told(OTHERS.iter().map(|it| (it.name, [LEAST, 0], [told(it), 0])));
}

#[test]
fn the_rule_written_again_is_the_same() {
    assert_eq!(told(&AGAIN), 0);
}

#[test]
fn counts_come_often_and_some_are_large() {
    let counts = |it: Verdict| (it.number == 1).then_some(it.counts);
    let rejected: Vec<Counts> = validations().filter_map(|it| counts(it.2)).collect();
    let times = |of: fn(&Counts) -> bool| rejected.iter().filter(|it| of(it)).count();
    let often = [
        ("not yet", 400, times(|it| it.not_yet > 0)),
        ("no more", 400, times(|it| it.no_more > 0)),
        ("both", 200, times(|it| it.not_yet > 0 && it.no_more > 0)),
        ("neither", LEAST, times(|it| *it == Counts::default())),
        ("more than 100 of each", 80, times(|it| it.not_yet > 100 && it.no_more > 100)),
        ("more than 1,000 of each", LEAST, times(|it| it.not_yet > 1_000 && it.no_more > 1_000)),
    ];
    for (name, least, times) in often {
        println!("{name}: {times} of {}", rejected.len());
        assert!(times >= least, "{name}: {times}");
    }
}

/// Every call that is no validation, or one that is not rejected, has none.
#[test]
fn nothing_else_is_counted() {
    for (call, outcome) in RECORDED.outcomes() {
        let rejection = matches!(call, Call::Validate { .. }) && outcome.answer.number == 1;
        assert!(rejection || outcome.answer.counts == Counts::default(), "{}", call.name());
    }
}

/// Behind the row before it, idling leaves the air free, and then a row to the unit is removed.
#[test]
fn rejected_rows_are_from_the_unit() {
    for (table, recording, verdict) in validations().filter(|it| it.2.number == 1) {
        let (table, heard) = read(table, recording).expect("sound");
        let row = heard.rows.iter().find(|row| u64::from(row.time) == verdict.third);
        assert!(row.is_some_and(|row| !table.to_unit(row.kind)));
    }
}

fn judged(it: &Counted, edition: Edition, budget: u64) -> Verdict {
    let (table, recording) = (it.table.clone(), it.recording());
    let wanted = learn(edition, &table, &recording);
    let (scratch, room) = (vec![0xC3; wanted.scratch], vec![0xC3; wanted.room]);
    let budget = budget as u32;
    let outcome =
        Call::Validate { edition, table, recording, budget, scratch, room }.run(&ORDINARY);
    assert!(outcome.scratch.iter().all(|byte| *byte == 0), "{}", it.name);
    assert!(outcome.room.iter().all(|byte| *byte == 0xC3), "{}", it.name);
    outcome.answer
}

#[test]
fn recordings_are_counted_as_is_said() {
    for it in recordings() {
        let Verdict { second: cost, third: instant, .. } = it.verdict;
        let late = it.last_time() > 4_096;
        for edition in if late { &[Edition::Two][..] } else { &Edition::BOTH } {
            for budget in [u32::MAX.into(), cost] {
                assert_eq!(judged(&it, *edition, budget), it.verdict, "{}", it.name);
            }
            let exhausted = Verdict::new(2, cost - 1, instant);
            assert_eq!(judged(&it, *edition, cost - 1), exhausted, "{}", it.name);
        }
    }
}

/// By real monitors, whose clocks have no upper limit, and by the waits at which guards change.
#[test]
fn recordings_are_counted_so_a_second_time() {
    let mut judged = 0;
    for it in recordings().iter().filter(|it| it.last_time() < 1_000) {
        let (table, heard) = read(&it.table, &it.recording()).expect("sound");
        let truth = judge_long(Rule::NONE, &table, &heard, MOST_MONITORS).expect("few monitors");
        let (instant, counts) = truth.dead.expect("rejected");
        let again = Verdict::rejected(truth.works.iter().sum(), instant, counts);
        assert_eq!(again, it.verdict, "{}", it.name);
        judged += 1;
    }
    assert!(judged > 100);
}

/// As the C interface lays it out.
#[test]
fn a_verdict_is_five_numbers_in_a_row() {
    assert_eq!(size_of::<Verdict>(), 40);
    let places = [
        offset_of!(Verdict, number),
        offset_of!(Verdict, second),
        offset_of!(Verdict, third),
        offset_of!(Verdict, counts.not_yet),
        offset_of!(Verdict, counts.no_more),
    ];
    assert_eq!(places, [0, 8, 16, 24, 32]);
}

/// The desk has the counts behind the instant.
#[test]
fn the_desk_prints_them() {
    for it in recordings() {
        let input = [&it.table[..], &it.recording(), &u32::MAX.to_be_bytes()].concat();
        let scratch = learn(Edition::Two, &it.table, &it.recording()).scratch;
        let Verdict { second, third, counts, .. } = it.verdict;
        let line = match it.last_time() {
            _ if scratch > 65_536 => format!("refused 30 {scratch}\n"),
            4_097.. => "refused 31 0\n".to_string(),
            _ => format!("rejected {second} {third} {} {}\n", counts.not_yet, counts.no_more),
        };
        assert_eq!(report(&input), line, "{}", it.name);
    }
}

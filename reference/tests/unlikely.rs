//! R-7 leaves fewer mutation traces: what was made for it, and how often the recorded cases tell it
//! from other rules.

mod before;
mod recorded;

use before::guesses::{Other, AGAIN, OTHERS};
use lutarosa_reference::answer::{Answer, Counts, Verdict};
use lutarosa_reference::brute::{expected_check, judge_long, rule_refused};
use lutarosa_reference::call::{Call, Outcome, ORDINARY};
use lutarosa_reference::check::{check_rule, check_witness};
use lutarosa_reference::edition::Edition;
use lutarosa_reference::generate::{encode_table, encode_witness, learn, learn_under};
use lutarosa_reference::limits::{sized, IN_RANGE, OUT_OF_RANGE, WIDTHS};
use lutarosa_reference::papers::{recording, DATA, PAPERS, RETRY, SMALL_MONITOR};
use lutarosa_reference::recording::read;
use lutarosa_reference::rule::Rule;
use lutarosa_reference::situation::Space;
use lutarosa_reference::unlikely::{forced, open, spans};
use lutarosa_reference::validate::validate_rule;
use lutarosa_reference::witness::{Row, Witness, ADDED, KEPT};
use recorded::RECORDED;

const LEAST: usize = 20;
/// More situations take long with so many rules.
const MOST_COST: u64 = 2_000;
const MOST_MONITORS: usize = 2_000;

fn ruled() -> impl Iterator<Item = (&'static Call, &'static Outcome)> {
    RECORDED.outcomes_under_rules().filter(|(call, outcome)| {
        call.budget().is_none() || outcome.answer.number > 1 || outcome.answer.second <= MOST_COST
    })
}

fn told(other: &Other) -> usize {
    ruled().filter(|(call, outcome)| call.run(&other.engine) != **outcome).count()
}

#[test]
fn recorded_cases_tell_other_rules() {
    recorded::all_told(OTHERS.iter().map(|it| (it.name, [LEAST, 0], [told(it), 0])));
}

#[test]
fn the_rule_written_again_is_the_same() {
    assert_eq!(told(&AGAIN), 0);
}

/// A validation with all that is wanted, and its witness.
fn judged(edition: Edition, rule: Rule, table: &[u8], heard: &[u8], budget: u32) -> Outcome {
    let wanted = learn_under(rule, edition, table, heard);
    let (table, recording) = (table.to_vec(), heard.to_vec());
    let (scratch, room) = (vec![0xC3; wanted.scratch], vec![0xC3; wanted.room]);
    Call::ValidateRule { edition, rule, table, recording, budget, scratch, room }.run(&ORDINARY)
}

#[test]
fn forced_guesses_are_judged_as_is_said() {
    let (mut accepted, mut rejected) = (0, 0);
    for it in forced() {
        let base = learn(Edition::Two, &it.table, &it.recording());
        let told = encode_witness(Edition::Two, &it.witness);
        assert_eq!(base.preferred.as_ref(), Some(&told), "{}", it.name);
        for edition in Edition::BOTH {
            let cost = it.verdict.second as u32;
            for budget in [u32::MAX, cost] {
                let outcome = judged(edition, it.rule, &it.table, &it.recording(), budget);
                assert_eq!(outcome.answer, it.verdict, "{}", it.name);
                let told = encode_witness(edition, &it.witness);
                let written = if it.verdict.number == 0 { told.len() } else { 0 };
                assert_eq!(outcome.room[..written], told[..written], "{}", it.name);
                assert!(outcome.room[written..].iter().all(|byte| *byte == 0xC3), "{}", it.name);
            }
            if let Some(less) = cost.checked_sub(1) {
                let outcome = judged(edition, it.rule, &it.table, &it.recording(), less);
                assert_eq!((outcome.answer.number, outcome.answer.second), (2, less.into()));
            }
            let told = encode_witness(edition, &it.witness);
            let answer = check_rule(edition, it.rule, &it.table, &it.recording(), &told);
            match it.broken {
                Some(row) => assert_eq!(answer, Answer::new(43, row as u64, 0), "{}", it.name),
                None => assert_eq!((answer.number, answer.third), (0, it.verdict.third)),
            }
        }
        accepted += usize::from(it.verdict.number == 0);
        rejected += usize::from(it.verdict.number == 1);
        assert_eq!(it.broken.is_some(), it.verdict.number == 1, "{}", it.name);
    }
    assert!(accepted > 300 && rejected > 100, "{accepted} {rejected}");
}

/// By real monitors with their last rows.
#[test]
fn what_was_made_is_judged_so_a_second_time() {
    for it in forced() {
        let (table, heard) = read(&it.table, &it.recording()).expect("sound");
        let truth = judge_long(it.rule, &table, &heard, MOST_MONITORS).expect("few monitors");
        let cost: u64 = truth.works.iter().sum();
        let again = match truth.dead {
            Some((instant, counts)) => Verdict::rejected(cost, instant, counts),
            None => Verdict::new(0, cost, it.witness.rows.len() as u64),
        };
        assert_eq!(again, it.verdict, "{}", it.name);
    }
    for it in spans() {
        let (table, heard) = read(&it.table, &it.recording()).expect("sound");
        let answer = expected_check(Edition::One, it.rule, &table, &heard, &it.witness);
        assert_eq!(answer.number == 43, it.broken.is_some(), "{}", it.name);
    }
}

#[test]
fn windows_are_counted_as_is_said() {
    for it in open() {
        let cost: u64 = it.works.iter().sum();
        for edition in Edition::BOTH {
            let outcome = judged(edition, it.rule, &it.table, &it.recording(), u32::MAX);
            assert_eq!(outcome.answer, Verdict::new(0, cost, 1), "{}", it.name);
            let rows = vec![Row { mark: KEPT, time: it.time, kind: 0, transition: 0 }];
            let told = encode_witness(edition, &Witness { rows });
            assert_eq!(outcome.room[..told.len()], told, "{}", it.name);
        }
        let (table, heard) = read(&it.table, &it.recording()).expect("sound");
        let truth = judge_long(it.rule, &table, &heard, MOST_MONITORS).expect("few monitors");
        assert_eq!(truth.works, it.works, "{}", it.name);
    }
}

#[test]
fn one_guess_more_in_a_window_is_too_many() {
    for it in spans() {
        for edition in Edition::BOTH {
            let told = encode_witness(edition, &it.witness);
            let without = check_witness(edition, &it.table, &it.recording(), &told);
            assert_eq!((without.number, without.third), (0, it.witness.rows.len() as u64));
            let answer = check_rule(edition, it.rule, &it.table, &it.recording(), &told);
            let broken = it.broken.map(|row| Answer::new(43, row as u64, 0));
            assert_eq!(answer, broken.unwrap_or(without), "{}", it.name);
        }
    }
}

/// P10 needs an ACK at 3, and P8 a RETRY at 7; the small monitor has DATA from the unit and ACK
/// from device 1.
#[test]
fn the_papers_recordings_under_rules() {
    let of = |rows: &[(u16, u8)], rule: Rule| {
        judged(Edition::One, rule, &SMALL_MONITOR, &recording(rows), 10_000).answer
    };
    let p10 = [(1, DATA), (4, DATA)];
    let p8 = [(1, DATA), (12, DATA)];
    assert_eq!(of(&p10, Rule::new(1, 1, 1)).number, 0);
    // ACK can be added at 3 alone. Before instant 4 the clock reads 3 without it, and no
    // transition on DATA leaves state 1.
    assert_eq!(of(&p10, Rule::new(1, 1, 0)), Verdict::new(1, 4, 4));
    assert_eq!(of(&p10, Rule::new(1, 8, 0)), Verdict::new(1, 4, 4));
    assert_eq!(of(&p10, Rule::new(0, 1, 0)).number, 0);
    assert_eq!(of(&p10, Rule::new(15, 1, 0)).number, 0);
    // Where RETRY may not be guessed, ACK is, at 3 or 4.
    let p8_without_retry =
        judged(Edition::One, Rule::new(0, 1, 0), &SMALL_MONITOR, &recording(&p8), 10_000);
    assert_eq!((p8_without_retry.answer.number, p8_without_retry.answer.third), (0, 3));
    assert_eq!(p8_without_retry.room[10..15], [ADDED, 0, 4, 2, 1]);
    // RETRY has no way round DATA, which comes from the unit too.
    assert_eq!(of(&[(6, RETRY)], Rule::new(0, 1, 0)), Verdict::new(1, 6, 6));
    assert_eq!(of(&[(6, RETRY)], Rule::new(1, 1, 0)).number, 0);
    assert_eq!(of(&[(6, RETRY)], Rule::new(0, 2, 1)).number, 0);
}

/// Whatever the rule's device, one row with one guess in it forbids nothing.
#[test]
fn a_window_of_one_guess_is_no_rule() {
    for (call, outcome) in RECORDED.usual() {
        let (ruled, device) = match call.clone() {
            Call::Validate { edition, table, recording, budget, scratch, room } => {
                let device = (table.len() % 16) as u8;
                let rule = Rule::new(device, 1, 1);
                (
                    Call::ValidateRule { edition, rule, table, recording, budget, scratch, room },
                    device,
                )
            }
            Call::Check { edition, table, recording, witness } => {
                let device = (witness.len() % 16) as u8;
                let rule = Rule::new(device, 1, 1);
                (Call::CheckRule { edition, rule, table, recording, witness }, device)
            }
            _ => continue,
        };
        assert_eq!(ruled.run(&ORDINARY), *outcome, "device {device}");
    }
}

#[test]
fn rules_out_of_range_are_refused() {
    let heard = recording(&[(1, DATA)]);
    let asked = |rule: Rule, table: &[u8]| {
        let lent = (&mut [][..], &mut [][..]);
        validate_rule(Edition::One, rule, table, &heard, 9, lent.0, lent.1)
    };
    for rule in OUT_OF_RANGE {
        assert_eq!(asked(rule, &SMALL_MONITOR), Verdict::new(25, 0, 0), "{rule:?}");
        let answer = check_rule(Edition::Two, rule, &SMALL_MONITOR, &heard, &[]);
        assert_eq!(answer, Answer::new(25, 0, 0), "{rule:?}");
    }
    for rule in IN_RANGE {
        // T is 1, and S is 6 for each window.
        let wanted = 2 * 6 * (1 << (rule.window - 1));
        assert_eq!(asked(rule, &SMALL_MONITOR), Verdict::new(30, wanted, 0), "{rule:?}");
    }
    for device in 0..=255 {
        for window in [0, 1, 2, 3, 4, 5, 6, 7, 8, 9, 10, 100, 254, 255] {
            for most in [0, 1, 2, 3, 4, 5, 6, 7, 8, 9, 10, 100, 254, 255] {
                let rule = Rule::new(device, window, most);
                let expected = rule_refused(rule, 48).unwrap_or(30);
                assert_eq!(asked(rule, &SMALL_MONITOR).number, expected, "{rule:?}");
            }
        }
    }
}

#[test]
fn windows_are_as_long_as_n_has_place_for() {
    let heard = recording(&[(1, 0)]);
    for (states, variables, bounds, situations, longest) in WIDTHS {
        let table = sized(states, variables, bounds, 0);
        assert_eq!(Space::of(&table).count(), situations);
        let table = encode_table(&table);
        for window in 1..=8 {
            let rule = Rule::new(1, window, 0);
            let answer = validate_rule(Edition::Two, rule, &table, &heard, 9, &mut [], &mut []);
            let larger = situations << (window - 1);
            let expected = match window <= longest {
                true => Verdict::new(30, 2 * larger.div_ceil(8) as u64, 0),
                false => Verdict::new(26, 0, 0),
            };
            assert_eq!(answer, expected, "{situations}, {window}");
            assert_eq!(larger <= 65_536, window <= longest);
            let answer = check_rule(Edition::Two, rule, &table, &heard, &[]);
            assert_eq!(answer.number, if window <= longest { 40 } else { 26 });
            let both = Rule::new(16, window, 0);
            let answer = validate_rule(Edition::Two, both, &table, &heard, 9, &mut [], &mut []);
            assert_eq!(answer, Verdict::new(25, 0, 0));
        }
    }
}

/// The first row that breaks any rule is named, be it this one or another.
#[test]
fn the_first_row_that_breaks_a_rule_is_named() {
    let rule = Rule::new(1, 2, 1);
    let it = &spans()[0];
    let row = |time, kind, transition| Row { mark: ADDED, time, kind, transition };
    let check = |rows: Vec<Row>| {
        let told = encode_witness(Edition::One, &Witness { rows });
        let rule = Rule { device: it.rule.device, ..rule };
        check_rule(Edition::One, rule, &it.table, &recording(&[]), &told)
    };
    let too_many = [row(1, 1, 1), row(2, 1, 1)];
    assert_eq!(check(too_many.to_vec()), Answer::new(43, 1, 0));
    assert_eq!(check(vec![too_many[0], row(3, 1, 0), row(4, 1, 1)]), Answer::new(43, 1, 0));
    assert_eq!(check(vec![row(1, 1, 0), row(2, 1, 1), row(3, 1, 1)]), Answer::new(43, 0, 0));
    assert_eq!(check([&too_many[..], &[row(1, 9, 9)]].concat()), Answer::new(43, 1, 0));
    assert_eq!(check(vec![row(1, 1, 1), row(2, 0, 0), row(3, 1, 1)]), Answer::new(0, 3, 3));
}

/// Nothing is counted but at rejected rows, which are from the unit.
#[test]
fn rejected_as_unlikely_are_rows_from_the_unit() {
    for (call, outcome) in RECORDED.outcomes_under_rules() {
        let Call::ValidateRule { table, recording, .. } = call else {
            assert_eq!(outcome.answer.counts, Counts::default());
            continue;
        };
        if outcome.answer.number != 1 {
            assert_eq!(outcome.answer.counts, Counts::default());
            continue;
        }
        let (table, heard) = read(table, recording).expect("sound");
        let row = heard.rows.iter().find(|row| u64::from(row.time) == outcome.answer.third);
        assert!(row.is_some_and(|row| !table.to_unit(row.kind)));
    }
}

/// Recordings that are accepted without a rule and rejected under it, and witnesses likewise.
#[test]
fn rules_alone_reject_often() {
    let (mut recordings, mut witnesses, mut works) = (0, 0, 0);
    for (call, outcome) in ruled() {
        match call {
            Call::ValidateRule { edition, table, recording, .. } => {
                let without = learn(*edition, table, recording).answer;
                let (old, new) = (without.number, outcome.answer.number);
                recordings += usize::from((old, new) == (0, 1));
                works +=
                    usize::from((old, new) == (0, 0) && without.second != outcome.answer.second);
            }
            Call::CheckRule { edition, table, recording, witness, .. } => {
                let without = check_witness(*edition, table, recording, witness);
                witnesses += usize::from((without.number, outcome.answer.number) == (0, 43));
            }
            _ => unreachable!("without a rule"),
        }
    }
    println!("{recordings} recordings, {witnesses} witnesses, {works} other costs");
    assert!(recordings >= 100 && witnesses >= 200 && works >= 100);
}

/// What a rule accepts keeps it, and is accepted without it.
#[test]
fn witnesses_under_rules_are_witnesses() {
    for (call, outcome) in ruled() {
        let Call::ValidateRule { edition, rule, table, recording, .. } = call else { continue };
        if outcome.answer.number != 0 {
            continue;
        }
        let told = &outcome.room[..edition.file().size(outcome.answer.third as usize)];
        let by_rule = check_rule(*edition, *rule, table, recording, told);
        assert_eq!((by_rule.number, by_rule.third), (0, outcome.answer.third));
        assert_eq!(check_witness(*edition, table, recording, told), by_rule);
    }
}

#[test]
fn papers_are_the_same_with_a_rule_that_forbids_nothing() {
    for (number, paper) in PAPERS.iter().enumerate() {
        let rule = Rule::new(number as u8, 1, 1);
        for edition in Edition::BOTH {
            let outcome = judged(edition, rule, &SMALL_MONITOR, &paper.recording(), paper.budget);
            assert_eq!(outcome.answer, paper.answer, "{}", paper.name);
        }
    }
}

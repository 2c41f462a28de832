//! Rules of guesses against the rule as it is stated: small inputs by whole traces, longer ones by
//! sets of real monitors with their last rows, witnesses row by row, and rules out of range.

use super::against_brute::{few_traces, test_one};
use super::truth::{situations, validate_one, Input};
use super::{same, Counts};
use crate::answer::Answer;
use crate::brute::{expected_check, judge_long, possible_before, rule_refused, work, works};
use crate::call::{Call, ORDINARY};
use crate::compare::hex;
use crate::edition::Edition;
use crate::generate::{encode_witness, guessed, out_of_range, ruled_input, spoil_witness, Rng};
use crate::rule::Rule;
use crate::witness::{Witness, ADDED};

/// Situations times instants.
const MOST_WORK: usize = 60_000;
/// Monitors with their last rows possible at one instant before an input is given up.
const MOST_MONITORS: usize = 1_000;
const LAST_TIME: u16 = 30;
/// The same of whole traces.
const LAST_TIME_OF_TRACES: u16 = 7;
/// The rules one by one take long for more rows.
const MOST_ROWS: usize = 300;

pub fn test(rng: &mut Rng, counts: &mut Counts) -> Result<(), String> {
    let (table, recording, rule) = loop {
        let it = ruled_input(rng, MOST_WORK, LAST_TIME_OF_TRACES);
        if few_traces(&it.0, it.1.last_time() as u32) {
            break it;
        }
    };
    let input = Input::under(rule, table, recording);
    small(rng, &input, counts).map_err(|it| input.describe(&it))?;

    let (table, recording, rule) = ruled_input(rng, MOST_WORK, LAST_TIME);
    let input = Input::under(rule, table, recording);
    longer(rng, &input, counts)
        .and_then(|()| checks(rng, &input, counts))
        .and_then(|()| refused(rng, &input, counts))
        .map_err(|it| input.describe(&it))
}

/// By whole traces, and the work of every instant too.
fn small(rng: &mut Rng, input: &Input, counts: &mut Counts) -> Result<(), String> {
    let Input { table, recording, .. } = input;
    let rule = input.rule();
    let by_moves = works(rule, table, recording);
    for (instant, by_moves) in (1..).zip(&by_moves) {
        let by_traces = work(table, &possible_before(rule, table, recording, instant), instant);
        same("work by whole traces", by_traces, *by_moves)?;
    }
    let without = works(Rule::NONE, table, recording);
    let base_accepts = !crate::brute::witnesses(Rule::NONE, table, recording).is_empty();
    let accepted_before = counts.accepted;
    test_one(rng, input, counts)?;
    let accepted = counts.accepted > accepted_before;
    counts.ruled += 1;
    counts.ruled_accepted += u64::from(accepted);
    counts.ruled_unlikely += u64::from(base_accepts && !accepted);
    counts.ruled_other_works += u64::from(without != by_moves);
    same("what a rule accepts is accepted without it", accepted && !base_accepts, false)
}

fn longer(rng: &mut Rng, input: &Input, counts: &mut Counts) -> Result<(), String> {
    let judged = judge_long(input.rule(), &input.table, &input.recording, MOST_MONITORS);
    let Some(truth) = judged else {
        counts.ruled_left += 1;
        return Ok(());
    };
    counts.ruled_longer += 1;
    if let Some((_, unready)) = truth.dead {
        counts.pairs.note(unready);
    }
    let cost = truth.works.iter().sum::<u64>() as u32;
    for edition in Edition::BOTH {
        for budget in [u32::MAX, cost, cost.saturating_sub(1)] {
            validate_one(rng, input, &truth, edition, budget)?;
        }
    }
    Ok(())
}

/// Guessed rows, and the same with a thing out of order, under this rule and with fewer guesses.
fn checks(rng: &mut Rng, input: &Input, counts: &mut Counts) -> Result<(), String> {
    for _ in 0..6 {
        let guess = guessed(rng, &input.table, &input.recording);
        let spoilt = spoil_witness(rng, &guess);
        for witness in [guess, spoilt] {
            for most in [input.rule().most, 0, rng.below(usize::from(input.rule().window)) as u8] {
                let rule = Rule { most, ..input.rule() };
                let broken = check(input, rule, &witness)?;
                counts.ruled_checks += 2;
                counts.ruled_broken += u64::from(broken);
            }
        }
    }
    Ok(())
}

/// Whether the rule is what the witness breaks first.
fn check(input: &Input, rule: Rule, witness: &Witness) -> Result<bool, String> {
    let Input { table, recording, .. } = input;
    if witness.rows.len() > MOST_ROWS {
        return Ok(false);
    }
    let mut by_rule = false;
    for edition in Edition::BOTH {
        let bytes = encode_witness(edition, witness);
        let expected = expected_check(edition, rule, table, recording, witness);
        same("check", check_call(input, edition, rule, &bytes), expected)
            .map_err(|it| format!("{it}\n{rule:?}, {edition:?}\nwitness: {}", hex(&bytes)))?;
        let without = expected_check(edition, Rule::NONE, table, recording, witness);
        if without != expected {
            let added = |row: u64| witness.rows[row as usize].mark == ADDED;
            same("a guess is named", expected.number == 43 && added(expected.second), true)?;
            by_rule = true;
        }
    }
    Ok(by_rule)
}

fn check_call(input: &Input, edition: Edition, rule: Rule, witness: &[u8]) -> Answer {
    let (table, recording) = (&input.table_bytes, &input.recording_bytes);
    (ORDINARY.check_rule)(edition, rule, table, recording, witness)
}

/// 25 and 26, or what comes next if nothing is lent and the witness is no file.
fn refused(rng: &mut Rng, input: &Input, counts: &mut Counts) -> Result<(), String> {
    for _ in 0..8 {
        let rule = out_of_range(rng, input.rule());
        let expected = rule_refused(rule, situations(&input.table));
        let edition = rng.pick(&Edition::BOTH);
        let number = check_call(input, edition, rule, &[]).number;
        same("check", number, expected.unwrap_or(40))?;
        let call = Call::ValidateRule {
            edition,
            rule,
            table: input.table_bytes.clone(),
            recording: input.recording_bytes.clone(),
            budget: 0,
            scratch: vec![],
            room: vec![],
        };
        let answer = call.run(&ORDINARY).answer;
        same("validate", answer.number, expected.unwrap_or(30))?;
        if expected.is_some() {
            same("values", (answer.second, answer.third), (0, 0))?;
            counts.rules_refused += 1;
        }
    }
    Ok(())
}

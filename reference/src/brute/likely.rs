//! The rule of guesses as it is stated: all kept and added rows are listed and every window is
//! looked at.

use crate::recording::{Heard, Recording};
use crate::rule::Rule;
use crate::table::Table;

use super::trace::Trace;

/// Whether a kept or added row was added, and its kind.
pub type Sent = (bool, u8);

/// In any l consecutive rows at most k are added ones from the device; a list shorter than l is one
/// window.
pub fn is_likely(rule: Rule, table: &Table, sent: &[Sent]) -> bool {
    let guesses: Vec<bool> = sent.iter().map(|it| is_guess(rule, table, *it)).collect();
    windows_are_likely(rule, &guesses)
}

/// Of the rows of a trace, of which the recording has some.
pub fn is_likely_trace(rule: Rule, table: &Table, recording: &Recording, trace: &Trace) -> bool {
    is_likely(rule, table, &sent(recording, trace))
}

/// Which of the last l-1 rows of a trace are guesses; where there are fewer, the missing ones are
/// none.
pub fn last_guesses(rule: Rule, table: &Table, recording: &Recording, trace: &Trace) -> Vec<bool> {
    let mut last = no_guesses(rule);
    last.extend(sent(recording, trace).into_iter().map(|it| is_guess(rule, table, it)));
    last.split_off(trace.len())
}

/// As many as are remembered of rows, before there is one.
pub fn no_guesses(rule: Rule) -> Vec<bool> {
    vec![false; usize::from(rule.window) - 1]
}

/// What is remembered behind one more row, if it keeps the rule.
pub fn one_more(rule: Rule, table: &Table, last: &[bool], sent: Sent) -> Option<Vec<bool>> {
    let window = [last, &[is_guess(rule, table, sent)]].concat();
    windows_are_likely(rule, &window).then(|| window[1..].to_vec())
}

/// 25 and 26, for a table with so many situations; nothing if the rule is in range.
pub fn rule_refused(rule: Rule, situations: usize) -> Option<u64> {
    let rules = (1..=8).flat_map(|window| (0..=window).map(move |most| (window, most)));
    let mut known = rules.filter(|it| *it == (rule.window, rule.most));
    let Some((window, _)) = known.next().filter(|_| (0..16).contains(&rule.device)) else {
        return Some(25);
    };
    let larger = (1..window).fold(situations, |twice, _| twice + twice);
    (larger > 65_536).then_some(26)
}

fn windows_are_likely(rule: Rule, guesses: &[bool]) -> bool {
    let few =
        |window: &[bool]| window.iter().filter(|guess| **guess).count() <= usize::from(rule.most);
    match guesses.len() < usize::from(rule.window) {
        true => few(guesses),
        false => guesses.windows(rule.window.into()).all(few),
    }
}

fn is_guess(rule: Rule, table: &Table, (added, kind): Sent) -> bool {
    added && table.kinds[usize::from(kind)].device == rule.device
}

/// An entry is added exactly if it is not recorded.
fn sent(recording: &Recording, trace: &Trace) -> Vec<Sent> {
    let recorded =
        |time: u32, kind: u8| recording.rows.contains(&Heard { time: time as u16, kind });
    trace.iter().map(|(time, kind)| (!recorded(*time, *kind), *kind)).collect()
}

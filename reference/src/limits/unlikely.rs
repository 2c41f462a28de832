//! Rules of guesses at their limits, and what was made for R-7.

use super::sized;
use crate::call::Call;
use crate::edition::Edition;
use crate::generate::{encode_table, encode_witness, learn_under};
use crate::papers::{recording, small_monitor_with, Paper, DATA, PAPERS, SMALL_MONITOR};
use crate::papers::{ACK_DEVICE_2, SMALL_MONITOR_2};
use crate::rule::Rule;
use crate::unlikely::{forced, open, spans, Open};
use crate::witness::{Row, Witness, ADDED};

/// States, variables, what each clock is compared with, N, and the longest window for which N is
/// not too large; where N is a power of 2, it is just at the limit with that one.
pub const WIDTHS: [(u8, u8, &[u8], usize, u8); 16] = [
    (16, 4, &[14, 14], 65_536, 1),
    (1, 0, &[255, 253], 65_535, 1),
    (16, 4, &[126], 32_768, 2),
    (10, 0, &[27, 111], 32_770, 1),
    (16, 2, &[254], 16_384, 3),
    (5, 0, &[27, 111], 16_385, 2),
    (16, 1, &[254], 8_192, 4),
    (5, 0, &[9, 147], 8_195, 3),
    (16, 0, &[254], 4_096, 5),
    (1, 0, &[15, 239], 4_097, 4),
    (8, 0, &[254], 2_048, 6),
    (2, 0, &[23, 39], 2_050, 5),
    (16, 0, &[62], 1_024, 7),
    (5, 0, &[3, 39], 1_025, 6),
    (16, 0, &[30], 512, 8),
    (1, 0, &[25, 17], 513, 7),
];

/// Out of range: the device, the window, what may be in it, and several of these.
pub const OUT_OF_RANGE: [Rule; 20] = [
    Rule::new(16, 1, 1),
    Rule::new(16, 8, 8),
    Rule::new(17, 4, 0),
    Rule::new(128, 2, 1),
    Rule::new(255, 3, 3),
    Rule::new(0, 0, 0),
    Rule::new(15, 0, 0),
    Rule::new(1, 9, 0),
    Rule::new(15, 9, 9),
    Rule::new(0, 255, 1),
    Rule::new(0, 128, 128),
    Rule::new(1, 1, 2),
    Rule::new(0, 7, 8),
    Rule::new(15, 8, 9),
    Rule::new(2, 8, 255),
    Rule::new(0, 0, 1),
    Rule::new(16, 0, 0),
    Rule::new(16, 9, 10),
    Rule::new(255, 255, 255),
    Rule::new(1, 3, 128),
];

/// In range, at the edges.
pub const IN_RANGE: [Rule; 10] = [
    Rule::NONE,
    Rule::new(1, 1, 1),
    Rule::new(15, 1, 1),
    Rule::new(0, 1, 0),
    Rule::new(1, 1, 0),
    Rule::new(15, 8, 0),
    Rule::new(1, 8, 8),
    Rule::new(0, 8, 8),
    Rule::new(1, 2, 1),
    Rule::new(0, 3, 1),
];

pub fn calls() -> Vec<Call> {
    let mut calls = Vec::new();
    made(&mut calls);
    papers(&mut calls);
    widths(&mut calls);
    many_windows(&mut calls);
    late(&mut calls);
    for rule in OUT_OF_RANGE {
        refused(rule, &SMALL_MONITOR, &mut calls);
    }
    comes_first(&mut calls);
    calls
}

/// Files and a rule, with the edition that it is their turn to get.
struct Asked<'a> {
    edition: Edition,
    rule: Rule,
    table: &'a [u8],
    recording: Vec<u8>,
}

impl Asked<'_> {
    fn new(turn: usize, rule: Rule, table: &[u8], recording: Vec<u8>) -> Asked<'_> {
        Asked { edition: Edition::BOTH[turn % 2], rule, table, recording }
    }

    fn validation(&self, budget: u32, scratch: usize, room: usize) -> Call {
        Call::ValidateRule {
            edition: self.edition,
            rule: self.rule,
            table: self.table.to_vec(),
            recording: self.recording.clone(),
            budget,
            scratch: vec![0; scratch],
            room: vec![0; room],
        }
    }

    fn check(&self, witness: Vec<u8>) -> Call {
        let (edition, rule) = (self.edition, self.rule);
        let (table, recording) = (self.table.to_vec(), self.recording.clone());
        Call::CheckRule { edition, rule, table, recording, witness }
    }

    /// Scratch and room that are wanted.
    fn wanted(&self) -> (usize, usize) {
        let learnt = learn_under(self.rule, self.edition, self.table, &self.recording);
        (learnt.scratch, learnt.room)
    }
}

/// With the cost as budget or one less, and the witness that there is without a rule.
fn made(calls: &mut Vec<Call>) {
    for (turn, it) in forced().iter().enumerate() {
        let asked = Asked::new(turn / 2, it.rule, &it.table, it.recording());
        let (scratch, room) = asked.wanted();
        let cost = it.verdict.second as u32;
        let budget = if turn % 5 == 4 { cost.saturating_sub(1) } else { cost };
        calls.push(asked.validation(budget, scratch, room));
        if turn % 3 == 1 {
            calls.push(asked.check(encode_witness(asked.edition, &it.witness)));
        }
    }
    for (turn, it) in open().iter().enumerate() {
        let asked = Asked::new(turn / 3, it.rule, &it.table, it.recording());
        let (scratch, room) = asked.wanted();
        let cost: u64 = it.works.iter().sum();
        let budget = if turn % 4 == 3 { cost as u32 - 1 } else { cost as u32 };
        let scratch = if turn % 7 == 6 { scratch - 1 } else { scratch };
        let room = if turn % 7 == 5 { room - 1 } else { room };
        calls.push(asked.validation(budget, scratch, room));
    }
    for (turn, it) in spans().iter().enumerate() {
        let asked = Asked::new(turn / 2, it.rule, &it.table, it.recording());
        calls.push(asked.check(encode_witness(asked.edition, &it.witness)));
    }
}

/// The paper's recordings under rules at the edges, and their witnesses, whole and with a byte of
/// the frame, the version or the count changed.
fn papers(calls: &mut Vec<Call>) {
    let mut from_15 = SMALL_MONITOR_2;
    from_15[ACK_DEVICE_2] = 15;
    let rules = IN_RANGE.iter().flat_map(|rule| PAPERS.iter().map(move |paper| (rule, paper)));
    for (turn, (rule, paper)) in rules.enumerate() {
        let table = if turn % 3 == 2 { &from_15[..] } else { &SMALL_MONITOR };
        let asked = Asked::new(turn, *rule, table, paper.recording());
        let (scratch, room) = asked.wanted();
        calls.push(asked.validation(paper.budget, scratch, room));
        let has_witness = |it: &Paper| it.answer.number == 0 && !it.rows.is_empty();
        if has_witness(paper) && turn % 2 == turn / 12 % 2 {
            let witness = paper.witness(asked.edition);
            calls.push(asked.check(witness.clone()));
            let places = if asked.edition == Edition::One { [1, 2, 4] } else { [3, 4, 8] };
            for place in &places[turn / 2 % 2..] {
                let mut changed = witness.clone();
                changed[*place] += 1;
                calls.push(asked.check(changed));
            }
        }
    }
}

/// The longest window that N has place for, and one more.
fn widths(calls: &mut Vec<Call>) {
    for (states, variables, bounds, _, window) in WIDTHS {
        let table = encode_table(&sized(states, variables, bounds, 0));
        for (turn, rows) in [&[(1, 0)][..], &[(1, 1), (2, 0)]].into_iter().enumerate() {
            let rule = Rule::new(turn as u8, window, window / 2);
            let asked = Asked::new(turn, rule, &table, recording(rows));
            let (scratch, room) = asked.wanted();
            calls.push(asked.validation(100, scratch, room));
            calls.push(asked.validation(100, scratch - 1, room));
            calls.push(asked.check(vec![]));
        }
        if window < 8 {
            refused(Rule::new(1, window + 1, 0), &table, calls);
            calls.push(Asked::new(1, Rule::new(15, 8, 8), &table, recording(&[])).check(vec![]));
            // 25 comes first.
            let short = Asked::new(0, Rule::new(16, window + 1, 0), &table, recording(&[(1, 0)]));
            calls.push(short.validation(100, 0, 0));
            calls.push(Asked { rule: Rule::new(1, 8, 9), ..short }.check(vec![]));
        }
    }
}

/// Tables and rules with nearly as many situations as there may be, and recordings that are long
/// enough for many of them.
fn many_windows(calls: &mut Vec<Call>) {
    let sizes = [
        (16, 0, &[30][..], 8, 10),
        (1, 0, &[25, 17], 7, 10),
        (8, 0, &[254], 6, 10),
        (4, 2, &[6], 8, 26),
    ];
    for (turn, (states, variables, bounds, window, last)) in sizes.into_iter().enumerate() {
        let table = encode_table(&sized(states, variables, bounds, 0));
        for (device, most) in [(0, window / 2), (1, window), (1, 1)] {
            let rule = Rule::new(device, window, most);
            let asked = Asked::new(turn, rule, &table, recording(&[(2, 1), (last, 0)]));
            let (scratch, room) = asked.wanted();
            calls.push(asked.validation(u32::MAX, scratch, room));
        }
    }
}

/// Times around the last of edition 1, and the last there is.
fn late(calls: &mut Vec<Call>) {
    let loops = |it: &&Open| it.rule == Rule::new(15, 3, 1);
    let it = open();
    let it = it.iter().find(loops).expect("made");
    for (turn, time) in [4_096, 4_096, 4_097, 4_097, 65_534, 65_535].into_iter().enumerate() {
        for rule in [it.rule, Rule::new(0, 2, 0)] {
            let asked = Asked::new(turn, rule, &it.table, recording(&[(time, 0)]));
            let (scratch, room) = asked.wanted();
            calls.push(asked.validation(u32::MAX, scratch, room));
            let guess = |time| Row { mark: ADDED, time, kind: 1, transition: 1 };
            let rows = vec![guess(time - 2), guess(time - 1)];
            calls.push(asked.check(encode_witness(asked.edition, &Witness { rows })));
        }
    }
}

/// A rule that is refused whatever is lent and told: scratch, room, and witnesses with a frame, a
/// version, a count and rows out of order, and one in order.
fn refused(rule: Rule, table: &[u8], calls: &mut Vec<Call>) {
    let heard = recording(&[(1, DATA)]);
    for (turn, (scratch, room)) in [(40, 90), (0, 90), (40, 0), (0, 0)].into_iter().enumerate() {
        calls.push(Asked::new(turn, rule, table, heard.clone()).validation(9, scratch, room));
    }
    // Edition 1 is not written.
    let late = Asked::new(0, rule, table, recording(&[(4_097, DATA)]));
    calls.push(late.validation(9, 0, 0));
    let witnesses: [&[u8]; 5] = [
        &[],
        &[0, 3, 3, 0, 0],
        &[0, 3, 1, 0, 1],
        &[0, 8, 1, 0, 1, 9, 0, 1, 0, 0],
        &[0, 8, 1, 0, 1, 0, 0, 1, 0, 0],
    ];
    for (turn, witness) in witnesses.into_iter().enumerate() {
        let asked = Asked::new(turn / 3, rule, table, heard.clone());
        calls.push(asked.check(witness.to_vec()));
    }
}

/// What is tried before a rule: tables and recordings that are refused.
fn comes_first(calls: &mut Vec<Call>) {
    let monitor = SMALL_MONITOR.to_vec();
    let heard = recording(&[(1, DATA)]);
    let mut cut = monitor.clone();
    cut.pop();
    let mut unreached = small_monitor_with(3, 4);
    unreached[2] = 1;
    let too_wide = encode_table(&sized(16, 4, &[14, 15], 0));
    let mut wrong_version = heard.clone();
    wrong_version[2] = 2;
    let pairs: Vec<(Vec<u8>, Vec<u8>)> = vec![
        (cut, heard.clone()),
        (small_monitor_with(2, 3), heard.clone()),
        (small_monitor_with(3, 17), heard.clone()),
        (small_monitor_with(7, 6), heard.clone()),
        (small_monitor_with(8, 2), heard.clone()),
        (small_monitor_with(20, 0), heard.clone()),
        (too_wide, heard.clone()),
        (unreached, heard.clone()),
        (monitor.clone(), vec![0, 1, 1]),
        (monitor.clone(), wrong_version),
        (monitor.clone(), vec![0, 3, 1, 0, 1]),
        (monitor.clone(), recording(&[(1, 3)])),
        (monitor.clone(), recording(&[(0, DATA)])),
        (monitor, recording(&[(1, DATA), (2, DATA)])),
    ];
    let rules = [Rule::NONE, Rule::new(16, 1, 1), Rule::new(0, 9, 1), Rule::new(1, 8, 3)];
    for (turn, (table, recording)) in pairs.iter().enumerate() {
        for (place, rule) in rules.into_iter().enumerate() {
            let asked = Asked::new(turn + place, rule, table, recording.clone());
            calls.push(asked.validation(9, 0, 0));
            calls.push(asked.check(vec![]));
        }
    }
}

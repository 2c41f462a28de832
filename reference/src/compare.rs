//! Comparing another engine with this program on random calls.

use crate::call::{Call, Engine, Outcome, ORDINARY};
use crate::generate::{calls, rejections, ruled, Rng};
use crate::pair_tally::PairTally;
use crate::rule::Rule;

/// Every file is shown whole; only a large scratch is cut. The seed brings it back.
const MOST_SHOWN: usize = 100_000;
/// With this much scratch or more a call gets a budget of no more than that: a wide table with a
/// long recording could take half an hour.
const LARGE_SCRATCH: usize = 2_000_000;
const FOR_LARGE: u32 = 10_000_000;
/// Once in so many times the calls turn on a rule of guesses.
const RULED: usize = 2;
/// Of the others, once in so many times they turn on the counts of a rejection.
const REJECTIONS: usize = 3;

/// Random calls of one input.
pub type Draw = fn(&mut Rng) -> Vec<Call>;

pub fn with_and_without_rule(rng: &mut Rng) -> Vec<Call> {
    match rng.one_in(RULED) {
        true => ruled(rng),
        false => without_rule(rng),
    }
}

pub fn without_rule(rng: &mut Rng) -> Vec<Call> {
    match rng.one_in(REJECTIONS) {
        true => rejections(rng),
        false => calls(rng),
    }
}

/// How many calls were compared, by the number of the answer.
#[derive(Default)]
pub struct Tally {
    pub calls: u64,
    pub pairs: PairTally,
    pub by_number: std::collections::BTreeMap<(&'static str, u64), u64>,
}

/// The first call on which the two engines differ.
pub struct Difference {
    pub call: Call,
    pub ordinary: Outcome,
    pub other: Outcome,
}

/// Compares until a difference is found or, after some call, `go_on` says no.
pub fn compare(
    other: &Engine,
    draw: Draw,
    seed: u64,
    go_on: impl Fn(&Tally) -> bool,
) -> (Tally, Option<Box<Difference>>) {
    let mut rng = Rng::new(seed);
    let mut tally = Tally::default();
    while go_on(&tally) {
        for call in draw(&mut rng) {
            if let Some(difference) = compare_call(other, affordable(call), &mut tally) {
                return (tally, Some(difference));
            }
        }
    }
    (tally, None)
}

fn affordable(mut call: Call) -> Call {
    match &mut call {
        Call::Validate { budget, scratch, .. } | Call::ValidateRule { budget, scratch, .. }
            if scratch.len() >= LARGE_SCRATCH =>
        {
            *budget = FOR_LARGE.min(*budget);
        }
        _ => {}
    }
    call
}

fn compare_call(other: &Engine, call: Call, tally: &mut Tally) -> Option<Box<Difference>> {
    let ordinary = call.run(&ORDINARY);
    let theirs = call.run(other);
    tally.calls += 1;
    if call.budget().is_some() && ordinary.answer.number == 1 {
        tally.pairs.note(ordinary.answer.counts);
    }
    *tally.by_number.entry((call.name(), ordinary.answer.number)).or_default() += 1;
    (ordinary != theirs).then(|| Box::new(Difference { call, ordinary, other: theirs }))
}

impl Tally {
    pub fn report(&self) -> String {
        let mut text = format!("compared {} calls, no difference\n", self.calls);
        for ((name, number), count) in &self.by_number {
            text.push_str(&format!("  {name}: answer {number}: {count}\n"));
        }
        text + &self.pairs.line()
    }
}

impl Difference {
    pub fn report(&self) -> String {
        let mut text = format!("difference in {}\n", self.call.name());
        if let Some(Rule { device, window, most }) = self.call.rule() {
            text.push_str(&format!("device {device}, window {window}, most {most}\n"));
        }
        if let Some(budget) = self.call.budget() {
            text.push_str(&format!("budget {budget}\n"));
        }
        for (name, bytes) in self.call.inputs() {
            let shown = &bytes[..bytes.len().min(MOST_SHOWN)];
            text.push_str(&format!("{name}, {} bytes: {}\n", bytes.len(), hex(shown)));
        }
        text.push_str(&format!("ordinary: {:?}\n", self.ordinary.answer));
        text.push_str(&format!("other:    {:?}\n", self.other.answer));
        if !self.other.margins_kept {
            text.push_str("other: wrote outside what was lent\n");
        }
        let buffers = [
            ("scratch", &self.ordinary.scratch, &self.other.scratch),
            ("room", &self.ordinary.room, &self.other.room),
        ];
        for (name, ours, theirs) in buffers {
            if let Some(place) = (0..ours.len()).find(|place| ours[*place] != theirs[*place]) {
                let pair = (ours[place], theirs[place]);
                text.push_str(&format!(
                    "{name} differs first at byte {place}: {:02x} ordinary, {:02x} other\n",
                    pair.0, pair.1
                ));
            }
        }
        text
    }
}

pub fn hex(bytes: &[u8]) -> String {
    bytes.iter().map(|byte| format!("{byte:02x}")).collect()
}

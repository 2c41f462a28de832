//! Recordings of which every row of a witness is forced.
//!
//! DONE must follow ASK, and ASK was never heard: in the one free instant before DONE it must be
//! added. NOTE is heard and kept, NOISE is heard and must be removed. There is no other free
//! instant.

use super::{kind, link, most_guesses, table, RADIOS};
use crate::answer::{Counts, Verdict};
use crate::generate::encode_table;
use crate::papers::recording;
use crate::rule::Rule;
use crate::witness::{Row, Witness, ADDED, KEPT, NO_TRANSITION, REMOVED};

const DONE: u8 = 0;
const ASK: u8 = 1;
const NOTE: u8 = 2;
const NOISE: u8 = 3;

/// What is heard, in this order: G is a free instant and then DONE, K is NOTE, R is NOISE.
const STEPS: [&str; 26] = [
    "",
    "K",
    "R",
    "G",
    "GG",
    "GGG",
    "GGGG",
    "GGGGG",
    "KG",
    "RG",
    "GKG",
    "GRG",
    "GKKG",
    "GRRG",
    "GRKG",
    "GKKKG",
    "GRRRRRRG",
    "GKKKKG",
    "GKKKKKG",
    "GKKKKKKG",
    "GGKGRG",
    "GKGKGKG",
    "RGRGRGR",
    "KKKKKKKKG",
    "GGKKKKGG",
    "GKRKRKRKRKG",
];

pub struct Forced {
    pub name: String,
    pub table: Vec<u8>,
    pub rows: Vec<(u16, u8)>,
    pub rule: Rule,
    /// With every budget.
    pub verdict: Verdict,
    /// The one witness without a rule, and the first of its rows that breaks the rule.
    pub witness: Witness,
    pub broken: Option<usize>,
}

impl Forced {
    pub fn recording(&self) -> Vec<u8> {
        recording(&self.rows)
    }

    pub fn last_time(&self) -> usize {
        self.rows.last().map_or(0, |row| row.0.into())
    }
}

/// Each of the steps with windows of every length; with as many guesses as it takes, one fewer, and
/// as many as there are rows in the window.
pub fn forced() -> Vec<Forced> {
    let mut all = Vec::new();
    for steps in STEPS {
        for window in 1..=8 {
            let needed = most_guesses(&guesses(steps), window) as u8;
            let mut mosts = vec![needed];
            mosts.extend(needed.checked_sub(1));
            mosts.extend((window > needed + 1).then_some(window));
            for most in mosts {
                let radio = RADIOS[all.len() % RADIOS.len()];
                all.push(of(steps, radio, Rule::new(radio.1, window, most), all.len()));
            }
        }
        // Guesses from another device are none.
        for (device, radio) in [(1, RADIOS[2]), (15, RADIOS[1]), (1, RADIOS[3]), (0, RADIOS[4])] {
            let rule = Rule::new(device, 1 + (all.len() % 8) as u8, 0);
            all.push(of(steps, radio, rule, all.len()));
        }
    }
    all
}

/// Whether each kept or added row is a guess if ASK's device is asked for.
fn guesses(steps: &str) -> Vec<bool> {
    let rows = |step: char| match step {
        'G' => vec![true, false],
        'K' => vec![false],
        _ => vec![],
    };
    steps.chars().flat_map(rows).collect()
}

fn of(steps: &str, radio: (u8, u8), rule: Rule, turn: usize) -> Forced {
    let kinds = vec![kind((0, 0)), kind(radio), kind((0, 0)), kind((1, 1))];
    let transitions = vec![
        link(0, 1, ASK, &[0]),
        link(1, 0, DONE, &[0]),
        link(0, 0, NOTE, &[0]),
        // No wait makes it hold.
        link(0, 0, DONE, &[4, 0]),
    ];
    let mut heard = Heard::default();
    for step in steps.chars() {
        heard.step(step, radio.1, rule);
    }
    let verdict = heard.rejected.unwrap_or(Verdict::new(0, heard.cost, heard.all.len() as u64));
    Forced {
        name: format!("{steps}, ASK from {}, {rule:?}", radio.1),
        table: encode_table(&table(2, kinds, transitions, turn)),
        rows: heard.rows,
        rule,
        verdict,
        witness: Witness { rows: heard.all },
        broken: heard.broken,
    }
}

/// What was heard so far and what follows from it.
#[derive(Default)]
struct Heard {
    time: u16,
    rows: Vec<(u16, u8)>,
    all: Vec<Row>,
    /// Of the kept and added rows, whether they are guesses.
    guesses: Vec<bool>,
    cost: u64,
    rejected: Option<Verdict>,
    broken: Option<usize>,
}

impl Heard {
    fn step(&mut self, step: char, asking: u8, rule: Rule) {
        match step {
            'G' => self.guess(asking, rule),
            'K' => {
                self.tick(1);
                self.rows.push((self.time, NOTE));
                self.row(KEPT, NOTE, 2);
                self.guesses.push(false);
            }
            _ => {
                self.tick(1);
                self.rows.push((self.time, NOISE));
                self.row(REMOVED, NOISE, NO_TRANSITION);
            }
        }
    }

    /// Just before the free instant there is one situation. In it ASK may be added, or NOTE, which
    /// comes from the unit; NOTE leaves something new only if it changes what is remembered.
    fn guess(&mut self, asking: u8, rule: Rule) {
        let remembered = usize::from(rule.window) - 1;
        let window: Vec<bool> = self.guesses.iter().rev().take(remembered).copied().collect();
        let count = window.iter().filter(|it| **it).count();
        let fits = |device: u8| count + usize::from(device == rule.device) <= rule.most.into();
        let nothing_new = remembered == 0 || (count == 0 && rule.device != 0);
        let by_note = u64::from(fits(0) && !nothing_new);
        let by_ask = fits(asking);
        self.tick(1);
        self.row(ADDED, ASK, 0);
        if !by_ask && self.broken.is_none() {
            self.broken = Some(self.all.len() - 1);
        }
        self.guesses.push(asking == rule.device);
        // Without ASK each situation is in the state from which DONE is never to be had.
        let without_ask = 1 + by_note;
        self.tick(without_ask + u64::from(by_ask));
        if !by_ask && self.rejected.is_none() {
            let counts = Counts::new(0, without_ask);
            self.rejected = Some(Verdict::rejected(self.cost, self.time.into(), counts));
        }
        self.rows.push((self.time, DONE));
        self.row(KEPT, DONE, 1);
        self.guesses.push(false);
    }

    fn tick(&mut self, work: u64) {
        self.time += 1;
        self.cost += work;
    }

    fn row(&mut self, mark: u8, kind: u8, transition: u8) {
        self.all.push(Row { mark, time: self.time, kind, transition });
    }
}

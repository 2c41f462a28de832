//! Witnesses in which guesses stand so close together that one more is too many, or just so far
//! apart that it is not. The table forbids nothing, so the rule alone decides.

use super::{kind, link, table, RADIOS};
use crate::generate::encode_table;
use crate::papers::recording;
use crate::rule::Rule;
use crate::witness::{Row, Witness, ADDED, KEPT, NO_TRANSITION, REMOVED};

/// From the unit and heard, or added.
const UNIT: u8 = 0;
/// From the device that is asked for.
const ASKED: u8 = 1;
/// From another one that is not the unit.
const OTHER: u8 = 2;

pub struct Span {
    pub name: String,
    pub table: Vec<u8>,
    pub rows: Vec<(u16, u8)>,
    pub rule: Rule,
    pub witness: Witness,
    /// The row that breaks the rule.
    pub broken: Option<usize>,
}

impl Span {
    pub fn recording(&self) -> Vec<u8> {
        recording(&self.rows)
    }
}

/// One guess, then rows that are none, then as many guesses as may be in a window: the last is one
/// too many if the window reaches from the first one to it.
pub fn spans() -> Vec<Span> {
    let mut all = Vec::new();
    for window in 1..=8_u8 {
        for most in 0..window {
            for filling in FILLINGS {
                for too_many in [true, false] {
                    let rule = Rule::new(RADIOS[1 + all.len() % 4].1, window, most);
                    all.push(span(rule, filling, too_many, all.len()));
                }
            }
        }
    }
    all
}

/// Rows that are no guesses, in turn: k kept, K a packet from the device that was heard and kept, a
/// added from another device, u added from the unit, r one from the device that was removed.
const FILLINGS: [&str; 5] = ["k", "a", "rKr", "urk", "Krra"];

fn span(rule: Rule, filling: &str, too_many: bool, turn: usize) -> Span {
    let other = if rule.device == 1 { 15 } else { 1 };
    let kinds = vec![kind((0, 0)), kind((1, rule.device)), kind((1, other))];
    let loops = (0..3).map(|kind| link(0, 0, kind, &[0])).collect();
    let mut made = Made::default();
    let mut filling_in_turn = filling.chars().cycle();
    let mut fill = |made: &mut Made, rows: u8| {
        let mut left = rows;
        while left > 0 {
            let step = filling_in_turn.next().expect("it goes round");
            left -= u8::from(step != 'r');
            made.row(step);
        }
    };
    fill(&mut made, (turn % 4) as u8);
    let mut broken = None;
    if rule.most > 0 {
        // Between the first guess and the last, a window has place for so many others.
        let between = rule.window - rule.most - 1 + u8::from(!too_many);
        made.row('g');
        fill(&mut made, between);
        (1..rule.most).for_each(|_| made.row('g'));
    }
    if rule.most > 0 || too_many {
        made.row('r');
        made.row('g');
        broken = too_many.then_some(made.all.len() - 1);
    }
    fill(&mut made, 1 + (turn % 3) as u8);
    if too_many && turn.is_multiple_of(2) {
        // A later one does not matter any more.
        (0..=rule.most).for_each(|_| made.row('g'));
    }
    Span {
        name: format!("{filling}, too many: {too_many}, {rule:?}"),
        table: encode_table(&table(1, kinds, loops, turn)),
        rows: made.heard,
        rule,
        witness: Witness { rows: made.all },
        broken,
    }
}

#[derive(Default)]
struct Made {
    time: u16,
    heard: Vec<(u16, u8)>,
    all: Vec<Row>,
}

impl Made {
    fn row(&mut self, step: char) {
        self.time += 1;
        let (mark, kind) = match step {
            'g' => (ADDED, ASKED),
            'k' => (KEPT, UNIT),
            'K' => (KEPT, ASKED),
            'a' => (ADDED, OTHER),
            'u' => (ADDED, UNIT),
            _ => (REMOVED, ASKED),
        };
        if mark != ADDED {
            self.heard.push((self.time, kind));
        }
        let transition = if mark == REMOVED { NO_TRANSITION } else { kind };
        self.all.push(Row { mark, time: self.time, kind, transition });
    }
}

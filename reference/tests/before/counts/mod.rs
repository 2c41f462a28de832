//! Other rules than R-10's for what guards answer and what is counted.

mod answers;
mod known;

use lutarosa_reference::answer::{Counts, Verdict};
use lutarosa_reference::call::{Engine, ORDINARY};
use lutarosa_reference::guard::Readiness;
use lutarosa_reference::situation::{Situation, Space};
use lutarosa_reference::table::Transition;

use answers::Asked;
use known::{known, Known};
use Readiness::{NoMore, NotYet, Yes};

/// A kind, and the situations in which it was heard.
type Heard<'a> = (u8, &'a [Situation]);

/// R-10 is what `NOW` has.
#[derive(Clone, Copy)]
pub struct Rule {
    /// What a guard answers.
    answers: fn(&Asked) -> Readiness,
    /// Whether this transition is asked for in this situation when this kind is heard.
    asks: fn(&Transition, &Situation, u8) -> bool,
    /// Pairs of a situation and a transition's number with the same key are one.
    key: fn(&Space, &Situation, usize) -> (usize, usize),
    /// Kinds, and the situations in which they were heard.
    looks_at: fn(&Known) -> Vec<Heard>,
    /// Whether an answer with this number has counts.
    gives: fn(u64) -> bool,
    says: fn(Counts) -> Counts,
}

pub struct Other {
    pub name: &'static str,
    pub rule: Rule,
    pub engine: Engine,
}

macro_rules! other {
    ($name:expr, { $($change:tt)* }) => {{
        const RULE: Rule = Rule { $($change)* ..NOW };
        let engine = Engine {
            validate: |edition, table, recording, budget, scratch, room| {
                let now = (ORDINARY.validate)(edition, table, recording, budget, scratch, room);
                RULE.judge(table, recording, now)
            },
            ..ORDINARY
        };
        Other { name: $name, rule: RULE, engine }
    }};
}

/// R-10 written again.
const NOW: Rule = Rule {
    answers: |asked| asked.answer(),
    asks: |by, it, kind| by.from == it.state && by.kind == kind && it.air == 0,
    key: |space, it, transition| (space.number(it), transition),
    looks_at: |known| known.rows.last().map(|it| (it.0, &it.1[..])).into_iter().collect(),
    gives: |number| number == 1,
    says: |counts| counts,
};

pub const AGAIN: Other = other!("R-10", {});

pub const OTHERS: [Other; 41] = [
    other!("before R-10", { says: |_| Counts::new(0, 0), }),
    other!("counts exchanged", { says: |it| Counts::new(it.no_more, it.not_yet), }),
    other!("counts in a byte", { says: |it| Counts::new(it.not_yet % 256, it.no_more % 256), }),
    other!("counts up to 255", {
        says: |it| Counts::new(it.not_yet.min(255), it.no_more.min(255)),
    }),
    other!("one count of both", { says: |it| Counts::new(it.not_yet + it.no_more, it.no_more), }),
    // Which pairs.
    other!("with the air taken too", {
        asks: |by, it, kind| by.from == it.state && by.kind == kind,
    }),
    other!("with the air taken alone", {
        asks: |by, it, kind| by.from == it.state && by.kind == kind && it.air > 0,
    }),
    other!("with the air taken for a tick too", {
        asks: |by, it, kind| by.from == it.state && by.kind == kind && it.air <= 1,
    }),
    other!("other kinds too", { asks: |by, it, _| by.from == it.state && it.air == 0, }),
    other!("from other states too", { asks: |by, it, kind| by.kind == kind && it.air == 0, }),
    other!("to the state instead of from it", {
        asks: |by, it, kind| by.to == it.state && by.kind == kind && it.air == 0,
    }),
    other!("each transition once", { key: |_, _, transition| (0, transition), }),
    other!("each situation once", { key: |space, it, _| (space.number(it), 0), }),
    other!("whatever the variables", {
        key: |space, it, transition| (space.number(&Situation { variables: 0, ..*it }), transition),
    }),
    other!("whatever clock 0 reads", {
        key: |space, it, transition| {
            (space.number(&Situation { clocks: [0, it.clocks[1]], ..*it }), transition)
        },
    }),
    // Where and when.
    other!("before the moves of the instant before", {
        looks_at: |known| {
            let kind = known.rows.last().map(|it| it.0);
            kind.map(|kind| (kind, &known.one_before[..])).into_iter().collect()
        },
    }),
    other!("at every row up to it", {
        looks_at: |known| known.rows.iter().map(|it| (it.0, &it.1[..])).collect(),
    }),
    other!("the kind of the last row", {
        looks_at: |known| {
            let last = known.rows.last();
            last.map(|it| (known.last_kind, &it.1[..])).into_iter().collect()
        },
    }),
    other!("the exhausted have counts", { gives: |number| matches!(number, 1 | 2), }),
    other!("the accepted have counts", { gives: |number| matches!(number, 0 | 1), }),
    // What a guard answers.
    other!("no wait is tried", {
        answers: |asked| if asked.answer() == NotYet { NoMore } else { asked.answer() },
    }),
    other!("every guard comes", {
        answers: |asked| if asked.answer() == NoMore { NotYet } else { asked.answer() },
    }),
    other!("a wait of 1 alone", { answers: |asked| asked.after(1..=1), }),
    other!("waits from 2 on", { answers: |asked| asked.after(2..=256), }),
    other!("waits up to 127", { answers: |asked| asked.after(1..=127), }),
    other!("waits up to 254", { answers: |asked| asked.after(1..=254), }),
    other!("the longest wait alone", { answers: |asked| asked.after(256..=256), }),
    other!("clocks start again after 255", { answers: |asked| asked.reading(|_, it| it % 256), }),
    other!("clocks stop at 255", { answers: |asked| asked.reading(|_, it| it.min(255)), }),
    other!("clocks stop at M", {
        answers: |asked| asked.reading(|highest, it| it.min(highest - 1)),
    }),
    other!("clocks above M read M", { answers: |asked| asked.capped().answer(), }),
    other!("clocks read before the tick", { answers: |asked| asked.reading(|_, it| it - 1), }),
    other!("clock 1 stands still", { answers: |asked| asked.waiting(|wait| [wait, 0]), }),
    other!("each clock waits by itself", { answers: |asked| asked.apart(), }),
    other!("variables change too", { answers: |asked| asked.with_any_variables(), }),
    other!("not: the opposite of what comes", {
        answers: |asked| asked.negated(|inner| if inner == NoMore { NotYet } else { NoMore }),
    }),
    other!("not: always no more", { answers: |asked| asked.negated(|_| NoMore), }),
    other!("not: always not yet", { answers: |asked| asked.negated(|_| NotYet), }),
    other!("and: both halves come", {
        answers: |asked| asked.halves(|left, right| match (left, right) {
            (NoMore, _) | (_, NoMore) => NoMore,
            _ => NotYet,
        }),
    }),
    other!("and: the first half that does not hold", {
        answers: |asked| asked.halves(|left, right| if left == Yes { right } else { left }),
    }),
    other!("and: one half is not yet", {
        answers: |asked| asked.halves(|left, right| match (left, right) {
            (NotYet, _) | (_, NotYet) => NotYet,
            _ => NoMore,
        }),
    }),
];

impl Rule {
    /// What a validation of these files answers, if R-10 would have it answer this.
    pub fn judge(&self, table: &[u8], recording: &[u8], now: Verdict) -> Verdict {
        let counts = match (self.gives)(now.number) {
            true => self.counts(&known(table, recording, now)),
            false => Counts::default(),
        };
        Verdict { counts, ..now }
    }

    fn counts(&self, known: &Known) -> Counts {
        let mut pairs = Vec::new();
        for (kind, situations) in (self.looks_at)(known) {
            for it in situations {
                for (number, (by, guard)) in known.transitions.iter().enumerate() {
                    if (self.asks)(by, it, kind) {
                        let asked = Asked::new(known, guard, it);
                        pairs.push(((self.key)(&known.space, it, number), (self.answers)(&asked)));
                    }
                }
            }
        }
        pairs.sort_by_key(|(key, answer)| (*key, *answer == NotYet, *answer == Yes));
        pairs.dedup();
        let times = |of: Readiness| pairs.iter().filter(|it| it.1 == of).count() as u64;
        (self.says)(Counts::new(times(NotYet), times(NoMore)))
    }
}

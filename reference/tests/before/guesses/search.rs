//! The search again, with windows beside the situations that there are without a rule.

use std::collections::BTreeSet;

use lutarosa_reference::answer::{Counts, Verdict};
use lutarosa_reference::guard::Readiness;
use lutarosa_reference::moves::{Fired, Moves};
use lutarosa_reference::recording::Recording;
use lutarosa_reference::rule::Rule;
use lutarosa_reference::situation::Space;
use lutarosa_reference::table::Table;
use lutarosa_reference::witness::{Row, Witness, ADDED, KEPT, NO_TRANSITION, REMOVED};

use super::Way;

/// The last rows: how many there are, and which of them are guesses, the latest in bit 0.
#[derive(Clone, Copy, Debug, Default, PartialEq, Eq, PartialOrd, Ord)]
pub struct Window {
    rows: u8,
    guesses: u16,
}

impl Window {
    pub fn push(self, guess: bool) -> Window {
        Window { rows: self.rows + 1, guesses: self.guesses << 1 | u16::from(guess) }.last(12)
    }

    /// So many of them, or fewer if there are fewer.
    pub fn last(self, rows: usize) -> Window {
        let guesses = self.guesses & ((1 << rows) - 1);
        Window { rows: self.rows.min(rows as u8), guesses }
    }

    pub fn without_latest(self) -> Window {
        Window { rows: self.rows.saturating_sub(1), guesses: self.guesses >> 1 }
    }

    pub fn rows(self) -> usize {
        self.rows.into()
    }

    pub fn guesses(self) -> u32 {
        self.guesses.count_ones()
    }
}

/// A situation without a rule, and the last rows.
type State = (usize, Window);

pub struct Search<'a> {
    way: &'a Way,
    rule: Rule,
    table: &'a Table,
    space: &'a Space,
    moves: Moves<'a>,
}

impl<'a> Search<'a> {
    pub fn new(way: &'a Way, rule: Rule, table: &'a Table, space: &'a Space) -> Self {
        Search { way, rule, table, space, moves: Moves::new(table, space) }
    }

    pub fn run(mut self, recording: &Recording, budget: u32) -> Result<(u64, Witness), Verdict> {
        let instants = recording.instants();
        let first = (self.space.number(&self.space.first()), Window::default());
        let mut layers = vec![BTreeSet::from([first])];
        let mut cost = 0;
        for (place, heard) in instants.iter().enumerate() {
            let now = &layers[place];
            cost += distinct(now, self.way.works) as u64;
            if cost > u64::from(budget) {
                return Err(Verdict::new(2, budget.into(), place as u64 + 1));
            }
            let mut next = BTreeSet::new();
            for state in now {
                next.extend(self.steps(*state, *heard).into_iter().map(|it| it.1));
            }
            if next.is_empty() {
                let counts = self.counts(now, heard.expect("a row"));
                return Err(Verdict::rejected(cost, place as u64 + 1, counts));
            }
            layers.push(next);
        }
        Ok((cost, self.preferred(&instants, layers, first)))
    }

    fn preferred(
        &mut self,
        instants: &[Option<u8>],
        mut layers: Vec<BTreeSet<State>>,
        first: State,
    ) -> Witness {
        for (place, heard) in instants.iter().enumerate().rev() {
            let (now, next) = layers.split_at_mut(place + 1);
            now[place].retain(|state| {
                self.steps(*state, *heard).iter().any(|step| next[0].contains(&step.1))
            });
        }
        let mut witness = Witness::default();
        let mut state = first;
        for (place, heard) in instants.iter().enumerate() {
            let mut steps = self.steps(state, *heard).into_iter();
            let (row, next) =
                steps.find(|step| layers[place + 1].contains(&step.1)).expect("it lasts");
            witness.rows.extend(row.map(|row| Row { time: place as u16 + 1, ..row }));
            state = next;
        }
        witness
    }

    /// In the order of preference; the rows still lack their time.
    fn steps(
        &mut self,
        (situation, window): State,
        heard: Option<u8>,
    ) -> Vec<(Option<Row>, State)> {
        let (idle, fired) = self.moves.meet(situation);
        let fired: Vec<Fired> = fired.to_vec();
        let mut steps = Vec::new();
        let mark = if heard.is_some() { KEPT } else { ADDED };
        if heard.is_none() {
            steps.push((None, (idle, (self.way.idles)(window).last(self.remembered()))));
        }
        for it in fired.iter().filter(|it| heard.is_none_or(|kind| it.kind == kind)) {
            if let Some(after) = self.after(window, it.kind, mark) {
                let row = Row { mark, time: 0, kind: it.kind, transition: it.transition };
                steps.push((Some(row), (it.next.into(), after)));
            }
        }
        let removed = heard.and_then(|kind| {
            Some((kind, self.moves.removed(situation, kind)?, self.after(window, kind, REMOVED)?))
        });
        if let Some((kind, next, after)) = removed {
            let row = Row { mark: REMOVED, time: 0, kind, transition: NO_TRANSITION };
            steps.push((Some(row), (next, after)));
        }
        steps
    }

    fn remembered(&self) -> usize {
        (self.way.window)(self.rule).saturating_sub(1)
    }

    fn after(&self, window: Window, kind: u8, mark: u8) -> Option<Window> {
        self.way.after(self.rule, window, &self.table.kinds[usize::from(kind)], mark)
    }

    fn counts(&self, now: &BTreeSet<State>, kind: u8) -> Counts {
        let mut counts = Counts::default();
        let situations: BTreeSet<(usize, u16)> = now
            .iter()
            .map(|(it, window)| (*it, if self.way.pairs { window.guesses } else { 0 }))
            .collect();
        for (situation, _) in situations {
            for readiness in self.moves.readiness(situation, kind) {
                match readiness {
                    Readiness::Yes => {}
                    Readiness::NotYet => counts.not_yet += 1,
                    Readiness::NoMore => counts.no_more += 1,
                }
            }
        }
        counts
    }
}

/// Where fewer rows were, the missing ones are no guesses.
fn distinct(states: &BTreeSet<State>, by_window: bool) -> usize {
    let keys: BTreeSet<(usize, u16)> = states
        .iter()
        .map(|(situation, window)| (*situation, if by_window { window.guesses } else { 0 }))
        .collect();
    keys.len()
}

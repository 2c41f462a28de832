//! Other rules than R-8's for the states of a table.

use std::collections::BTreeSet;

use lutarosa_reference::answer::{settle, Answer, Refusal};
use lutarosa_reference::call::{Engine, ORDINARY};
use lutarosa_reference::check::check_read;
use lutarosa_reference::frame::put;
use lutarosa_reference::guard::Guard;
use lutarosa_reference::recording::{read_against, Recording};
use lutarosa_reference::rule::Rule as Guesses;
use lutarosa_reference::situation::{Space, MOST_SITUATIONS};
use lutarosa_reference::table::{read_records, Table, Transition};
use lutarosa_reference::validate::validate_read;

/// What is judged of a table once its records are in order.
pub type Judge = fn(&Table) -> Result<(), Refusal>;

pub struct Rule {
    pub name: &'static str,
    pub judge: Judge,
    pub engine: Engine,
}

macro_rules! rule {
    ($name:expr, $judge:expr) => {{
        const JUDGE: Judge = $judge;
        let engine = Engine {
            validate: |edition, table, recording, budget, scratch, room| {
                let read = read_both(JUDGE, table, recording);
                settle(read.and_then(|(table, heard)| {
                    validate_read(edition, Guesses::NONE, &table, &heard, budget, scratch, room)
                }))
            },
            check: |edition, table, recording, witness| {
                let read = read_both(JUDGE, table, recording);
                settle(read.and_then(|(table, heard)| {
                    check_read(edition, Guesses::NONE, &table, &heard, witness)
                }))
            },
            rewrite_table: |bytes, room| rewrite(read(JUDGE, bytes).map(|_| ()), bytes, room),
            rewrite_recording: |table, bytes, room| {
                rewrite(read_both(JUDGE, table, bytes).map(|_| ()), bytes, room)
            },
            ..ORDINARY
        };
        Rule { name: $name, judge: JUDGE, engine }
    }};
}

/// R-8 written again.
pub const NOW: Rule = rule!("R-8", |table| judged(table, reached(table, all_rounds(table))));

pub const OTHERS: [Rule; 12] = [
    rule!("before R-8", situations),
    rule!("one round too few", |table| {
        judged(table, reached(table, all_rounds(table).saturating_sub(1)))
    }),
    rule!("fourteen rounds", |table| judged(table, reached(table, 14))),
    rule!("tried once, in order", |table| judged(table, passed(table, 1))),
    rule!("tried fourteen times, in order", |table| judged(table, passed(table, 14))),
    rule!("the highest is named", |table| {
        let reached = reached(table, all_rounds(table));
        situations(table).and(unreached(reached.iter().rposition(|reached| !reached)))
    }),
    rule!("17 before 16", |table| {
        lowest(&reached(table, all_rounds(table))).and(situations(table))
    }),
    rule!("guards that never hold lead nowhere", |table| {
        let some = with_transitions(table, |it| vec![it.clone(); may_hold(table, it).into()]);
        judged(table, reached(&some, all_rounds(table)))
    }),
    rule!("another state leads to it", |table| judged(table, led_to(table, |it| it.from != it.to))),
    rule!("some state leads to it", |table| judged(table, led_to(table, |_| true))),
    rule!("transitions lead both ways", |table| {
        let turned = |it: &Transition| Transition { from: it.to, to: it.from, ..it.clone() };
        let both = with_transitions(table, |it| vec![it.clone(), turned(it)]);
        judged(table, reached(&both, all_rounds(table)))
    }),
    rule!("state 0 must be led to", |table| {
        let mut reached = reached(table, all_rounds(table));
        reached[0] = table.transitions.iter().any(|it| it.to == 0 && reached[usize::from(it.from)]);
        judged(table, reached)
    }),
];

fn read(judge: Judge, bytes: &[u8]) -> Result<Table, Refusal> {
    let table = read_records(bytes)?;
    judge(&table)?;
    Ok(table)
}

fn read_both(judge: Judge, table: &[u8], bytes: &[u8]) -> Result<(Table, Recording), Refusal> {
    let table = read(judge, table)?;
    let recording = read_against(&table, bytes)?;
    Ok((table, recording))
}

/// What was read comes back as it was.
fn rewrite(read: Result<(), Refusal>, bytes: &[u8], room: &mut [u8]) -> Answer {
    settle(read.and_then(|()| put(bytes, room)))
}

fn situations(table: &Table) -> Result<(), Refusal> {
    let too_many = Space::of(table).count() > MOST_SITUATIONS;
    if too_many {
        Err(Refusal::new(16, 0))
    } else {
        Ok(())
    }
}

/// 16, and then the lowest state that is not reached.
fn judged(table: &Table, reached: Vec<bool>) -> Result<(), Refusal> {
    situations(table).and(lowest(&reached))
}

fn lowest(reached: &[bool]) -> Result<(), Refusal> {
    unreached(reached.iter().position(|reached| !reached))
}

fn unreached(state: Option<usize>) -> Result<(), Refusal> {
    state.map_or(Ok(()), |state| Err(Refusal::new(17, state)))
}

/// No way without a detour is longer.
fn all_rounds(table: &Table) -> usize {
    usize::from(table.states) - 1
}

/// After so many rounds: in each, all transitions lead on from what was reached before it.
fn reached(table: &Table, rounds: usize) -> Vec<bool> {
    let mut reached = only_first(table);
    for _ in 0..rounds {
        let before = reached.clone();
        for it in &table.transitions {
            reached[usize::from(it.to)] |= before[usize::from(it.from)];
        }
    }
    reached
}

/// After the transitions were tried so many times, one after the other.
fn passed(table: &Table, times: usize) -> Vec<bool> {
    let mut reached = only_first(table);
    for it in (0..times).flat_map(|_| &table.transitions) {
        reached[usize::from(it.to)] |= reached[usize::from(it.from)];
    }
    reached
}

/// States that one such transition leads to, be its own state reached or not.
fn led_to(table: &Table, counts: impl Fn(&Transition) -> bool) -> Vec<bool> {
    let mut reached = only_first(table);
    for it in table.transitions.iter().filter(|it| counts(it)) {
        reached[usize::from(it.to)] = true;
    }
    reached
}

fn only_first(table: &Table) -> Vec<bool> {
    (0..table.states).map(|state| state == 0).collect()
}

fn with_transitions(table: &Table, instead: impl Fn(&Transition) -> Vec<Transition>) -> Table {
    let transitions = table.transitions.iter().flat_map(instead).collect();
    Table { transitions, ..table.clone() }
}

/// Whether some variables and clocks make the guard hold. It can change only next to a number that
/// a clock is compared with, and that is one of its bytes.
fn may_hold(table: &Table, it: &Transition) -> bool {
    let guard = Guard::read(&it.guard, table.variables, table.clocks).expect("in order");
    let near = |byte: &u8| (u32::from(*byte).saturating_sub(1)..).take(3);
    let values: BTreeSet<u32> = it.guard.iter().flat_map(near).chain([0]).collect();
    let pairs = || values.iter().flat_map(|first| values.iter().map(|second| [*first, *second]));
    (0..1 << table.variables).any(|it| pairs().any(|clocks| guard.holds_after(0, it, &clocks)))
}

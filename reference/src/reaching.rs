//! Tables of R-8: all states can be reached from state 0, or some are unreached.

use crate::answer::Refusal;
use crate::generate::encode_table;
use crate::table::{Kind, Table, Transition};

pub struct Reaching {
    pub name: String,
    pub table: Table,
    /// Of the table, but for what is cut from them or put behind them.
    pub bytes: Vec<u8>,
    /// Nothing if they are sound.
    pub refusal: Option<Refusal>,
}

impl Reaching {
    /// Whether writing its parts is judged as reading its bytes is.
    pub fn is_whole(&self) -> bool {
        self.bytes == encode_table(&self.table)
    }
}

/// From where to where a transition leads.
type Link = (u8, u8);

const STATES: u8 = 16;
const MOST_TRANSITIONS: usize = 64;

/// Guards that never hold: not true, at least 5 and at most 3, a variable and not that variable.
const NEVER: [&[u8]; 3] = [&[4, 0], &[5, 2, 0, 5, 1, 0, 3], &[5, 3, 0, 4, 3, 0]];

/// States, links in the order of the table, and the lowest unreached state.
const FEW_LINKS: &[(&str, u8, &[Link], Option<usize>)] = &[
    ("one state and no transition", 1, &[], None),
    ("two states and no transition", 2, &[], Some(1)),
    ("16 states and no transition", 16, &[], Some(1)),
    ("state 0 leads to itself alone", 2, &[(0, 0)], Some(1)),
    ("an unreached state leads to itself", 2, &[(0, 0), (1, 1)], Some(1)),
    ("a state between leads to itself alone", 3, &[(0, 2), (1, 1)], Some(1)),
    ("the last state leads to itself and to 0", 3, &[(0, 1), (2, 2), (2, 0)], Some(2)),
    ("a state leads to itself before it is reached", 2, &[(1, 1), (0, 1)], None),
    ("several transitions between the same two", 2, &[(0, 1), (0, 1), (1, 0), (0, 1)], None),
    ("two unreached states lead to each other", 3, &[(0, 0), (1, 2), (2, 1)], Some(1)),
    ("three do, and to 0", 4, &[(1, 2), (2, 3), (3, 1), (1, 0), (3, 0)], Some(1)),
    ("two do, and to others", 5, &[(0, 1), (1, 3), (2, 4), (4, 2), (4, 1), (2, 0)], Some(2)),
    ("the last three do", 6, &[(3, 4), (4, 5), (5, 3), (5, 1), (0, 1), (1, 2)], Some(3)),
    ("a ring through state 0", 3, &[(2, 0), (1, 2), (0, 1)], None),
    ("one goes back", 2, &[(1, 0)], Some(1)),
    ("all go back", 3, &[(1, 0), (2, 1)], Some(1)),
    ("all go back from the last", 3, &[(2, 1), (1, 0)], Some(1)),
    ("two ways each", 3, &[(2, 1), (1, 2), (1, 0), (0, 1)], None),
    ("lower states through the highest", 4, &[(1, 2), (3, 1), (0, 3)], None),
    ("lower states through an unreached one", 4, &[(1, 2), (3, 1), (0, 0)], Some(1)),
    ("the lowest of two apart", 5, &[(0, 1), (1, 3), (4, 2), (4, 1)], Some(2)),
    ("two ways to one state, none to another", 5, &[(0, 1), (0, 2), (1, 4), (2, 4)], Some(3)),
];

pub fn tables() -> Vec<Reaching> {
    let mut tables: Vec<Reaching> = FEW_LINKS
        .iter()
        .map(|(name, states, links, unreached)| named(*name, linked(*states, links), *unreached))
        .collect();
    tables.extend(chains());
    tables.extend(cut_chains());
    tables.extend(one_unreached());
    tables.extend(some_unreached());
    tables.extend(most_transitions());
    tables.extend(guarded());
    tables.extend(at_the_limit());
    tables.extend(unsound_records());
    tables
}

fn named(name: impl Into<String>, table: Table, unreached: Option<usize>) -> Reaching {
    refused(name, table, unreached.map(|state| Refusal::new(17, state)))
}

fn refused(name: impl Into<String>, table: Table, refusal: Option<Refusal>) -> Reaching {
    Reaching { name: name.into(), bytes: encode_table(&table), table, refusal }
}

/// A kind from the unit and one to it, in turn; every guard is true.
fn linked(states: u8, links: &[Link]) -> Table {
    let transition = |((from, to), kind): (&Link, u8)| Transition {
        from: *from,
        to: *to,
        kind,
        guard: vec![0],
        ..Transition::default()
    };
    Table {
        version: 1,
        states,
        variables: 0,
        clocks: 0,
        kinds: vec![Kind::in_version_1(0, 0), Kind::in_version_1(1, 1)],
        transitions: links.iter().zip([0, 1].into_iter().cycle()).map(transition).collect(),
    }
}

/// Each state leads to the next, from state 0 on.
fn rising(states: u8) -> Vec<Link> {
    (1..states).map(|to| (to - 1, to)).collect()
}

/// The same, the last link first.
fn falling(states: u8) -> Vec<Link> {
    rising(states).into_iter().rev().collect()
}

/// But for the links to these states.
fn without(mut links: Vec<Link>, unreached: &[u8]) -> Vec<Link> {
    links.retain(|(_, to)| !unreached.contains(to));
    links
}

/// Whole, both ways, and back alone.
fn chains() -> Vec<Reaching> {
    let mut tables = Vec::new();
    for states in [2, 3, 9, 15, 16] {
        tables.push(named(format!("rising to {states}"), linked(states, &rising(states)), None));
        tables.push(named(format!("falling to {states}"), linked(states, &falling(states)), None));
    }
    let back = |links: Vec<Link>| links.into_iter().map(|(from, to)| (to, from));
    let both: Vec<Link> = back(rising(STATES)).chain(falling(STATES)).collect();
    tables.push(named("both ways", linked(STATES, &both), None));
    let to_itself = |(from, to): Link| [(from, from), (from, to)];
    let loops: Vec<Link> = falling(STATES).into_iter().flat_map(to_itself).collect();
    tables.push(named("each to itself too", linked(STATES, &loops), None));
    let back: Vec<Link> = back(falling(STATES)).collect();
    tables.push(named("back alone", linked(STATES, &back), Some(1)));
    tables
}

/// Chains of 16 that lack one link.
fn cut_chains() -> Vec<Reaching> {
    let cut = |order: &str, links: Vec<Link>, unreached: u8| {
        let table = linked(STATES, &without(links, &[unreached]));
        named(format!("{order}, cut before {unreached}"), table, Some(unreached.into()))
    };
    let falling = (1..STATES).map(|unreached| cut("falling", falling(STATES), unreached));
    let rising = [1, 8, 15].map(|unreached| cut("rising", rising(STATES), unreached));
    falling.chain(rising).collect()
}

/// State 0 leads to all others but one, which leads to itself, to another, or nowhere.
fn one_unreached() -> Vec<Reaching> {
    let one = |unreached: u8| {
        let mut links = without((1..STATES).map(|to| (0, to)).collect(), &[unreached]);
        match unreached % 3 {
            0 => links.insert(0, (unreached, unreached)),
            1 => links.push((unreached, unreached - 1)),
            _ => {}
        }
        named(format!("only {unreached} unreached"), linked(STATES, &links), Some(unreached.into()))
    };
    (1..STATES).map(one).collect()
}

fn some_unreached() -> Vec<Reaching> {
    let mut tables = Vec::new();
    for unreached in [&[14, 15][..], &[5, 9, 15], &[15, 7], &[13, 14, 15], &[10, 11], &[4, 12]] {
        let mut links = without((1..STATES).map(|to| (to / 2, to)).collect(), unreached);
        // Those that only they led to stay reached.
        links.extend((1..STATES).filter(|to| !unreached.contains(to)).map(|to| (0, to)));
        // The unreached ones lead to each other, round and round.
        links.extend(
            (0..unreached.len()).map(|it| (unreached[it], unreached[(it + 1) % unreached.len()])),
        );
        let lowest = unreached.iter().min().copied().map(usize::from);
        tables.push(named(format!("{unreached:?} unreached"), linked(STATES, &links), lowest));
    }
    tables
}

/// 64 transitions: the link that counts is the first one, or the last.
fn most_transitions() -> Vec<Reaching> {
    let padded = |first: &[Link], fill: Link, last: &[Link]| {
        let fill = vec![fill; MOST_TRANSITIONS - first.len() - last.len()];
        linked(STATES, &[first, &fill, last].concat())
    };
    let falling = falling(STATES);
    let (first, last) = (without(falling.clone(), &[15]), without(falling.clone(), &[1]));
    vec![
        named("64, falling", padded(&falling, (0, 0), &[]), None),
        named("64, falling at the end", padded(&[], (15, 0), &falling), None),
        named("64, the link to 15 stands first", padded(&[(14, 15)], (3, 3), &first), None),
        named("64, the very last leads to 15", padded(&first, (1, 2), &[(14, 15)]), None),
        named("64, the very last leads from 15", padded(&first, (1, 2), &[(15, 14)]), Some(15)),
        named("64, nothing leads to 1", padded(&last, (1, 1), &[]), Some(1)),
        named("64, all at 0", padded(&[], (0, 0), &[]), Some(1)),
    ]
}

/// A guard that never holds leads on all the same.
fn guarded() -> Vec<Reaching> {
    let with = |guard: &[u8], mut table: Table| {
        (table.variables, table.clocks) = (1, 1);
        table.transitions.iter_mut().for_each(|it| it.guard = guard.to_vec());
        table
    };
    let mut tables = Vec::new();
    for guard in NEVER {
        let mut add = |name: &str, states: u8, links: &[Link], unreached| {
            let table = with(guard, linked(states, links));
            tables.push(named(format!("{name} by {guard:?}"), table, unreached));
        };
        add("two states", 2, &[(0, 1)], None);
        add("16 states", STATES, &falling(STATES), None);
        add("back alone", 3, &[(0, 1), (2, 1), (2, 2)], Some(2));
    }
    tables
}

/// N at its limit and one number above: 16 comes first. 16 x 16 x 256, and 2 x 16 x 128 x 16.
fn at_the_limit() -> Vec<Reaching> {
    let wide = |limit: u8, mut table: Table, airtime: u8| {
        (table.variables, table.clocks) = (4, 1);
        table.kinds.iter_mut().for_each(|it| it.airtime = airtime);
        table.transitions.iter_mut().for_each(|it| it.guard = vec![1, 0, limit]);
        table
    };
    let whole = linked(STATES, &falling(STATES));
    let cut = linked(STATES, &without(falling(STATES), &[15]));
    let loose = linked(STATES, &[(0, 0)]);
    let two = linked(2, &[(0, 0), (1, 0)]);
    let mut tables = Vec::new();
    for (name, table, limit, airtime, unreached) in [
        ("whole", whole, 254, 0, None),
        ("cut", cut, 254, 0, Some(15)),
        ("loose", loose, 254, 0, Some(1)),
        ("two states", two, 126, 15, Some(1)),
    ] {
        let at_most = wide(limit, table.clone(), airtime);
        tables.push(named(format!("N at its limit, {name}"), at_most, unreached));
        let above = Some(Refusal::new(16, 0));
        let over = wide(limit + 1, table, airtime);
        tables.push(refused(format!("N above its limit, {name}"), over, above));
    }
    tables
}

/// State 1 is unreached, and the last record, which starts at 20 and would end at 28, comes first.
fn unsound_records() -> Vec<Reaching> {
    let table = linked(2, &[(0, 0), (1, 0)]);
    let with = |name: &str, number: u64, change: fn(&mut Transition)| {
        let mut table = table.clone();
        change(&mut table.transitions[1]);
        refused(name, table, Some(Refusal::new(number, 20)))
    };
    let resized = |name: &str, length: usize, offset: usize| {
        let mut it = refused(name, table.clone(), Some(Refusal::new(13, offset)));
        it.bytes.resize(length, 0);
        it.bytes[1] = length as u8 - 2;
        it
    };
    vec![
        resized("last record cut short", 26, 20),
        resized("last guard missing", 27, 20),
        resized("bytes left over", 29, 28),
        with("to an absent state", 14, |it| it.to = 2),
        with("on an absent kind", 14, |it| it.kind = 2),
        with("an absent variable set", 14, |it| it.set = 1),
        with("no guard", 15, |it| it.guard.clear()),
        with("an unknown guard", 15, |it| it.guard[0] = 6),
    ]
}

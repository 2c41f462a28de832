//! Random tables.

use super::rng::Rng;
use crate::situation::{Space, MOST_SITUATIONS};
use crate::table::{Kind, Table, Transition};

/// The most of everything that a random table may have.
#[derive(Clone, Copy, Debug)]
pub struct Shape {
    pub states: usize,
    pub variables: usize,
    pub clocks: usize,
    pub kinds: usize,
    pub transitions: usize,
    pub airtime: usize,
    /// The largest number a clock is compared with.
    pub limit: usize,
    pub guard_bytes: usize,
    /// Whether every count is at its most.
    pub full: bool,
}

impl Shape {
    /// Small enough for the brute-force search.
    pub const TINY: Shape = Shape {
        states: 3,
        variables: 2,
        clocks: 2,
        kinds: 3,
        transitions: 7,
        airtime: 2,
        limit: 5,
        guard_bytes: 10,
        full: false,
    };
    pub const MIDDLE: Shape = Shape {
        states: 7,
        variables: 3,
        clocks: 2,
        kinds: 6,
        transitions: 24,
        airtime: 4,
        limit: 9,
        guard_bytes: 20,
        full: false,
    };
    /// Counts up to every limit; N is often too large and the numbers come down until it fits.
    pub const LARGE: Shape = Shape {
        states: 16,
        variables: 4,
        clocks: 2,
        kinds: 32,
        transitions: 64,
        airtime: 15,
        limit: 255,
        guard_bytes: 32,
        full: false,
    };
    /// N near its limit, and every count at its own.
    pub const WIDE: Shape = Shape { airtime: 0, limit: 14, full: true, ..Shape::LARGE };
}

pub fn sound_table(rng: &mut Rng, shape: &Shape) -> Table {
    let mut shape = *shape;
    loop {
        let table = any_table(rng, &shape);
        if Space::of(&table).count() <= MOST_SITUATIONS {
            return table;
        }
        shape.limit = (shape.limit * 3 / 4).max(1);
        shape.airtime /= 2;
    }
}

/// A protocol: the states wait for their packets in a ring, each for some ticks once the one before
/// is off the air, and at times there is another way. So there are few places for a lost packet.
pub fn protocol(rng: &mut Rng) -> Table {
    let directions = [0, 1, rng.below(2) as u8];
    let version = version(rng);
    let kinds = directions.map(|direction| Kind {
        direction,
        airtime: rng.between(0, 3) as u8,
        device: device(rng, version, direction),
    });
    let states = rng.between(2, 4);
    let mut transitions = Vec::new();
    let mut airtime = 0;
    for step in 0..states + rng.below(5) {
        let kind = rng.below(kinds.len());
        let low = airtime + rng.between(1, 3) as u8;
        let high = low + rng.below(8) as u8;
        airtime = kinds[kind].airtime;
        transitions.push(Transition {
            from: (step % states) as u8,
            to: ((step + 1) % states) as u8,
            kind: kind as u8,
            reset: 1,
            guard: vec![5, 2, 0, low, 1, 0, high],
            ..Transition::default()
        });
    }
    let (states, kinds) = (states as u8, kinds.to_vec());
    Table { version, states, variables: 0, clocks: 1, kinds, transitions }
}

/// Sound but for N, which may be above its limit. There are as many transitions as it takes to
/// reach every state, or more.
pub fn any_table(rng: &mut Rng, shape: &Shape) -> Table {
    let count = |rng: &mut Rng, low, most| if shape.full { most } else { rng.between(low, most) };
    let states = count(rng, 1, shape.states);
    let variables = count(rng, 0, shape.variables);
    let clocks = count(rng, 0, shape.clocks);
    let kinds = count(rng, 1, shape.kinds);
    // Few transitions say little, so the larger of two counts.
    let transitions = count(rng, 0, shape.transitions).max(count(rng, 0, shape.transitions));
    let version = version(rng);
    let mut table = Table {
        version,
        states: states as u8,
        variables: variables as u8,
        clocks: clocks as u8,
        kinds: (0..kinds).map(|_| kind(rng, shape, version)).collect(),
        transitions: Vec::new(),
    };
    for (from, to) in ends(rng, states, transitions) {
        let transition = Transition { from, to, ..transition(rng, shape, &table) };
        table.transitions.push(transition);
    }
    table
}

/// From where to where so many transitions lead, or more if so few cannot reach every state. Each
/// state is linked to one that was linked before it; the links stand anywhere among the others, or
/// at times behind them, the last one first.
fn ends(rng: &mut Rng, states: usize, count: usize) -> Vec<(u8, u8)> {
    let mut order: Vec<u8> = (0..states as u8).collect();
    rng.shuffle(&mut order[1..]);
    // At times they are one long way, and the others lead back along it.
    let long = rng.one_in(4);
    let link = |rng: &mut Rng, place: usize| if long { place - 1 } else { rng.below(place) };
    let mut ends: Vec<(u8, u8)> =
        (1..states).map(|place| (order[link(rng, place)], order[place])).collect();
    while ends.len() < count {
        let from = rng.below(states);
        let bound = if long { from + 1 } else { states };
        ends.push((order[from], order[rng.below(bound)]));
    }
    match rng.one_in(4) {
        true => ends.reverse(),
        false => rng.shuffle(&mut ends),
    }
    ends
}

fn version(rng: &mut Rng) -> u8 {
    rng.pick(&[1, 2])
}

fn kind(rng: &mut Rng, shape: &Shape, version: u8) -> Kind {
    let airtime = if rng.one_in(2) { 0 } else { rng.between(0, shape.airtime) };
    let direction = u8::from(rng.below(5) < 2);
    Kind { direction, airtime: airtime as u8, device: device(rng, version, direction) }
}

/// One that a kind of this direction may have.
fn device(rng: &mut Rng, version: u8, direction: u8) -> u8 {
    match (version, direction) {
        (_, 0) => 0,
        (1, _) => 1,
        _ if rng.one_in(4) => rng.pick(&[1, 15]),
        _ => rng.between(1, 15) as u8,
    }
}

/// All but from where to where it leads.
fn transition(rng: &mut Rng, shape: &Shape, table: &Table) -> Transition {
    let variables_mask = (1 << table.variables) - 1;
    let set = rng.byte() & rng.byte() & variables_mask;
    let most = if shape.full { shape.guard_bytes } else { rng.between(1, shape.guard_bytes) };
    let mut guard = guard(rng, shape, table, most);
    if rng.one_in(8) {
        // As long as it may be: enough times not.
        guard.splice(0..0, vec![4; most - guard.len()]);
    }
    Transition {
        kind: rng.below(table.kinds.len()) as u8,
        set,
        clear: rng.byte() & rng.byte() & variables_mask & !set,
        reset: rng.byte() & ((1 << table.clocks) - 1),
        guard,
        ..Transition::default()
    }
}

/// A guard of at most so many bytes, which must be one or more.
fn guard(rng: &mut Rng, shape: &Shape, table: &Table, most: usize) -> Vec<u8> {
    let clock = |rng: &mut Rng, code: u8| {
        let limit = if shape.full { shape.limit } else { rng.between(0, shape.limit) };
        vec![code, rng.below(table.clocks.into()) as u8, limit as u8]
    };
    match rng.below(12) {
        0..=2 if most >= 3 && table.clocks > 0 => clock(rng, 1),
        3..=5 if most >= 3 && table.clocks > 0 => clock(rng, 2),
        6 | 7 if most >= 2 && table.variables > 0 => {
            vec![3, rng.below(table.variables.into()) as u8]
        }
        8 | 9 if most >= 2 => {
            let mut bytes = vec![4];
            bytes.extend(guard(rng, shape, table, most - 1));
            bytes
        }
        10 | 11 if most >= 3 => {
            let left_most = rng.between(1, most - 2);
            let left = guard(rng, shape, table, left_most);
            let mut bytes = vec![5];
            let right = guard(rng, shape, table, most - 1 - left.len());
            bytes.extend(left);
            bytes.extend(right);
            bytes
        }
        _ => vec![0],
    }
}

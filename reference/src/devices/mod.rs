//! Tables of R-6: versions, and devices that a kind may have or not, as bytes and as parts. What
//! each is refused with is worked out by hand.

mod bytes;
mod parts;

pub use bytes::tables;
pub use parts::{each_device, parts};

use std::ops::RangeInclusive;

use crate::answer::Refusal;
use crate::parts::TableParts;
use crate::table::{Kind, Table, Transition};

/// A table's bytes.
pub struct Told {
    pub name: String,
    pub bytes: Vec<u8>,
    /// Nothing if they are sound.
    pub refusal: Option<Refusal>,
}

/// A table's parts, to be written.
pub struct Given {
    pub name: String,
    pub parts: TableParts,
    /// Nothing if they can be written.
    pub refusal: Option<Refusal>,
}

/// Direction, devices, and whether version 2 has them.
const DEVICES: [(u8, RangeInclusive<u8>, bool); 5] = [
    (0, 0..=0, true),
    (0, 1..=255, false),
    (1, 0..=0, false),
    (1, 1..=15, true),
    (1, 16..=255, false),
];

/// Each direction with each device, and whether version 2 has it.
fn every_device() -> impl Iterator<Item = (u8, u8, bool)> {
    DEVICES
        .into_iter()
        .flat_map(|(direction, devices, has)| devices.map(move |device| (direction, device, has)))
}

/// Bytes that are neither 1 nor 2: each bit changed of the one and of the other, and the last two.
const UNKNOWN_VERSIONS: [u8; 16] = [0, 3, 5, 9, 17, 33, 65, 129, 6, 10, 18, 34, 66, 130, 255, 254];

const MOST_KINDS: usize = 32;

fn kind(direction: u8, airtime: u8, device: u8) -> Kind {
    Kind { direction, airtime, device }
}

fn refusal(number: u64, value: usize) -> Option<Refusal> {
    Some(Refusal::new(number, value))
}

/// One state and these kinds. A transition on each of the first two, or on all there are.
fn with_kinds(version: u8, kinds: Vec<Kind>) -> Table {
    let transition = |kind: u8| Transition { kind, guard: vec![0], ..Transition::default() };
    let transitions = (0..kinds.len().min(2) as u8).map(transition).collect();
    Table { version, states: 1, variables: 0, clocks: 0, kinds, transitions }
}

/// From the unit, to it, to it; the devices are the ones that version 1 gives.
fn three(version: u8) -> Table {
    with_kinds(version, vec![kind(0, 1, 0), kind(1, 0, 1), kind(1, 2, 1)])
}

/// As many as there may be, each way in turn. In version 2 they are of all devices.
fn most(version: u8) -> Table {
    let one = |number: u8| match (number % 2, version) {
        (0, _) => kind(0, number % 3, 0),
        (_, 1) => kind(1, number % 3, 1),
        _ => kind(1, number % 3, 1 + number / 2 % 15),
    };
    with_kinds(version, (0..MOST_KINDS as u8).map(one).collect())
}

/// Kinds of those, and devices that they may not have in version 2.
fn bad_devices_of_most() -> impl Iterator<Item = (usize, u8)> {
    let bad = |number: usize| match number % 2 {
        0 => [(number, 1), (number, 15)],
        _ => [(number, 0), (number, 16)],
    };
    (0..MOST_KINDS).flat_map(bad)
}

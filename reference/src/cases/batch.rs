//! How a case is laid out: numbers of calls, heads, and what is lent.

use std::io::{self, Write};

use crate::call::Call;
use crate::edition::Edition;
use crate::rule::Rule;
use crate::writing::{Parts, Writing};

pub const DESK: u8 = 5;

/// What is called, where only the edition makes a difference.
fn by_edition(edition: Edition, one: u8, two: u8) -> u8 {
    match edition {
        Edition::One => one,
        Edition::Two => two,
    }
}

pub fn number_of_call(call: &Call) -> u8 {
    match call {
        Call::Validate { edition, .. } => by_edition(*edition, 0, 12),
        Call::ValidateRule { edition, .. } => by_edition(*edition, 17, 19),
        Call::Check { edition, .. } => by_edition(*edition, 1, 13),
        Call::CheckRule { edition, .. } => by_edition(*edition, 18, 20),
        Call::RewriteTable { .. } => 2,
        Call::RewriteRecording { .. } => 3,
        Call::RewriteWitness { edition, .. } => by_edition(*edition, 4, 14),
    }
}

pub fn number_of_writing(writing: &Writing) -> u8 {
    match (&writing.parts, writing.back) {
        (Parts::Table(_), false) => 6,
        (Parts::Table(_), true) => 9,
        (Parts::Recording(..), false) => 7,
        (Parts::Recording(..), true) => 10,
        (Parts::Witness(edition, _), false) => by_edition(*edition, 8, 15),
        (Parts::Witness(edition, _), true) => by_edition(*edition, 11, 16),
    }
}

/// The sum goes by place, so that bytes that change places change it.
pub fn add(sum: u64, byte: u8) -> u64 {
    (sum * 257 + u64::from(byte) + 1) % 1_000_003
}

pub fn pattern(length: usize) -> Vec<u8> {
    (0..length).map(|place| ((7 * place + 1) % 256) as u8).collect()
}

/// The call with the pattern in what it lends.
pub fn patterned(mut call: Call) -> Call {
    match &mut call {
        Call::Validate { scratch, room, .. } | Call::ValidateRule { scratch, room, .. } => {
            *scratch = pattern(scratch.len());
            *room = pattern(room.len());
        }
        Call::Check { .. } | Call::CheckRule { .. } => {}
        Call::RewriteTable { room, .. }
        | Call::RewriteRecording { room, .. }
        | Call::RewriteWitness { room, .. } => *room = pattern(room.len()),
    }
    call
}

/// What a call has, as lengths of scratch and room and as files.
pub fn split(call: &Call) -> ((usize, usize), Vec<&[u8]>) {
    let mut lent = (0, 0);
    let mut files: Vec<&[u8]> = Vec::new();
    for (name, bytes) in call.inputs() {
        match name {
            "scratch" => lent.0 = bytes.len(),
            "room" => lent.1 = bytes.len(),
            _ => files.push(bytes),
        }
    }
    (lent, files)
}

/// What stands at the front of a case but for its files.
#[derive(Default)]
pub struct Head {
    pub called: u8,
    /// 0, 0 and 0 of a call without one.
    pub rule: Option<Rule>,
    pub budget: u32,
    pub scratch: usize,
    pub room: usize,
}

/// The head and the files behind it.
pub fn case(input: &mut Vec<u8>, head: &Head, files: &[&[u8]]) -> io::Result<()> {
    let Rule { device, window, most } = head.rule.unwrap_or(Rule::new(0, 0, 0));
    input.extend([head.called, device, window, most]);
    let length = |place: usize| files.get(place).map_or(0, |file| file.len());
    let Head { budget, scratch, room, .. } = *head;
    for number in [budget as usize, scratch, room, length(0), length(1), length(2)] {
        input.write_all(&(number as u32).to_be_bytes())?;
    }
    files.iter().try_for_each(|file| input.write_all(file))
}

//! Small things the tests share.

#![allow(dead_code)]

use lutarosa_reference::answer::{Answer, Verdict};
use lutarosa_reference::papers::SMALL_MONITOR;

pub fn answer(number: u64, second: u64, third: u64) -> Answer {
    Answer::new(number, second, third)
}

/// Of a validation where there is nothing to count.
pub fn verdict(number: u64, second: u64, third: u64) -> Verdict {
    Verdict::new(number, second, third)
}

/// The small monitor with some bytes changed.
pub fn monitor_with(changes: &[(usize, u8)]) -> Vec<u8> {
    changed(&SMALL_MONITOR, changes)
}

pub fn changed(bytes: &[u8], changes: &[(usize, u8)]) -> Vec<u8> {
    let mut bytes = bytes.to_vec();
    for (place, value) in changes {
        bytes[*place] = *value;
    }
    bytes
}

/// A file of this body, with its length in front.
pub fn file(body: &[u8]) -> Vec<u8> {
    let mut bytes = (body.len() as u16).to_be_bytes().to_vec();
    bytes.extend(body);
    bytes
}

/// The same file cut or drawn out to so many bytes, with a length that matches.
pub fn resized(bytes: &[u8], length: usize) -> Vec<u8> {
    let mut body = bytes[2..].to_vec();
    body.resize(length - 2, 0);
    file(&body)
}

/// One clock, one kind to the unit, and states in a row; every transition has this guard.
pub fn chain(states: u8, variables: u8, guard: &[u8]) -> Vec<u8> {
    let mut body = vec![1, states, variables, 1, 1, states - 1, 1, 0];
    for to in 1..states {
        body.extend([to - 1, to, 0, 0, 0, 0, guard.len() as u8]);
        body.extend(guard);
    }
    file(&body)
}

//! The desk's small monitor and its twelve recordings, with the values the paper gives.

use crate::answer::Verdict;
use crate::edition::Edition;
use crate::recording::FILE;

/// DATA and RETRY from the unit with airtime 1, ACK to it with airtime 0; bounds 3 and 6.
pub const SMALL_MONITOR: [u8; 68] = [
    0x00, 0x42, 0x01, 0x03, 0x00, 0x01, 0x03, 0x05, 0x00, 0x01, 0x00, 0x01, 0x01, 0x00, 0x00, 0x01,
    0x00, 0x00, 0x00, 0x01, 0x01, 0x00, 0x01, 0x00, 0x02, 0x00, 0x00, 0x00, 0x03, 0x01, 0x00, 0x03,
    0x01, 0x02, 0x01, 0x00, 0x00, 0x01, 0x08, 0x05, 0x04, 0x01, 0x00, 0x03, 0x01, 0x00, 0x06, 0x02,
    0x00, 0x02, 0x00, 0x00, 0x00, 0x03, 0x01, 0x00, 0x03, 0x02, 0x01, 0x00, 0x00, 0x00, 0x01, 0x04,
    0x04, 0x01, 0x00, 0x03,
];

/// The same in version 2: ACK comes from device 1.
pub const SMALL_MONITOR_2: [u8; 71] = [
    0x00, 0x45, 0x02, 0x03, 0x00, 0x01, 0x03, 0x05, 0x00, 0x01, 0x00, 0x00, 0x01, 0x00, 0x01, 0x00,
    0x01, 0x00, 0x01, 0x00, 0x00, 0x00, 0x01, 0x01, 0x00, 0x01, 0x00, 0x02, 0x00, 0x00, 0x00, 0x03,
    0x01, 0x00, 0x03, 0x01, 0x02, 0x01, 0x00, 0x00, 0x01, 0x08, 0x05, 0x04, 0x01, 0x00, 0x03, 0x01,
    0x00, 0x06, 0x02, 0x00, 0x02, 0x00, 0x00, 0x00, 0x03, 0x01, 0x00, 0x03, 0x02, 0x01, 0x00, 0x00,
    0x00, 0x01, 0x04, 0x04, 0x01, 0x00, 0x03,
];

/// Where that device stands.
pub const ACK_DEVICE_2: usize = 16;

/// The small monitor with one byte changed.
pub fn small_monitor_with(place: usize, byte: u8) -> Vec<u8> {
    let mut table = SMALL_MONITOR.to_vec();
    table[place] = byte;
    table
}

pub const DATA: u8 = 0;
pub const RETRY: u8 = 1;
pub const ACK: u8 = 2;

/// One of the twelve.
pub struct Paper {
    pub name: &'static str,
    pub rows: &'static [(u16, u8)],
    pub budget: u32,
    /// P3 and P9, which are rejected, have no transition on what was heard: nothing is counted.
    pub answer: Verdict,
    /// After acceptance, the witness as a whole, in edition 1.
    pub witness: &'static [u8],
}

impl Paper {
    pub fn recording(&self) -> Vec<u8> {
        recording(self.rows)
    }

    /// After acceptance, the witness as a whole. Edition 2 has the same rows behind another head;
    /// none has so many that an upper half is not 0.
    pub fn witness(&self, edition: Edition) -> Vec<u8> {
        match (edition, self.witness) {
            (Edition::Two, [0, length, 1, 0, count, rows @ ..]) => {
                [&[0, 0, 0, length + 2, 2, 0, 0, 0, *count], rows].concat()
            }
            _ => self.witness.to_vec(),
        }
    }
}

/// A recording file of these rows, sound or not.
pub fn recording(rows: &[(u16, u8)]) -> Vec<u8> {
    let mut bytes = FILE.head(rows.len());
    for (time, kind) in rows {
        bytes.extend(time.to_be_bytes());
        bytes.push(*kind);
    }
    bytes
}

const FIVE: &[(u16, u8)] = &[(1, DATA), (3, ACK), (6, RETRY)];
/// Kept DATA at 1 by 0, removed ACK at 3, kept RETRY at 6 by 2.
const FIVE_WITNESS: &[u8] = &[0, 18, 1, 0, 3, 0, 0, 1, 0, 0, 1, 0, 3, 2, 255, 0, 0, 6, 1, 2];

const fn paper(
    name: &'static str,
    rows: &'static [(u16, u8)],
    budget: u32,
    answer: (u64, u64, u64),
    witness: &'static [u8],
) -> Paper {
    let answer = Verdict::new(answer.0, answer.1, answer.2);
    Paper { name, rows, budget, answer, witness }
}

/// P1 to P12 in order; where the paper leaves a cost open it is the sum of the works.
pub const PAPERS: &[Paper] = &[
    paper("P1", &[], 0, (0, 0, 0), &[0, 3, 1, 0, 0]),
    paper("P2", &[(1, DATA)], 10_000, (0, 1, 1), &[0, 8, 1, 0, 1, 0, 0, 1, 0, 0]),
    paper("P3", &[(1, RETRY)], 10_000, (1, 1, 1), &[]),
    paper("P4", &[(1, ACK)], 10_000, (0, 1, 1), &[0, 8, 1, 0, 1, 1, 0, 1, 2, 255]),
    paper("P5", FIVE, 10_000, (0, 13, 3), FIVE_WITNESS),
    paper("P6, budget 13", FIVE, 13, (0, 13, 3), FIVE_WITNESS),
    paper("P6, budget 12", FIVE, 12, (2, 12, 6), &[]),
    paper("P7", FIVE, 7, (2, 7, 5), &[]),
    paper(
        "P8",
        &[(1, DATA), (12, DATA)],
        10_000,
        // Works 1, 1, 1, 2, 3, 5, 8, 11, 14, 17, 18, 19.
        (0, 100, 3),
        &[0, 18, 1, 0, 3, 0, 0, 1, 0, 0, 2, 0, 7, 1, 2, 0, 0, 12, 0, 4],
    ),
    paper("P9", &[(1, DATA), (3, DATA)], 10_000, (1, 3, 3), &[]),
    paper(
        "P10",
        &[(1, DATA), (4, DATA)],
        10_000,
        (0, 5, 3),
        &[0, 18, 1, 0, 3, 0, 0, 1, 0, 0, 2, 0, 3, 2, 1, 0, 0, 4, 0, 0],
    ),
    paper("P11", &[(1, DATA), (2, DATA)], 10_000, (24, 1, 0), &[]),
    paper(
        "P12, ACK at 4",
        &[(1, DATA), (4, ACK)],
        10_000,
        (0, 5, 2),
        &[0, 13, 1, 0, 2, 0, 0, 1, 0, 0, 0, 0, 4, 2, 1],
    ),
    paper(
        "P12, ACK at 5",
        &[(1, DATA), (5, ACK)],
        10_000,
        (0, 8, 2),
        &[0, 13, 1, 0, 2, 0, 0, 1, 0, 0, 1, 0, 5, 2, 255],
    ),
];

//! Recordings that were accepted before R-3 and are rejected now: the packet that they lack would
//! be on the air together with one to the unit that was heard.

use crate::answer::{Answer, Counts, Verdict};
use crate::papers::{recording, small_monitor_with, ACK, RETRY};

/// Where the airtime of ACK stands in the small monitor.
pub const ACK_AIRTIME: usize = 13;

pub struct Narrowed {
    /// Of ACK in the small monitor; the paper's is 0.
    pub ack_airtime: u8,
    pub rows: &'static [(u16, u8)],
    /// The answer before R-3, with this witness.
    pub before: Verdict,
    pub witness: &'static [u8],
    pub now: Verdict,
}

/// What the checker says of each of these witnesses: the second row stands where the first has the
/// air.
pub const CHECKED: Answer = Answer::new(43, 1, 0);

impl Narrowed {
    pub fn table(&self) -> Vec<u8> {
        small_monitor_with(ACK_AIRTIME, self.ack_airtime)
    }

    pub fn recording(&self) -> Vec<u8> {
        recording(self.rows)
    }
}

/// RETRY comes 4 to 6 ticks after DATA.
pub const NARROWED: &[Narrowed] = &[
    // Accepted before R-3: removed ACK at 1, added DATA at 1 by 0, kept RETRY at 5 by 2. DATA can
    // be at no other instant, and now ACK has it.
    Narrowed {
        ack_airtime: 0,
        rows: &[(1, ACK), (5, RETRY)],
        before: Verdict::new(0, 18, 3),
        witness: &[0, 18, 1, 0, 3, 1, 0, 1, 2, 255, 2, 0, 1, 0, 0, 0, 0, 5, 1, 2],
        // Not yet after DATA at 2 or 3; DATA at 4 has the air.
        now: Verdict::rejected(12, 5, Counts::new(2, 0)),
    },
    // Accepted before R-3: removed ACK at 1, added DATA at 2 by 0, kept RETRY at 6 by 2. DATA can
    // be at 1 or 2, and now ACK has both.
    Narrowed {
        ack_airtime: 1,
        rows: &[(1, ACK), (6, RETRY)],
        before: Verdict::new(0, 30, 3),
        witness: &[0, 18, 1, 0, 3, 1, 0, 1, 2, 255, 2, 0, 2, 0, 0, 0, 0, 6, 1, 2],
        // Not yet after DATA at 3 or 4.
        now: Verdict::rejected(13, 6, Counts::new(2, 0)),
    },
    // Accepted before R-3: added DATA at 1 by 0, removed ACK at 2, kept RETRY at 5 by 2. DATA at 1
    // is still on the air at 2, where ACK was heard.
    Narrowed {
        ack_airtime: 0,
        rows: &[(2, ACK), (5, RETRY)],
        before: Verdict::new(0, 18, 3),
        witness: &[0, 18, 1, 0, 3, 2, 0, 1, 0, 0, 1, 0, 2, 2, 255, 0, 0, 5, 1, 2],
        // Not yet after DATA at 3.
        now: Verdict::rejected(9, 5, Counts::new(1, 0)),
    },
];

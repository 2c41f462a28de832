//! How often rejections have pairs that are not yet and no more.

use crate::answer::Counts;

#[derive(Default)]
pub struct PairTally {
    pub rejections: u64,
    pub not_yet: u64,
    pub no_more: u64,
    pub both: u64,
    /// More than 100 of each, and more than 1,000.
    pub hundreds: u64,
    pub thousands: u64,
}

impl PairTally {
    pub fn note(&mut self, Counts { not_yet, no_more }: Counts) {
        let more_than = |least: u64| u64::from(not_yet > least && no_more > least);
        self.rejections += 1;
        self.not_yet += u64::from(not_yet > 0);
        self.no_more += u64::from(no_more > 0);
        self.both += more_than(0);
        self.hundreds += more_than(100);
        self.thousands += more_than(1_000);
    }

    pub fn line(&self) -> String {
        format!(
            "rejections: {}, with pairs not yet: {}, no more: {}, both: {}, more than 100 of each: \
             {}, more than 1,000: {}\n",
            self.rejections, self.not_yet, self.no_more, self.both, self.hundreds, self.thousands
        )
    }
}

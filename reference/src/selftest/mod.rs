//! The program tested against itself: the paper's values, the brute-force search, the rules
//! of lent buffers, and reading against writing.

mod against_brute;
mod checks;
mod devices;
mod files;
mod guards;
mod long;
mod papers;
mod rejections;
mod ruled;
mod states;
mod truth;

use std::time::{Duration, Instant};

use crate::generate::Rng;
use crate::pair_tally::PairTally;

/// A long handover takes long.
const ROUNDS_TO_LONG: usize = 2;

/// What was looked at.
#[derive(Default)]
pub struct Counts {
    pub papers: u64,
    pub inputs: u64,
    pub accepted: u64,
    pub rejected: u64,
    pub validations: u64,
    pub witnesses: u64,
    /// Where the air of removed packets rules a trace out, and where no trace is left.
    pub narrowed: u64,
    pub left_with_none: u64,
    pub checker_hunts: u64,
    pub hunts_left: u64,
    pub checks: u64,
    pub files: u64,
    /// Tables whose records are in order, and of these the ones with unreached states.
    pub tables: u64,
    pub unreached: u64,
    /// Tables read as bytes and written as parts, and of these the ones whose version, counts or
    /// kinds are out of order.
    pub kinds_read: u64,
    pub kinds_refused: u64,
    pub kinds_written: u64,
    pub kinds_not_written: u64,
    /// Calls that answered the same for a table in either version.
    pub both_versions: u64,
    /// Long handovers judged, of these the ones past edition 1's last time and the accepted ones,
    /// and those with too many monitors.
    pub long: u64,
    pub long_in_2_alone: u64,
    pub long_accepted: u64,
    pub long_left: u64,
    /// Guards asked what waiting does for them: yes, not yet, no more.
    pub guards: [u64; 3],
    pub pairs: PairTally,
    /// Small inputs under rules, of these the accepted ones, those that are accepted without the
    /// rule alone, and those with other works than without it.
    pub ruled: u64,
    pub ruled_accepted: u64,
    pub ruled_unlikely: u64,
    pub ruled_other_works: u64,
    /// Longer ones, and those with too many monitors.
    pub ruled_longer: u64,
    pub ruled_left: u64,
    /// Witnesses under rules, and those that break the rule before any other.
    pub ruled_checks: u64,
    pub ruled_broken: u64,
    pub rules_refused: u64,
}

/// Runs until the time is up; an error says what differed.
pub fn selftest(time: Duration, seed: u64) -> Result<Counts, String> {
    let end = Instant::now() + time;
    let mut counts = Counts::default();
    papers::test(&mut counts)?;
    let mut rng = Rng::new(seed);
    while Instant::now() < end {
        against_brute::test(&mut rng, &mut counts)?;
        checks::test(&mut rng, &mut counts)?;
        files::test(&mut rng, &mut counts)?;
        states::test(&mut rng, &mut counts)?;
        devices::test(&mut rng, &mut counts)?;
        guards::test(&mut rng, &mut counts)?;
        rejections::test(&mut rng, &mut counts)?;
        ruled::test(&mut rng, &mut counts)?;
        if rng.one_in(ROUNDS_TO_LONG) {
            long::test(&mut rng, &mut counts)?;
        }
    }
    Ok(counts)
}

impl Counts {
    pub fn report(&self) -> String {
        let lines = [self.searched(), self.read(), self.under_rules(), self.pairs.line()];
        lines.concat() + "no difference\n"
    }

    fn searched(&self) -> String {
        format!(
            "papers: {} as stated\n\
             small inputs against brute force: {} ({} accepted, {} rejected)\n\
             validations of them at budgets around every running total: {}\n\
             witnesses found by brute force: {}\n\
             a removed packet's air rules traces out in: {} inputs ({} left with none)\n\
             all lists the checker permits enumerated: {} inputs ({} left as too many)\n\
             witnesses checked rule by rule: {}\n\
             long handovers against real monitors: {} ({} past 4,096, {} accepted, {} left as too many)\n",
            self.papers,
            self.inputs,
            self.accepted,
            self.rejected,
            self.validations,
            self.witnesses,
            self.narrowed,
            self.left_with_none,
            self.checker_hunts,
            self.hunts_left,
            self.checks,
            self.long,
            self.long_in_2_alone,
            self.long_accepted,
            self.long_left
        )
    }

    fn under_rules(&self) -> String {
        format!(
            "small inputs under rules: {} ({} accepted, {} rejected by the rule alone, {} with \
             other works)\n\
             longer ones: {} ({} left as too many)\n\
             witnesses under rules: {} ({} break the rule first)\n\
             rules out of range: {}\n",
            self.ruled,
            self.ruled_accepted,
            self.ruled_unlikely,
            self.ruled_other_works,
            self.ruled_longer,
            self.ruled_left,
            self.ruled_checks,
            self.ruled_broken,
            self.rules_refused
        )
    }

    fn read(&self) -> String {
        format!(
            "files read and written: {}\n\
             tables' reach against brute force: {} ({} with unreached states)\n\
             tables' kinds against the list of all: {} read ({} refused), {} written ({} refused)\n\
             calls with a table in either version: {}\n\
             guards against the waits at which they change: {} yes, {} not yet, {} no more\n",
            self.files,
            self.tables,
            self.unreached,
            self.kinds_read,
            self.kinds_refused,
            self.kinds_written,
            self.kinds_not_written,
            self.both_versions,
            self.guards[0],
            self.guards[1],
            self.guards[2]
        )
    }
}

/// An error unless both are equal.
fn same<T: PartialEq + std::fmt::Debug>(what: &str, got: T, expected: T) -> Result<(), String> {
    match got == expected {
        true => Ok(()),
        false => Err(format!("{what}: got {got:?}, expected {expected:?}")),
    }
}

//! How often tables of each version come in the recorded cases, and how often each device is
//! refused.

use std::collections::BTreeMap;

use crate::answer::Verdict;
use crate::call::Call;
use crate::frame::{length_matches, LENGTH_BYTES};
use crate::parts::TableParts;
use crate::table::{kind_offset, Kind};

/// Why a device is refused.
const ABOVE: &str = "above 15";
const FROM_UNIT: &str = "not 0 from the unit";
const TO_UNIT: &str = "0 to the unit";
const VERSION_1: &str = "not 1 to the unit in version 1";
/// In files and in parts: the bytes of version 1 have no devices.
pub const IN_FILES: &[&str] = &[ABOVE, FROM_UNIT, TO_UNIT];
pub const IN_PARTS: &[&str] = &[ABOVE, FROM_UNIT, TO_UNIT, VERSION_1];
/// The two there are, their neighbours, and the last byte.
const VERSIONS: [u8; 5] = [0, 1, 2, 3, 255];

#[derive(Default)]
pub struct Tally {
    pub versions: BTreeMap<u8, usize>,
    /// By direction and device: 14 was given for it.
    pub refused: BTreeMap<(u8, u8), usize>,
}

impl Tally {
    /// Of a call that takes a table, with a frame in order.
    pub fn note_call(&mut self, call: &Call, answer: Verdict) {
        let bytes = match call {
            Call::Validate { table, .. }
            | Call::ValidateRule { table, .. }
            | Call::Check { table, .. }
            | Call::CheckRule { table, .. }
            | Call::RewriteRecording { table, .. }
            | Call::RewriteTable { bytes: table, .. } => table,
            Call::RewriteWitness { .. } => return,
        };
        if bytes.len() < kind_offset(1, 0) || !length_matches(bytes, LENGTH_BYTES) {
            return;
        }
        let (version, count) = (bytes[2], usize::from(bytes[6]));
        // Version 1 has no devices in its bytes, and no other version is known.
        let kind = |number: usize| match bytes.get(kind_offset(2, number)..) {
            Some(&[direction, airtime, device, ..]) if version == 2 => {
                Some(Kind { direction, airtime, device })
            }
            _ => None,
        };
        self.note(version, (0..count).map_while(kind), answer);
    }

    pub fn note_parts(&mut self, parts: &TableParts, answer: Verdict) {
        self.note(parts.version, parts.covered().kinds.into_iter(), answer);
    }

    fn note(&mut self, version: u8, kinds: impl Iterator<Item = Kind>, answer: Verdict) {
        *self.versions.entry(version).or_default() += 1;
        let named = |number: usize| answer.second == kind_offset(version, number) as u64;
        let kind = kinds.enumerate().find(|(number, _)| answer.number == 14 && named(*number));
        let kind = kind.map(|(_, kind)| kind);
        if let Some(Kind { direction: direction @ (0 | 1), airtime: 0..=15, device }) = kind {
            *self.refused.entry((direction, device)).or_default() += 1;
        }
    }

    /// How often each reason was given.
    pub fn reasons(&self) -> BTreeMap<&'static str, usize> {
        let mut reasons = BTreeMap::new();
        for ((direction, device), times) in &self.refused {
            let reason = match (direction, device) {
                (_, 16..) => ABOVE,
                (0, _) => FROM_UNIT,
                (_, 0) => TO_UNIT,
                _ => VERSION_1,
            };
            *reasons.entry(reason).or_default() += times;
        }
        reasons
    }

    /// Each version and each of these reasons came at least so many times.
    pub fn is_often(&self, reasons: &[&str], least: usize) -> bool {
        let given = self.reasons();
        let enough = |times: Option<&usize>| times.is_some_and(|times| *times >= least);
        reasons.iter().all(|it| enough(given.get(it)))
            && VERSIONS.iter().all(|it| enough(self.versions.get(it)))
    }
}

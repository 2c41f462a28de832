//! Packet traces (Definition 1) and mutation traces (Definition 4).

use crate::recording::Recording;
use crate::table::Table;

/// Entries of time and kind.
pub type Trace = Vec<(u32, u8)>;

/// Every list with at most one packet at each of the instants 1 to `last`.
///
/// Packets after the last recorded time T need no looking at. Cut a mutation trace that the
/// monitor satisfies after T: its front is still a packet trace, since Definition 1 speaks of
/// neighbours, and so are the entries of the front and of the recording together; it lacks no
/// more recorded packets, since none is later than T; and the monitor satisfies the front of
/// whatever it satisfies, since there are no final states.
pub fn traces(last: u32, kinds: u8) -> impl Iterator<Item = Trace> {
    let choices = u64::from(kinds) + 1;
    (0..choices.pow(last)).map(move |code| {
        let mut rest = code;
        let mut trace = Vec::new();
        for time in 1..=last {
            let choice = rest % choices;
            rest /= choices;
            if choice > 0 {
                trace.push((time, choice as u8 - 1));
            }
        }
        trace
    })
}

/// Definition 1: each next time minus the one before is above the airtime of the one before.
pub fn is_packet_trace(table: &Table, trace: &Trace) -> bool {
    trace.first().is_none_or(|(time, _)| *time >= 1)
        && trace.windows(2).all(|pair| {
            let airtime = table.kinds[usize::from(pair[0].1)].airtime;
            pair[1].0 > pair[0].0 + u32::from(airtime)
        })
}

/// Definition 4: every recorded packet that the trace lacks is addressed to the unit.
pub fn is_mutation(table: &Table, recording: &Recording, trace: &Trace) -> bool {
    recording.rows.iter().all(|row| {
        trace.contains(&(u32::from(row.time), row.kind))
            || table.kinds[usize::from(row.kind)].direction == 1
    })
}

/// The entries of the recording and of the trace together are those of one packet trace: what was
/// heard was on the air, whether the unit got it or not.
pub fn shares_the_air(table: &Table, recording: &Recording, trace: &Trace) -> bool {
    is_packet_trace(table, &together(recording, trace))
}

/// The entries of both, in the order of their times.
pub fn together(recording: &Recording, trace: &Trace) -> Trace {
    let mut together = trace.clone();
    together.extend(recording.rows.iter().map(|row| (u32::from(row.time), row.kind)));
    together.sort();
    together.dedup();
    together
}

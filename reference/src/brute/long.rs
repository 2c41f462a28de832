//! Long recordings without situations: sets of real monitors, whose clocks have no upper limit, as
//! long as these sets stay small.

use super::counts::counts;
use super::works::{heard, moves, start, work, Possible};
use crate::answer::Counts;
use crate::recording::Recording;
use crate::rule::Rule;
use crate::table::Table;
use crate::witness::Witness;

pub struct Judged {
    pub works: Vec<u64>,
    /// The instant after whose moves nothing is left, and the counts there.
    pub dead: Option<(u64, Counts)>,
    pub preferred: Option<Witness>,
}

/// Nothing if more than `most` monitors are possible at some instant.
pub fn judge_long(rule: Rule, table: &Table, recording: &Recording, most: usize) -> Option<Judged> {
    let mut works = Vec::new();
    let mut layers = vec![start(rule)];
    for time in 1..=recording.last_time() as u32 {
        let now = layers.last()?;
        works.push(work(table, now, time));
        let heard = heard(recording, time);
        let after = now.iter().flat_map(|it| moves(rule, table, heard, it, time)).map(|it| it.1);
        let next: Possible = after.collect();
        if next.is_empty() {
            let counts = counts(table, now, time, heard?.kind);
            return Some(Judged { works, dead: Some((time.into(), counts)), preferred: None });
        }
        if next.len() > most {
            return None;
        }
        layers.push(next);
    }
    let preferred = preferred(rule, table, recording, layers);
    Some(Judged { works, dead: None, preferred: Some(preferred) })
}

/// Layer t-1 is what is possible just before instant t. What cannot last is taken out, and then
/// the first move that stays is made.
fn preferred(
    rule: Rule,
    table: &Table,
    recording: &Recording,
    mut layers: Vec<Possible>,
) -> Witness {
    let last = recording.last_time();
    for time in (1..=last).rev() {
        let (now, next) = layers.split_at_mut(time);
        let heard = heard(recording, time as u32);
        now[time - 1].retain(|it| {
            let after = moves(rule, table, heard, it, time as u32);
            after.iter().any(|after| next[0].contains(&after.1))
        });
    }
    let mut witness = Witness::default();
    let mut real = layers[0].first().expect("it lasts").clone();
    for (time, lasting) in (1..).zip(&layers[1..]) {
        let after = moves(rule, table, heard(recording, time), &real, time);
        let (row, next) = after.into_iter().find(|it| lasting.contains(&it.1)).expect("it lasts");
        witness.rows.extend(row);
        real = next;
    }
    witness
}

//! Long handovers: verdict, cost, witness and lent buffers against sets of real monitors.

use super::truth::{validate_one, Input};
use super::{same, Counts};
use crate::answer::Answer;
use crate::brute::judge_long;
use crate::check::check_witness;
use crate::edition::Edition;
use crate::generate::{encode_witness, late_time, long_handover, narrow_table, Rng};
use crate::witness::{Witness, KEPT};

/// Monitors possible at one instant before an input is given up.
const MOST_MONITORS: usize = 30;
/// Situations times instants.
const MOST_WORK: usize = 3_000_000;

pub fn test(rng: &mut Rng, counts: &mut Counts) -> Result<(), String> {
    let last = late_time(rng);
    let mut table = narrow_table(rng, last, MOST_WORK);
    if !rng.one_in(4) {
        // Each reset makes one more monitor, and without any the clocks read all ticks.
        table.transitions.iter_mut().for_each(|it| it.reset = 0);
    }
    let recording = long_handover(rng, &table, last);
    let input = Input::new(table, recording);
    test_one(rng, &input, counts).map_err(|text| input.describe(&text))
}

fn test_one(rng: &mut Rng, input: &Input, counts: &mut Counts) -> Result<(), String> {
    let Some(truth) = judge_long(input.rule(), &input.table, &input.recording, MOST_MONITORS)
    else {
        counts.long_left += 1;
        return Ok(());
    };
    let written_in_1 = input.recording.last_time() <= 4_096;
    counts.long += 1;
    counts.long_in_2_alone += u64::from(!written_in_1);
    match truth.dead {
        None => counts.long_accepted += 1,
        Some((_, unready)) => counts.pairs.note(unready),
    }
    let cost = truth.works.iter().sum::<u64>() as u32;
    for edition in Edition::BOTH {
        for budget in [u32::MAX, cost, cost - 1] {
            validate_one(rng, input, &truth, edition, budget)?;
        }
    }
    let Some(preferred) = truth.preferred else { return Ok(()) };
    for edition in Edition::BOTH {
        let witness = encode_witness(edition, &preferred);
        let answer = check_witness(edition, &input.table_bytes, &input.recording_bytes, &witness);
        same("check", answer, expected_check(edition, &preferred))?;
    }
    Ok(())
}

/// The preferred witness is permitted; in edition 1, if no row is late and there are not too many.
fn expected_check(edition: Edition, preferred: &Witness) -> Answer {
    let rows = &preferred.rows;
    let late = rows.iter().position(|row| row.time > 4_096);
    match (edition, late) {
        // Two bytes cannot say the length of more rows than 13,106.
        (Edition::One, _) if rows.len() > 13_106 => Answer::new(40, 0, 0),
        (Edition::One, _) if rows.len() > 4_608 => Answer::new(42, 3, 0),
        (Edition::One, Some(late)) => Answer::new(43, late as u64, 0),
        _ => {
            let guessed = rows.iter().filter(|row| row.mark != KEPT).count();
            Answer::new(0, guessed as u64, rows.len() as u64)
        }
    }
}

//! Rejections with pairs to count, against sets of real monitors.

use super::truth::{validate_one, Input};
use super::Counts;
use crate::brute::judge_long;
use crate::edition::Edition;
use crate::generate::{crowded, rejection, Rng};

/// Monitors possible at one instant before an input is given up.
const MOST_MONITORS: usize = 2_000;
const LAST_TIME: u16 = 30;

pub fn test(rng: &mut Rng, counts: &mut Counts) -> Result<(), String> {
    let (table, recording) = match rng.one_in(8) {
        true => crowded(rng),
        false => rejection(rng, LAST_TIME),
    };
    let input = Input::new(table, recording);
    test_one(rng, &input, counts).map_err(|text| input.describe(&text))
}

fn test_one(rng: &mut Rng, input: &Input, counts: &mut Counts) -> Result<(), String> {
    let Some(truth) = judge_long(input.rule(), &input.table, &input.recording, MOST_MONITORS)
    else {
        return Ok(());
    };
    let (_, unready) = truth.dead.ok_or("not rejected")?;
    counts.pairs.note(unready);
    let cost = truth.works.iter().sum::<u64>() as u32;
    for edition in Edition::BOTH {
        for budget in [u32::MAX, cost, cost - 1] {
            validate_one(rng, input, &truth, edition, budget)?;
        }
    }
    Ok(())
}

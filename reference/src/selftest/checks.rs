//! The checker against the rules stated one by one, on permitted and spoilt witnesses.

use super::{same, Counts};
use crate::answer::Answer;
use crate::brute::expected_check;
use crate::check::check_witness;
use crate::compare::hex;
use crate::edition::Edition;
use crate::generate::{
    any_rows, cross, encode_recording, encode_table, encode_witness, guessed, late_time,
    long_handover, narrow_table, overheard, sound_table, spoil_witness, Rng, Shape,
};
use crate::recording::Recording;
use crate::rule::Rule;
use crate::table::Table;
use crate::witness::Witness;

/// Witnesses tried for each table and recording, and each spoilt once.
const TRIES: u64 = 10;
/// The rules one by one take long for more rows.
const MOST_ROWS: usize = 300;
/// Situations do not matter here.
const ANY_WORK: usize = usize::MAX;

pub fn test(rng: &mut Rng, counts: &mut Counts) -> Result<(), String> {
    let (table, recording) = if rng.one_in(4) { long(rng) } else { short(rng) };
    for number in 0..TRIES {
        let guess = guessed(rng, &table, &recording);
        if guess.rows.len() > MOST_ROWS {
            continue;
        }
        let (recording, witness) = match number % 3 {
            0 => cross(rng, &table, &recording, &guess).unwrap_or((recording.clone(), guess)),
            _ => (recording.clone(), guess),
        };
        let spoilt = spoil_witness(rng, &witness);
        for witness in [witness, spoilt] {
            for edition in Edition::BOTH {
                check(edition, &table, &recording, &witness)?;
                counts.checks += 1;
            }
        }
    }
    Ok(())
}

fn short(rng: &mut Rng) -> (Table, Recording) {
    let shape = rng.pick(&[Shape::TINY, Shape::TINY, Shape::MIDDLE]);
    let table = sound_table(rng, &shape);
    let last = rng.between(0, 30) as u16;
    let recording = match rng.one_in(3) {
        true => any_rows(rng, &table, last),
        false => overheard(rng, &table, last),
    };
    (table, recording)
}

fn long(rng: &mut Rng) -> (Table, Recording) {
    let last = late_time(rng);
    let table = narrow_table(rng, last, ANY_WORK);
    let recording = long_handover(rng, &table, last);
    (table, recording)
}

/// In this edition, and given as the other, which has another frame.
fn check(
    edition: Edition,
    table: &Table,
    recording: &Recording,
    witness: &Witness,
) -> Result<(), String> {
    let [one, two] = Edition::BOTH.map(|edition| encode_witness(edition, witness));
    let (told, other) = if edition == Edition::One { (one, two) } else { (two, one) };
    let files = [encode_table(table), encode_recording(recording), told];
    let expected = match (edition, witness.rows.len()) {
        // Two bytes cannot say the length of more rows than 13,106.
        (Edition::One, 13_107..) => Answer::new(40, 0, 0),
        (Edition::One, 4_609..) => Answer::new(42, 3, 0),
        (Edition::Two, 65_536..) => Answer::new(42, 5, 0),
        _ => expected_check(edition, Rule::NONE, table, recording, witness),
    };
    let answer = check_witness(edition, &files[0], &files[1], &files[2]);
    let as_other = check_witness(edition, &files[0], &files[1], &other);
    let all = same("check", answer, expected);
    all.and(same("given as the other", as_other, Answer::new(40, 0, 0))).map_err(|it| {
        let files = files.each_ref().map(|file| hex(file)).join("\n");
        format!("{edition:?}: {it}\ntable, recording, witness:\n{files}")
    })
}

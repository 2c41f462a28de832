//! Tables whose records are in order: N and the states that can be reached, against the definitions.

use super::truth::situations;
use super::{same, Counts};
use crate::answer::{Answer, Refusal};
use crate::brute::lowest_unreached;
use crate::check::check_witness;
use crate::compare::hex;
use crate::edition::Edition;
use crate::generate::{any_table, encode_table, unreached_states, Rng, Shape};
use crate::rewrite::{rewrite_recording, rewrite_table};
use crate::situation::MOST_SITUATIONS;
use crate::table::{self, Table};
use crate::validate::validate;

pub fn test(rng: &mut Rng, counts: &mut Counts) -> Result<(), String> {
    let shape = rng.pick(&[Shape::TINY, Shape::MIDDLE, Shape::LARGE]);
    let reached = any_table(rng, &shape);
    let changed = unreached_states(rng, &reached);
    let twice = unreached_states(rng, &changed);
    for table in [reached, changed, twice] {
        let expected = expected(&table);
        counts.tables += 1;
        counts.unreached += u64::from(expected.is_some_and(|it| it.number == 17));
        let bytes = encode_table(&table);
        test_one(&table, &bytes, expected).map_err(|it| format!("{it}\ntable: {}", hex(&bytes)))?;
    }
    Ok(())
}

fn expected(table: &Table) -> Option<Refusal> {
    match situations(table) > MOST_SITUATIONS {
        true => Some(Refusal::new(16, 0)),
        false => lowest_unreached(table).map(|state| Refusal::new(17, state)),
    }
}

/// The same refusal from every call, or what comes next if no room is lent and the recording is
/// no file.
fn test_one(table: &Table, bytes: &[u8], expected: Option<Refusal>) -> Result<(), String> {
    same("read", table::read(bytes), expected.map_or(Ok(table.clone()), Err))?;
    let or = |next: Answer| expected.map_or(next, Answer::from);
    let no_room = or(Answer::new(33, bytes.len() as u64, 0));
    same("write", table::write(table, &mut []), no_room)?;
    same("rewrite", rewrite_table(bytes, &mut []), no_room)?;
    let no_recording = or(Answer::new(20, 0, 0));
    same("recording", rewrite_recording(bytes, &[], &mut []), no_recording)?;
    for edition in Edition::BOTH {
        same("validate", validate(edition, bytes, &[], 0, &mut [], &mut []), no_recording.into())?;
        same("check", check_witness(edition, bytes, &[], &[]), no_recording)?;
    }
    Ok(())
}

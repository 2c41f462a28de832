//! The desk's program: table, recording and budget in, lines out.

use std::io::{self, Read, Write};

use crate::answer::{Counts, Verdict};
use crate::edition::Edition;
use crate::frame::big_endian;
use crate::validate::validate;
use crate::witness::{self, Row, ADDED, KEPT, REMOVED};

const MOST_INPUT: usize = 8_192;
const SCRATCH: usize = 65_536;
const ROOM: usize = 23_045;
/// Of the witness that is found and printed.
const EDITION: Edition = Edition::One;

/// Reads one byte past the limit, which is enough to know that there are too many.
pub fn run(input: impl Read, mut output: impl Write) -> io::Result<()> {
    let mut bytes = Vec::new();
    input.take(MOST_INPUT as u64 + 1).read_to_end(&mut bytes)?;
    output.write_all(report(&bytes).as_bytes())
}

/// The lines for this input.
pub fn report(input: &[u8]) -> String {
    if input.len() > MOST_INPUT {
        return "refused 6 0\n".to_string();
    }
    let Some((files, budget)) = input.split_last_chunk::<4>() else {
        return "refused 5 0\n".to_string();
    };
    let (table, recording) = split(files);
    let mut scratch = vec![0; SCRATCH];
    let mut room = vec![0; ROOM];
    let budget = u32::from_be_bytes(*budget);
    let verdict = validate(EDITION, table, recording, budget, &mut scratch, &mut room);
    lines(verdict, &room)
}

/// The table is what its length states, or all there is.
fn split(files: &[u8]) -> (&[u8], &[u8]) {
    let stated = match files {
        [high, low, ..] => 2 + usize::from(big_endian(*high, *low)),
        _ => files.len(),
    };
    files.split_at(stated.min(files.len()))
}

fn lines(verdict: Verdict, room: &[u8]) -> String {
    let Verdict { number, second, third, counts: Counts { not_yet, no_more } } = verdict;
    match number {
        0 => accepted(second, third, room),
        1 => format!("rejected {second} {third} {not_yet} {no_more}\n"),
        2 => format!("exhausted {second} {third}\n"),
        _ => format!("refused {number} {second}\n"),
    }
}

fn accepted(cost: u64, rows: u64, room: &[u8]) -> String {
    let mut text = format!("accepted {cost} {rows}\n");
    let found = &room[..EDITION.file().size(rows as usize)];
    let found = witness::read(EDITION, found).expect("validation writes witnesses in form");
    for Row { mark, time, kind, transition } in found.rows {
        let word = match mark {
            KEPT => "kept",
            REMOVED => "removed",
            ADDED => "added",
            _ => unreachable!("a witness in form has no other mark"),
        };
        text.push_str(&format!("{word} {time} {kind} {transition}\n"));
    }
    text
}

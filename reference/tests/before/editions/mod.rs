//! Other rules than R-5's for the editions of a witness and for late times.

mod judge;
mod witness;

use lutarosa_reference::answer::{settle, Answer, Refusal};
use lutarosa_reference::call::{Engine, ORDINARY};
use lutarosa_reference::edition::Edition;
use lutarosa_reference::frame::put;
use lutarosa_reference::parts::WitnessParts;
use lutarosa_reference::witness::Witness;
use lutarosa_reference::writing::{Parts, Writing};

use judge::{check, read_both, validate};
use witness::{bytes_of, check_form, half, read};
use Edition::{One, Two};

/// R-5 is what `NOW` has.
#[derive(Clone, Copy)]
pub struct Rule {
    /// As which edition bytes are read that are given as this one.
    named: fn(Edition, &[u8]) -> Edition,
    /// What the four bytes of a length and of a count say in edition 2.
    length: fn([u8; 4]) -> usize,
    count: fn([u8; 4]) -> usize,
    /// Under so many bytes the frame is refused.
    least: fn(Edition) -> usize,
    /// The version, and the values of 41 and 42.
    is_version: fn(Edition, u8) -> bool,
    at_version: fn(Edition) -> usize,
    at_count: fn(Edition) -> usize,
    most_rows: fn(Edition) -> usize,
    last_time: fn(Edition) -> u16,
    /// The last time of a recording.
    last_heard: u16,
    /// The room that T + n want.
    room: fn(Edition, usize) -> usize,
    /// Up to which T it is written, and past that the value of 31 for T, the room wanted and the
    /// room lent.
    written_to: fn(Edition) -> usize,
    past_that: fn(usize, usize, usize) -> usize,
    /// Whether 31 comes before 30.
    room_first: fn(Edition, usize) -> bool,
    /// Whether the checker refuses a recording with this T for its edition.
    late_check: fn(Edition, usize) -> bool,
    /// What a clock reads, and from when on the air is free, if the numbers had no limit.
    reads: fn(u32) -> u32,
    free_from: fn(u32) -> u32,
    /// Which edition is written.
    writes: fn(Edition) -> Edition,
    /// The count that parts are taken to have, and the one left by a refusal.
    parts_count: fn(u32) -> u32,
    leaves: fn(u32) -> u32,
}

pub struct Other {
    pub name: &'static str,
    pub rule: Rule,
    pub engine: Engine,
    /// How often it must be told at least: in calls on files, and in writing parts.
    pub told: [usize; 2],
}

macro_rules! other {
    ($name:expr, $told:expr, { $($change:tt)* }) => {{
        const RULE: Rule = Rule { $($change)* ..NOW };
        let engine = Engine {
            validate: |edition, table, recording, budget, scratch, room| {
                settle(validate(&RULE, edition, (table, recording), budget, scratch, room))
            },
            check: |edition, table, recording, witness| {
                let read = read_both(&RULE, table, recording);
                settle(read.and_then(|(table, heard)| {
                    check(&RULE, edition, &table, &heard, witness)
                }))
            },
            rewrite_recording: |table, bytes, room| {
                settle(read_both(&RULE, table, bytes).and_then(|_| put(bytes, room)))
            },
            rewrite_witness: |edition, bytes, room| {
                let rows = read(&RULE, edition, bytes);
                settle(rows.and_then(|rows| put(&bytes_of(&RULE, edition, &rows), room)))
            },
            ..ORDINARY
        };
        Other { name: $name, rule: RULE, engine, told: $told }
    }};
}

/// R-5 written again.
const NOW: Rule = Rule {
    named: |edition, _| edition,
    length: |bytes| u32::from_be_bytes(bytes) as usize,
    count: |bytes| u32::from_be_bytes(bytes) as usize,
    least: |edition| of(edition, 5, 9),
    is_version: |edition, version| version == of(edition, 1, 2),
    at_version: |edition| of(edition, 2, 4),
    at_count: |edition| of(edition, 3, 5),
    most_rows: |edition| of(edition, 4_608, 65_535),
    last_time: |edition| of(edition, 4_096, 65_535),
    last_heard: 65_535,
    room: |edition, rows| 5 * rows + of(edition, 5, 9),
    written_to: |edition| of(edition, 4_096, 65_535),
    past_that: |_, _, _| 0,
    room_first: |_, _| false,
    late_check: |_, _| false,
    reads: |ticks| ticks,
    free_from: |tick| tick,
    writes: |edition| edition,
    parts_count: |count| count,
    leaves: |_| 0,
};

/// What each edition has.
fn of<T>(edition: Edition, one: T, two: T) -> T {
    match edition {
        One => one,
        Two => two,
    }
}

pub const AGAIN: Other = other!("R-5", [0; 2], {});

const LEAST: usize = 20;
const FILES: [usize; 2] = [LEAST, 0];
const PARTS: [usize; 2] = [0, LEAST];
const BOTH: [usize; 2] = [LEAST; 2];
/// A file with so many rows has many bytes.
const FEW_FILES: [usize; 2] = [2, LEAST];

pub const OTHERS: [Other; 36] = [
    other!("before R-5", BOTH, { named: |_, _| One, writes: |_| One, last_heard: 4_096, }),
    other!("recordings up to 4,096", FILES, { last_heard: 4_096, }),
    other!("recordings up to 65,534", FILES, { last_heard: 65_534, }),
    other!("edition 1 for T 4,097", FILES, { written_to: |edition| of(edition, 4_097, 65_535), }),
    other!("edition 1 for every T", FILES, { written_to: |_| 65_535, }),
    other!("edition 1 below T 4,096", FILES, { written_to: |edition| of(edition, 4_095, 65_535), }),
    other!("edition 1 up to T 4,608", FILES, { written_to: |edition| of(edition, 4_608, 65_535), }),
    other!("31 with the room wanted instead of 0", FILES, { past_that: |_, wanted, _| wanted, }),
    other!("31 with T instead of 0", FILES, { past_that: |last, _, _| last, }),
    other!("31 with 0 unless the room is short", FILES, {
        past_that: |_, wanted, lent| if lent < wanted { wanted } else { 0 },
    }),
    other!("31 with 0 in edition 2 too", FILES, { written_to: |_| 4_096, }),
    other!("31 before 30", FILES, { room_first: |_, _| true, }),
    other!("31 with 0 before 30", FILES, {
        room_first: |edition, last| edition == One && last > 4_096,
    }),
    other!("edition 2's room is 5 + 5(T+n)", FILES, { room: |_, rows| 5 + 5 * rows, }),
    other!("edition 1's room is 9 + 5(T+n)", FILES, { room: |_, rows| 9 + 5 * rows, }),
    other!("the lower half of a length", FILES, { length: |[_, _, high, low]| half(high, low), }),
    other!("the upper half of a length", FILES, { length: |[high, low, _, _]| half(high, low), }),
    other!("a length with its own bytes", FILES, {
        length: |bytes| (u32::from_be_bytes(bytes) as usize).wrapping_sub(4),
    }),
    other!("the lower half of a count", FILES, { count: |[_, _, high, low]| half(high, low), }),
    other!("edition 2 is version 1", FILES, { is_version: |_, version| version == 1, }),
    other!("edition 2 is version 1 or 2", FILES, {
        is_version: |edition, version| version == 1 || (edition == Two && version == 2),
    }),
    other!("41 with 2 in edition 2", FILES, { at_version: |_| 2, }),
    other!("42 with 3 in edition 2", BOTH, { at_count: |_| 3, }),
    other!("40 under 5 bytes in edition 2", FILES, { least: |_| 5, }),
    other!("times up to 4,096 in edition 2", BOTH, { last_time: |_| 4_096, }),
    other!("times up to 65,535 in edition 1", BOTH, { last_time: |_| 65_535, }),
    other!("times up to 65,534 in edition 2", FILES, {
        last_time: |edition| of(edition, 4_096, 65_534),
    }),
    other!("edition 2 up to 4,608 rows", FEW_FILES, { most_rows: |_| 4_608, }),
    other!("edition 1 up to 65,535 rows", FEW_FILES, { most_rows: |_| 65_535, }),
    other!("edition 2 up to 65,536 rows", [1, 2], {
        most_rows: |edition| of(edition, 4_608, 65_536),
    }),
    other!("the edition that the bytes have", FILES, {
        named: |_, bytes| if bytes.get(4) == Some(&2) && bytes[..2] == [0, 0] { Two } else { One },
    }),
    other!("clocks that read modulo 4,096", FILES, { reads: |ticks| ticks % 4_096, }),
    other!("air in 16 bits", FILES, { free_from: |tick| tick % 65_536, }),
    other!("the checker refuses late recordings in edition 1", FILES, {
        late_check: |edition, last| edition == One && last > 4_096,
    }),
    other!("the lower half of a count of parts", PARTS, { parts_count: |count| count % 65_536, }),
    other!("refused parts keep their count", PARTS, { leaves: |count| count, }),
];

impl Other {
    /// What this writing gives: the answer, the numbers of the parts read back, and the room.
    pub fn write(&self, writing: &Writing, room: &mut [u8]) -> (Answer, Vec<u8>) {
        let Parts::Witness(edition, parts) = &writing.parts else {
            unreachable!("witnesses alone")
        };
        let written = settle(self.written(*edition, parts, room));
        if !writing.back {
            return (written, Vec::new());
        }
        let read = match written.number {
            0 => read(&self.rule, *edition, &room[..written.second as usize]).map_err(Answer::from),
            _ => Err(written),
        };
        match read {
            Ok(rows) => (Answer::new(0, 0, 0), WitnessParts::of(&Witness { rows }).numbers()),
            Err(answer) => {
                let count = (self.rule.leaves)(parts.count);
                (answer, WitnessParts { count, ..WitnessParts::default() }.numbers())
            }
        }
    }

    fn written(
        &self,
        edition: Edition,
        parts: &WitnessParts,
        room: &mut [u8],
    ) -> Result<Answer, Refusal> {
        let rule = &self.rule;
        let named = (rule.named)(edition, &[]);
        let count = (rule.parts_count)(parts.count);
        if count as usize > (rule.most_rows)(named) {
            return Err(Refusal::new(42, (rule.at_count)(named)));
        }
        let rows = WitnessParts { count, ..parts.clone() }.covered().rows;
        check_form(rule, named, &rows)?;
        put(&bytes_of(rule, edition, &rows), room)
    }
}

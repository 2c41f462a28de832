//! The recorded cases: a batch of calls as one file, and what they must answer as another.
//!
//! A case is a head of 28 bytes and the files behind it. The head: what is called (0 validate, 1
//! check, 2 rewrite table, 3 rewrite recording, 4 rewrite witness, 5 the desk, 6 write table, 7
//! write recording, 8 write witness, 9 to 11 the same and reading back, and in edition 2 12
//! validate, 13 check, 14 rewrite witness, 15 write witness, 16 the same and reading back; all
//! before are in edition 1; under a rule 17 validate and 18 check in edition 1, 19 validate and 20
//! check in edition 2), then the rule's device, window and most, one byte each (0, 0 and 0 in a call
//! without a rule), then six four-byte numbers, big-endian: budget, length of the scratch, length
//! of the room, and the lengths of the first, second and third file. Before a call byte i of
//! scratch and room is (7 i + 1) modulo 256. The answer is a line: number, second value, third
//! value, how many pairs are not yet and how many no more (both 0 but for a rejection), and a sum
//! over every number of the parts that were read back and every byte of scratch and then room after
//! the call. A case of the desk answers its own lines. `given` says how files give parts.

mod batch;
mod devices;
mod given;

use batch::Head;
pub use devices::{Tally, IN_FILES, IN_PARTS};

use std::collections::BTreeMap;
use std::io::{self, Write};

use crate::answer::{Counts, Verdict};
use crate::call::{Call, ORDINARY};
use crate::counted;
use crate::desk;
use crate::edition::Edition;
use crate::generate::{calls, rejections, ruled, writings, Rng};
use crate::limits;
use crate::longer::handovers;
use crate::narrowed::NARROWED;
use crate::pair_tally::PairTally;
use crate::papers::{recording, PAPERS, SMALL_MONITOR, SMALL_MONITOR_2};
use crate::reaching;
use crate::set;
use crate::situation::Space;
use crate::table;
use crate::writing::{Parts, Writing};

/// As many random calls as this, of which few have long files or are lent much.
const CALLS: usize = 8_200;
const LONG: usize = 3_000;
const MOST_LONG: usize = 25;
const LONGEST: usize = 70_000;
const MUCH_LENT: usize = 20_000;
const MOST_LENT_MUCH: usize = 260;
/// As many random calls that turn on the counts of a rejection.
const REJECTIONS: usize = 1_200;
/// As many random calls that turn on a rule of guesses.
const RULED: usize = 700;
const MOST_IN_RULED: usize = 1_500;
const MOST_LENT_RULED: usize = 40_000;
/// What the batch program takes at most: all files of a case together, and what it lends.
pub const MOST_IN_FILES: usize = 400_000;
pub const MOST_SCRATCH: usize = 400_000;
pub const MOST_ROOM: usize = 331_000;
/// Every number of the paper's list comes at least so often.
const LEAST: usize = 20;
const NUMBERS: [u64; 23] =
    [0, 1, 2, 10, 11, 12, 13, 14, 15, 16, 17, 20, 21, 22, 23, 24, 30, 31, 33, 40, 41, 42, 43];
/// The numbers that come as often under rules.
const UNDER_RULES: [u64; 11] = [0, 1, 2, 25, 26, 30, 31, 40, 41, 42, 43];
/// As many random writings of parts as this, and the numbers that come as often from writing, and
/// from writing and reading back.
const WRITINGS: usize = 900;
const WRITTEN: [u64; 13] = [0, 11, 12, 14, 15, 16, 17, 22, 23, 24, 33, 42, 43];

/// How often each number was answered.
pub type Numbers = BTreeMap<u64, usize>;

#[derive(Default)]
pub struct Cases {
    pub input: Vec<u8>,
    pub output: Vec<u8>,
    /// Of calls on files, without a rule and under one.
    pub from_files: Numbers,
    pub under_rules: Numbers,
    pub from_writing: Numbers,
    pub from_back: Numbers,
    /// How often each state was named with 17, from files and parts.
    pub unreached_states: Numbers,
    /// Versions and refused devices of tables, in calls on files and in writing.
    pub read: Tally,
    pub written: Tally,
    /// How often a set was counted that has so many bytes behind its whole words, one or more.
    /// The first work is always 1; a cost above it had a set counted.
    pub last_words: BTreeMap<usize, usize>,
    /// Of the rejected validations, but for the desk's.
    pub pairs: PairTally,
}

pub fn cases(seed: u64) -> io::Result<Cases> {
    let mut cases = Cases::default();
    cases.all_from_files(seed)?;
    cases.all_from_parts(seed)?;
    Ok(cases)
}

fn often(numbers: &Numbers, list: &[u64]) -> bool {
    list.iter().all(|number| numbers.get(number).is_some_and(|times| *times >= LEAST))
}

/// How many random calls with long files there were, and how many that were lent much.
#[derive(Default)]
struct Large {
    long: usize,
    lent_much: usize,
}

impl Large {
    /// Whether the batch program takes this call, and there are not yet too many like it.
    fn takes(&mut self, call: &Call) -> bool {
        let ((scratch, room), files) = batch::split(call);
        let size: usize = files.iter().map(|file| file.len()).sum();
        let fits = size <= LONGEST && scratch <= MOST_SCRATCH && room <= MOST_ROOM;
        let (long, much) = (size > LONG, scratch + room > MUCH_LENT);
        let few = (!long || self.long < MOST_LONG) && (!much || self.lent_much < MOST_LENT_MUCH);
        if fits && few {
            self.long += usize::from(long);
            self.lent_much += usize::from(much);
        }
        fits && few
    }
}

impl Cases {
    fn all_from_files(&mut self, seed: u64) -> io::Result<()> {
        for table in [&SMALL_MONITOR[..], &SMALL_MONITOR_2] {
            for paper in PAPERS {
                self.validate(table.to_vec(), paper.recording(), paper.budget)?;
            }
        }
        for it in NARROWED {
            let (table, recording) = (it.table(), it.recording());
            self.validate(table.clone(), recording.clone(), 10_000)?;
            let (edition, witness) = (Edition::One, it.witness.to_vec());
            self.call(Call::Check { edition, table, recording, witness })?;
        }
        for it in reaching::tables() {
            self.desk_files(&it.bytes, &recording(&limits::HEARD), 10_000)?;
        }
        // Some of these; they are called without the desk too.
        for it in counted::recordings().iter().step_by(3) {
            self.desk_files(&it.table, &it.recording(), u32::MAX)?;
        }
        // Those for which the desk has no witness, or one of few lines.
        for it in handovers() {
            if it.is_late() || it.witness.rows.len() < 10 {
                self.desk_files(&it.table, &it.recording(), u32::MAX)?;
            }
        }
        for input in [vec![], vec![0; 3], vec![0; 4], vec![1; 8_192], vec![1; 8_193]] {
            self.desk(&input)?;
        }
        for call in limits::calls() {
            self.call(call)?;
        }
        self.random_calls(seed)?;
        self.random_rejections(seed)?;
        self.random_ruled(seed)
    }

    fn random_calls(&mut self, seed: u64) -> io::Result<()> {
        let mut rng = Rng::new(seed);
        let (mut made, mut large) = (0, Large::default());
        while made < CALLS || !self.enough_called() {
            for call in calls(&mut rng) {
                if !large.takes(&call) {
                    continue;
                }
                made += 1;
                self.desk_of(&call, made)?;
                self.call(call)?;
            }
        }
        Ok(())
    }

    fn random_rejections(&mut self, seed: u64) -> io::Result<()> {
        let mut rng = Rng::new(seed);
        let mut made = 0;
        while made < REJECTIONS {
            for call in rejections(&mut rng) {
                made += 1;
                self.desk_of(&call, made)?;
                self.call(call)?;
            }
        }
        Ok(())
    }

    fn random_ruled(&mut self, seed: u64) -> io::Result<()> {
        let mut rng = Rng::new(seed);
        let mut made = 0;
        while made < RULED || !often(&self.under_rules, &UNDER_RULES) {
            for call in ruled(&mut rng) {
                let ((scratch, room), files) = batch::split(&call);
                let size: usize = files.iter().map(|file| file.len()).sum();
                if size <= MOST_IN_RULED && scratch + room <= MOST_LENT_RULED {
                    made += 1;
                    self.call(call)?;
                }
            }
        }
        Ok(())
    }

    fn all_from_parts(&mut self, seed: u64) -> io::Result<()> {
        for writing in limits::writings() {
            self.write(&writing)?;
        }
        let mut rng = Rng::new(seed);
        let mut made = 0;
        while made < WRITINGS || !self.enough_written() {
            for writing in writings(&mut rng) {
                made += 1;
                self.write(&writing)?;
            }
        }
        Ok(())
    }

    fn enough_called(&self) -> bool {
        often(&self.from_files, &NUMBERS) && self.read.is_often(IN_FILES, LEAST)
    }

    fn enough_written(&self) -> bool {
        let numbers = often(&self.from_writing, &WRITTEN) && often(&self.from_back, &WRITTEN);
        numbers && self.written.is_often(IN_PARTS, LEAST)
    }

    /// Through the desk too, and with enough lent for the recordings of the papers.
    fn validate(&mut self, table: Vec<u8>, recording: Vec<u8>, budget: u32) -> io::Result<()> {
        self.desk_files(&table, &recording, budget)?;
        let (edition, scratch, room) = (Edition::One, vec![0; 100], vec![0; 90]);
        self.call(Call::Validate { edition, table, recording, budget, scratch, room })
    }

    /// The call with the pattern in what it lends, and its answer.
    fn call(&mut self, call: Call) -> io::Result<()> {
        let call = batch::patterned(call);
        let (lent, files) = batch::split(&call);
        let head = Head {
            called: batch::number_of_call(&call),
            rule: call.rule(),
            budget: call.budget().unwrap_or(0),
            scratch: lent.0,
            room: lent.1,
        };
        batch::case(&mut self.input, &head, &files)?;
        let outcome = call.run(&ORDINARY);
        let tally =
            if call.rule().is_some() { &mut self.under_rules } else { &mut self.from_files };
        *tally.entry(outcome.answer.number).or_default() += 1;
        if call.budget().is_some() && outcome.answer.number == 1 {
            self.pairs.note(outcome.answer.counts);
        }
        self.note_last_word(&call, outcome.answer);
        self.read.note_call(&call, outcome.answer);
        self.answer(outcome.answer, outcome.scratch.iter().chain(&outcome.room))
    }

    fn note_last_word(&mut self, call: &Call, answer: Verdict) {
        let Call::Validate { table, .. } = call else { return };
        let size = table::read(table).map_or(0, |it| set::size(Space::of(&it).count()));
        if answer.number <= 1 && answer.second > 1 && size > set::WORD_BYTES {
            *self.last_words.entry(size % set::WORD_BYTES).or_default() += 1;
        }
    }

    fn write(&mut self, writing: &Writing) -> io::Result<()> {
        let called = batch::number_of_writing(writing);
        let files = given::files(&writing.parts);
        let files: Vec<&[u8]> = files.iter().map(Vec::as_slice).collect();
        let head = Head { called, room: writing.room, ..Head::default() };
        batch::case(&mut self.input, &head, &files)?;
        let mut room = batch::pattern(writing.room);
        let (answer, numbers) = writing.run(&mut room);
        let answer = Verdict::from(answer);
        let tally = if writing.back { &mut self.from_back } else { &mut self.from_writing };
        *tally.entry(answer.number).or_default() += 1;
        if let Parts::Table(parts) = &writing.parts {
            self.written.note_parts(parts, answer);
        }
        self.answer(answer, numbers.iter().chain(&room))
    }

    fn answer<'a>(
        &mut self,
        answer: Verdict,
        bytes: impl Iterator<Item = &'a u8>,
    ) -> io::Result<()> {
        if answer.number == 17 {
            *self.unreached_states.entry(answer.second).or_default() += 1;
        }
        let sum = bytes.fold(1, |sum, byte| batch::add(sum, *byte));
        let Verdict { number, second, third, counts: Counts { not_yet, no_more } } = answer;
        writeln!(self.output, "{number} {second} {third} {not_yet} {no_more} {sum}")
    }

    fn desk(&mut self, input: &[u8]) -> io::Result<()> {
        let head = Head { called: batch::DESK, ..Head::default() };
        batch::case(&mut self.input, &head, &[input])?;
        self.output.write_all(desk::report(input).as_bytes())
    }

    fn desk_files(&mut self, table: &[u8], recording: &[u8], budget: u32) -> io::Result<()> {
        self.desk(&[table, recording, &budget.to_be_bytes()].concat())
    }

    /// Some validations go through the desk too.
    fn desk_of(&mut self, call: &Call, made: usize) -> io::Result<()> {
        match call {
            Call::Validate { table, recording, budget, .. }
                if made.is_multiple_of(4) && table.len() + recording.len() < LONG =>
            {
                self.desk_files(table, recording, *budget)
            }
            _ => Ok(()),
        }
    }
}

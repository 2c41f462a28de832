//! What the recorded cases call, read from the batch; `cases` says how it is laid out.

#![allow(dead_code)]

use std::sync::LazyLock;

use lutarosa_reference::answer::Answer;
use lutarosa_reference::call::{Call, Engine, Outcome, ORDINARY};
use lutarosa_reference::cases::cases;
use lutarosa_reference::edition::Edition;
use lutarosa_reference::parts::{Placed, TableParts, WitnessParts};
use lutarosa_reference::rule::Rule;
use lutarosa_reference::table::Kind;
use lutarosa_reference::witness::Row;
use lutarosa_reference::writing::{Parts, Writing};

#[derive(Default)]
pub struct Recorded {
    /// Without a rule, and under one.
    pub calls: Vec<Call>,
    pub under_rules: Vec<Call>,
    /// Of tables, alone or with reading back.
    pub writings: Vec<Writing>,
    /// The same of witnesses.
    pub witnesses: Vec<Writing>,
    /// What goes through the desk, table, recording and budget.
    pub desk: Vec<Vec<u8>>,
    /// Of every case: the bytes of its files, its scratch and its room.
    pub sizes: Vec<[usize; 3]>,
}

/// What is lent to most calls; long handovers are lent more.
const USUALLY_LENT: usize = 30_000;
/// Each such pair takes a wait after the other.
const USUALLY_COUNTED: u64 = 100;

impl Recorded {
    /// The calls without a rule and their outcomes.
    pub fn outcomes(&self) -> impl Iterator<Item = (&Call, &Outcome)> {
        self.calls.iter().zip(OUTCOMES.iter())
    }

    /// The calls under rules and their outcomes.
    pub fn outcomes_under_rules(&self) -> impl Iterator<Item = (&Call, &Outcome)> {
        self.under_rules.iter().zip(OUTCOMES_UNDER_RULES.iter())
    }

    /// Those that are no long handovers and have few pairs to count, for rules that say nothing of
    /// them.
    pub fn usual(&self) -> impl Iterator<Item = (&Call, &Outcome)> {
        self.outcomes().filter(|(_, it)| {
            it.scratch.len() + it.room.len() <= USUALLY_LENT
                && it.answer.counts.no_more <= USUALLY_COUNTED
        })
    }

    pub fn tables(&self) -> impl Iterator<Item = &TableParts> {
        self.writings.iter().filter_map(|it| match &it.parts {
            Parts::Table(parts) => Some(parts),
            _ => None,
        })
    }
}

pub static RECORDED: LazyLock<Recorded> =
    LazyLock::new(|| recorded(&cases(1).expect("writing to memory").input));

pub static OUTCOMES: LazyLock<Vec<Outcome>> =
    LazyLock::new(|| RECORDED.calls.iter().map(|it| it.run(&ORDINARY)).collect());

pub static OUTCOMES_UNDER_RULES: LazyLock<Vec<Outcome>> =
    LazyLock::new(|| RECORDED.under_rules.iter().map(|it| it.run(&ORDINARY)).collect());

/// In how many of the calls this engine answers otherwise, and in how many of the writings this
/// writer answers or writes otherwise.
pub fn told<'a>(
    calls: impl Iterator<Item = (&'a Call, &'a Outcome)>,
    engine: &Engine,
    writings: &[Writing],
    write: impl Fn(&Writing, &mut [u8]) -> (Answer, Vec<u8>),
) -> [usize; 2] {
    let calls = calls.filter(|(call, outcome)| call.run(engine) != **outcome);
    let writings = writings.iter().filter(|it| {
        let [mut ours, mut theirs] = [vec![0x5A; it.room], vec![0x5A; it.room]];
        it.run(&mut ours) != write(it, &mut theirs) || ours != theirs
    });
    [calls.count(), writings.count()]
}

/// Of other rules their names, how often they must be told in calls and in writings, and how often
/// they are.
pub fn all_told<'a>(rules: impl Iterator<Item = (&'a str, [usize; 2], [usize; 2])>) {
    let mut rarely = Vec::new();
    for (name, least, times) in rules {
        println!("{name}: {} calls, {} writings", times[0], times[1]);
        if times[0] < least[0] || times[1] < least[1] {
            rarely.push(name);
        }
    }
    assert!(rarely.is_empty(), "told too rarely: {rarely:?}");
}

fn recorded(batch: &[u8]) -> Recorded {
    let mut recorded = Recorded::default();
    let mut rest = batch;
    while let Some((head, behind)) = rest.split_first_chunk::<28>() {
        let number = |place: usize| {
            let bytes = head[4 + 4 * place..].first_chunk().expect("six numbers");
            u32::from_be_bytes(*bytes)
        };
        rest = behind;
        let files = [3, 4, 5].map(|place| {
            let (file, after) = rest.split_at(number(place) as usize);
            rest = after;
            file.to_vec()
        });
        let lent = [1, 2].map(|place| number(place) as usize);
        recorded.sizes.push([files.iter().map(Vec::len).sum(), lent[0], lent[1]]);
        let rule = Rule::new(head[1], head[2], head[3]);
        recorded.add(head[0], rule, number(0), lent, files);
    }
    recorded
}

/// The edition of a call with this number.
fn edition(number: u8) -> Edition {
    match number {
        0..=11 | 17 | 18 => Edition::One,
        _ => Edition::Two,
    }
}

impl Recorded {
    fn add(&mut self, number: u8, rule: Rule, budget: u32, lent: [usize; 2], files: [Vec<u8>; 3]) {
        let edition = edition(number);
        assert!(number >= 17 || rule == Rule::new(0, 0, 0), "a call without a rule");
        let writing = |parts, back| Writing { parts, back, room: lent[1] };
        match number {
            5 => return self.desk.extend(files.into_iter().take(1)),
            6 | 9 => return self.writings.push(writing(Parts::Table(table(&files)), number == 9)),
            7 | 10 => return,
            8 | 11 | 15 | 16 => {
                let parts = Parts::Witness(edition, witness(&files[0]));
                return self.witnesses.push(writing(parts, matches!(number, 11 | 16)));
            }
            _ => {}
        }
        let [table, second, witness] = files;
        let recording = second.clone();
        let [scratch, room] = lent.map(|length| vec![0; length]);
        let calls = if number < 17 { &mut self.calls } else { &mut self.under_rules };
        calls.push(match number {
            0 | 12 => Call::Validate { edition, table, recording, budget, scratch, room },
            1 | 13 => Call::Check { edition, table, recording, witness },
            17 | 19 => {
                Call::ValidateRule { edition, rule, table, recording, budget, scratch, room }
            }
            18 | 20 => Call::CheckRule { edition, rule, table, recording, witness },
            2 => Call::RewriteTable { bytes: table, room },
            3 => Call::RewriteRecording { table, bytes: second, room },
            _ => Call::RewriteWitness { edition, bytes: table, room },
        });
    }
}

fn witness(file: &[u8]) -> WitnessParts {
    let (head, rows) = file.split_at(7);
    let row = |it: &[u8]| Row {
        mark: it[0],
        time: u16::from_be_bytes([it[1], it[2]]),
        kind: it[3],
        transition: it[4],
    };
    WitnessParts {
        count: u32::from_be_bytes(head[3..].try_into().expect("four bytes")),
        filler: head[2],
        rows: rows.chunks_exact(5).map(row).collect(),
    }
}

fn table([first, fields, guards]: &[Vec<u8>; 3]) -> TableParts {
    let (head, kinds) = first.split_at(9);
    let fields = fields.chunks_exact(7).map(|it| it.try_into().expect("seven"));
    let guards = guards.chunks_exact(32).map(|it| it.try_into().expect("32 places"));
    let kind = |it: &[u8]| Kind { direction: it[0], airtime: it[1], device: it[2] };
    TableParts {
        version: head[8],
        counts: head[3..8].try_into().expect("five counts"),
        filler: head[2],
        kinds: kinds.chunks_exact(3).map(kind).collect(),
        transitions: fields.zip(guards).map(|(fields, guard)| Placed { fields, guard }).collect(),
    }
}

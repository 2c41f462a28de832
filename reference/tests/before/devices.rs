//! Other rules than R-6's for the version, the kinds and the devices of a table.

use lutarosa_reference::answer::{settle, Answer, Refusal};
use lutarosa_reference::call::{Engine, ORDINARY};
use lutarosa_reference::check::check_read;
use lutarosa_reference::edition::Edition;
use lutarosa_reference::frame::put;
use lutarosa_reference::parts::TableParts;
use lutarosa_reference::recording::{read_against, Recording};
use lutarosa_reference::rule::Rule as Guesses;
use lutarosa_reference::table::{self, Kind, Table, COUNT_LIMITS};
use lutarosa_reference::validate::validate_read;
use lutarosa_reference::writing::{Parts, Writing};

/// R-6 is what `NOW` has.
#[derive(Clone, Copy)]
pub struct Rule {
    /// Which versions there are.
    knows: fn(u8) -> bool,
    /// Whether the version is tried before the counts.
    version_first: bool,
    /// How far apart two kinds are.
    step: fn(u8) -> usize,
    /// How many bytes of a kind must be there; what is missing counts as 0.
    asks: fn(u8) -> usize,
    /// Where the transitions start behind so many kinds.
    transitions: fn(u8, usize) -> usize,
    /// Where the record of a kind is said to be.
    says: fn(u8, usize) -> usize,
    /// Where airtime and device stand in a record.
    airtime_at: usize,
    device_at: usize,
    /// The device that version 1 gives to a direction.
    gives: fn(u8) -> u8,
    /// Whether a direction may have a device, but for version 1.
    may: fn(u8, u8) -> bool,
    /// The same in version 1.
    may_in_1: fn(u8, u8) -> bool,
    /// When they are tried for that.
    tried_in_1: Tried,
    /// Whether kinds behind those that count are tried.
    tries_beyond: bool,
    /// Which version is written.
    writes: fn(u8) -> u8,
    /// Which version the parts of a refused reading have.
    leaves: fn(u8) -> u8,
}

#[derive(Clone, Copy, PartialEq, Eq)]
enum Tried {
    BeforeKinds,
    KindByKind,
    AfterAll,
}

pub struct Other {
    pub name: &'static str,
    pub rule: Rule,
    pub engine: Engine,
    /// Where it must be told: in calls on files, and in writing parts, some of which are read back.
    pub told: [bool; 2],
}

macro_rules! other {
    ($name:expr, $told:expr, { $($change:tt)* }) => {{
        const RULE: Rule = Rule { $($change)* ..NOW };
        let engine = Engine {
            validate: |edition, table, recording, budget, scratch, room| {
                let read = read_both(&RULE, table, recording);
                settle(read.and_then(|(table, heard)| {
                    validate_read(edition, Guesses::NONE, &table, &heard, budget, scratch, room)
                }))
            },
            check: |edition, table, recording, witness| {
                let read = read_both(&RULE, table, recording);
                settle(read.and_then(|(table, heard)| check_read(edition, Guesses::NONE, &table, &heard, witness)))
            },
            rewrite_table: |bytes, room| {
                settle(read(&RULE, bytes).and_then(|table| write(&RULE, &table, room)))
            },
            rewrite_recording: |table, bytes, room| {
                settle(read_both(&RULE, table, bytes).and_then(|_| put(bytes, room)))
            },
            ..ORDINARY
        };
        Other { name: $name, rule: RULE, engine, told: $told }
    }};
}

/// R-6 written again.
const NOW: Rule = Rule {
    knows: |version| version == 1 || version == 2,
    version_first: true,
    step: |version| usize::from(version) + 1,
    asks: |version| usize::from(version) + 1,
    transitions: |version, kinds| 8 + kinds + kinds * usize::from(version),
    says: |version, kind| 8 + kind + kind * usize::from(version),
    airtime_at: 1,
    device_at: 2,
    gives: |direction| direction,
    may: |direction, device| device < 16 && (direction == 0) == (device == 0),
    may_in_1: |direction, device| direction == device,
    tried_in_1: Tried::KindByKind,
    tries_beyond: false,
    writes: |version| version,
    leaves: |_| 0,
};

pub const AGAIN: Other = other!("R-6", [false; 2], {});

const FILES: [bool; 2] = [true, false];
const PARTS: [bool; 2] = [false, true];
const BOTH: [bool; 2] = [true, true];

pub const OTHERS: [Other; 37] = [
    other!("before R-6", BOTH, { knows: |version| version == 1, }),
    other!("version 1 is no longer read", BOTH, { knows: |version| version == 2, }),
    other!("version 3 too", BOTH, { knows: |version| (1..=3).contains(&version), }),
    other!("version 0 too", BOTH, { knows: |version| version <= 2, }),
    other!("every version is read", BOTH, { knows: |_| true, }),
    other!("version after the counts", BOTH, { version_first: false, }),
    other!("device read where the airtime stands", BOTH, { device_at: 1, }),
    other!("airtime and device change places", BOTH, { airtime_at: 2, device_at: 1, }),
    other!("device 0 to the unit", BOTH, {
        may: |direction, device| device < 16 && (direction == 1 || device == 0),
    }),
    other!("another device than 0 from the unit", BOTH, {
        may: |direction, device| device < 16 && (direction == 0 || device > 0),
    }),
    other!("every device up to 15", BOTH, { may: |_, device| device < 16, }),
    other!("device 16", BOTH, {
        may: |direction, device| device <= 16 && (direction == 0) == (device == 0),
    }),
    other!("every device but 0 to the unit", BOTH, {
        may: |direction, device| (direction == 0) == (device == 0),
    }),
    other!("no device 15", BOTH, {
        may: |direction, device| device < 15 && (direction == 0) == (device == 0),
    }),
    other!("the lower four bits of a device", BOTH, {
        may: |direction, device| (direction == 0) == (device % 16 == 0),
    }),
    other!("devices are not tried", BOTH, { may: |_, _| true, }),
    other!("version 1 gives device 0 throughout", PARTS, {
        gives: |_| 0, may_in_1: |_, device| device == 0,
    }),
    other!("version 1 gives device 1 throughout", PARTS, {
        gives: |_| 1, may_in_1: |_, device| device == 1,
    }),
    other!("version 1 gives device 0 throughout, and parts are tried as ever", FILES, {
        gives: |_| 0,
    }),
    other!("version 1 gives the directions' devices the other way round", PARTS, {
        gives: |direction| 1 - direction.min(1), may_in_1: |direction, device| direction != device,
    }),
    other!("version 1 parts may have every device", PARTS, { may_in_1: |_, _| true, }),
    other!("version 1 parts may have the devices of version 2", PARTS, { may_in_1: NOW.may, }),
    other!("version 1 parts may have device 0 either way", PARTS, {
        may_in_1: |direction, device| device == 0 || device == direction,
    }),
    other!("version 1 parts may have device 1 either way", PARTS, {
        may_in_1: |direction, device| device == 1 || device == direction,
    }),
    other!("version 1 is always written", BOTH, { writes: |_| 1, }),
    other!("version 2 is always written", BOTH, { writes: |_| 2, }),
    other!("two bytes are asked for in version 2", FILES, { asks: |_| 2, }),
    other!("three bytes are asked for in version 1", FILES, { asks: |_| 3, }),
    other!("transitions at 8 + 2 x kinds in version 2", BOTH, {
        transitions: |_, kinds| 8 + 2 * kinds,
    }),
    other!("kinds are said to be two bytes apart", BOTH, { says: |_, kind| 8 + 2 * kind, }),
    other!("kinds are said to be three bytes apart", BOTH, { says: |_, kind| 8 + 3 * kind, }),
    other!("version 1's devices are tried first", PARTS, { tried_in_1: Tried::BeforeKinds, }),
    other!("version 1's devices are tried last", PARTS, { tried_in_1: Tried::AfterAll, }),
    other!("kinds behind those that count are tried", PARTS, { tries_beyond: true, }),
    other!("refused parts keep their version", PARTS, { leaves: |version| version, }),
    Other { name: "recordings of version 2", rule: NOW, engine: RECORDINGS, told: FILES },
    Other {
        name: "witnesses of edition 1 with version 2",
        rule: NOW,
        engine: WITNESSES,
        told: FILES,
    },
];

const RECORDINGS: Engine = Engine {
    validate: |edition, table, recording, budget, scratch, room| {
        (ORDINARY.validate)(edition, table, &in_1(recording), budget, scratch, room)
    },
    check: |edition, table, recording, witness| {
        (ORDINARY.check)(edition, table, &in_1(recording), witness)
    },
    rewrite_recording: |table, bytes, room| (ORDINARY.rewrite_recording)(table, &in_1(bytes), room),
    ..ORDINARY
};

const WITNESSES: Engine = Engine {
    check: |edition, table, recording, witness| match edition {
        Edition::One => (ORDINARY.check)(edition, table, recording, &in_1(witness)),
        Edition::Two => (ORDINARY.check)(edition, table, recording, witness),
    },
    rewrite_witness: |edition, bytes, room| match edition {
        Edition::One => (ORDINARY.rewrite_witness)(edition, &in_1(bytes), room),
        Edition::Two => (ORDINARY.rewrite_witness)(edition, bytes, room),
    },
    ..ORDINARY
};

/// A file of version 2 taken for one of version 1.
fn in_1(bytes: &[u8]) -> Vec<u8> {
    let mut bytes = bytes.to_vec();
    bytes.iter_mut().skip(2).take(1).filter(|it| **it == 2).for_each(|it| *it = 1);
    bytes
}

impl Other {
    /// What this writing gives: the answer, the numbers of the parts read back, and the room.
    pub fn write(&self, writing: &Writing, room: &mut [u8]) -> (Answer, Vec<u8>) {
        let Parts::Table(parts) = &writing.parts else { unreachable!("tables alone") };
        let written = self.written(parts, room);
        if !writing.back {
            return (written, Vec::new());
        }
        let read = match written.number {
            0 => read(&self.rule, &room[..written.second as usize]).map_err(Answer::from),
            _ => Err(written),
        };
        match read {
            Ok(table) => (Answer::new(0, 0, 0), TableParts::of(&table).numbers()),
            Err(answer) => {
                let version = (self.rule.leaves)(parts.version);
                (answer, TableParts { version, ..TableParts::default() }.numbers())
            }
        }
    }

    fn written(&self, parts: &TableParts, room: &mut [u8]) -> Answer {
        let behind = parts.kinds.iter().enumerate().skip(parts.counts[3].into());
        let refused = |(number, kind)| check_kind(&self.rule, parts.version, kind, number).err();
        match behind.filter_map(refused).next() {
            Some(refusal) if self.rule.tries_beyond => refusal.into(),
            _ => settle(write(&self.rule, &parts.covered(), room)),
        }
    }
}

fn read_both(rule: &Rule, table: &[u8], bytes: &[u8]) -> Result<(Table, Recording), Refusal> {
    let table = read(rule, table)?;
    let recording = read_against(&table, bytes)?;
    Ok((table, recording))
}

fn version_and_counts(rule: &Rule, version: u8, counts: [usize; 5]) -> Result<(), Refusal> {
    let known = if (rule.knows)(version) { Ok(()) } else { Err(Refusal::new(11, 2)) };
    let beyond = |(count, (low, high)): (usize, (usize, usize))| count < low || count > high;
    let place = counts.into_iter().zip(COUNT_LIMITS).position(beyond);
    let counted = place.map_or(Ok(()), |place| Err(Refusal::new(12, 3 + place)));
    match rule.version_first {
        true => known.and(counted),
        false => counted.and(known),
    }
}

fn check_kind(rule: &Rule, version: u8, kind: &Kind, number: usize) -> Result<(), Refusal> {
    let Kind { direction, airtime, device } = *kind;
    let may = version == 1 || (rule.may)(direction, device);
    let in_range = direction < 2 && airtime < 16 && may;
    if !in_range {
        return Err(Refusal::new(14, (rule.says)(version, number)));
    }
    match rule.tried_in_1 {
        Tried::KindByKind => check_in_1(rule, version, kind, number),
        _ => Ok(()),
    }
}

fn check_in_1(rule: &Rule, version: u8, kind: &Kind, number: usize) -> Result<(), Refusal> {
    match version != 1 || (rule.may_in_1)(kind.direction, kind.device) {
        true => Ok(()),
        false => Err(Refusal::new(14, (rule.says)(version, number))),
    }
}

/// Versions that are not known have the layout of version 2.
fn layout(version: u8) -> u8 {
    if version == 1 {
        1
    } else {
        2
    }
}

fn read(rule: &Rule, bytes: &[u8]) -> Result<Table, Refusal> {
    // A frame that is refused is refused as ever.
    if let Err(refusal @ Refusal { number: 10, .. }) = table::read_records(bytes) {
        return Err(refusal);
    }
    let version = bytes[2];
    let counts: [usize; 5] = std::array::from_fn(|place| usize::from(bytes[3 + place]));
    version_and_counts(rule, version, counts)?;
    let version = layout(version);
    let mut kinds = Vec::new();
    for number in 0..counts[3] {
        let start = 8 + number * (rule.step)(version);
        if bytes.len() < start + (rule.asks)(version) {
            return Err(Refusal::new(13, (rule.says)(version, number)));
        }
        let at = |place: usize| bytes.get(start + place).copied().unwrap_or(0);
        let device = if version == 1 { (rule.gives)(at(0)) } else { at(rule.device_at) };
        let airtime = if version == 1 { at(1) } else { at(rule.airtime_at) };
        let kind = Kind { direction: at(0), airtime, device };
        check_kind(rule, version, &kind, number)?;
        kinds.push(kind);
    }
    // Behind the third byte that was not asked for there may be nothing at all.
    let transitions = (rule.transitions)(version, kinds.len()).min(bytes.len());
    let mut table = behind_kinds(bytes, &kinds, transitions)?;
    (table.version, table.kinds) = (bytes[2], kinds);
    Ok(table)
}

/// The rest is read behind kinds that version 1 can tell, and its offsets are moved.
fn behind_kinds(bytes: &[u8], kinds: &[Kind], transitions: usize) -> Result<Table, Refusal> {
    let records = kinds.iter().flat_map(|kind| [kind.direction, kind.airtime]);
    let plain: Vec<u8> = bytes[..8].iter().copied().chain(records).collect();
    let mut whole = [&plain, &bytes[transitions..]].concat();
    let length = (whole.len() - 2) as u16;
    whole[..2].copy_from_slice(&length.to_be_bytes());
    whole[2] = 1;
    table::read(&whole).map_err(|it| match it.number {
        13..=15 => Refusal::new(it.number, it.value as usize - plain.len() + transitions),
        _ => it,
    })
}

fn write(rule: &Rule, table: &Table, room: &mut [u8]) -> Result<Answer, Refusal> {
    version_and_counts(rule, table.version, table.counts())?;
    let version = layout(table.version);
    let all_in_1 = || {
        let mut numbered = table.kinds.iter().enumerate();
        numbered.try_for_each(|(number, kind)| check_in_1(rule, version, kind, number))
    };
    if rule.tried_in_1 == Tried::BeforeKinds {
        all_in_1()?;
    }
    for (number, kind) in table.kinds.iter().enumerate() {
        check_kind(rule, version, kind, number)?;
    }
    let written = (rule.writes)(table.version);
    let record = |it: &Kind| match written {
        1 => vec![it.direction, it.airtime],
        _ => vec![it.direction, it.airtime, it.device],
    };
    let records: Vec<u8> = table.kinds.iter().flat_map(record).collect();
    // The rest is written behind kinds of version 1, and its offsets are moved.
    let plain = Table { version: 1, kinds: plain(&table.kinds), ..table.clone() };
    let first = 8 + 2 * table.kinds.len();
    let mut whole = vec![0; 3_000];
    let answer = table::write(&plain, &mut whole);
    let moved = (rule.transitions)(version, table.kinds.len());
    match answer.number {
        0 => {}
        14 | 15 => return Err(Refusal::new(answer.number, answer.second as usize - first + moved)),
        _ => return Err(Refusal::new(answer.number, answer.second as usize)),
    }
    if rule.tried_in_1 == Tried::AfterAll {
        all_in_1()?;
    }
    let mut bytes = [&whole[..8], &records, &whole[first..answer.second as usize]].concat();
    let length = (bytes.len() - 2) as u16;
    bytes[..2].copy_from_slice(&length.to_be_bytes());
    bytes[2] = written;
    put(&bytes, room)
}

fn plain(kinds: &[Kind]) -> Vec<Kind> {
    kinds.iter().map(|it| Kind::in_version_1(it.direction, it.airtime)).collect()
}

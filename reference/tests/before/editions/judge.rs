//! Recordings by another rule: reading, checking and validating.

use std::collections::HashMap;
use std::sync::{LazyLock, Mutex};

use lutarosa_reference::answer::{Answer, Refusal, Verdict};
use lutarosa_reference::call::ORDINARY;
use lutarosa_reference::edition::Edition;
use lutarosa_reference::guard::Readiness;
use lutarosa_reference::recording::{read_against, Heard, Recording};
use lutarosa_reference::situation::Space;
use lutarosa_reference::table::{self, Table};
use lutarosa_reference::witness::{Row, ADDED, KEPT, REMOVED};

use super::witness::{bytes_of, read_rows, stands};
use super::{Rule, NOW};
use Edition::Two;

/// What is wanted, if less is lent.
fn short(wanted: usize, lent: usize) -> Option<usize> {
    (lent < wanted).then_some(wanted)
}

/// Table and frame are refused as ever.
pub fn read_both(rule: &Rule, table: &[u8], bytes: &[u8]) -> Result<(Table, Recording), Refusal> {
    let table = table::read(table)?;
    if let Err(refusal @ Refusal { number: 20..=22, .. }) = read_against(&table, bytes) {
        return Err(refusal);
    }
    let heard = |it: &[u8]| Heard { time: u16::from_be_bytes([it[0], it[1]]), kind: it[2] };
    let rows: Vec<Heard> = bytes[5..].chunks_exact(3).map(heard).collect();
    let mut free_from = 0;
    for (number, row) in rows.iter().enumerate() {
        let Some(kind) = table.kinds.get(usize::from(row.kind)) else {
            return Err(Refusal::new(23, number));
        };
        if row.time == 0 || row.time > rule.last_heard {
            return Err(Refusal::new(23, number));
        }
        if u32::from(row.time) < free_from {
            return Err(Refusal::new(24, number));
        }
        free_from = (rule.free_from)(u32::from(row.time) + u32::from(kind.airtime) + 1);
    }
    Ok((table, Recording { rows }))
}

pub fn check(
    rule: &Rule,
    edition: Edition,
    table: &Table,
    recording: &Recording,
    bytes: &[u8],
) -> Result<Answer, Refusal> {
    if (rule.late_check)(edition, recording.last_time()) {
        return Err(Refusal::new(31, 0));
    }
    let rows = read_rows(rule, edition, bytes)?;
    let edition = (rule.named)(edition, bytes);
    let mut follower = Follower::start(rule, table, &recording.rows);
    for (number, row) in rows.iter().enumerate() {
        if !stands(rule, edition, &rows, number) || follower.follow(row).is_none() {
            return Err(Refusal::new(43, number));
        }
    }
    if !follower.left.is_empty() {
        return Err(Refusal::new(43, rows.len()));
    }
    let guessed = rows.iter().filter(|row| row.mark != KEPT).count();
    Ok(Answer::new(0, guessed as u64, rows.len() as u64))
}

struct Follower<'a> {
    rule: &'a Rule,
    table: &'a Table,
    /// The recorded rows not yet accounted for.
    left: &'a [Heard],
    state: u8,
    variables: u8,
    last_reset: [u32; 2],
    free_from: u32,
}

impl<'a> Follower<'a> {
    fn start(rule: &'a Rule, table: &'a Table, left: &'a [Heard]) -> Self {
        Follower { rule, table, left, state: 0, variables: 0, last_reset: [0; 2], free_from: 0 }
    }

    /// Nothing if the row breaks a rule.
    fn follow(&mut self, row: &Row) -> Option<()> {
        let time = u32::from(row.time);
        let (next, rest) = self.left.split_at_checked(usize::from(row.mark != ADDED))?;
        let same = next.iter().all(|it| *it == Heard { time: row.time, kind: row.kind });
        let passed_over = rest.first().is_some_and(|it| it.time <= row.time);
        let kind = self.table.kinds.get(usize::from(row.kind))?;
        if !same || passed_over || time < self.free_from {
            return None;
        }
        if row.mark != REMOVED {
            self.fire(row)?;
        } else if kind.direction == 0 {
            return None;
        }
        self.left = rest;
        self.free_from = (self.rule.free_from)(time + u32::from(kind.airtime) + 1);
        Some(())
    }

    fn fire(&mut self, row: &Row) -> Option<()> {
        let time = u32::from(row.time);
        let it = self.table.transitions.get(usize::from(row.transition))?;
        let clocks = self.last_reset.map(|reset| (self.rule.reads)(time - reset));
        let readiness = self.table.guard(it)?.readiness(self.variables, &clocks);
        if it.from != self.state || it.kind != row.kind || readiness != Readiness::Yes {
            return None;
        }
        self.state = it.to;
        self.variables = self.variables & !it.clear | it.set;
        for clock in (0..2).filter(|clock| it.reset >> clock & 1 == 1) {
            self.last_reset[clock] = time;
        }
        Some(())
    }
}

/// Which room is wanted, and what becomes of it; the search is the same for all rules.
pub fn validate(
    rule: &Rule,
    edition: Edition,
    (table, recording): (&[u8], &[u8]),
    budget: u32,
    scratch: &mut [u8],
    room: &mut [u8],
) -> Result<Verdict, Refusal> {
    let (parts, heard) = read_both(rule, table, recording)?;
    let last = heard.last_time();
    let wanted = (rule.room)(edition, last + heard.rows.len());
    let scratch_wanted = (last + 1) * Space::of(&parts).count().div_ceil(8);
    let refused_30 = short(scratch_wanted, scratch.len()).map(|value| Refusal::new(30, value));
    let refused_31 = match last > (rule.written_to)(edition) {
        true => Some((rule.past_that)(last, wanted, room.len())),
        false => short(wanted, room.len()),
    };
    let refused_31 = refused_31.map(|value| Refusal::new(31, value));
    let refused = match (rule.room_first)(edition, last) {
        true => refused_31.or(refused_30),
        false => refused_30.or(refused_31),
    };
    if let Some(refusal) = refused {
        return Err(refusal);
    }
    let (answer, rows) = judged(table, recording, budget);
    scratch[..scratch_wanted].fill(0);
    if answer.number == 0 {
        let bytes = bytes_of(rule, edition, &rows);
        // Too small a room was asked for.
        let length = bytes.len().min(room.len());
        room[..length].copy_from_slice(&bytes[..length]);
    }
    Ok(answer)
}

type Judgement = (Verdict, Vec<Row>);
type Judgements = Mutex<HashMap<(Vec<u8>, Vec<u8>, u32), Judgement>>;

/// What the search says, kept for the next rule.
fn judged(table: &[u8], recording: &[u8], budget: u32) -> Judgement {
    static JUDGED: LazyLock<Judgements> = LazyLock::new(Judgements::default);
    let key = (table.to_vec(), recording.to_vec(), budget);
    let known = JUDGED.lock().expect("unbroken").get(&key).cloned();
    known.unwrap_or_else(|| {
        let judgement = judge(table, recording, budget);
        JUDGED.lock().expect("unbroken").insert(key, judgement.clone());
        judgement
    })
}

/// In edition 2, with all the room it wants. A recording that another rule allows is refused here.
fn judge(table: &[u8], recording: &[u8], budget: u32) -> Judgement {
    let validate = |scratch: &mut [u8], room: &mut [u8]| {
        (ORDINARY.validate)(Two, table, recording, budget, scratch, room)
    };
    let mut scratch = vec![0; validate(&mut [], &mut []).second as usize];
    let mut room = vec![0; validate(&mut scratch, &mut []).second as usize];
    let answer = validate(&mut scratch, &mut room);
    let rows = match answer.number {
        0 => read_rows(&NOW, Two, &room[..9 + 5 * answer.third as usize]).expect("written so"),
        _ => Vec::new(),
    };
    (answer, rows)
}

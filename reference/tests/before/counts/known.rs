//! What is possible at the rows of a recording, kept for the next rule.

use std::collections::HashMap;
use std::sync::{Arc, LazyLock, Mutex};

use lutarosa_reference::answer::Verdict;
use lutarosa_reference::guard::{Clocks, Guard};
use lutarosa_reference::moves::Moves;
use lutarosa_reference::recording::{read, Recording};
use lutarosa_reference::set;
use lutarosa_reference::situation::{Situation, Space};
use lutarosa_reference::table::{Table, Transition};

pub struct Known {
    pub space: Space,
    pub transitions: Vec<(Transition, Guard)>,
    pub variables: u8,
    /// M+1 of each clock.
    pub highest: Clocks,
    /// Of each row up to the instant that decides, its kind and the situations just before it.
    pub rows: Vec<(u8, Vec<Situation>)>,
    /// The situations just before the instant before that one.
    pub one_before: Vec<Situation>,
    /// Of the recording, be it behind that instant.
    pub last_kind: u8,
}

type Kept = Mutex<HashMap<(Vec<u8>, Vec<u8>, usize), Arc<Known>>>;

/// Up to the instant that this verdict names, or to the last one. At that instant there may be no
/// row, if it is where the budget ends.
pub fn known(table: &[u8], recording: &[u8], verdict: Verdict) -> Arc<Known> {
    static KEPT: LazyLock<Kept> = LazyLock::new(Kept::default);
    let (parts, heard) = read(table, recording).expect("not refused");
    let instant = match verdict.number {
        0 => heard.last_time(),
        _ => verdict.third as usize,
    };
    let key = (table.to_vec(), recording.to_vec(), instant);
    let kept = KEPT.lock().expect("unbroken").get(&key).cloned();
    kept.unwrap_or_else(|| {
        let known = Arc::new(work_out(&parts, &heard, instant));
        KEPT.lock().expect("unbroken").insert(key, known.clone());
        known
    })
}

fn work_out(table: &Table, recording: &Recording, instant: usize) -> Known {
    let space = Space::of(table);
    let guard = |it: &Transition| table.guard(it).expect("sound");
    let mut highest = [0; 2];
    table.transitions.iter().for_each(|it| guard(it).raise_limits(&mut highest));
    let mut known = Known {
        space: space.clone(),
        transitions: table.transitions.iter().map(|it| (it.clone(), guard(it))).collect(),
        variables: table.variables,
        highest: highest.map(|limit| limit + 1),
        rows: Vec::new(),
        one_before: Vec::new(),
        last_kind: recording.rows.last().map_or(0, |row| row.kind),
    };
    let mut moves = Moves::new(table, &space);
    let mut now = vec![0; set::size(space.count())];
    set::insert(&mut now, space.number(&space.first()));
    for (place, heard) in recording.instants().iter().take(instant).enumerate() {
        let decides = place + 1 == instant;
        if let Some(kind) = heard {
            known.rows.push((*kind, members(&space, &now)));
        } else if decides {
            known.rows.clear();
        }
        if place + 2 == instant {
            known.one_before = members(&space, &now);
        }
        now = next(&mut moves, *heard, &now);
    }
    known
}

fn members(space: &Space, now: &[u8]) -> Vec<Situation> {
    let mut members = Vec::new();
    set::for_each(now, |number| members.push(space.situation(number)));
    members
}

fn next(moves: &mut Moves, heard: Option<u8>, now: &[u8]) -> Vec<u8> {
    let mut next = vec![0; now.len()];
    set::for_each(now, |situation| {
        let (idle, fired) = moves.meet(situation);
        let allowed = fired.iter().filter(|it| heard.is_none_or(|kind| it.kind == kind));
        allowed.for_each(|it| set::insert(&mut next, it.next.into()));
        let rest = match heard {
            None => Some(idle),
            Some(kind) => moves.removed(situation, kind),
        };
        rest.into_iter().for_each(|it| set::insert(&mut next, it));
    });
    next
}

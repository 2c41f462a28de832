//! The rules as they were before half made, to see where they differ from it.

use std::collections::BTreeSet;

use lutarosa_reference::answer::{Answer, Counts, Verdict};
use lutarosa_reference::brute::Monitor;
use lutarosa_reference::call::{Engine, ORDINARY};
use lutarosa_reference::check::check_witness;
use lutarosa_reference::edition::Edition;
use lutarosa_reference::guard::Readiness;
use lutarosa_reference::moves::{Fired, Moves};
use lutarosa_reference::recording::{self, Heard, Recording};
use lutarosa_reference::rewrite::rewrite_witness as rewrite_witness_now;
use lutarosa_reference::situation::Space;
use lutarosa_reference::table::Table;
use lutarosa_reference::validate::validate as validate_now;
use lutarosa_reference::witness::{
    self, bytes_of, in_form, Row, Witness, ADDED, KEPT, NO_TRANSITION, REMOVED,
};

/// What becomes of a removed packet; R-3 is no, yes, yes.
struct Rule {
    /// A row of another kind may be added at its instant. Only where it takes no air.
    shares_instant: bool,
    /// It must find the air free.
    needs_air: bool,
    /// It takes the air for its airtime.
    takes_air: bool,
}

macro_rules! engine {
    ($shares_instant:expr, $needs_air:expr, $takes_air:expr) => {{
        const RULE: &Rule =
            &Rule { shares_instant: $shares_instant, needs_air: $needs_air, takes_air: $takes_air };
        Engine {
            validate: |edition, table, recording, budget, scratch, room| {
                validate(RULE, edition, (table, recording), budget, scratch, room)
            },
            check: |edition, table, recording, witness| {
                check(RULE, edition, table, recording, witness)
            },
            rewrite_witness: |edition, bytes, room| rewrite_witness(RULE, edition, bytes, room),
            ..ORDINARY
        }
    }};
}

pub const BEFORE: Engine = engine!(true, false, false);
pub const NOW: Engine = engine!(false, true, true);
pub const NEEDS_NO_AIR: Engine = engine!(false, false, true);
pub const TAKES_NO_AIR: Engine = engine!(false, true, false);

/// Refusals and what becomes of the scratch are as now; a budget of 0 asks for no more.
fn validate(
    rule: &Rule,
    edition: Edition,
    (table, recording): (&[u8], &[u8]),
    budget: u32,
    scratch: &mut [u8],
    room: &mut [u8],
) -> Verdict {
    let refused_or_empty = validate_now(edition, table, recording, 0, scratch, room);
    if refused_or_empty.number != 2 {
        return refused_or_empty;
    }
    let (table, recording) = recording::read(table, recording).expect("not refused");
    let space = Space::of(&table);
    let moves = Moves::new(&table, &space);
    match (Search { rule, table: &table, space: &space, moves }).run(&recording, budget) {
        Err(verdict) => verdict,
        Ok((cost, found)) => {
            let bytes = bytes_of(edition, &found);
            room[..bytes.len()].copy_from_slice(&bytes);
            Verdict::new(0, cost, found.rows.len() as u64)
        }
    }
}

struct Search<'a> {
    rule: &'a Rule,
    table: &'a Table,
    space: &'a Space,
    moves: Moves<'a>,
}

/// A removed row and another, still without their time, and the situation that is left.
struct Step {
    rows: [Option<Row>; 2],
    next: usize,
}

impl Search<'_> {
    fn run(mut self, recording: &Recording, budget: u32) -> Result<(u64, Witness), Verdict> {
        let instants = recording.instants();
        let (layers, cost) = self.layers(&instants, budget)?;
        let mut witness = Witness::default();
        let mut situation = self.space.number(&self.space.first());
        for (place, heard) in instants.iter().enumerate() {
            let mut steps = self.steps(situation, *heard).into_iter();
            let step = steps.find(|it| layers[place + 1].contains(&it.next)).expect("it lasts");
            let rows = step.rows.into_iter().flatten();
            witness.rows.extend(rows.map(|row| Row { time: place as u16 + 1, ..row }));
            situation = step.next;
        }
        Ok((cost, witness))
    }

    /// The situations before each instant from which the last one can be passed, and the cost.
    fn layers(
        &mut self,
        instants: &[Option<u8>],
        budget: u32,
    ) -> Result<(Vec<BTreeSet<usize>>, u64), Verdict> {
        let mut layers = vec![BTreeSet::from([self.space.number(&self.space.first())])];
        let mut cost = 0;
        for (place, heard) in instants.iter().enumerate() {
            let instant = place as u64 + 1;
            cost += layers[place].len() as u64;
            if cost > u64::from(budget) {
                return Err(Verdict::new(2, budget.into(), instant));
            }
            let steps = layers[place].iter().flat_map(|it| self.steps(*it, *heard));
            let next: BTreeSet<usize> = steps.map(|it| it.next).collect();
            if next.is_empty() {
                return Err(Verdict::rejected(cost, instant, self.counts(&layers[place], *heard)));
            }
            layers.push(next);
        }
        for (place, heard) in instants.iter().enumerate().rev() {
            let (now, next) = layers.split_at_mut(place + 1);
            let lasts = |it: &Step| next[0].contains(&it.next);
            now[place].retain(|it| self.steps(*it, *heard).iter().any(lasts));
        }
        Ok((layers, cost))
    }

    fn counts(&self, situations: &BTreeSet<usize>, heard: Option<u8>) -> Counts {
        let each =
            situations.iter().flat_map(|it| heard.map(|kind| self.moves.readiness(*it, kind)));
        let all: Vec<Readiness> = each.flatten().collect();
        let times = |of: Readiness| all.iter().filter(|it| **it == of).count() as u64;
        Counts::new(times(Readiness::NotYet), times(Readiness::NoMore))
    }

    /// In the order of preference.
    fn steps(&mut self, situation: usize, heard: Option<u8>) -> Vec<Step> {
        let row = |mark, kind, transition| Some(Row { mark, time: 0, kind, transition });
        let fire = |removed, mark, it: &Fired| Step {
            rows: [removed, row(mark, it.kind, it.transition)],
            next: it.next.into(),
        };
        let removed = heard.and_then(|kind| row(REMOVED, kind, NO_TRANSITION));
        let rest = self.rest(situation, heard);
        let fired = self.moves.meet(situation).1;
        let (same, other): (Vec<&Fired>, Vec<&Fired>) =
            fired.iter().partition(|it| Some(it.kind) == heard);
        let mut steps: Vec<Step> = same.into_iter().map(|it| fire(None, KEPT, it)).collect();
        steps.extend(rest.map(|next| Step { rows: [removed, None], next }));
        if rest.is_some() && (heard.is_none() || self.rule.shares_instant) {
            steps.extend(other.into_iter().map(|it| fire(removed, ADDED, it)));
        }
        steps
    }

    /// What is left if nothing fires: where nothing is heard, or what is heard may be removed.
    fn rest(&self, situation: usize, heard: Option<u8>) -> Option<usize> {
        let it = self.space.situation(situation);
        let mut after = self.space.idle(&it);
        if let Some(kind) = heard {
            if !self.table.to_unit(kind) || (self.rule.needs_air && it.air > 0) {
                return None;
            }
            if self.rule.takes_air {
                after.air = after.air.max(self.table.airtime(kind));
            }
        }
        Some(self.space.number(&after))
    }
}

/// What is permitted now is permitted by each of these rules too.
fn check(rule: &Rule, edition: Edition, table: &[u8], recording: &[u8], witness: &[u8]) -> Answer {
    let now = check_witness(edition, table, recording, witness);
    if now.number != 43 {
        return now;
    }
    let (table, recording) = recording::read(table, recording).expect("43 comes after it");
    let rows = witness::read_rows(edition, witness).expect("43 comes after it").rows;
    let mut follower =
        Follower { rule, table: &table, left: &recording.rows, monitor: Monitor::start(), air: 0 };
    for (number, row) in rows.iter().enumerate() {
        if !may_stand(rule, edition, &rows[..number], row) || follower.follow(row).is_none() {
            return Answer::new(43, number as u64, 0);
        }
    }
    let guessed = rows.iter().filter(|row| row.mark != KEPT).count();
    match follower.left {
        [] => Answer::new(0, guessed as u64, rows.len() as u64),
        _ => Answer::new(43, rows.len() as u64, 0),
    }
}

struct Follower<'a> {
    rule: &'a Rule,
    table: &'a Table,
    /// The recorded rows not yet accounted for.
    left: &'a [Heard],
    monitor: Monitor,
    /// The first tick at which the air is free.
    air: u32,
}

impl Follower<'_> {
    /// Nothing if the row breaks a rule.
    fn follow(&mut self, row: &Row) -> Option<()> {
        let time = u32::from(row.time);
        let (next, rest) = self.left.split_at_checked(usize::from(row.mark != ADDED))?;
        let same = next.iter().all(|it| *it == Heard { time: row.time, kind: row.kind });
        let passed_over = rest.first().is_some_and(|it| it.time <= row.time);
        let removed = row.mark == REMOVED;
        let needs_air = !removed || self.rule.needs_air;
        if !same || passed_over || (needs_air && time < self.air) {
            return None;
        }
        self.left = rest;
        if removed {
            self.table.to_unit(row.kind).then_some(())?;
        } else {
            self.monitor = self.monitor.fire(self.table, row.transition, (time, row.kind))?;
        }
        if !removed || self.rule.takes_air {
            self.air = self.air.max(time + self.table.airtime(row.kind) + 1);
        }
        Some(())
    }
}

/// The form: where an instant is shared, it is by a removed row and then an added one of another
/// kind.
fn may_stand(rule: &Rule, edition: Edition, before: &[Row], row: &Row) -> bool {
    let may_follow = |it: &Row| {
        let replaces = it.mark == REMOVED && row.mark == ADDED && it.kind != row.kind;
        row.time > it.time || (rule.shares_instant && row.time == it.time && replaces)
    };
    in_form(edition, None, row) && before.last().is_none_or(may_follow)
}

fn rewrite_witness(rule: &Rule, edition: Edition, bytes: &[u8], room: &mut [u8]) -> Answer {
    let now = rewrite_witness_now(edition, bytes, room);
    if now.number != 43 {
        return now;
    }
    let rows = witness::read_rows(edition, bytes).expect("43 comes after it").rows;
    let stands = |number: &usize| may_stand(rule, edition, &rows[..*number], &rows[*number]);
    let broken = (0..rows.len()).find(|number| !stands(number));
    match (broken, room.get_mut(..bytes.len())) {
        (Some(number), _) => Answer::new(43, number as u64, 0),
        (None, None) => Answer::new(33, bytes.len() as u64, 0),
        (None, Some(place)) => {
            place.copy_from_slice(bytes);
            Answer::new(0, bytes.len() as u64, 0)
        }
    }
}

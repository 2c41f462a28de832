//! Calls that turn on a rule of guesses.

use super::buffers::{dirty, length_near};
use super::calls::budgets;
use super::encode::{encode_recording, encode_table, encode_witness};
use super::learn::{learn, learn_under, Learnt};
use super::recordings::{any_rows, hardly_heard, overheard, spoil_rows};
use super::rng::Rng;
use super::spoil::{any_bytes, spoil_witness_bytes};
use super::spoil_tables::spoil_table;
use super::tables::{protocol, sound_table, Shape};
use super::witnesses::{guessed, spoil_witness};
use crate::call::Call;
use crate::edition::Edition;
use crate::limits::{sized, WIDTHS};
use crate::recording::Recording;
use crate::rule::Rule;
use crate::situation::{Space, MOST_SITUATIONS};
use crate::table::{Kind, Table, Transition};
use crate::witness::{read, Witness, ADDED, REMOVED};

/// Situations, the larger number, times instants.
const USUAL_WORK: usize = 40_000;
const RARE_WORK: usize = 300_000;
const LAST_TIME: usize = 60;
/// Recordings tried of a table until one is accepted without a rule, and with added rows.
const TRIES: usize = 8;
const DEVICES: [u8; 5] = [0, 1, 15, 2, 9];
/// Either would do: the rows are the same.
const EDITION: Edition = Edition::Two;

/// Calls of one input under a rule or two, with everything in order but for now and then.
pub fn ruled(rng: &mut Rng) -> Vec<Call> {
    if rng.one_in(30) {
        return at_the_limit(rng);
    }
    let work = if rng.one_in(20) { RARE_WORK } else { USUAL_WORK };
    let (table, recording) = some_guesses(rng, work, LAST_TIME);
    let mut files = Files {
        edition: rng.pick(&Edition::BOTH),
        table: encode_table(&table),
        recording: encode_recording(&recording),
    };
    let preferred = files.learn(Rule::NONE).preferred;
    let preferred = preferred.map(|it| read(files.edition, &it).expect("in form"));
    let mut rule = aimed(rng, &table, &recording, &preferred.clone().unwrap_or_default(), work);
    if rng.one_in(6) {
        files.spoil(rng, &table, &recording);
    }
    let guess = guessed(rng, &table, &recording);
    let broken = once_broken(rng, &table, &guess, rule);
    if rng.one_in(6) {
        rule = out_of_range(rng, rule);
    }
    let mut calls = Vec::new();
    let by_rule = files.validations(rng, rule, &mut calls);
    let by_rule = by_rule.and_then(|it| read(files.edition, &it).ok());
    for witness in preferred.iter().chain(&by_rule) {
        files.checks(rng, rule, witness, &mut calls);
    }
    match broken {
        None => files.checks(rng, rule, &guess, &mut calls),
        Some(rule) => {
            let witness = encode_witness(files.edition, &guess);
            files.check(rule, witness.clone(), &mut calls);
            files.check(Rule { most: rule.most + 1, ..rule }, witness, &mut calls);
        }
    }
    calls
}

/// A window as long as N has place for, or one row longer.
fn at_the_limit(rng: &mut Rng) -> Vec<Call> {
    let (states, variables, bounds, _, longest) = rng.pick(&WIDTHS);
    let table = sized(states, variables, bounds, 0);
    let last = rng.between(0, 2) as u16;
    let recording = any_rows(rng, &table, last);
    let files = Files {
        edition: rng.pick(&Edition::BOTH),
        table: encode_table(&table),
        recording: encode_recording(&recording),
    };
    let window = longest + u8::from(rng.one_in(3));
    let rule = Rule::new(rng.pick(&[0, 1, 1, 16]), window, rng.below(window.into()) as u8);
    let mut calls = Vec::new();
    files.validations(rng, rule, &mut calls);
    let guess = guessed(rng, &table, &recording);
    files.checks(rng, rule, &guess, &mut calls);
    calls
}

/// A table and a recording, and a rule that is in range for them: for the brute-force search.
pub fn ruled_input(rng: &mut Rng, work: usize, last: u16) -> (Table, Recording, Rule) {
    let (table, recording) = some_guesses(rng, work, last.into());
    let learnt = learn(EDITION, &encode_table(&table), &encode_recording(&recording));
    let preferred = learnt.preferred.map(|it| read(EDITION, &it).expect("in form"));
    let rule = aimed(rng, &table, &recording, &preferred.unwrap_or_default(), work);
    (table, recording, rule)
}

/// A rule that is out of range, or with which N is: at its edges and far beyond.
pub fn out_of_range(rng: &mut Rng, rule: Rule) -> Rule {
    let mut spoilt = rule;
    for _ in 0..=rng.below(2) {
        match rng.below(8) {
            0 | 1 => spoilt.device = rng.pick(&[15, 16, 17, 255]),
            2 | 3 => spoilt.window = rng.pick(&[0, 8, 9, 255]),
            4 | 5 => spoilt.most = rng.pick(&[spoilt.window, spoilt.window.wrapping_add(1), 255]),
            6 => spoilt.window = 8,
            _ => spoilt = Rule::new(rng.byte(), rng.byte(), rng.byte()),
        }
    }
    spoilt
}

/// A table and a recording up to this time that is mostly accepted without a rule, and with added
/// rows.
fn some_guesses(rng: &mut Rng, work: usize, last: usize) -> (Table, Recording) {
    loop {
        let table = asked(rng);
        let most = (work / Space::of(&table).count()).clamp(2, last);
        for _ in 0..TRIES {
            let recording = heard(rng, &table, most);
            if guesses_without_rule(&table, &recording) || rng.one_in(8 * TRIES) {
                return (table, recording);
            }
        }
    }
}

/// Up to this time or earlier.
fn heard(rng: &mut Rng, table: &Table, most: usize) -> Recording {
    let usual = most.min(rng.pick(&[7, 14, 30, 60]));
    let last = rng.between(1, usual).max(rng.between(1, usual)) as u16;
    match rng.below(8) {
        0 => any_rows(rng, table, last),
        1 => overheard(rng, table, last),
        _ => {
            let number = rng.below(table.kinds.len());
            hardly_heard(rng, table, table.kinds[number].device, last)
        }
    }
}

/// Whether the preferred witness without a rule has added rows.
fn guesses_without_rule(table: &Table, recording: &Recording) -> bool {
    let learnt = learn(EDITION, &encode_table(table), &encode_recording(recording));
    let witness = learnt.preferred.and_then(|it| read(EDITION, &it).ok());
    witness.is_some_and(|it| it.rows.iter().any(|row| row.mark == ADDED))
}

/// A table with packets from several devices.
fn asked(rng: &mut Rng) -> Table {
    let mut table = match rng.below(4) {
        0 => sound_table(rng, &Shape::TINY),
        1 => thin(rng),
        _ => protocol(rng),
    };
    if rng.one_in(4) {
        return table;
    }
    table.version = 2;
    for it in table.kinds.iter_mut().filter(|it| it.direction == 1) {
        it.device = rng.pick(&DEVICES[1..]);
    }
    table
}

/// Few situations, so that long windows are to be had: no clocks, and packets that are short.
fn thin(rng: &mut Rng) -> Table {
    let states = rng.between(1, 3) as u8;
    let kinds: Vec<Kind> = (0..rng.between(2, 4))
        .map(|number| {
            let direction = if number == 0 { 0 } else { rng.below(2) as u8 };
            Kind::in_version_1(direction, rng.pick(&[0, 0, 1]))
        })
        .collect();
    let mut transitions = Vec::new();
    for step in 0..states + rng.between(1, 4) as u8 {
        let kind = rng.below(kinds.len()) as u8;
        let (from, to) = (step % states, (step + 1) % states);
        transitions.push(Transition { from, to, kind, guard: vec![0], ..Transition::default() });
    }
    Table { version: 1, states, variables: 0, clocks: 0, kinds, transitions }
}

/// A rule in range at a device that this witness guesses, or that the table knows, with as many
/// guesses as the witness has in a window, or nearly so many.
fn aimed(
    rng: &mut Rng,
    table: &Table,
    recording: &Recording,
    witness: &Witness,
    work: usize,
) -> Rule {
    let device_of = |kind: u8| table.kinds[usize::from(kind)].device;
    let added: Vec<u8> =
        witness.rows.iter().filter(|it| it.mark == ADDED).map(|it| device_of(it.kind)).collect();
    let fired: Vec<u8> = table.transitions.iter().map(|it| device_of(it.kind)).collect();
    let device = match rng.below(10) {
        0..=6 if !added.is_empty() => rng.pick(&added),
        0..=8 if !fired.is_empty() => rng.pick(&fired),
        _ => rng.pick(&DEVICES),
    };
    let (situations, instants) = (Space::of(table).count(), recording.last_time().max(1));
    let fits = |window: &u8| {
        let larger = situations << (window - 1);
        larger <= MOST_SITUATIONS && larger * instants <= work
    };
    let mut window = rng.pick(&[1, 2, 2, 3, 3, 4, 5, 6, 7, 8, 8]);
    while !fits(&window) && window > 1 {
        window -= 1;
    }
    let found = most_in_a_window(table, witness, device, window);
    let most = match rng.below(8) {
        0..=3 => found.saturating_sub(1),
        4 | 5 => found,
        6 => rng.pick(&[0, window]),
        _ => rng.between(0, window.into()) as u8,
    };
    Rule { device, window, most }
}

/// Of the windows that end with each kept or added row, how many guesses each has.
fn guesses_in_windows(table: &Table, witness: &Witness, device: u8, window: u8) -> Vec<u8> {
    let sent: Vec<bool> = witness
        .rows
        .iter()
        .filter(|it| it.mark != REMOVED)
        .map(|it| it.mark == ADDED && table.kinds[usize::from(it.kind)].device == device)
        .collect();
    let count = |rows: &[bool]| rows.iter().filter(|it| **it).count() as u8;
    let ends = 1..=sent.len();
    ends.map(|end| count(&sent[end.saturating_sub(window.into())..end])).collect()
}

fn most_in_a_window(table: &Table, witness: &Witness, device: u8, window: u8) -> u8 {
    guesses_in_windows(table, witness, device, window).into_iter().max().unwrap_or(0)
}

/// A rule that just one window of this witness breaks, and with one guess more none does. The table
/// has place for the windows of the rule that is given.
fn once_broken(rng: &mut Rng, table: &Table, witness: &Witness, known: Rule) -> Option<Rule> {
    let mut found = Vec::new();
    for (device, window) in DEVICES.iter().flat_map(|it| (1..=known.window).map(move |l| (*it, l)))
    {
        let counts = guesses_in_windows(table, witness, device, window);
        let most = counts.iter().copied().max().unwrap_or(0);
        if most > 0 && counts.iter().filter(|it| **it == most).count() == 1 {
            found.push(Rule { device, window, most: most - 1 });
        }
    }
    (!found.is_empty()).then(|| rng.pick(&found))
}

/// What a call takes beside its rule.
struct Files {
    edition: Edition,
    table: Vec<u8>,
    recording: Vec<u8>,
}

impl Files {
    fn spoil(&mut self, rng: &mut Rng, table: &Table, recording: &Recording) {
        if rng.one_in(2) {
            self.table = encode_table(&spoil_table(rng, table));
            return;
        }
        let spoilt = spoil_rows(rng, table, recording);
        // With many windows a late time takes long.
        if spoilt.last_time() <= 2 * LAST_TIME {
            self.recording = encode_recording(&spoilt);
        }
    }

    fn learn(&self, rule: Rule) -> Learnt {
        learn_under(rule, self.edition, &self.table, &self.recording)
    }

    /// Adds validations with budgets around the cost and rooms around what is wanted, and at times
    /// with the scratch that no rule would want. Gives the preferred witness if there is one.
    fn validations(&self, rng: &mut Rng, rule: Rule, calls: &mut Vec<Call>) -> Option<Vec<u8>> {
        let learnt = self.learn(rule);
        let without = self.learn(Rule::NONE);
        for (place, budget) in budgets(rng, learnt.answer, 3).into_iter().enumerate() {
            let (scratch, room) = match rng.below(6) {
                _ if place == 0 && learnt.answer.number < 3 => (learnt.scratch, learnt.room),
                0 => (without.scratch, without.room),
                1 => (0, 0),
                _ => (length_near(rng, learnt.scratch), length_near(rng, learnt.room)),
            };
            let (table, recording) = (self.table.clone(), self.recording.clone());
            let (scratch, room) = (dirty(rng, scratch), dirty(rng, room));
            let edition = self.edition;
            calls.push(Call::ValidateRule {
                edition,
                rule,
                table,
                recording,
                budget,
                scratch,
                room,
            });
        }
        learnt.preferred
    }

    /// Adds the witness, and at times another that is made from it.
    fn checks(&self, rng: &mut Rng, rule: Rule, witness: &Witness, calls: &mut Vec<Call>) {
        let bytes = encode_witness(self.edition, witness);
        match rng.below(12) {
            0 => {
                let spoilt = spoil_witness(rng, witness);
                self.check(rule, encode_witness(self.edition, &spoilt), calls);
            }
            1 => self.check(rule, spoil_witness_bytes(rng, self.edition, &bytes), calls),
            2 => self.check(rule, any_bytes(rng), calls),
            3 => {
                let mut cut = witness.clone();
                cut.rows.pop();
                self.check(rule, encode_witness(self.edition, &cut), calls);
            }
            _ => {}
        }
        self.check(rule, bytes, calls);
    }

    fn check(&self, rule: Rule, witness: Vec<u8>, calls: &mut Vec<Call>) {
        let (table, recording) = (self.table.clone(), self.recording.clone());
        calls.push(Call::CheckRule { edition: self.edition, rule, table, recording, witness });
    }
}

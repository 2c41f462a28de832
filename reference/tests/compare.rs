//! The comparison finds no difference where there is none, and finds each of these faults.

mod before;

use before::air::{BEFORE, NEEDS_NO_AIR, TAKES_NO_AIR};
use before::counts;
use before::devices;
use before::editions;
use before::guesses;
use before::states::{Rule, OTHERS};
use lutarosa_reference::answer::{Answer, Verdict};
use lutarosa_reference::call::{Engine, Validate, ORDINARY};
use lutarosa_reference::check::check_witness;
use lutarosa_reference::compare::{compare, with_and_without_rule, without_rule, Draw};
use lutarosa_reference::edition::Edition;
use lutarosa_reference::frame::big_endian;
use lutarosa_reference::generate::ruled;
use lutarosa_reference::rewrite::{rewrite_recording, rewrite_table, rewrite_witness};
use lutarosa_reference::validate::validate;
use lutarosa_reference::{recording, situation::Space, table};

/// In which each fault must be found; most need a small part of it.
const MOST_CALLS: u64 = 200_000;

#[test]
fn no_difference_from_itself() {
    for draw in [without_rule, with_and_without_rule] {
        let (_, difference) = compare(&ORDINARY, draw, 5, |tally| tally.calls < 2_000);
        assert!(difference.is_none());
    }
}

fn finds(name: &str, engine: Engine) {
    finds_among(without_rule, name, engine);
}

fn finds_among(draw: Draw, name: &str, engine: Engine) {
    let (tally, difference) = compare(&engine, draw, 5, |tally| tally.calls < MOST_CALLS);
    assert!(difference.is_some(), "{name}: not found in {} calls", tally.calls);
    println!("{name}: found at call {}", tally.calls);
}

fn finds_validate(name: &str, validate: Validate) {
    finds(name, Engine { validate, ..ORDINARY });
}

#[test]
fn wrong_answers_of_validation() {
    finds_validate("one less is exhausted", |edition, table, heard, budget, scratch, room| {
        let it = validate(edition, table, heard, budget, scratch, room);
        match it.number {
            0 if it.second == u64::from(budget) => Verdict::new(2, it.second, 1),
            _ => it,
        }
    });
    finds_validate("budget above, cost unsaid", |edition, table, heard, budget, scratch, room| {
        let it = validate(edition, table, heard, budget, scratch, room);
        match it.number {
            1 if it.second > 100 => Verdict { second: 100, ..it },
            _ => it,
        }
    });
    finds_validate("30 and 31 changed over", |edition, table, heard, budget, scratch, room| {
        match validate(edition, table, heard, budget, scratch, room) {
            Verdict { number: 31, second, .. } if scratch.is_empty() => Verdict::new(30, second, 0),
            Verdict { number: 30, second, .. } if room.len() < 6 => Verdict::new(31, second, 0),
            it => it,
        }
    });
}

#[test]
fn lent_bytes_of_validation() {
    finds_validate("last scratch byte dirty", |edition, table, heard, budget, scratch, room| {
        let last = scratch.last().copied();
        let it = validate(edition, table, heard, budget, scratch, room);
        if let (true, Some(last), Some(byte)) = (it.number < 3, last, scratch.last_mut()) {
            *byte = last;
        }
        it
    });
    finds_validate("all scratch cleared", |edition, table, heard, budget, scratch, room| {
        let it = validate(edition, table, heard, budget, scratch, room);
        if it.number < 3 {
            scratch.fill(0);
        }
        it
    });
    finds_validate(
        "room cleared after rejection",
        |edition, table, heard, budget, scratch, room| {
            let it = validate(edition, table, heard, budget, scratch, room);
            if it.number == 1 {
                room.fill(0);
            }
            it
        },
    );
    finds_validate("rest of the room cleared", |edition, table, heard, budget, scratch, room| {
        let it = validate(edition, table, heard, budget, scratch, room);
        if it.number == 0 {
            room[edition.file().size(it.third as usize)..].fill(0);
        }
        it
    });
    finds_validate("scratch cleared after 31", |edition, table, heard, budget, scratch, room| {
        let it = validate(edition, table, heard, budget, scratch, room);
        if it.number == 31 {
            scratch.fill(0);
        }
        it
    });
}

/// 23 where this is the last time.
fn without(
    last: usize,
    table: &[u8],
    heard: &[u8],
    otherwise: impl FnOnce() -> Verdict,
) -> Verdict {
    match recording::read(table, heard) {
        Ok((_, it)) if it.last_time() == last => Verdict::new(23, 0, 0),
        _ => otherwise(),
    }
}

#[test]
fn limits_of_tables_and_times() {
    finds_validate("no 4,096", |edition, table, heard, budget, scratch, room| {
        without(4_096, table, heard, || validate(edition, table, heard, budget, scratch, room))
    });
    finds_validate("no 65,535", |edition, table, heard, budget, scratch, room| {
        without(65_535, table, heard, || validate(edition, table, heard, budget, scratch, room))
    });
    finds("N below 65,536", {
        let rewrite_table = |bytes: &[u8], room: &mut [u8]| match table::read(bytes) {
            Ok(it) if Space::of(&it).count() == 65_536 => Answer::new(16, 0, 0),
            _ => rewrite_table(bytes, room),
        };
        Engine { rewrite_table, ..ORDINARY }
    });
    finds("guard of 32 bytes refused", {
        let rewrite_table = |bytes: &[u8], room: &mut [u8]| match table::read(bytes) {
            Ok(it) if it.transitions.iter().any(|it| it.guard.len() == 32) => {
                Answer::new(15, 10, 0)
            }
            _ => rewrite_table(bytes, room),
        };
        Engine { rewrite_table, ..ORDINARY }
    });
}

#[test]
fn limits_of_lengths_and_counts() {
    finds("length taken without its upper part", {
        let rewrite_witness = |edition: Edition, bytes: &[u8], room: &mut [u8]| match bytes {
            [high, low, version, ..]
                if edition == Edition::One
                    && bytes.len() > 65_537
                    && usize::from(big_endian(*high, *low)) == (bytes.len() - 2) % 65_536
                    && *version != 1 =>
            {
                Answer::new(41, 2, 0)
            }
            _ => rewrite_witness(edition, bytes, room),
        };
        Engine { rewrite_witness, ..ORDINARY }
    });
    finds("most rows of a witness", {
        let rewrite_witness =
            |edition: Edition, bytes: &[u8], room: &mut [u8]| match rewrite_witness(
                edition, bytes, room,
            ) {
                Answer { number: 42, .. } if bytes.len() == 5 + 5 * 4_609 => Answer::new(43, 1, 0),
                it => it,
            };
        Engine { rewrite_witness, ..ORDINARY }
    });
    finds("512 rows of a recording refused", {
        let rewrite_recording =
            |table: &[u8], bytes: &[u8], room: &mut [u8]| match rewrite_recording(
                table, bytes, room,
            ) {
                it if it.number < 22 => it,
                _ if bytes.len() == 5 + 3 * 512 => Answer::new(22, 3, 0),
                it => it,
            };
        Engine { rewrite_recording, ..ORDINARY }
    });
}

#[test]
fn checker() {
    finds("all accepted", {
        let check =
            |edition: Edition, table: &[u8], heard: &[u8], witness: &[u8]| match check_witness(
                edition, table, heard, witness,
            ) {
                Answer { number: 43, second, .. } => Answer::new(0, 0, second),
                it => it,
            };
        Engine { check, ..ORDINARY }
    });
    finds("unaccounted rows get the last row", {
        let check = |edition: Edition, table: &[u8], heard: &[u8], witness: &[u8]| {
            let of_size = |rows: u64| edition.file().size(rows as usize);
            match check_witness(edition, table, heard, witness) {
                Answer { number: 43, second, .. } if witness.len() == of_size(second) => {
                    Answer::new(43, second.saturating_sub(1), 0)
                }
                it => it,
            }
        };
        Engine { check, ..ORDINARY }
    });
}

#[test]
fn air_of_removed_packets() {
    let rules = [
        ("rules before R-3", BEFORE),
        ("a removed packet needs no air", NEEDS_NO_AIR),
        ("a removed packet takes no air", TAKES_NO_AIR),
    ];
    for (name, engine) in rules {
        finds_validate(name, engine.validate);
        finds(name, Engine { check: engine.check, ..ORDINARY });
    }
    let rewrite_witness = BEFORE.rewrite_witness;
    finds("two rows at one time", Engine { rewrite_witness, ..ORDINARY });
}

#[test]
fn states_that_cannot_be_reached() {
    for rule in &OTHERS {
        finds(rule.name, rule.engine);
    }
    let Rule { name, engine, .. } = &OTHERS[0];
    finds_validate(name, engine.validate);
    finds(name, Engine { check: engine.check, ..ORDINARY });
    finds(name, Engine { rewrite_table: engine.rewrite_table, ..ORDINARY });
    finds(name, Engine { rewrite_recording: engine.rewrite_recording, ..ORDINARY });
}

#[test]
fn versions_and_devices() {
    for other in devices::OTHERS.iter().filter(|other| other.told[0]) {
        finds(other.name, other.engine);
    }
    let devices::Other { name, engine, .. } = &devices::OTHERS[0];
    finds_validate(name, engine.validate);
    finds(name, Engine { check: engine.check, ..ORDINARY });
    finds(name, Engine { rewrite_table: engine.rewrite_table, ..ORDINARY });
    finds(name, Engine { rewrite_recording: engine.rewrite_recording, ..ORDINARY });
}

#[test]
fn editions_and_late_times() {
    for other in editions::OTHERS.iter().filter(|other| other.told[0] >= 20) {
        finds(other.name, other.engine);
    }
    let editions::Other { name, engine, .. } = &editions::OTHERS[0];
    finds_validate(name, engine.validate);
    finds(name, Engine { check: engine.check, ..ORDINARY });
    finds(name, Engine { rewrite_recording: engine.rewrite_recording, ..ORDINARY });
    finds(name, Engine { rewrite_witness: engine.rewrite_witness, ..ORDINARY });
}

#[test]
fn too_early_and_too_late() {
    for other in &counts::OTHERS {
        finds_validate(other.name, other.engine.validate);
    }
}

#[test]
fn guesses_under_rules() {
    for other in &guesses::OTHERS {
        finds_among(ruled, other.name, other.engine);
    }
    let guesses::Other { name, engine } = &guesses::OTHERS[0];
    let (validate_rule, check_rule) = (engine.validate_rule, engine.check_rule);
    finds_among(ruled, name, Engine { validate_rule, ..ORDINARY });
    finds_among(ruled, name, Engine { check_rule, ..ORDINARY });
}

#[test]
fn rewriting() {
    finds("33 after a few bytes were written", {
        let rewrite_table = |bytes: &[u8], room: &mut [u8]| {
            let it = rewrite_table(bytes, room);
            if let (33, Some(byte)) = (it.number, room.first_mut()) {
                *byte = bytes[0];
            }
            it
        };
        Engine { rewrite_table, ..ORDINARY }
    });
    finds("a byte beyond is cleared", {
        let rewrite_recording = |table: &[u8], bytes: &[u8], room: &mut [u8]| {
            let it = rewrite_recording(table, bytes, room);
            if it.number == 0 {
                room[bytes.len()..].fill(0);
            }
            it
        };
        Engine { rewrite_recording, ..ORDINARY }
    });
    finds("nothing written", {
        let rewrite_witness = |edition: Edition, bytes: &[u8], room: &mut [u8]| {
            let before = room.to_vec();
            let it = rewrite_witness(edition, bytes, room);
            room.copy_from_slice(&before);
            it
        };
        Engine { rewrite_witness, ..ORDINARY }
    });
}

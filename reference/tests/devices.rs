//! R-6 tells which radio sent it: the tables made for it, and how often the recorded cases tell it
//! from other rules.

mod before;
mod recorded;

use before::devices::{Other, AGAIN, OTHERS};
use lutarosa_reference::answer::Answer;
use lutarosa_reference::back::table_back;
use lutarosa_reference::brute::{kinds_refused, kinds_told, with_devices, without_devices};
use lutarosa_reference::call::{Call, Outcome, ORDINARY};
use lutarosa_reference::devices::{each_device, parts, tables};
use lutarosa_reference::edition::Edition;
use lutarosa_reference::papers::{ACK_DEVICE_2, PAPERS, SMALL_MONITOR, SMALL_MONITOR_2};
use lutarosa_reference::parts::TableParts;
use lutarosa_reference::rewrite::rewrite_table;
use lutarosa_reference::table::{read, write};
use lutarosa_reference::writing::Writing;
use recorded::RECORDED;

const LEAST: usize = 20;

fn told(other: &Other) -> [usize; 2] {
    let write = |it: &Writing, room: &mut [u8]| other.write(it, room);
    recorded::told(RECORDED.usual(), &other.engine, &RECORDED.writings, write)
}

#[test]
fn recorded_cases_tell_other_rules() {
    let least = |must: bool| if must { LEAST } else { 0 };
    recorded::all_told(OTHERS.iter().map(|it| (it.name, it.told.map(least), told(it))));
}

#[test]
fn the_rule_written_again_is_the_same() {
    assert_eq!(told(&AGAIN), [0, 0]);
}

#[test]
fn tables_are_refused_as_is_said() {
    for it in tables() {
        let read = read(&it.bytes);
        assert_eq!(read.as_ref().err(), it.refusal.as_ref(), "{}", it.name);
        let by_list = kinds_told(&it.bytes);
        match (&read, by_list) {
            (Ok(table), Ok((kinds, _))) => assert_eq!(table.kinds, kinds, "{}", it.name),
            (read, Err(refusal)) => assert_eq!(read, &Err(refusal), "{}", it.name),
            (Err(_), Ok(_)) => {}
        }
        let mut room = vec![0; it.bytes.len()];
        let answer = rewrite_table(&it.bytes, &mut room);
        if it.refusal.is_none() {
            assert_eq!(answer, Answer::new(0, it.bytes.len() as u64, 0), "{}", it.name);
            assert_eq!(room, it.bytes, "{}", it.name);
        }
    }
}

#[test]
fn parts_are_refused_as_is_said() {
    for it in parts().into_iter().chain(each_device()) {
        let table = it.parts.covered();
        let answer = write(&table, &mut []);
        match it.refusal {
            Some(refusal) => assert_eq!(answer, refusal.into(), "{}", it.name),
            None => assert_eq!(answer.number, 33, "{}", it.name),
        }
        if let Some(refusal) = kinds_refused(&table) {
            assert_eq!(Some(refusal), it.refusal, "{}", it.name);
        }
        let mut room = vec![0; 200];
        let (answer, back) = table_back(&it.parts, &mut room);
        match it.refusal {
            Some(refusal) => {
                assert_eq!((answer, back), (refusal.into(), TableParts::default()), "{}", it.name);
            }
            None => {
                let read = TableParts::of(&table);
                assert_eq!((answer, back), (Answer::new(0, 0, 0), read), "{}", it.name);
            }
        }
    }
}

#[test]
fn the_small_monitor_in_both_versions() {
    assert_eq!(without_devices(&SMALL_MONITOR_2), Some(SMALL_MONITOR.to_vec()));
    assert_eq!(with_devices(&SMALL_MONITOR, || 1), Some(SMALL_MONITOR_2.to_vec()));
    for device in 1..=15 {
        let mut table = SMALL_MONITOR_2.to_vec();
        table[ACK_DEVICE_2] = device;
        for paper in PAPERS {
            let validation = |table: &[u8]| Call::Validate {
                edition: Edition::One,
                table: table.to_vec(),
                recording: paper.recording(),
                budget: paper.budget,
                scratch: vec![0xC3; 100],
                room: vec![0xC3; 90],
            };
            let outcome: Outcome = validation(&table).run(&ORDINARY);
            assert_eq!(outcome, validation(&SMALL_MONITOR).run(&ORDINARY), "{}", paper.name);
            assert_eq!(outcome.answer, paper.answer, "{}", paper.name);
            assert_eq!(outcome.room[..paper.witness.len()], *paper.witness, "{}", paper.name);
        }
    }
}

/// Of the recorded calls on files: a sound table in the other version gives the same.
#[test]
fn recorded_calls_in_the_other_version() {
    let mut same = [0, 0];
    for (call, outcome) in RECORDED.usual() {
        let mut other = call.clone();
        let table = match &mut other {
            Call::Validate { table, .. }
            | Call::Check { table, .. }
            | Call::RewriteRecording { table, .. } => table,
            _ => continue,
        };
        if read(table).is_err() {
            continue;
        }
        let version = table[2];
        let device = 1 + (table.len() % 15) as u8;
        let changed =
            if version == 1 { with_devices(table, || device) } else { without_devices(table) };
        *table = changed.expect("sound");
        assert_eq!(*outcome, other.run(&ORDINARY));
        same[usize::from(version) - 1] += 1;
    }
    println!("the same in the other version: {} of version 1, {} of version 2", same[0], same[1]);
    assert!(same.into_iter().all(|times| times >= 500));
}

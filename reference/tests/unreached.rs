//! R-8 refuses tables with states that cannot be reached: the tables made for it, and how often the
//! recorded cases tell it from other rules.

mod before;
mod recorded;

use before::states::{Rule, NOW, OTHERS};
use lutarosa_reference::answer::Answer;
use lutarosa_reference::brute::lowest_unreached;
use lutarosa_reference::generate::encode_table;
use lutarosa_reference::reaching::tables;
use lutarosa_reference::table::{read, read_records, write};
use recorded::RECORDED;

const LEAST: usize = 20;
const LEAST_WRITTEN: usize = 5;

/// In how many calls on files, and in how many written tables, another rule answers otherwise.
fn told(rule: &Rule) -> (usize, usize) {
    let differs = |bytes: &Vec<u8>| match read_records(bytes) {
        Ok(table) => (rule.judge)(&table) != (NOW.judge)(&table),
        Err(_) => false,
    };
    let calls = RECORDED.usual().filter(|(call, outcome)| call.run(&rule.engine) != **outcome);
    let written = RECORDED.tables().map(|it| encode_table(&it.covered()));
    (calls.count(), written.filter(differs).count())
}

#[test]
fn recorded_cases_tell_other_rules() {
    for rule in &OTHERS {
        let (calls, written) = told(rule);
        println!("{}: {calls} calls, {written} written tables", rule.name);
        assert!(calls >= LEAST && written >= LEAST_WRITTEN, "{}: {calls}, {written}", rule.name);
    }
}

#[test]
fn the_rule_written_again_is_the_same() {
    assert_eq!(told(&NOW), (0, 0));
}

#[test]
fn tables_are_refused_as_is_said() {
    for it in tables() {
        let expected = it.refusal.map_or(Ok(it.table.clone()), Err);
        assert_eq!(read(&it.bytes), expected, "{}", it.name);
        if it.refusal.is_none_or(|refusal| refusal.number == 17) {
            let unreached = it.refusal.map(|refusal| refusal.value as usize);
            assert_eq!(lowest_unreached(&it.table), unreached, "{}", it.name);
        }
        if it.is_whole() {
            let no_room = Answer::new(33, it.bytes.len() as u64, 0);
            let expected = it.refusal.map_or(no_room, Answer::from);
            assert_eq!(write(&it.table, &mut []), expected, "{}", it.name);
        }
    }
}

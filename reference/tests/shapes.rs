//! The measured inputs are what they are said to be. That the whole recordings are accepted too,
//! `reference bench` says of each.

use lutarosa_reference::answer::Verdict;
use lutarosa_reference::edition::Edition;
use lutarosa_reference::generate::{encode_recording, encode_table};
use lutarosa_reference::recording;
use lutarosa_reference::rule::Rule;
use lutarosa_reference::shapes::{shapes, wide, Shape};
use lutarosa_reference::situation::Space;
use lutarosa_reference::validate::validate_rule;

/// Name, N and T.
const SIZES: [(&str, usize, usize); 14] = [
    ("wide", 65_536, 4_096),
    ("one clock of 255", 65_536, 4_096),
    ("clocks 256 x 256", 65_536, 4_096),
    ("airtimes to 15", 65_536, 4_096),
    ("64 transitions", 65_536, 512),
    ("13 x 21", 65_520, 4_096),
    ("dead ends", 65_536, 4_096),
    ("few possible", 65_536, 4_096),
    ("short recording", 65_536, 16),
    ("small monitor", 48, 4_096),
    ("uneven handovers", 48, 4_061),
    ("rule 1 of 3", 65_536, 4_096),
    ("rule 3 of 8", 65_536, 4_096),
    ("many planes", 65_536, 4_096),
];
/// Enough for a row or two of each, and quickly searched.
const SHORT: u16 = 256;

fn named(name: &str) -> Shape {
    shapes().into_iter().find(|it| it.name == name).expect(name)
}

fn judged(shape: &Shape) -> Verdict {
    let (table, recording) = (encode_table(&shape.table), encode_recording(&shape.recording));
    let mut scratch = vec![0; (shape.last_time() + 1) * shape.situations().div_ceil(8)];
    let mut room = vec![0; 23_045];
    let rule = shape.rule.unwrap_or(Rule::NONE);
    validate_rule(Edition::One, rule, &table, &recording, u32::MAX, &mut scratch, &mut room)
}

/// How many situations are possible at an instant, on average over all.
fn average(shape: &Shape) -> u64 {
    judged(shape).second / shape.last_time() as u64
}

#[test]
fn names_and_sizes() {
    let sizes: Vec<_> =
        shapes().iter().map(|it| (it.name, it.situations(), it.last_time())).collect();
    assert_eq!(sizes, SIZES);
}

#[test]
fn each_is_sound() {
    for it in shapes() {
        let (table, heard) = (encode_table(&it.table), encode_recording(&it.recording));
        let read = recording::read(&table, &heard);
        assert_eq!(read, Ok((it.table.clone(), it.recording)), "{}", it.name);
        if let Some(rule) = it.rule {
            assert_eq!(rule.judge(Space::of(&it.table).count()), Ok(()), "{}", it.name);
        }
    }
}

#[test]
fn each_is_accepted_up_to_a_short_time() {
    for it in shapes() {
        let name = it.name;
        assert_eq!(judged(&it.until(SHORT)).number, 0, "{name}");
    }
}

/// What R-12 asks for.
#[test]
fn the_wide_one_is_accepted_and_costs_at_least_half() {
    let verdict = judged(&wide());
    assert_eq!(verdict.number, 0);
    assert!(2 * verdict.second >= wide().most());
}

/// They are searched quickly, so all of them is.
#[test]
fn those_with_little_to_search_are_accepted() {
    for name in ["few possible", "short recording", "small monitor"] {
        assert_eq!(judged(&named(name)).number, 0, "{name}");
    }
    assert_eq!(average(&named("few possible")), 1);
}

/// Closed early, since that is quickly searched: behind the closing row few are left of those that
/// were possible before it.
#[test]
fn dead_ends_last_up_to_the_last_row() {
    let whole = named("dead ends");
    assert_eq!(judged(&whole).number, 0);
    let closing = whole.recording.rows.last().expect("a last row").kind;
    let mut early = whole.until(SHORT);
    early.recording.rows.last_mut().expect("a last row").kind = closing;
    let before = judged(&early).second;
    early.recording.rows.push(recording::Heard { time: SHORT + 1, kind: 1 });
    let behind = judged(&early).second - before;
    assert!(before / u64::from(SHORT) > 10 * behind, "{before} {behind}");
}

#[test]
fn all_64_transitions_are_always_enabled() {
    let table = named("64 transitions").table;
    assert_eq!((table.states, table.transitions.len()), (1, 64));
    for it in &table.transitions {
        let guard = table.guard(it).expect("sound");
        let clocks = (0..4_096).map(|it| [it / 64, it % 64]);
        let mut situations = clocks.flat_map(|clocks| (0..16).map(move |it| (it, clocks)));
        assert!(situations.all(|(variables, clocks)| guard.holds_after(0, variables, &clocks)));
    }
}

#[test]
fn guards_of_the_short_recording_are_long() {
    let table = named("short recording").table;
    assert_eq!(table.transitions.len(), 64);
    assert!(table.transitions.iter().all(|it| it.guard.len() == 31));
}

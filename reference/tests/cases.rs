//! The recorded cases: enough of them, every number often enough, and the paper's own first.

use lutarosa_reference::cases::{cases, IN_FILES, IN_PARTS};
use lutarosa_reference::limits::{sized, LAST_WORD_BOUNDS, SIZES};
use lutarosa_reference::set;
use lutarosa_reference::situation::Space;

#[test]
fn every_number_comes_often_and_p5_is_printed_whole() {
    let made = cases(1).expect("writing to memory");
    assert!(made.from_files.values().sum::<usize>() >= 5_000);
    let list =
        [0, 1, 2, 10, 11, 12, 13, 14, 15, 16, 17, 20, 21, 22, 23, 24, 30, 31, 33, 40, 41, 42, 43];
    for number in list {
        assert!(made.from_files.get(&number).is_some_and(|times| *times >= 20), "number {number}");
    }
    for number in [0, 1, 2, 25, 26, 30, 31, 40, 41, 42, 43] {
        let times = made.under_rules.get(&number);
        assert!(times.is_some_and(|times| *times >= 20), "number {number} under a rule");
    }
    for number in [11, 12, 14, 15, 16, 17, 22, 23, 24, 33, 42, 43] {
        for numbers in [&made.from_writing, &made.from_back] {
            assert!(numbers.get(&number).is_some_and(|times| *times >= 20), "writing {number}");
        }
    }
    for state in 1..16 {
        let times = made.unreached_states.get(&state);
        assert!(times.is_some_and(|times| *times >= 20), "unreached state {state}");
    }
    assert!(made.read.is_often(IN_FILES, 20) && made.written.is_often(IN_PARTS, 20));
    // Each device that a direction may not have is refused at least once.
    for tally in [&made.read, &made.written] {
        for (direction, devices) in [(0, 1..=255), (1, 0..=0), (1, 16..=255)] {
            for device in devices {
                assert!(tally.refused.contains_key(&(direction, device)), "{direction} {device}");
            }
        }
    }
    for bytes in 0..8 {
        let times = made.last_words.get(&bytes);
        assert!(times.is_some_and(|times| *times >= 20), "a last word of {bytes} bytes");
    }
    let output = String::from_utf8(made.output).expect("lines are text");
    assert!(output.contains("accepted 13 3\nkept 1 0 0\nremoved 3 2 255\nkept 6 1 2\n0 13 3 0 0 "));
}

#[test]
fn the_same_seed_makes_the_same_cases() {
    let (first, second) = (cases(2).expect("memory"), cases(2).expect("memory"));
    assert!(first.input == second.input && first.output == second.output);
}

#[test]
fn tables_at_the_limit_have_the_size_that_is_said() {
    for (states, variables, bounds, airtime, count) in SIZES {
        assert_eq!(Space::of(&sized(states, variables, bounds, airtime)).count(), count);
    }
}

#[test]
fn sets_with_last_words_of_every_length_have_9_to_16_bytes() {
    let size = |bound| set::size(Space::of(&sized(2, 0, &[bound], 0)).count());
    assert!(LAST_WORD_BOUNDS.map(size).into_iter().eq(9..=16));
}

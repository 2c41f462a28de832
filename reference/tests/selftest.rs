//! A short run of the self test.

use std::time::Duration;

use lutarosa_reference::selftest::selftest;

#[test]
fn a_second_of_it_finds_no_difference() {
    if let Err(text) = selftest(Duration::from_secs(1), 3) {
        panic!("{text}");
    }
}

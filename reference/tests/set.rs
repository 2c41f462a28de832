//! Sets of situations: counting by the word against counting bit by bit.

use lutarosa_reference::generate::Rng;
use lutarosa_reference::set::{contains, count};

#[test]
fn counting_by_the_word_counts_the_bits() {
    let mut rng = Rng::new(1);
    for length in (0..=80).chain(8_180..=8_192) {
        let any: Vec<u8> = (0..length).map(|_| rng.byte()).collect();
        for set in [any, vec![0; length], vec![255; length]] {
            let bits = (0..8 * length).filter(|member| contains(&set, *member)).count();
            assert_eq!(count(&set), bits as u64, "{length} bytes");
        }
    }
}

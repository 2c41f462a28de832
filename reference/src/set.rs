//! A set of situations as bits of lent bytes, visited a word of 64 at a time.

pub const WORD_BYTES: usize = 8;

/// Bytes for a set of numbers below `count`: S of the paper.
pub fn size(count: usize) -> usize {
    count.div_ceil(8)
}

pub fn insert(set: &mut [u8], member: usize) {
    set[member / 8] |= 1 << (member % 8);
}

pub fn contains(set: &[u8], member: usize) -> bool {
    set[member / 8] >> (member % 8) & 1 == 1
}

pub fn count(set: &[u8]) -> u64 {
    set.chunks(WORD_BYTES).map(|bytes| u64::from(word(bytes).count_ones())).sum()
}

pub fn is_empty(set: &[u8]) -> bool {
    set.iter().all(|byte| *byte == 0)
}

pub fn for_each(set: &[u8], mut visit: impl FnMut(usize)) {
    for (place, bytes) in set.chunks(WORD_BYTES).enumerate() {
        let mut left = word(bytes);
        while left != 0 {
            visit(place * 64 + left.trailing_zeros() as usize);
            left &= left - 1;
        }
    }
}

/// Takes out every member that `keep` does not want.
pub fn retain(set: &mut [u8], mut keep: impl FnMut(usize) -> bool) {
    for (place, bytes) in set.chunks_mut(WORD_BYTES).enumerate() {
        let before = word(bytes);
        let mut kept = before;
        let mut left = before;
        while left != 0 {
            let bit = left.trailing_zeros();
            if !keep(place * 64 + bit as usize) {
                kept &= !(1 << bit);
            }
            left &= left - 1;
        }
        if kept != before {
            bytes.copy_from_slice(&kept.to_le_bytes()[..bytes.len()]);
        }
    }
}

/// The last word of a set may have fewer than eight bytes.
fn word(bytes: &[u8]) -> u64 {
    match bytes.try_into() {
        Ok(whole) => u64::from_le_bytes(whole),
        Err(_) => {
            let mut whole = [0; WORD_BYTES];
            whole[..bytes.len()].copy_from_slice(bytes);
            u64::from_le_bytes(whole)
        }
    }
}

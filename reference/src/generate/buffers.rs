//! Lent buffers: their lengths near what is wanted, and whatever they held before.

use super::rng::Rng;

/// Exactly what is wanted, one short, longer, or nothing like it.
pub fn length_near(rng: &mut Rng, wanted: usize) -> usize {
    match rng.below(10) {
        0..=4 => wanted,
        5 => wanted.saturating_sub(1),
        6 => wanted + 1,
        7 | 8 => wanted + rng.below(40),
        _ => rng.below(wanted),
    }
}

pub fn dirty(rng: &mut Rng, length: usize) -> Vec<u8> {
    match rng.below(4) {
        0 => vec![0; length],
        1 => vec![255; length],
        _ => {
            let mut bytes = Vec::with_capacity(length + 8);
            while bytes.len() < length {
                bytes.extend(rng.draw().to_le_bytes());
            }
            bytes.truncate(length);
            bytes
        }
    }
}

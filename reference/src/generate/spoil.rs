//! Spoiling files byte by byte, and bytes that were never a file.

use super::rng::Rng;
use crate::edition::Edition;
use crate::frame::LENGTH_BYTES;

/// More bytes than two bytes of length can state.
const MOST_BYTES: usize = 70_000;

/// A file with a byte or a few changed, taken out or put in, cut or drawn out. Often the
/// length is made to match again, so that what lies behind it is looked at.
pub fn spoil_bytes(rng: &mut Rng, file: &[u8]) -> Vec<u8> {
    spoil(rng, file, LENGTH_BYTES)
}

/// The same for a witness. A length of four bytes has at times only one half that matches.
pub fn spoil_witness_bytes(rng: &mut Rng, edition: Edition, file: &[u8]) -> Vec<u8> {
    let mut bytes = spoil(rng, file, edition.file().number_bytes);
    if let (Edition::Two, true, Some(length)) = (edition, rng.one_in(6), bytes.first_chunk_mut()) {
        spoil_half(rng, length);
    }
    bytes
}

fn spoil(rng: &mut Rng, file: &[u8], length_bytes: usize) -> Vec<u8> {
    let mut bytes = file.to_vec();
    for _ in 0..=rng.below(3) {
        spoil_once(rng, &mut bytes);
    }
    if !rng.one_in(4) {
        match_length(&mut bytes, length_bytes);
    }
    bytes
}

fn spoil_half(rng: &mut Rng, length: &mut [u8; 4]) {
    let half = if rng.one_in(2) { &mut length[..2] } else { &mut length[2..] };
    match rng.below(3) {
        0 => half.fill(rng.pick(&[0, 1, 255])),
        1 => half[1] = half[1].wrapping_add(1),
        _ => half[0] ^= 1 << rng.below(8),
    }
}

fn spoil_once(rng: &mut Rng, bytes: &mut Vec<u8>) {
    let place = rng.below(bytes.len());
    if bytes.is_empty() {
        bytes.push(rng.byte());
        return;
    }
    match rng.below(9) {
        0 => bytes[place] ^= 1 << rng.below(8),
        1 => bytes[place] = rng.pick(&[0, 1, 2, 3, 4, 5, 6, 254, 255]),
        2 => bytes[place] = bytes[place].wrapping_add(1),
        3 => bytes[place] = bytes[place].wrapping_sub(1),
        4 => drop(bytes.remove(place)),
        5 => bytes.insert(place, rng.byte()),
        6 => bytes.truncate(place),
        7 => bytes.extend((0..rng.between(1, 8)).map(|_| 0)),
        _ => {
            let other = rng.below(bytes.len());
            bytes.swap(place, other);
        }
    }
}

/// A file too long for its length bytes gets the lower part of its length, which a careless
/// reader might take for all of it.
pub fn match_length(bytes: &mut [u8], length_bytes: usize) {
    if let Some((place, rest)) = bytes.split_at_mut_checked(length_bytes) {
        place.copy_from_slice(&(rest.len() as u32).to_be_bytes()[4 - length_bytes..]);
    }
}

/// Bytes of any length, small ones more often than large ones. At times they look like a witness of
/// edition 2.
pub fn any_bytes(rng: &mut Rng) -> Vec<u8> {
    let length = match rng.below(8) {
        0 => rng.pick(&[0, 1, 2, 3, 4, 5, 7, 8, 9, 65_535, 65_536, 65_537, 65_538, MOST_BYTES]),
        1 => rng.below(MOST_BYTES + 1),
        2 => rng.between(65_538, MOST_BYTES),
        3 => rng.below(3_000),
        _ => rng.below(40),
    };
    let small = rng.one_in(2);
    let mut bytes: Vec<u8> = (0..length).map(|_| rng.byte()).collect();
    if small {
        bytes.iter_mut().for_each(|byte| *byte %= 8);
    }
    let length_bytes = rng.pick(&[LENGTH_BYTES, LENGTH_BYTES, 4]);
    if !rng.one_in(3) {
        match_length(&mut bytes, length_bytes);
    }
    if let (true, Some(version)) = (!rng.one_in(3), bytes.get_mut(length_bytes)) {
        *version = rng.pick(&[1, 1, 2]);
    }
    bytes
}

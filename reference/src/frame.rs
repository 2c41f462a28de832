//! What the files have in common: a length, a version, and then a count of rows.

use crate::answer::{Answer, Refusal};

/// The bytes of a length, but for a witness of edition 2.
pub const LENGTH_BYTES: usize = 2;

pub fn big_endian(high: u8, low: u8) -> u16 {
    u16::from_be_bytes([high, low])
}

/// The number that these bytes are, at most four.
fn number(bytes: &[u8]) -> usize {
    bytes.iter().fold(0, |number, byte| number << 8 | usize::from(*byte))
}

/// The first bytes, so many as are said, state how many bytes follow them.
pub fn length_matches(bytes: &[u8], length_bytes: usize) -> bool {
    let parts = bytes.split_at_checked(length_bytes);
    parts.is_some_and(|(length, rest)| number(length) == rest.len())
}

/// A file that is a count and then rows of one size: the recording and the witness.
pub struct RowFile {
    /// The frame's number; version and count have the next two.
    pub number: u64,
    /// How many bytes the length has, and as many the count.
    pub number_bytes: usize,
    pub version: u8,
    pub most_rows: usize,
    pub row_bytes: usize,
}

impl RowFile {
    /// The bytes of the rows, once frame, version and count are in order.
    pub fn body<'a>(&self, bytes: &'a [u8]) -> Result<&'a [u8], Refusal> {
        if bytes.len() < self.size(0) || !length_matches(bytes, self.number_bytes) {
            return Err(Refusal::new(self.number, 0));
        }
        if bytes[self.version_place()] != self.version {
            return Err(Refusal::new(self.number + 1, self.version_place()));
        }
        let (count, rows) = bytes[self.count_place()..].split_at(self.number_bytes);
        let count = number(count);
        if count > self.most_rows || bytes.len() != self.size(count) {
            return Err(self.bad_count());
        }
        Ok(rows)
    }

    pub fn bad_count(&self) -> Refusal {
        Refusal::new(self.number + 2, self.count_place())
    }

    /// Behind the length.
    fn version_place(&self) -> usize {
        self.number_bytes
    }

    fn count_place(&self) -> usize {
        self.version_place() + 1
    }

    /// How many bytes a file with so many rows has, its length bytes included.
    pub fn size(&self, count: usize) -> usize {
        self.count_place() + self.number_bytes + self.row_bytes * count
    }

    /// Length, version and count of a file with so many rows.
    pub fn head(&self, count: usize) -> Vec<u8> {
        let length = self.size(count) - self.number_bytes;
        [&self.written(length)[..], &[self.version], &self.written(count)].concat()
    }

    fn written(&self, number: usize) -> Vec<u8> {
        let bytes = (number as u32).to_be_bytes();
        bytes[bytes.len() - self.number_bytes..].to_vec()
    }
}

/// Puts finished bytes at the start of a room, or says how many it should have had.
pub fn put(bytes: &[u8], room: &mut [u8]) -> Result<Answer, Refusal> {
    match room.get_mut(..bytes.len()) {
        Some(place) => {
            place.copy_from_slice(bytes);
            Ok(Answer::new(0, bytes.len() as u64, 0))
        }
        None => Err(Refusal::new(33, bytes.len())),
    }
}

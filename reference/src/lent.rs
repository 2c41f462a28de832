//! Bytes lent from inside a larger piece, so that a write outside of them is seen. They start
//! at an odd place, as a caller's may.

const MARGIN: usize = 13;
const MARK: u8 = 0xE7;

pub struct Lent {
    bytes: Vec<u8>,
}

impl Lent {
    pub fn new(content: &[u8]) -> Lent {
        Lent { bytes: [&[MARK; MARGIN], content, &[MARK; MARGIN]].concat() }
    }

    pub fn slice(&mut self) -> &mut [u8] {
        let end = self.bytes.len() - MARGIN;
        &mut self.bytes[MARGIN..end]
    }

    pub fn margins_kept(&self) -> bool {
        let (front, rest) = self.bytes.split_at(MARGIN);
        let back = &rest[rest.len() - MARGIN..];
        front.iter().chain(back).all(|byte| *byte == MARK)
    }
}

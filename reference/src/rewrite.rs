//! Reading and then writing the parts: sound bytes come back as they were.

use crate::answer::Answer;
use crate::edition::Edition;
use crate::{recording, table, witness};

pub fn rewrite_table(bytes: &[u8], room: &mut [u8]) -> Answer {
    match table::read(bytes) {
        Ok(parts) => table::write(&parts, room),
        Err(refusal) => refusal.into(),
    }
}

pub fn rewrite_recording(table: &[u8], bytes: &[u8], room: &mut [u8]) -> Answer {
    match recording::read(table, bytes) {
        Ok((_, parts)) => recording::write(table, &parts, room),
        Err(refusal) => refusal.into(),
    }
}

pub fn rewrite_witness(edition: Edition, bytes: &[u8], room: &mut [u8]) -> Answer {
    match witness::read(edition, bytes) {
        Ok(parts) => witness::write(edition, &parts, room),
        Err(refusal) => refusal.into(),
    }
}

//! Reading against writing: sound files come back as they were, and writing unsound parts
//! gives what reading their bytes gives.

use super::{same, Counts};
use crate::answer::{Answer, Refusal};
use crate::brute::kinds_refused;
use crate::compare::hex;
use crate::edition::Edition;
use crate::generate::{
    any_bytes, cross, dirty, encode_recording, encode_table, encode_witness, guessed, length_near,
    overheard, sound_table, spoil_bytes, spoil_devices, spoil_rows, spoil_table, spoil_witness,
    spoil_witness_bytes, unreached_states, Rng, Shape,
};
use crate::rewrite::{rewrite_recording, rewrite_table, rewrite_witness};
use crate::{recording, table, witness};

pub fn test(rng: &mut Rng, counts: &mut Counts) -> Result<(), String> {
    let shape = rng.pick(&[Shape::TINY, Shape::MIDDLE, Shape::LARGE]);
    let sound = sound_table(rng, &shape);
    let table_bytes = encode_table(&sound);
    same("sound table", table::read(&table_bytes), Ok(sound.clone()))?;
    let last = rng.between(0, 60) as u16;
    let heard = overheard(rng, &sound, last);
    let heard_bytes = encode_recording(&heard);
    let read = recording::read(&table_bytes, &heard_bytes).map(|it| it.1);
    same("sound recording", read, Ok(heard.clone()))?;
    let guess = guessed(rng, &sound, &heard);
    let guess_bytes = Edition::BOTH.map(|edition| encode_witness(edition, &guess));
    for (edition, bytes) in Edition::BOTH.into_iter().zip(&guess_bytes) {
        same("witness in form", witness::read(edition, bytes), Ok(guess.clone()))?;
    }

    let spoilt =
        [spoil_table(rng, &sound), unreached_states(rng, &sound), spoil_devices(rng, &sound)];
    for spoilt in spoilt {
        tables(rng, &spoilt)?;
    }
    let spoilt = spoil_rows(rng, &sound, &heard);
    recordings(rng, &table_bytes, &spoilt)?;
    let spoilt = spoil_witness(rng, &guess);
    witnesses(rng, &spoilt)?;
    if let Some((_, crossed)) = cross(rng, &sound, &heard, &guess) {
        witnesses(rng, &crossed)?;
    }
    let [guess_bytes_1, guess_bytes_2] = &guess_bytes;
    let spoilt = spoil_witness_bytes(rng, Edition::Two, guess_bytes_2);
    for file in [&table_bytes, &heard_bytes, guess_bytes_1, guess_bytes_2, &spoilt] {
        let spoilt = spoil_bytes(rng, file);
        bytes(rng, &table_bytes, file)?;
        bytes(rng, &table_bytes, &spoilt)?;
    }
    let any = any_bytes(rng);
    bytes(rng, &table_bytes, &any)?;
    counts.files += 26;
    Ok(())
}

/// Writes into a dirty room and expects what reading the same bytes says.
fn written(
    rng: &mut Rng,
    read: Result<(), Refusal>,
    bytes: &[u8],
    write: impl Fn(&mut [u8]) -> Answer,
) -> Result<(), String> {
    let room_length = length_near(rng, bytes.len());
    let room = dirty(rng, room_length);
    let mut after = room.clone();
    let answer = write(&mut after);
    let expected = match read {
        Err(refusal) => refusal.into(),
        Ok(()) if room.len() < bytes.len() => Answer::new(33, bytes.len() as u64, 0),
        Ok(()) => Answer::new(0, bytes.len() as u64, 0),
    };
    same("answer", answer, expected)?;
    let mut expected_room = room;
    if answer.number == 0 {
        expected_room[..bytes.len()].copy_from_slice(bytes);
    }
    same("room", after, expected_room)
}

fn tables(rng: &mut Rng, parts: &table::Table) -> Result<(), String> {
    // A guard length past its byte cannot be had as bytes; 255 stands for it there.
    let mut shown = parts.clone();
    for it in &mut shown.transitions {
        it.guard.truncate(255);
    }
    let bytes = encode_table(&shown);
    let read = table::read(&bytes).map(|_| ());
    // Nor can devices in version 1; the others of the first refusals are those of reading.
    let read = kinds_refused(parts).map_or(read, Err);
    written(rng, read, &bytes, |room| table::write(parts, room))
        .map_err(|it| format!("write table {parts:?}: {it}"))
}

fn recordings(rng: &mut Rng, table: &[u8], parts: &recording::Recording) -> Result<(), String> {
    let bytes = encode_recording(parts);
    let read = recording::read(table, &bytes).map(|_| ());
    written(rng, read, &bytes, |room| recording::write(table, parts, room))
        .map_err(|it| format!("write recording {parts:?}: {it}"))
}

fn witnesses(rng: &mut Rng, parts: &witness::Witness) -> Result<(), String> {
    for edition in Edition::BOTH {
        let bytes = encode_witness(edition, parts);
        // Two bytes cannot say the length of more rows, so they cannot be had as bytes.
        let too_many = edition == Edition::One && parts.rows.len() > 13_106;
        let read = if too_many { Err(Refusal::new(42, 3)) } else { read_form(edition, &bytes) };
        written(rng, read, &bytes, |room| witness::write(edition, parts, room))
            .map_err(|it| format!("write witness {edition:?} {parts:?}: {it}"))?;
    }
    Ok(())
}

fn read_form(edition: Edition, bytes: &[u8]) -> Result<(), Refusal> {
    witness::read(edition, bytes).map(|_| ())
}

/// Any bytes, taken for each of the three files in turn.
fn bytes(rng: &mut Rng, table: &[u8], bytes: &[u8]) -> Result<(), String> {
    let all = |rng: &mut Rng| -> Result<(), String> {
        let read = table::read(bytes).map(|_| ());
        written(rng, read, bytes, |room| rewrite_table(bytes, room))?;
        let read = recording::read(table, bytes).map(|_| ());
        written(rng, read, bytes, |room| rewrite_recording(table, bytes, room))?;
        for edition in Edition::BOTH {
            let read = read_form(edition, bytes);
            written(rng, read, bytes, |room| rewrite_witness(edition, bytes, room))?;
        }
        Ok(())
    };
    all(rng).map_err(|it| format!("rewrite: {it}\ntable: {}\nbytes: {}", hex(table), hex(bytes)))
}

//! Witnesses as files.

use super::{refusal, refused_at_every_time, rows_at_every_time, TIMES};
use crate::answer::Refusal;
use crate::edition::Edition;
use crate::papers::PAPERS;
use crate::witness::Row;

/// A witness's bytes, given as this edition.
pub struct Told {
    pub name: String,
    pub edition: Edition,
    pub bytes: Vec<u8>,
    /// Nothing if they are in form.
    pub refusal: Option<Refusal>,
}

/// Kept at 4,097 by 7, removed at 65,535: in form in edition 2. Its length is at 0 to 3, its version
/// at 4, its count at 5 to 8 and its rows at 9 and 14.
const SHORT: [u8; 19] = [0, 0, 0, 15, 2, 0, 0, 0, 2, 0, 0x10, 0x01, 9, 7, 1, 0xFF, 0xFF, 8, 0xFF];

/// Halves of four bytes that are not 0, in their upper half.
const UPPER: [u16; 20] = [
    1, 2, 3, 4, 5, 8, 16, 32, 64, 128, 255, 256, 257, 512, 4_096, 16_384, 32_768, 65_280, 65_534,
    65_535,
];

pub fn files() -> Vec<Told> {
    let groups = [changed_bytes(), cuts(), other_editions(), upper_halves(), times(), counts()];
    groups.into_iter().flatten().collect()
}

fn told(
    name: impl Into<String>,
    edition: Edition,
    bytes: Vec<u8>,
    refusal: Option<Refusal>,
) -> Told {
    Told { name: name.into(), edition, bytes, refusal }
}

/// A file of edition 1 with this count and these rows, and a length that matches.
pub fn edition_1(count: u16, rows: &[Row]) -> Vec<u8> {
    let rows = bytes(rows);
    let length = (rows.len() + 3) as u16;
    [&length.to_be_bytes()[..], &[1], &count.to_be_bytes(), &rows].concat()
}

/// The same of edition 2.
pub fn edition_2(count: u32, rows: &[Row]) -> Vec<u8> {
    let rows = bytes(rows);
    let length = (rows.len() + 5) as u32;
    [&length.to_be_bytes()[..], &[2], &count.to_be_bytes(), &rows].concat()
}

fn bytes(rows: &[Row]) -> Vec<u8> {
    let row = |it: &Row| [it.mark, (it.time >> 8) as u8, it.time as u8, it.kind, it.transition];
    rows.iter().flat_map(row).collect()
}

fn in_edition(edition: Edition, rows: &[Row]) -> Vec<u8> {
    match edition {
        Edition::One => edition_1(rows.len() as u16, rows),
        Edition::Two => edition_2(rows.len() as u32, rows),
    }
}

fn short_with(place: usize, byte: u8) -> Vec<u8> {
    let mut bytes = SHORT.to_vec();
    bytes[place] = byte;
    bytes
}

/// The short witness with each byte changed by itself.
fn changed_bytes() -> Vec<Told> {
    let mut all = vec![told("short", Edition::Two, SHORT.to_vec(), None)];
    let mut add = |place: usize, byte: u8, refused: Option<Refusal>| {
        let name = format!("byte {place} is {byte}");
        all.push(told(name, Edition::Two, short_with(place, byte), refused));
    };
    for (place, byte) in SHORT[..9].iter().enumerate() {
        let refused = match place {
            0..=3 => refusal(40, 0),
            4 => refusal(41, 4),
            _ => refusal(42, 5),
        };
        for byte in [byte ^ 1, byte ^ 0x80, 255] {
            add(place, byte, refused);
        }
    }
    for version in [0, 1, 4, 6, 10, 18, 34, 66, 254] {
        add(4, version, refusal(41, 4));
    }
    // Marks, times, kinds and transitions of the first row and of the second.
    for (place, byte, row) in [(9, 1, 0), (9, 3, 0), (14, 3, 1), (14, 255, 1), (18, 254, 1)] {
        add(place, byte, refusal(43, row));
    }
    for (place, byte) in [(15, 0x0F), (15, 0x00), (10, 0xFF)] {
        // The second is at 4,095 or 255; or the first at 65,281, which is before 65,535.
        add(place, byte, if place == 15 { refusal(43, 1) } else { None });
    }
    for (place, byte) in [(9, 2), (10, 0), (11, 0), (12, 0), (12, 255), (13, 255), (14, 0)] {
        add(place, byte, None);
    }
    for (place, byte) in [(14, 2), (15, 0x10), (16, 0), (17, 0), (17, 255)] {
        add(place, byte, None);
    }
    all
}

/// The short witness cut or drawn out, with its length as it was and with one that matches.
fn cuts() -> Vec<Told> {
    let mut all = Vec::new();
    for end in (0..19).chain(20..25) {
        let mut bytes = SHORT.to_vec();
        bytes.resize(end, 0);
        all.push(told(format!("{end} bytes"), Edition::Two, bytes.clone(), refusal(40, 0)));
        let Some(length) = bytes.first_chunk_mut() else { continue };
        *length = (end as u32 - 4).to_be_bytes();
        let refused = if end < 9 { refusal(40, 0) } else { refusal(42, 5) };
        all.push(told(format!("{end} bytes, matching"), Edition::Two, bytes, refused));
    }
    // What the other edition would count, or all bytes.
    for length in [17, 19, 10, 16, 14] {
        all.push(told("another length", Edition::Two, short_with(3, length), refusal(40, 0)));
    }
    // Under 9 bytes nothing but the frame is looked at.
    for (end, version) in (5..9).flat_map(|end| [0, 1, 2, 7, 255].map(|version| (end, version))) {
        let bytes = [&[0, 0, 0, end - 4, version][..], &vec![0; usize::from(end) - 5]].concat();
        let name = format!("{end} bytes of version {version}");
        all.push(told(name, Edition::Two, bytes, refusal(40, 0)));
    }
    all
}

/// Each edition given as the other; and each with the other's version.
fn other_editions() -> Vec<Told> {
    let mut all = Vec::new();
    for paper in PAPERS.iter().filter(|paper| paper.answer.number == 0) {
        let [one, two] = Edition::BOTH.map(|edition| paper.witness(edition));
        let name = paper.name;
        all.push(told(format!("{name}, 1 as 2"), Edition::Two, one.clone(), refusal(40, 0)));
        all.push(told(format!("{name}, 2 as 1"), Edition::One, two.clone(), refusal(40, 0)));
        let mut swapped = [one, two];
        swapped[0][2] = 2;
        swapped[1][4] = 1;
        let [one, two] = swapped;
        all.push(told(format!("{name}, 1 with version 2"), Edition::One, one, refusal(41, 2)));
        all.push(told(format!("{name}, 2 with version 1"), Edition::Two, two, refusal(41, 4)));
    }
    all.push(told("short as 1", Edition::One, SHORT.to_vec(), refusal(40, 0)));
    all
}

/// Length and count with an upper half that is not 0, or with a lower half that is not right.
fn upper_halves() -> Vec<Told> {
    let mut all = Vec::new();
    let mut add = |name: String, start: usize, half: u16, refused| {
        let mut bytes = SHORT.to_vec();
        bytes[start..start + 2].copy_from_slice(&half.to_be_bytes());
        all.push(told(name, Edition::Two, bytes, refused));
    };
    for half in UPPER {
        add(format!("length {half} x 65,536 + 15"), 0, half, refusal(40, 0));
        add(format!("count {half} x 65,536 + 2"), 5, half, refusal(42, 5));
        if half != 2 {
            add(format!("length {half}"), 2, half, refusal(40, 0));
            add(format!("count {half}"), 7, half, refusal(42, 5));
        }
    }
    all
}

/// A row at each time, alone, behind another, and before another.
fn times() -> Vec<Told> {
    let row = |time: u16| Row { time, kind: 3, ..Row::default() };
    let mut all = Vec::new();
    for edition in Edition::BOTH {
        let mut add = |times: &[u16], refused| {
            let rows: Vec<Row> = times.iter().map(|time| row(*time)).collect();
            let name = format!("{edition:?}: times {times:?}");
            all.push(told(name, edition, in_edition(edition, &rows), refused));
        };
        for (time, in_1) in TIMES {
            let late = edition == Edition::One && !in_1;
            let at = |number: usize| if late { refusal(43, number) } else { None };
            add(&[time], at(0));
            if time > 1 {
                add(&[1, time], at(1));
                add(&[time - 1, time], if late && time > 4_097 { refusal(43, 0) } else { at(1) });
            }
            add(&[time, time], at(0).or(refusal(43, 1)));
            add(&[time, 0], at(0).or(refusal(43, 1)));
        }
        add(&[0], refusal(43, 0));
    }
    all
}

/// As many rows as the limits say, and one more. The last two have a third of a megabyte each.
fn counts() -> Vec<Told> {
    let mut all = Vec::new();
    let mut add = |edition: Edition, count: usize| {
        let bytes = in_edition(edition, &rows_at_every_time(count));
        let refused = refused_at_every_time(edition, count);
        all.push(told(format!("{edition:?}: {count} rows"), edition, bytes, refused));
    };
    for count in [4_097, 4_608, 4_609] {
        add(Edition::One, count);
    }
    for count in [4_608, 4_609, 65_535, 65_536] {
        add(Edition::Two, count);
    }
    all
}

//! Witnesses as parts, which have one shape for both editions.

use super::{refusal, refused_at_every_time, rows_at_every_time, TIMES};
use crate::answer::Refusal;
use crate::edition::Edition;
use crate::parts::WitnessParts;
use crate::witness::{Row, Witness, KEPT};

/// A witness's parts, to be written in this edition.
pub struct Given {
    pub name: String,
    pub edition: Edition,
    pub parts: WitnessParts,
    /// Nothing if they can be written.
    pub refusal: Option<Refusal>,
}

pub fn parts() -> Vec<Given> {
    let mut all = Vec::new();
    for edition in Edition::BOTH {
        all.extend(counts_beyond(edition));
        all.extend(filled(edition));
        all.extend(times(edition));
    }
    all.extend(full());
    all
}

fn given(edition: Edition, name: String, parts: WitnessParts, refused: Option<Refusal>) -> Given {
    Given { name: format!("{edition:?}: {name}"), edition, parts, refusal: refused }
}

/// Three rows in form in either edition.
fn three() -> [Row; 3] {
    [1, 5, 4_096].map(|time| Row { mark: KEPT, time, kind: 4, transition: 9 })
}

fn with_count(count: u32, filler: u8) -> WitnessParts {
    WitnessParts { count, filler, rows: three().to_vec() }
}

/// Above the edition's limit. In their lower half, or in their lower three bytes, many are counts
/// that could be written.
fn counts_beyond(edition: Edition) -> Vec<Given> {
    let (most, refused) = match edition {
        Edition::One => (4_608, refusal(42, 3)),
        Edition::Two => (65_535, refusal(42, 5)),
    };
    let lower = (1..=3).flat_map(|upper| (0..4).map(move |lower| upper * 65_536 + lower));
    let others = [most + 1, most + 2, 65_536 + 4_608, 70_000, 131_075, 1 << 24, (1 << 24) + 3];
    let highest = [1 << 31, (1 << 31) + 3, 0xFFFF_0003, u32::MAX - 1, u32::MAX];
    let counts = lower.chain(others).chain(highest);
    counts.map(|it| given(edition, format!("count {it}"), with_count(it, 2), refused)).collect()
}

/// Counts within the limit: what is given is in form, and behind it stands the filler. Filler 2 is
/// an added row at 514, and two of them are at one time.
fn filled(edition: Edition) -> Vec<Given> {
    let first =
        |count: usize| WitnessParts { rows: three()[..1].to_vec(), ..with_count(count as u32, 2) };
    let mut all: Vec<Given> = (0..=2)
        .map(|count| given(edition, format!("{count} of a filler"), first(count), None))
        .collect();
    let most = if edition == Edition::One { 4_608 } else { 65_535 };
    for count in [3, 4, most - 1, most] {
        all.push(given(edition, format!("{count} of a filler"), first(count), refusal(43, 2)));
    }
    for count in [4, 4_607, 4_608, 4_609, 4_610, 5_000, 8_191, 40_000, 65_534, 65_535] {
        let refused = if count > most { refusal(42, 3) } else { refusal(43, 3) };
        for filler in [0, 255] {
            let name = format!("three of {count}, filler {filler}");
            all.push(given(edition, name, with_count(count as u32, filler), refused));
        }
    }
    for count in 0..=3 {
        all.push(given(edition, format!("{count} of three"), with_count(count, 255), None));
    }
    all
}

fn times(edition: Edition) -> Vec<Given> {
    let mut all = Vec::new();
    for (time, in_1) in TIMES.into_iter().skip(1) {
        let row = Row { time, kind: 200, ..Row::default() };
        let late = edition == Edition::One && !in_1;
        for before in [0, 1] {
            let rows = [&three()[..before], &[row]].concat();
            let parts = WitnessParts { filler: 1, ..WitnessParts::of(&Witness { rows }) };
            let refused = if late { refusal(43, before) } else { None };
            all.push(given(edition, format!("time {time} behind {before}"), parts, refused));
        }
    }
    all
}

/// As many as an edition may have; the last has a third of a megabyte.
fn full() -> Vec<Given> {
    let of = |edition: Edition, count: usize| {
        let rows = rows_at_every_time(count);
        let refused = refused_at_every_time(edition, count);
        given(edition, format!("{count} rows"), WitnessParts::of(&Witness { rows }), refused)
    };
    vec![of(Edition::Two, 4_608), of(Edition::Two, 4_609), of(Edition::Two, 65_535)]
}

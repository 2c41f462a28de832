//! Tables that forbid nothing, so that the works count windows: one state, and packets that may be
//! added at every instant. Of a recording with one row, that row alone is the preferred witness.

use super::{kind, link, table};
use crate::generate::encode_table;
use crate::papers::recording;
use crate::rule::Rule;

pub struct Open {
    pub name: String,
    pub table: Vec<u8>,
    pub rule: Rule,
    /// Of the one row, which has kind 0.
    pub time: u16,
    pub works: Vec<u64>,
}

impl Open {
    pub fn recording(&self) -> Vec<u8> {
        recording(&[(self.time, 0)])
    }
}

/// With packets from the device and from another; with packets from the device alone; and with
/// packets from others alone.
pub fn open() -> Vec<Open> {
    let mut all = Vec::new();
    for window in 1..=8 {
        for most in 0..=window {
            let time = 4 + (all.len() % 7) as u16;
            for (name, radios, device, count) in MIXES {
                let remembered = u64::from(window) - 1;
                let works = (0..u64::from(time)).map(|rows| count(rows.min(remembered), most));
                let kinds: Vec<_> = radios.iter().map(|radio| kind(*radio)).collect();
                let loops = (0..kinds.len() as u8).map(|kind| link(0, 0, kind, &[0])).collect();
                all.push(Open {
                    name: format!("{name}, {window}, {most}"),
                    table: encode_table(&table(1, kinds, loops, all.len())),
                    rule: Rule::new(device, window, most),
                    time,
                    works: works.collect(),
                });
            }
        }
    }
    all
}

/// How many windows are possible if so many of their places can be told apart from no row.
type Count = fn(u64, u8) -> u64;

/// Name, packets, the device that is asked for, and the windows.
type Mix = (&'static str, &'static [(u8, u8)], u8, Count);

const MIXES: [Mix; 4] = [
    ("either", &[(0, 0), (1, 15)], 15, some_of),
    ("either, from the unit", &[(0, 0), (1, 1)], 0, some_of),
    // Every row is a guess, so the guesses are the latest rows.
    ("guesses alone", &[(0, 0)], 0, |places, most| places.min(most.into()) + 1),
    ("no guesses", &[(0, 0), (1, 7)], 1, |_, _| 1),
];

/// Any places, but not too many.
fn some_of(places: u64, most: u8) -> u64 {
    (0..1_u64 << places).filter(|it| it.count_ones() <= most.into()).count() as u64
}

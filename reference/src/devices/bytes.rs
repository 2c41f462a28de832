//! The tables as bytes.

use super::{bad_devices_of_most, every_device, kind, most, refusal, three, with_kinds};
use super::{Told, MOST_KINDS, UNKNOWN_VERSIONS};
use crate::answer::Refusal;
use crate::generate::encode_table;
use crate::papers::{SMALL_MONITOR, SMALL_MONITOR_2};
use crate::table::{Kind, Table};

pub fn tables() -> Vec<Told> {
    let groups = [
        devices(),
        versions(),
        unknown_versions(),
        other_body(),
        small_monitor_cut(),
        most_kinds(),
        what_comes_first(),
    ];
    groups.into_iter().flatten().collect()
}

fn told(name: impl Into<String>, bytes: Vec<u8>, refusal: Option<Refusal>) -> Told {
    Told { name: name.into(), bytes, refusal }
}

/// The same bytes cut or drawn out with a length that matches, and with this version.
fn resized(bytes: &[u8], length: usize, version: u8) -> Vec<u8> {
    let mut bytes = bytes.to_vec();
    bytes.resize(length, 0);
    bytes[..2].copy_from_slice(&(length as u16 - 2).to_be_bytes());
    bytes[2] = version;
    bytes
}

/// All of them, at the first, the second and the third kind in turn.
fn devices() -> Vec<Told> {
    let one = |(direction, device, has): (u8, u8, bool)| {
        let number = usize::from(device) % 3;
        let mut table = three(2);
        table.kinds[number] = kind(direction, 1, device);
        let refused = if has { None } else { refusal(14, [8, 11, 14][number]) };
        told(format!("direction {direction}, device {device}"), encode_table(&table), refused)
    };
    every_device().map(one).collect()
}

/// The small monitor in both, and with versions that are neither; then a count out of range too.
fn versions() -> Vec<Told> {
    let mut tables = Vec::new();
    for (name, bytes) in [("1", &SMALL_MONITOR[..]), ("2", &SMALL_MONITOR_2)] {
        tables.push(told(format!("version {name}"), bytes.to_vec(), None));
        let states = |states: u8, version: u8| {
            let mut bytes = resized(bytes, bytes.len(), version);
            bytes[3] = states;
            bytes
        };
        tables.push(told(format!("version {name}, no state"), states(0, bytes[2]), refusal(12, 3)));
        for other in UNKNOWN_VERSIONS {
            let name = format!("version {other} before the records of {name}");
            tables.push(told(&name, states(3, other), refusal(11, 2)));
            tables.push(told(format!("{name}, no state"), states(0, other), refusal(11, 2)));
        }
    }
    tables
}

/// Neighbours of the two, and the last byte, before whatever may follow.
fn unknown_versions() -> Vec<Told> {
    let mut tables = Vec::new();
    for version in [0, 3, 255] {
        let mut add = |bytes: &[u8], length: usize| {
            let name = format!("version {version} before {length} bytes");
            tables.push(told(name, resized(bytes, length, version), refusal(11, 2)));
        };
        for bytes in [three(1), three(2), most(1), most(2)].map(|it| encode_table(&it)) {
            for length in [bytes.len(), bytes.len() + 1, 10] {
                add(&bytes, length);
            }
        }
        for length in 8..12 {
            add(&[0; 8], length);
        }
    }
    tables
}

/// One version's records behind the other's number. Where every byte is 0 and there is no
/// transition, version 2 runs out of bytes and version 1 leaves some over.
fn other_body() -> Vec<Told> {
    let mut tables = Vec::new();
    for kinds in 1..=MOST_KINDS {
        let zeros = |version| {
            let mut table = with_kinds(version, vec![Kind::default(); kinds]);
            table.transitions.clear();
            encode_table(&table)
        };
        let (one, two) = (zeros(1), zeros(2));
        let (called_two, called_one) = (resized(&one, one.len(), 2), resized(&two, two.len(), 1));
        let whole = 2 * kinds / 3;
        tables.push(told(format!("{kinds} of 1 as 2"), called_two, refusal(13, 8 + 3 * whole)));
        tables.push(told(format!("{kinds} of 2 as 1"), called_one, refusal(13, 8 + 2 * kinds)));
    }
    // Directions 0, 1, 1; as version 2 the second kind would be to the unit and of device 0.
    let as_two = resized(&SMALL_MONITOR, SMALL_MONITOR.len(), 2);
    tables.push(told("the small monitor of 1 as 2", as_two, refusal(14, 11)));
    // Kinds (0, 1), (0, 0), (1, 0); the transition at 14 would clear an absent variable.
    let as_one = resized(&SMALL_MONITOR_2, SMALL_MONITOR_2.len(), 1);
    tables.push(told("the small monitor of 2 as 1", as_one, refusal(14, 14)));
    tables
}

/// At every length. Its kinds are at 8, 11 and 14, its transitions at 17, 25, 35, 50 and 60; it
/// ends at 71.
fn small_monitor_cut() -> Vec<Told> {
    let starts = [8, 11, 14, 17, 25, 35, 50, 60, 71];
    let cut = |length: usize| {
        let refused = match length {
            0..=7 => refusal(10, 0),
            71 => None,
            72.. => refusal(13, 71),
            _ => refusal(13, *starts.iter().rfind(|it| **it <= length).expect("8 or more")),
        };
        let bytes = resized(&SMALL_MONITOR_2, length, 2);
        told(format!("the small monitor with {length} bytes"), bytes, refused)
    };
    (6..=74).map(cut).collect()
}

/// 32 kinds, at 8 to 101 in version 2, and transitions at 104 and 112: each kind cut in its third
/// byte, and each of a device that it may not have.
fn most_kinds() -> Vec<Told> {
    let mut tables = vec![
        told("32 kinds in version 1", encode_table(&most(1)), None),
        told("32 kinds in version 2", encode_table(&most(2)), None),
    ];
    let bytes = encode_table(&most(2));
    for kind in 0..MOST_KINDS {
        let offset = 8 + 3 * kind;
        let cut = resized(&bytes, offset + 2, 2);
        tables.push(told(format!("kind {kind} cut in its third byte"), cut, refusal(13, offset)));
    }
    for left in [0, 1] {
        let cut = resized(&bytes, 101 + left, 2);
        tables.push(told(format!("{left} bytes of the last kind"), cut, refusal(13, 101)));
    }
    let cut = resized(&bytes, 104, 2);
    tables.push(told("no transition left of two", cut, refusal(13, 104)));
    tables.push(told("a byte left over", resized(&bytes, 121, 2), refusal(13, 120)));
    for (number, device) in bad_devices_of_most() {
        let mut table = most(2);
        table.kinds[number].device = device;
        let name = format!("kind {number} of device {device}");
        tables.push(told(name, encode_table(&table), refusal(14, 8 + 3 * number)));
    }
    tables
}

/// Records go front to back, all fields of a kind are one test, and 13 for its bytes comes before
/// it. Kinds are at 8, 11 and 14, transitions at 17 and 25; it ends at 33.
fn what_comes_first() -> Vec<Told> {
    let with = |change: &dyn Fn(&mut Table)| {
        let mut table = three(2);
        change(&mut table);
        encode_table(&table)
    };
    let bad_device = |number: usize| with(&|it: &mut Table| it.kinds[number].device = 16);
    let all = |changes: [(u8, u8, u8); 3]| {
        let kinds = changes.map(|it| kind(it.0, it.1, it.2));
        with(&|it: &mut Table| it.kinds = kinds.to_vec())
    };
    let mut tables = vec![
        told("an airtime, then a device", all([(0, 16, 0), (1, 0, 0), (1, 0, 1)]), refusal(14, 8)),
        told("a device, then an airtime", all([(0, 0, 0), (1, 0, 0), (1, 16, 1)]), refusal(14, 11)),
        told("a device, then a direction", all([(0, 0, 9), (2, 0, 0), (1, 0, 1)]), refusal(14, 8)),
        told(
            "a direction, then a device",
            all([(0, 0, 0), (2, 0, 2), (1, 0, 16)]),
            refusal(14, 11),
        ),
        told("both in the last", all([(0, 0, 0), (1, 0, 15), (1, 16, 16)]), refusal(14, 14)),
    ];
    for (number, offset) in [(0, 8), (1, 11), (2, 14)] {
        let bytes = bad_device(number);
        let mut add = |name: &str, bytes: Vec<u8>, refused| {
            tables.push(told(format!("device 16 at {offset}, {name}"), bytes, refused));
        };
        add("alone", bytes.clone(), refusal(14, offset));
        // Cut before the end of its record, at its end, and in the last transition.
        add("cut in it", resized(&bytes, offset + 2, 2), refusal(13, offset));
        add("cut behind it", resized(&bytes, offset + 3, 2), refusal(14, offset));
        add("cut at the end", resized(&bytes, 32, 2), refusal(14, offset));
        add("a byte left over", resized(&bytes, 34, 2), refusal(14, offset));
        let also = |place: usize, byte: u8| {
            let mut bytes = bytes.clone();
            bytes[place] = byte;
            bytes
        };
        add("an absent state", also(17, 1), refusal(14, offset));
        add("no guard", also(23, 0), refusal(14, offset));
        add("states unreached", also(3, 2), refusal(14, offset));
        add("no state", also(3, 0), refusal(12, 3));
        add("another version", also(2, 3), refusal(11, 2));
    }
    // Directions and airtimes are what they were, whatever the device.
    for device in [0, 1, 2, 15, 16, 255] {
        for direction in [2, 3, 128, 255] {
            let bytes = all([(0, 0, 0), (direction, 0, device), (1, 0, 1)]);
            let name = format!("direction {direction} of device {device}");
            tables.push(told(name, bytes, refusal(14, 11)));
        }
        for direction in [0, 1] {
            let bytes = all([(0, 0, 0), (1, 0, 1), (direction, 16, device)]);
            let name = format!("airtime 16, direction {direction}, device {device}");
            tables.push(told(name, bytes, refusal(14, 14)));
        }
    }
    // Where airtime and device have each other's values, one of them is out of range or not.
    for (airtime, device) in [(0, 15), (15, 1), (1, 0), (15, 16), (16, 15), (3, 3), (0, 1)] {
        let sound = airtime <= 15 && (1..=15).contains(&device);
        let refused = if sound { None } else { refusal(14, 8) };
        let bytes = all([(1, airtime, device), (1, 0, 1), (1, 0, 1)]);
        tables.push(told(format!("airtime {airtime}, device {device}"), bytes, refused));
    }
    tables
}

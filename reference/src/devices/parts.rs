//! The tables as parts.

use super::{bad_devices_of_most, every_device, kind, most, refusal, three, with_kinds};
use super::{Given, MOST_KINDS, UNKNOWN_VERSIONS};
use crate::answer::Refusal;
use crate::parts::TableParts;
use crate::table::{Kind, Table};

/// Devices at which something changes, and neighbours.
const NEAR: [u8; 12] = [0, 1, 2, 3, 14, 15, 16, 17, 127, 128, 254, 255];

/// Those of version 2 one by one.
pub fn each_device() -> Vec<Given> {
    let one = |(direction, device, has): (u8, u8, bool)| {
        let number = (usize::from(device) + 2) % 3;
        let refused = if has { None } else { refusal(14, offset(2, number)) };
        let table = with_kind(2, number, kind(direction, 1, device));
        given(format!("2: direction {direction}, device {device}"), &table, refused)
    };
    every_device().map(one).collect()
}

pub fn parts() -> Vec<Given> {
    let groups =
        [devices_in_version_1(), most_kinds(), versions(), other_devices(), beyond_the_count()];
    groups.into_iter().flatten().collect()
}

fn given(name: impl Into<String>, table: &Table, refusal: Option<Refusal>) -> Given {
    Given { name: name.into(), parts: TableParts::of(table), refusal }
}

/// Where a kind's record starts; each version's first three.
fn offset(version: u8, number: usize) -> usize {
    match version {
        1 => [8, 10, 12][number],
        _ => [8, 11, 14][number],
    }
}

fn with_kind(version: u8, number: usize, kind: Kind) -> Table {
    let mut table = three(version);
    table.kinds[number] = kind;
    table
}

/// Version 1 has one device for each direction, and its number is the direction's.
fn devices_in_version_1() -> Vec<Given> {
    let mut all = Vec::new();
    for direction in [0, 1] {
        for (device, number) in
            (0..=17).chain([127, 128, 254, 255]).zip([0, 1, 2].into_iter().cycle())
        {
            let has = device == direction;
            let refused = if has { None } else { refusal(14, offset(1, number)) };
            let table = with_kind(1, number, kind(direction, 1, device));
            all.push(given(format!("1: direction {direction}, device {device}"), &table, refused));
        }
    }
    all
}

/// Each of 32 kinds in turn is of a device that it may not have. In version 1 the later ones are of
/// the other direction's.
fn most_kinds() -> Vec<Given> {
    let with = |version: u8, number: usize, device: u8, start: usize| {
        let mut table = most(version);
        table.kinds[number].device = device;
        let name = format!("{version}: kind {number} of device {device}");
        given(name, &table, refusal(14, start))
    };
    let in_2 = bad_devices_of_most().filter(|(_, device)| *device != 15);
    let in_2 = in_2.map(|(number, device)| with(2, number, device, 8 + 3 * number));
    let other = |number: usize| if number.is_multiple_of(2) { 1 } else { 0 };
    let in_1 = (10..MOST_KINDS).map(|number| with(1, number, other(number), 8 + 2 * number));
    in_2.chain(in_1).collect()
}

/// Each with all in order, and with a count out of range.
fn versions() -> Vec<Given> {
    let mut all = Vec::new();
    for version in [1, 2] {
        let table = three(version);
        all.push(given(format!("version {version}"), &table, None));
        let no_state = Table { states: 0, ..table.clone() };
        all.push(given(format!("version {version}, no state"), &no_state, refusal(12, 3)));
        let most = most(version);
        all.push(given(format!("version {version}, 32 kinds"), &most, None));
        let more = Table { kinds: vec![kind(0, 0, 0); 33], ..table };
        all.push(given(format!("version {version}, 33 kinds"), &more, refusal(12, 6)));
    }
    for version in UNKNOWN_VERSIONS {
        all.push(given(format!("version {version}"), &three(version), refusal(11, 2)));
    }
    for version in UNKNOWN_VERSIONS.into_iter().step_by(2) {
        let no_state = Table { states: 0, ..three(version) };
        all.push(given(format!("version {version}, no state"), &no_state, refusal(11, 2)));
    }
    for version in [0, 3, 255] {
        let mut add = |name: &str, table: Table| {
            let table = Table { version, ..table };
            all.push(given(format!("version {version}, {name}"), &table, refusal(11, 2)));
        };
        add("32 kinds of version 1", most(1));
        add("32 kinds of version 2", most(2));
        add("33 kinds", Table { kinds: vec![kind(0, 0, 0); 33], ..three(1) });
        add("states unreached", Table { states: 2, ..three(1) });
        add("a device", with_kind(2, 1, kind(1, 0, 16)));
    }
    // Every number is 0.
    all.push(given("nothing", &Table::default(), refusal(11, 2)));
    all
}

/// Version 1 cannot tell them and version 2 can, alone and with other things out of order. In
/// version 1 the kinds are at 8, 10 and 12 and the first transition at 14, in version 2 that is at
/// 17.
fn other_devices() -> Vec<Given> {
    let mut all = Vec::new();
    for (version, transition) in [(1, 14), (2, 17)] {
        let told = version == 2;
        let cannot = |number: usize| refusal(14, offset(version, number));
        for number in [1, 2] {
            let first = if told { None } else { cannot(number) };
            let mut add = |name: &str, refused, change: &dyn Fn(&mut Table)| {
                let mut table = three(version);
                table.kinds[number].device = 7;
                change(&mut table);
                let name = format!("{version}: device 7 at kind {number}, {name}");
                all.push(given(name, &table, refused));
            };
            add("alone", first, &|_| {});
            add("an airtime before it", cannot(0), &|it| it.kinds[0].airtime = 16);
            add("its own airtime", cannot(number), &|it| it.kinds[number].airtime = 16);
            let behind = if told { cannot(2) } else { first };
            add("an airtime at the last", behind, &|it| it.kinds[2].airtime = 16);
            add("a device at the last", behind, &|it| it.kinds[2].device = 0);
            add("a device before it", cannot(0), &|it| it.kinds[0].device = 1);
            let field = first.or(refusal(14, transition));
            add("an absent state", field, &|it| it.transitions[0].to = 1);
            let guard = first.or(refusal(15, transition));
            add("no guard", guard, &|it| it.transitions[0].guard.clear());
            add("33 bytes of guard", guard, &|it| it.transitions[0].guard = vec![0; 33]);
            add("states unreached", first.or(refusal(17, 1)), &|it| it.states = 2);
            add("no state", refusal(12, 3), &|it| it.states = 0);
            add("another version", refusal(11, 2), &|it| it.version = 3);
        }
    }
    // Of 32 kinds every other one is to the unit: at 8 + 2 x 1, x 15 and x 31.
    for (number, offset) in [(1, 10), (15, 38), (31, 70)] {
        for (version, refused) in [(1, refusal(14, offset)), (2, None)] {
            let mut table = most(version);
            table.kinds[number].device = 15;
            all.push(given(format!("{version}: kind {number} of 32"), &table, refused));
        }
    }
    // With an airtime out of range just before it or just behind it.
    for number in [1, 3, 7, 15, 17, 23, 29, 31] {
        for bad in [number - 1, number + 1] {
            let mut table = most(1);
            table.kinds[number].device = 15;
            let Some(kind) = table.kinds.get_mut(bad) else { continue };
            kind.airtime = 16;
            let name = format!("1: kind {number} of device 15, kind {bad} of airtime 16");
            all.push(given(name, &table, refusal(14, 8 + 2 * number.min(bad))));
        }
    }
    // Version 2's parts called version 1's: the first device that is not 1 is at kind 3.
    all.push(given("2 as 1", &Table { version: 1, ..most(2) }, refusal(14, 14)));
    all.push(given("1 as 2", &Table { version: 2, ..most(1) }, None));
    all
}

/// Kinds behind those that count are no parts; those that count and are not given hold the filler
/// in every field: 0 is a kind from the unit, 1 one to it.
fn beyond_the_count() -> Vec<Given> {
    let mut all = Vec::new();
    for version in [1, 2] {
        let whole = TableParts::of(&three(version));
        let mut add = |name: &str, parts: TableParts, refused| {
            let name = format!("{version}: {name}");
            all.push(Given { name, parts, refusal: refused });
        };
        for device in NEAR {
            let mut parts = TableParts { filler: device, ..whole.clone() };
            parts.kinds.push(kind(device % 2, 0, device));
            add("a kind behind those that count", parts, None);
        }
        for (filler, sound) in [(0, true), (1, true), (2, false), (16, false), (255, false)] {
            let mut parts = TableParts { filler, ..whole.clone() };
            parts.kinds.pop();
            let refused = if sound { None } else { refusal(14, offset(version, 2)) };
            add("a kind of the filler", parts, refused);
        }
        // The second is of another device, and only the first counts.
        let mut parts = TableParts::of(&with_kinds(version, vec![kind(0, 0, 0)]));
        parts.kinds.push(kind(1, 0, 200));
        add("one kind", parts.clone(), None);
        parts.counts[3] = 2;
        add("two kinds", parts, refusal(14, offset(version, 1)));
    }
    all
}

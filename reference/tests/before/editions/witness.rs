//! Witnesses by another rule: their bytes and their form.

use lutarosa_reference::answer::Refusal;
use lutarosa_reference::edition::Edition;
use lutarosa_reference::witness::{Row, REMOVED};

use super::Rule;
use Edition::{One, Two};

pub fn half(high: u8, low: u8) -> usize {
    usize::from(u16::from_be_bytes([high, low]))
}

pub fn read_rows(rule: &Rule, edition: Edition, bytes: &[u8]) -> Result<Vec<Row>, Refusal> {
    let edition = (rule.named)(edition, bytes);
    let width = if edition == One { 2 } else { 4 };
    let number = |at: usize, of: fn([u8; 4]) -> usize| match (bytes.get(at..at + width), edition) {
        (Some(two), One) => Some(half(two[0], two[1])),
        (Some(four), Two) => Some(of(four.try_into().expect("four"))),
        (None, _) => None,
    };
    let follow = bytes.len().checked_sub(width);
    if bytes.len() < (rule.least)(edition) || number(0, rule.length) != follow {
        return Err(Refusal::new(40, 0));
    }
    if !(rule.is_version)(edition, bytes[width]) {
        return Err(Refusal::new(41, (rule.at_version)(edition)));
    }
    let start = 2 * width + 1;
    let whole =
        |count: &usize| *count <= (rule.most_rows)(edition) && bytes.len() == start + 5 * *count;
    number(width + 1, rule.count)
        .filter(whole)
        .ok_or(Refusal::new(42, (rule.at_count)(edition)))?;
    let row = |it: &[u8]| Row {
        mark: it[0],
        time: u16::from_be_bytes([it[1], it[2]]),
        kind: it[3],
        transition: it[4],
    };
    Ok(bytes[start..].chunks_exact(5).map(row).collect())
}

pub fn read(rule: &Rule, edition: Edition, bytes: &[u8]) -> Result<Vec<Row>, Refusal> {
    let rows = read_rows(rule, edition, bytes)?;
    check_form(rule, (rule.named)(edition, bytes), &rows)?;
    Ok(rows)
}

pub fn check_form(rule: &Rule, edition: Edition, rows: &[Row]) -> Result<(), Refusal> {
    let breaks = |number: &usize| !stands(rule, edition, rows, *number);
    (0..rows.len()).find(breaks).map_or(Ok(()), |number| Err(Refusal::new(43, number)))
}

/// The form of the row with this number.
pub fn stands(rule: &Rule, edition: Edition, rows: &[Row], number: usize) -> bool {
    let row = rows[number];
    let before = if number == 0 { 0 } else { rows[number - 1].time };
    row.mark < 3
        && row.time > before
        && row.time <= (rule.last_time)(edition)
        && (row.mark != REMOVED || row.transition == 255)
}

pub fn bytes_of(rule: &Rule, edition: Edition, rows: &[Row]) -> Vec<u8> {
    let row = |it: &Row| {
        let [high, low] = it.time.to_be_bytes();
        [it.mark, high, low, it.kind, it.transition]
    };
    let body: Vec<u8> = rows.iter().flat_map(row).collect();
    let head = match (rule.writes)(edition) {
        One => {
            let [length, count] = [body.len() + 3, rows.len()].map(|it| (it as u16).to_be_bytes());
            [&length[..], &[1], &count].concat()
        }
        Two => {
            let [length, count] = [body.len() + 5, rows.len()].map(|it| (it as u32).to_be_bytes());
            [&length[..], &[2], &count].concat()
        }
    };
    [head, body].concat()
}

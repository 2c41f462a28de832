//! Waiting in front of a handover: once it has made possible what it can, each further tick costs
//! the same and moves the witness by one. So short waits, which the brute-force search can judge,
//! say what long ones give.

use lutarosa_reference::answer::Verdict;
use lutarosa_reference::brute::works;
use lutarosa_reference::edition::Edition;
use lutarosa_reference::papers::{recording, Paper, PAPERS, SMALL_MONITOR};
use lutarosa_reference::recording::read;
use lutarosa_reference::rule::Rule;
use lutarosa_reference::validate::validate;
use lutarosa_reference::witness::{self, Row};

/// The small monitor has forgotten everything after this wait.
const SHORT: u16 = 40;

/// The paper's recording so much later, in edition 2: the answer and the rows of the witness.
fn judged(paper: &Paper, wait: u16) -> (Verdict, Vec<Row>) {
    let bytes = delayed(paper, wait);
    let last = usize::from(wait + paper.rows[paper.rows.len() - 1].0);
    let mut scratch = vec![0x5A; 6 * (last + 1)];
    let mut room = vec![0x5A; 9 + 5 * (last + paper.rows.len())];
    let answer = validate(Edition::Two, &SMALL_MONITOR, &bytes, u32::MAX, &mut scratch, &mut room);
    let rows = match answer.number {
        0 => {
            let told = &room[..9 + 5 * answer.third as usize];
            witness::read(Edition::Two, told).expect("in form").rows
        }
        _ => Vec::new(),
    };
    (answer, rows)
}

fn delayed(paper: &Paper, wait: u16) -> Vec<u8> {
    let rows: Vec<_> = paper.rows.iter().map(|(time, kind)| (time + wait, *kind)).collect();
    recording(&rows)
}

/// By real monitors.
fn cost(paper: &Paper, wait: u16) -> u64 {
    let (table, heard) = read(&SMALL_MONITOR, &delayed(paper, wait)).expect("sound");
    works(Rule::NONE, &table, &heard).iter().sum()
}

fn later(rows: &[Row], ticks: u16) -> Vec<Row> {
    rows.iter().map(|row| Row { time: row.time + ticks, ..*row }).collect()
}

#[test]
fn a_longer_wait_moves_the_rows_and_costs_the_same_each_tick() {
    let sound = |paper: &&Paper| paper.budget == 10_000 && paper.answer.number < 2;
    for paper in PAPERS.iter().filter(sound) {
        let (short, rows) = judged(paper, SHORT);
        assert_eq!(short.second, cost(paper, SHORT), "{}", paper.name);
        let each = cost(paper, SHORT + 1) - short.second;
        for wait in [SHORT + 1, 4_084, 4_085, 4_090, 4_096, 9_999, 65_523] {
            let more = wait - SHORT;
            let third = if short.number == 1 { short.third + u64::from(more) } else { short.third };
            let second = short.second + u64::from(more) * each;
            let expected = Verdict { second, third, ..short };
            assert_eq!(judged(paper, wait), (expected, later(&rows, more)), "{}", paper.name);
        }
    }
}

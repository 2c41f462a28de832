//! P1 to P12 with the values the paper states, by the small monitor in either version and with
//! witnesses of either edition.

use super::{same, Counts};
use crate::answer::Answer;
use crate::brute::works;
use crate::check::check_witness;
use crate::edition::Edition;
use crate::papers::{Paper, PAPERS, SMALL_MONITOR, SMALL_MONITOR_2};
use crate::recording;
use crate::rule::Rule;
use crate::validate::validate;

pub fn test(counts: &mut Counts) -> Result<(), String> {
    for table in [&SMALL_MONITOR[..], &SMALL_MONITOR_2] {
        for (paper, edition) in PAPERS.iter().flat_map(|it| Edition::BOTH.map(|by| (it, by))) {
            let version = table[2];
            test_one(table, paper, edition).map_err(|text| {
                format!("{}, version {version}, edition {edition:?}: {text}", paper.name)
            })?;
            counts.papers += 1;
        }
    }
    let five = PAPERS[4].recording();
    let (table, five) = recording::read(&SMALL_MONITOR, &five).map_err(|it| format!("{it:?}"))?;
    same("P5 works", works(Rule::NONE, &table, &five), vec![1, 1, 1, 2, 3, 5])
}

/// With buffers far larger than wanted, so that nothing but the verdict is in question.
fn test_one(table: &[u8], paper: &Paper, edition: Edition) -> Result<(), String> {
    let (recording, witness) = (paper.recording(), paper.witness(edition));
    let mut scratch = vec![0xAA; 1_000];
    let mut room = vec![0xAA; 1_000];
    let answer = validate(edition, table, &recording, paper.budget, &mut scratch, &mut room);
    same("answer", answer, paper.answer)?;
    same("witness", &room[..witness.len()], &witness)?;
    same("rest of the room", room[witness.len()..].iter().all(|it| *it == 0xAA), true)?;
    if paper.answer.number == 0 {
        let guessed = paper.witness[5..].chunks_exact(5).filter(|row| row[0] != 0).count() as u64;
        let checked = check_witness(edition, table, &recording, &witness);
        same("check", checked, Answer::new(0, guessed, paper.answer.third))?;
    }
    Ok(())
}

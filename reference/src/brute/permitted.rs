//! Every list of rows that the checker permits with no row after T.

use crate::check::check_rule;
use crate::edition::Edition;
use crate::recording::Recording;
use crate::rule::Rule;
use crate::table::Table;
use crate::witness::{bytes_of, Row, Witness, ADDED, KEPT, NO_TRANSITION, REMOVED};

struct Hunt<'a> {
    edition: Edition,
    rule: Rule,
    table: &'a [u8],
    recording: &'a [u8],
    last: u16,
    /// The rows to ask about at each time.
    candidates: Vec<Row>,
    checks_left: u32,
    found: Vec<Witness>,
}

/// Nothing if more than `most_checks` questions would have to be asked.
///
/// A row that breaks a rule breaks it whatever follows, so a list is left as soon as the
/// checker names one of its rows.
pub fn permitted_by_checker(
    edition: Edition,
    rule: Rule,
    table: (&Table, &[u8]),
    recording: (&Recording, &[u8]),
    most_checks: u32,
) -> Option<Vec<Witness>> {
    let mut hunt = Hunt {
        edition,
        rule,
        table: table.1,
        recording: recording.1,
        last: recording.0.last_time() as u16,
        candidates: candidates(table.0),
        checks_left: most_checks,
        found: Vec::new(),
    };
    let mut rows = Witness::default();
    let standing = hunt.ask(&rows)?;
    hunt.go_on(&mut rows, standing, 1)?;
    Some(hunt.found)
}

/// Every mark, kind and transition number, one number too high included.
fn candidates(table: &Table) -> Vec<Row> {
    let mut rows = Vec::new();
    for kind in 0..table.kinds.len() as u8 {
        rows.push(Row { mark: REMOVED, time: 0, kind, transition: NO_TRANSITION });
        for transition in 0..=table.transitions.len() as u8 {
            rows.push(Row { mark: KEPT, time: 0, kind, transition });
            rows.push(Row { mark: ADDED, time: 0, kind, transition });
        }
    }
    rows
}

impl Hunt<'_> {
    /// Tries every row at this time or a later one after the rows so far.
    fn go_on(&mut self, rows: &mut Witness, standing: Standing, from: u16) -> Option<()> {
        match standing {
            Standing::Broken => return Some(()),
            Standing::Permitted => self.found.push(rows.clone()),
            Standing::Unfinished => {}
        }
        for time in from..=self.last {
            for number in 0..self.candidates.len() {
                rows.rows.push(Row { time, ..self.candidates[number] });
                let standing = self.ask(rows)?;
                self.go_on(rows, standing, time)?;
                rows.rows.pop();
            }
        }
        Some(())
    }

    fn ask(&mut self, rows: &Witness) -> Option<Standing> {
        self.checks_left = self.checks_left.checked_sub(1)?;
        let witness = bytes_of(self.edition, rows);
        let answer = check_rule(self.edition, self.rule, self.table, self.recording, &witness);
        Some(match (answer.number, answer.second) {
            (0, _) => Standing::Permitted,
            (_, row) if row == rows.rows.len() as u64 => Standing::Unfinished,
            _ => Standing::Broken,
        })
    }
}

enum Standing {
    Permitted,
    /// No row breaks a rule, but recorded rows are unaccounted for.
    Unfinished,
    Broken,
}

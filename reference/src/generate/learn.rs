//! What the program itself says of two files, for inputs that turn on it.

use crate::answer::Verdict;
use crate::edition::Edition;
use crate::rule::Rule;
use crate::validate::validate_rule;

pub struct Learnt {
    /// Bytes of scratch and room that the files want; some, if they are refused before that. Where
    /// edition 1 is not written, the room that edition 2 wants.
    pub scratch: usize,
    pub room: usize,
    /// With every budget.
    pub answer: Verdict,
    /// After acceptance, the preferred witness.
    pub preferred: Option<Vec<u8>>,
}

pub fn learn(edition: Edition, table: &[u8], recording: &[u8]) -> Learnt {
    learn_under(Rule::NONE, edition, table, recording)
}

/// The same under a rule.
pub fn learn_under(rule: Rule, edition: Edition, table: &[u8], recording: &[u8]) -> Learnt {
    let (scratch, room) = wanted(rule, edition, table, recording);
    let (mut lent, mut witness) = (vec![0; scratch], vec![0; room]);
    let answer = validate_rule(edition, rule, table, recording, u32::MAX, &mut lent, &mut witness);
    if answer.number == 0 {
        witness.truncate(edition.file().size(answer.third as usize));
    }
    Learnt { scratch, room, answer, preferred: (answer.number == 0).then_some(witness) }
}

/// Found by lending too few.
fn wanted(rule: Rule, edition: Edition, table: &[u8], recording: &[u8]) -> (usize, usize) {
    let ask = |edition, scratch: &mut [u8]| {
        validate_rule(edition, rule, table, recording, 0, scratch, &mut [])
    };
    let short = ask(edition, &mut []);
    if short.number != 30 {
        return (50, 50);
    }
    let mut scratch = vec![0; short.second as usize];
    let wanted = match ask(edition, &mut scratch).second {
        0 => ask(Edition::Two, &mut scratch).second,
        wanted => wanted,
    };
    (scratch.len(), wanted as usize)
}

//! A call of one of the seven public functions with all that is lent to it, and its outcome.

use crate::answer::{Answer, Verdict};
use crate::check::{check_rule, check_witness};
use crate::edition::Edition;
use crate::lent::Lent;
use crate::rewrite::{rewrite_recording, rewrite_table, rewrite_witness};
use crate::rule::Rule;
use crate::validate::{validate, validate_rule};

/// Edition of the witness, table, recording, budget, scratch and room.
pub type Validate = fn(Edition, &[u8], &[u8], u32, &mut [u8], &mut [u8]) -> Verdict;

/// The same with a rule behind the edition.
pub type ValidateRule = fn(Edition, Rule, &[u8], &[u8], u32, &mut [u8], &mut [u8]) -> Verdict;

/// Edition of the witness, rule, table, recording and witness.
pub type CheckRule = fn(Edition, Rule, &[u8], &[u8], &[u8]) -> Answer;

/// The seven functions of a program: this one's, or those of the library behind C.
#[derive(Clone, Copy)]
pub struct Engine {
    pub validate: Validate,
    pub validate_rule: ValidateRule,
    pub check: fn(Edition, &[u8], &[u8], &[u8]) -> Answer,
    pub check_rule: CheckRule,
    pub rewrite_table: fn(&[u8], &mut [u8]) -> Answer,
    pub rewrite_recording: fn(&[u8], &[u8], &mut [u8]) -> Answer,
    pub rewrite_witness: fn(Edition, &[u8], &mut [u8]) -> Answer,
}

/// This program.
pub const ORDINARY: Engine = Engine {
    validate,
    validate_rule,
    check: check_witness,
    check_rule,
    rewrite_table,
    rewrite_recording,
    rewrite_witness,
};

#[derive(Clone, Debug, PartialEq, Eq)]
pub enum Call {
    Validate {
        edition: Edition,
        table: Vec<u8>,
        recording: Vec<u8>,
        budget: u32,
        scratch: Vec<u8>,
        room: Vec<u8>,
    },
    ValidateRule {
        edition: Edition,
        rule: Rule,
        table: Vec<u8>,
        recording: Vec<u8>,
        budget: u32,
        scratch: Vec<u8>,
        room: Vec<u8>,
    },
    Check {
        edition: Edition,
        table: Vec<u8>,
        recording: Vec<u8>,
        witness: Vec<u8>,
    },
    CheckRule {
        edition: Edition,
        rule: Rule,
        table: Vec<u8>,
        recording: Vec<u8>,
        witness: Vec<u8>,
    },
    RewriteTable {
        bytes: Vec<u8>,
        room: Vec<u8>,
    },
    RewriteRecording {
        table: Vec<u8>,
        bytes: Vec<u8>,
        room: Vec<u8>,
    },
    RewriteWitness {
        edition: Edition,
        bytes: Vec<u8>,
        room: Vec<u8>,
    },
}

/// The answer, with counts if it is a validation's, and every lent byte as the call left it.
#[derive(Clone, Debug, PartialEq, Eq)]
pub struct Outcome {
    pub answer: Verdict,
    pub scratch: Vec<u8>,
    pub room: Vec<u8>,
    /// Whether all that was not lent is as it was.
    pub margins_kept: bool,
}

impl Call {
    /// Runs the call on copies of the lent buffers.
    pub fn run(&self, engine: &Engine) -> Outcome {
        let (scratch, room) = self.buffers();
        let (mut scratch, mut room) = (Lent::new(scratch), Lent::new(room));
        let answer = self.call(engine, scratch.slice(), room.slice());
        let margins_kept = scratch.margins_kept() && room.margins_kept();
        let (scratch, room) = (scratch.slice().to_vec(), room.slice().to_vec());
        Outcome { answer, scratch, room, margins_kept }
    }

    fn call(&self, engine: &Engine, scratch: &mut [u8], room: &mut [u8]) -> Verdict {
        match self {
            Call::Validate { edition, table, recording, budget, .. } => {
                (engine.validate)(*edition, table, recording, *budget, scratch, room)
            }
            Call::ValidateRule { edition, rule, table, recording, budget, .. } => {
                (engine.validate_rule)(*edition, *rule, table, recording, *budget, scratch, room)
            }
            Call::Check { edition, table, recording, witness } => {
                (engine.check)(*edition, table, recording, witness).into()
            }
            Call::CheckRule { edition, rule, table, recording, witness } => {
                (engine.check_rule)(*edition, *rule, table, recording, witness).into()
            }
            Call::RewriteTable { bytes, .. } => (engine.rewrite_table)(bytes, room).into(),
            Call::RewriteRecording { table, bytes, .. } => {
                (engine.rewrite_recording)(table, bytes, room).into()
            }
            Call::RewriteWitness { edition, bytes, .. } => {
                (engine.rewrite_witness)(*edition, bytes, room).into()
            }
        }
    }

    /// What scratch and room hold before the call; nothing where the call has none.
    fn buffers(&self) -> (&[u8], &[u8]) {
        match self {
            Call::Validate { scratch, room, .. } | Call::ValidateRule { scratch, room, .. } => {
                (scratch, room)
            }
            Call::Check { .. } | Call::CheckRule { .. } => (&[], &[]),
            Call::RewriteTable { room, .. }
            | Call::RewriteRecording { room, .. }
            | Call::RewriteWitness { room, .. } => (&[], room),
        }
    }

    pub fn name(&self) -> &'static str {
        match self {
            Call::Validate { edition: Edition::One, .. } => "validate",
            Call::Validate { edition: Edition::Two, .. } => "validate, edition 2",
            Call::ValidateRule { edition: Edition::One, .. } => "validate under a rule",
            Call::ValidateRule { edition: Edition::Two, .. } => "validate under a rule, edition 2",
            Call::Check { edition: Edition::One, .. } => "check",
            Call::Check { edition: Edition::Two, .. } => "check, edition 2",
            Call::CheckRule { edition: Edition::One, .. } => "check under a rule",
            Call::CheckRule { edition: Edition::Two, .. } => "check under a rule, edition 2",
            Call::RewriteTable { .. } => "rewrite table",
            Call::RewriteRecording { .. } => "rewrite recording",
            Call::RewriteWitness { edition: Edition::One, .. } => "rewrite witness",
            Call::RewriteWitness { edition: Edition::Two, .. } => "rewrite witness, edition 2",
        }
    }

    pub fn rule(&self) -> Option<Rule> {
        match self {
            Call::ValidateRule { rule, .. } | Call::CheckRule { rule, .. } => Some(*rule),
            _ => None,
        }
    }

    pub fn budget(&self) -> Option<u32> {
        match self {
            Call::Validate { budget, .. } | Call::ValidateRule { budget, .. } => Some(*budget),
            _ => None,
        }
    }

    /// The inputs by name, for a report in hex.
    pub fn inputs(&self) -> Vec<(&'static str, &[u8])> {
        match self {
            Call::Validate { table, recording, scratch, room, .. }
            | Call::ValidateRule { table, recording, scratch, room, .. } => vec![
                ("table", table),
                ("recording", recording),
                ("scratch", scratch),
                ("room", room),
            ],
            Call::Check { table, recording, witness, .. }
            | Call::CheckRule { table, recording, witness, .. } => {
                vec![("table", table), ("recording", recording), ("witness", witness)]
            }
            Call::RewriteTable { bytes, room } => vec![("table", bytes), ("room", room)],
            Call::RewriteRecording { table, bytes, room } => {
                vec![("table", table), ("recording", bytes), ("room", room)]
            }
            Call::RewriteWitness { bytes, room, .. } => vec![("witness", bytes), ("room", room)],
        }
    }
}

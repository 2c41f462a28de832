//! Guards of Definition 2, read from their prefix form.

/// The values of both clocks; a clock that a table lacks is never asked for.
pub type Clocks = [u32; 2];

/// Whether a guard holds now, would hold after some wait, or neither.
#[derive(Clone, Copy, Debug, PartialEq, Eq)]
pub enum Readiness {
    Yes,
    NotYet,
    NoMore,
}

/// The limits are bytes, so after this wait every clock is above them all, and no longer one
/// changes anything.
const LONGEST_WAIT: u32 = 256;

#[derive(Clone, Debug, PartialEq, Eq)]
pub enum Guard {
    True,
    AtMost { clock: usize, limit: u32 },
    AtLeast { clock: usize, limit: u32 },
    Variable(u8),
    Not(Box<Guard>),
    And(Box<Guard>, Box<Guard>),
}

impl Guard {
    /// The guard that takes exactly these bytes, if they are one and name nothing absent.
    pub fn read(bytes: &[u8], variables: u8, clocks: u8) -> Option<Guard> {
        let (guard, rest) = read_first(bytes, variables, clocks)?;
        rest.is_empty().then_some(guard)
    }

    /// What waiting alone does for it: every clock gains the same, and no variable changes.
    pub fn readiness(&self, variables: u8, clocks: &Clocks) -> Readiness {
        match (0..=LONGEST_WAIT).find(|wait| self.holds_after(*wait, variables, clocks)) {
            Some(0) => Readiness::Yes,
            Some(_) => Readiness::NotYet,
            None => Readiness::NoMore,
        }
    }

    /// Whether it holds so many ticks later. Bit x of `variables` is variable x.
    pub fn holds_after(&self, wait: u32, variables: u8, clocks: &Clocks) -> bool {
        match self {
            Guard::True => true,
            Guard::AtMost { clock, limit } => clocks[*clock] + wait <= *limit,
            Guard::AtLeast { clock, limit } => clocks[*clock] + wait >= *limit,
            Guard::Variable(variable) => variables >> variable & 1 == 1,
            Guard::Not(inner) => !inner.holds_after(wait, variables, clocks),
            Guard::And(left, right) => {
                left.holds_after(wait, variables, clocks)
                    && right.holds_after(wait, variables, clocks)
            }
        }
    }

    /// Raises each clock's entry to the largest limit compared with it here.
    pub fn raise_limits(&self, largest: &mut Clocks) {
        match self {
            Guard::True | Guard::Variable(_) => {}
            Guard::AtMost { clock, limit } | Guard::AtLeast { clock, limit } => {
                largest[*clock] = largest[*clock].max(*limit);
            }
            Guard::Not(inner) => inner.raise_limits(largest),
            Guard::And(left, right) => {
                left.raise_limits(largest);
                right.raise_limits(largest);
            }
        }
    }
}

/// One guard from the front, and the bytes after it.
fn read_first(bytes: &[u8], variables: u8, clocks: u8) -> Option<(Guard, &[u8])> {
    match bytes {
        [0, rest @ ..] => Some((Guard::True, rest)),
        [code @ (1 | 2), clock, limit, rest @ ..] if *clock < clocks => {
            let (clock, limit) = (usize::from(*clock), u32::from(*limit));
            let guard = match code {
                1 => Guard::AtMost { clock, limit },
                _ => Guard::AtLeast { clock, limit },
            };
            Some((guard, rest))
        }
        [3, variable, rest @ ..] if *variable < variables => {
            Some((Guard::Variable(*variable), rest))
        }
        [4, rest @ ..] => {
            let (inner, rest) = read_first(rest, variables, clocks)?;
            Some((Guard::Not(Box::new(inner)), rest))
        }
        [5, rest @ ..] => {
            let (left, rest) = read_first(rest, variables, clocks)?;
            let (right, rest) = read_first(rest, variables, clocks)?;
            Some((Guard::And(Box::new(left), Box::new(right)), rest))
        }
        _ => None,
    }
}

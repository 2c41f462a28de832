//! What every call gives back: a number of the paper's list and two values, and a validation two
//! counts too.

/// Laid out as the C interface lays it out, so that both programs share it.
#[repr(C)]
#[derive(Clone, Copy, Debug, PartialEq, Eq)]
pub struct Answer {
    pub number: u64,
    pub second: u64,
    pub third: u64,
}

impl Answer {
    pub const fn new(number: u64, second: u64, third: u64) -> Self {
        Answer { number, second, third }
    }
}

/// Of the situations just before a rejected instant with the air free, and the transitions of the
/// recorded kind from their state: how many such pairs are too early, and how many too late.
#[repr(C)]
#[derive(Clone, Copy, Debug, PartialEq, Eq, Default)]
pub struct Counts {
    pub not_yet: u64,
    pub no_more: u64,
}

impl Counts {
    pub const fn new(not_yet: u64, no_more: u64) -> Self {
        Counts { not_yet, no_more }
    }
}

/// What a validation gives back. Five numbers in a row for the C interface.
#[repr(C)]
#[derive(Clone, Copy, Debug, PartialEq, Eq)]
pub struct Verdict {
    pub number: u64,
    pub second: u64,
    pub third: u64,
    pub counts: Counts,
}

impl Verdict {
    /// Where nothing is rejected there is nothing to count.
    pub const fn new(number: u64, second: u64, third: u64) -> Self {
        Verdict { number, second, third, counts: Counts::new(0, 0) }
    }

    pub const fn rejected(cost: u64, instant: u64, counts: Counts) -> Self {
        Verdict { counts, ..Verdict::new(1, cost, instant) }
    }
}

/// Every call but a validation.
impl From<Answer> for Verdict {
    fn from(answer: Answer) -> Self {
        Verdict::new(answer.number, answer.second, answer.third)
    }
}

/// A number from 5 up. Its third value is 0 in every line of the list.
#[derive(Clone, Copy, Debug, PartialEq, Eq)]
pub struct Refusal {
    pub number: u64,
    pub value: u64,
}

impl Refusal {
    pub fn new(number: u64, value: usize) -> Self {
        Refusal { number, value: value as u64 }
    }
}

impl From<Refusal> for Answer {
    fn from(refusal: Refusal) -> Self {
        Answer::new(refusal.number, refusal.value, 0)
    }
}

impl From<Refusal> for Verdict {
    fn from(refusal: Refusal) -> Self {
        Answer::from(refusal).into()
    }
}

/// Inside the program a refusal travels as an error; outside it is an answer.
pub fn settle<T: From<Refusal>>(outcome: Result<T, Refusal>) -> T {
    outcome.unwrap_or_else(T::from)
}

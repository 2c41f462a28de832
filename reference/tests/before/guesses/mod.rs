//! Other rules than R-7's for guesses.
//!
//! One error cannot be seen: asking only added rows whether they keep the rule. A kept row is no
//! guess, and the window that ends with the row before it has all the guesses of its own.

mod search;

use lutarosa_reference::answer::{settle, Answer, Refusal, Verdict};
use lutarosa_reference::call::{Engine, ORDINARY};
use lutarosa_reference::check::check_witness;
use lutarosa_reference::edition::Edition;
use lutarosa_reference::recording::{self, Recording};
use lutarosa_reference::rule::Rule;
use lutarosa_reference::situation::Space;
use lutarosa_reference::table::{Kind, Table};
use lutarosa_reference::witness::{bytes_of, read_rows, ADDED, KEPT, REMOVED};

use search::{Search, Window};

/// When numbers 25 and 26 are tried.
#[derive(Clone, Copy, PartialEq)]
pub enum Tried {
    BeforeRecording,
    AfterRecording,
    AfterScratch,
    AfterRoom,
}

/// R-7 is what `NOW` has.
#[derive(Clone, Copy)]
pub struct Way {
    /// 25 or 26, by the rule and N.
    refuses: fn(Rule, usize) -> Option<u64>,
    tried: Tried,
    /// How many rows are looked at together, none if 0, and how many of them may be guesses.
    window: fn(Rule) -> usize,
    most: fn(Rule) -> u32,
    /// Whether a row with this mark is a guess, or nothing if it is no row of the window.
    counts: fn(Rule, &Kind, u8) -> Option<bool>,
    /// What a window becomes when nothing is sent.
    idles: fn(Window) -> Window,
    /// What it becomes when a row is removed.
    removes: fn(Window) -> Window,
    /// Whether fewer rows than are looked at together are a window.
    short_too: bool,
    /// Whether a window starts only where the one before ends.
    apart: bool,
    /// Whether works and counts take situations with other windows for others.
    works: bool,
    pairs: bool,
    /// How many times N the scratch has place for.
    larger: fn(Rule) -> usize,
    /// Whether the checker knows the rule, and the row that it names: of so many rows, the one that
    /// breaks it and its place among the kept and added ones.
    checks: bool,
    names: fn(usize, usize, usize) -> usize,
}

pub struct Other {
    pub name: &'static str,
    pub engine: Engine,
}

macro_rules! other {
    ($name:expr, { $($change:tt)* }) => {{
        const WAY: Way = Way { $($change)* ..NOW };
        let engine = Engine {
            validate_rule: |edition, rule, table, recording, budget, scratch, room| {
                let lent = Lent { budget, scratch, room };
                settle(WAY.validate(edition, rule, table, recording, lent))
            },
            check_rule: |edition, rule, table, recording, witness| {
                settle(WAY.check(edition, rule, (table, recording), witness))
            },
            ..ORDINARY
        };
        Other { name: $name, engine }
    }};
}

/// R-7 written again.
const NOW: Way = Way {
    refuses: |rule, situations| out_of_range(rule).or(too_many(rule.window, situations)),
    tried: Tried::AfterRecording,
    window: |rule| rule.window.into(),
    most: |rule| rule.most.into(),
    counts: |rule, kind, mark| match mark {
        REMOVED => None,
        _ => Some(mark == ADDED && kind.device == rule.device),
    },
    idles: |window| window,
    removes: |window| window,
    short_too: true,
    apart: false,
    works: true,
    pairs: true,
    larger: |rule| 1 << (rule.window.clamp(1, 8) - 1),
    checks: true,
    names: |_, row, _| row,
};

pub const AGAIN: Other = other!("R-7", {});

pub const OTHERS: [Other; 37] = [
    other!("before R-7", {
        refuses: |_, _| None,
        window: |_| 0,
        larger: |_| 1,
        checks: false,
    }),
    // Which rows.
    other!("kept rows are not counted", {
        counts: |rule, kind, mark| {
            (mark == ADDED).then_some(kind.device == rule.device)
        },
    }),
    other!("added rows from others are not counted", {
        counts: |rule, kind, mark| match mark {
            REMOVED => None,
            ADDED => (kind.device == rule.device).then_some(true),
            _ => Some(false),
        },
    }),
    other!("removed rows are counted", {
        counts: |rule, kind, mark| Some(mark == ADDED && kind.device == rule.device),
    }),
    other!("removed rows are guesses", {
        counts: |rule, kind, mark| Some(mark != KEPT && kind.device == rule.device),
    }),
    other!("kept rows from the device are guesses", {
        counts: |rule, kind, mark| (mark != REMOVED).then_some(kind.device == rule.device),
    }),
    other!("whatever the device", {
        counts: |_, _, mark| (mark != REMOVED).then_some(mark == ADDED),
    }),
    other!("devices as in version 1", {
        counts: |rule, kind, mark| {
            (mark != REMOVED).then_some(mark == ADDED && kind.direction == rule.device)
        },
    }),
    other!("every device but that one", {
        counts: |rule, kind, mark| {
            (mark != REMOVED).then_some(mark == ADDED && kind.device != rule.device)
        },
    }),
    other!("instants instead of rows", { idles: |window| window.push(false), }),
    // Which windows.
    other!("a row too short", { window: |rule| usize::from(rule.window) - 1, }),
    other!("a row too long", { window: |rule| usize::from(rule.window) + 1, }),
    other!("one guess too many", { most: |rule| u32::from(rule.most) + 1, }),
    other!("one guess too few", { most: |rule| u32::from(rule.most).saturating_sub(1), }),
    other!("window and most exchanged", {
        window: |rule| rule.most.into(),
        most: |rule| rule.window.into(),
    }),
    other!("a short trace is no window", { short_too: false, }),
    other!("windows do not overlap", { apart: true, }),
    other!("forgotten at removed rows", { removes: |_| Window::default(), }),
    other!("a removed row forgets the latest", { removes: |window| window.without_latest(), }),
    // What is counted and wanted.
    other!("works of the small N", { works: false, }),
    other!("pairs of the small N", { pairs: false, }),
    other!("scratch of the small N", { larger: |_| 1, }),
    other!("scratch for the whole window", { larger: |rule| 1 << rule.window.clamp(1, 8), }),
    // What is refused.
    other!("26 before 25", {
        refuses: |rule, situations| too_many(rule.window, situations).or(out_of_range(rule)),
    }),
    other!("26 with l", {
        refuses: |rule, situations| {
            out_of_range(rule).or(too_many(rule.window.saturating_add(1), situations))
        },
    }),
    other!("no 26", { refuses: |rule, _| out_of_range(rule), }),
    other!("26 at 65,536", {
        refuses: |rule, situations| {
            out_of_range(rule).or(too_many(rule.window, situations + 1))
        },
    }),
    other!("no device 15", {
        refuses: |rule, situations| match rule.device {
            15 => Some(25),
            _ => (NOW.refuses)(rule, situations),
        },
    }),
    other!("no window of 8", {
        refuses: |rule, situations| match rule.window {
            8 => Some(25),
            _ => (NOW.refuses)(rule, situations),
        },
    }),
    other!("fewer guesses than rows", {
        refuses: |rule, situations| match rule.most {
            most if most == rule.window => Some(25),
            _ => (NOW.refuses)(rule, situations),
        },
    }),
    other!("25 and 26 before 20 to 24", { tried: Tried::BeforeRecording, }),
    other!("25 and 26 after 30", { tried: Tried::AfterScratch, }),
    other!("25 and 26 after 31, and after 40 to 42", { tried: Tried::AfterRoom, }),
    // What the checker says.
    other!("the checker has no rule", { checks: false, }),
    other!("43 with the row count", { names: |rows, _, _| rows, }),
    other!("43 with the next row", { names: |_, row, _| row + 1, }),
    other!("43 with the place among kept and added rows", { names: |_, _, sent| sent, }),
];

fn out_of_range(rule: Rule) -> Option<u64> {
    let known = rule.device < 16 && rule.window > 0 && rule.window < 9 && rule.most <= rule.window;
    (!known).then_some(25)
}

fn too_many(window: u8, situations: usize) -> Option<u64> {
    let doubled = u32::from(window.saturating_sub(1)).min(20);
    (situations << doubled > 65_536).then_some(26)
}

pub struct Lent<'a> {
    pub budget: u32,
    pub scratch: &'a mut [u8],
    pub room: &'a mut [u8],
}

impl Way {
    fn validate(
        &self,
        edition: Edition,
        rule: Rule,
        table: &[u8],
        heard: &[u8],
        lent: Lent,
    ) -> Result<Verdict, Refusal> {
        let (table, heard) = self.read(rule, table, heard)?;
        let situations = Space::of(&table).count();
        let judge = |tried| self.judge(tried, rule, situations);
        judge(Tried::AfterRecording)?;
        let last = heard.last_time();
        let wanted = (last + 1) * (situations * (self.larger)(rule)).div_ceil(8);
        if lent.scratch.len() < wanted {
            return Err(Refusal::new(30, wanted));
        }
        judge(Tried::AfterScratch)?;
        let room = edition.room(last, heard.rows.len()).ok_or(Refusal::new(31, 0))?;
        if lent.room.len() < room {
            return Err(Refusal::new(31, room));
        }
        judge(Tried::AfterRoom)?;
        lent.scratch[..wanted].fill(0);
        let space = Space::of(&table);
        Ok(match Search::new(self, rule, &table, &space).run(&heard, lent.budget) {
            Err(verdict) => verdict,
            Ok((cost, witness)) => {
                let bytes = bytes_of(edition, &witness);
                lent.room[..bytes.len()].copy_from_slice(&bytes);
                Verdict::new(0, cost, witness.rows.len() as u64)
            }
        })
    }

    /// The rule's numbers too, if they are tried between the two files.
    fn read(&self, rule: Rule, table: &[u8], heard: &[u8]) -> Result<(Table, Recording), Refusal> {
        let table = lutarosa_reference::table::read(table)?;
        self.judge(Tried::BeforeRecording, rule, Space::of(&table).count())?;
        let heard = recording::read_against(&table, heard)?;
        Ok((table, heard))
    }

    fn judge(&self, tried: Tried, rule: Rule, situations: usize) -> Result<(), Refusal> {
        match (self.refuses)(rule, situations) {
            Some(number) if tried == self.tried => Err(Refusal::new(number, 0)),
            _ => Ok(()),
        }
    }

    fn check(
        &self,
        edition: Edition,
        rule: Rule,
        (table_bytes, heard): (&[u8], &[u8]),
        witness: &[u8],
    ) -> Result<Answer, Refusal> {
        let (table, _) = self.read(rule, table_bytes, heard)?;
        let situations = Space::of(&table).count();
        // Scratch is no concern of the checker's.
        for tried in [Tried::AfterRecording, Tried::AfterScratch] {
            self.judge(tried, rule, situations)?;
        }
        let rows = read_rows(edition, witness)?.rows;
        self.judge(Tried::AfterRoom, rule, situations)?;
        let without = check_witness(edition, table_bytes, heard, witness);
        let in_order = if without.number == 43 { without.second as usize } else { rows.len() };
        let (mut window, mut sent) = (Window::default(), 0);
        for (number, row) in rows.iter().take(in_order).enumerate().filter(|_| self.checks) {
            let kind = &table.kinds[usize::from(row.kind)];
            match self.after(rule, window, kind, row.mark) {
                Some(after) => window = after,
                None => {
                    let row = (self.names)(rows.len(), number, sent);
                    return Err(Refusal::new(43, row));
                }
            }
            sent += usize::from(row.mark != REMOVED);
        }
        Ok(without)
    }

    /// The window behind a row, if it keeps the rule.
    fn after(&self, rule: Rule, window: Window, kind: &Kind, mark: u8) -> Option<Window> {
        let rows = (self.window)(rule);
        let window = if mark == REMOVED { (self.removes)(window) } else { window };
        let Some(guess) = (self.counts)(rule, kind, mark).filter(|_| rows > 0) else {
            return Some(window);
        };
        let whole = window.push(guess);
        let is_window = self.short_too || whole.rows() >= rows;
        if is_window && whole.guesses() > (self.most)(rule) {
            return None;
        }
        Some(match self.apart && whole.rows() == rows {
            true => Window::default(),
            false => whole.last(rows - 1),
        })
    }
}

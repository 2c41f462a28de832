//! Measuring the time of validations, this program's and the verified library's side by side.

use std::time::{Duration, Instant};

use crate::answer::Verdict;
use crate::call::{Engine, ORDINARY};
use crate::edition::Edition;
use crate::generate::{encode_recording, encode_table};
use crate::shapes::{shapes, wide, Shape};

const ROOM: usize = 23_045;
/// A measured run takes as many calls as make up this time, so that short calls can be told apart.
const LEAST: Duration = Duration::from_millis(100);
const MOST_CALLS: u32 = 200;

const HEAD: &str = "\
| input | N | T | cost, % of T x N | ordinary, ms | library, ms | ratio \
| ordinary, ms on the wall | library, ms on the wall | ratio on the wall | same |
|---|---|---|---|---|---|---|---|---|---|---|";

/// An input and the lent buffers, the same for every call.
struct Desk<'a> {
    shape: &'a Shape,
    table: Vec<u8>,
    recording: Vec<u8>,
    scratch: Vec<u8>,
    room: Vec<u8>,
}

/// What an engine answered and wrote, and how long a call took in each of its runs: by the clock on
/// the wall, and on the processor alone, which other work on the computer changes less.
#[derive(Default)]
struct Timed {
    answer: Option<Verdict>,
    room: Vec<u8>,
    wall: Vec<Duration>,
    processor: Vec<Duration>,
}

/// What one input has given.
struct Measured<'a> {
    shape: &'a Shape,
    ours: Timed,
    theirs: Option<Timed>,
}

/// A table with a line for each input that has `wanted` in its name; `print` gets the lines as they
/// come. An error if the inputs or answers were not as they should be.
pub fn bench(
    verified: Option<&Engine>,
    runs: usize,
    wanted: &str,
    mut print: impl FnMut(&str),
) -> Result<(), String> {
    let shapes: Vec<Shape> = shapes().into_iter().filter(|it| it.name.contains(wanted)).collect();
    if shapes.is_empty() {
        return Err(format!("no input has {wanted:?} in its name"));
    }
    print(&format!(
        "Medians of {runs} runs: on the processor, then by the clock on the wall. \
         Same: answer and witness.\n\
         Scratch zeroed before each call, outside the measured time: yes"
    ));
    if verified.is_none() {
        print("Verified library: not linked, built without the feature `linked`");
    }
    print(&format!("\n{HEAD}"));
    let mut unfit = Vec::new();
    for shape in &shapes {
        let measured = Desk::new(shape).measure(verified, runs);
        print(&measured.line());
        if !measured.is_fit() {
            unfit.push(shape.name);
        }
    }
    match unfit.is_empty() {
        true => Ok(()),
        false => Err(format!("an input or an answer is not as it should be: {}", unfit.join(", "))),
    }
}

impl<'a> Desk<'a> {
    fn new(shape: &'a Shape) -> Self {
        let (table, recording) = (encode_table(&shape.table), encode_recording(&shape.recording));
        let mut desk = Desk { shape, table, recording, scratch: Vec::new(), room: vec![0; ROOM] };
        // Without any scratch the answer is how much is wanted.
        let wanted = desk.call(&ORDINARY).second;
        desk.scratch = vec![0; wanted as usize];
        desk
    }

    fn measure(mut self, verified: Option<&Engine>, runs: usize) -> Measured<'a> {
        let mut ours = Timed::default();
        let mut theirs = verified.map(|engine| (engine, Timed::default()));
        // In turn, so that whatever else the computer does falls on both. The first round is
        // thrown away: it meets memory for the first time.
        for _ in 0..=runs {
            self.run(&ORDINARY, &mut ours);
            if let Some((engine, timed)) = &mut theirs {
                self.run(engine, timed);
            }
        }
        Measured { shape: self.shape, ours, theirs: theirs.map(|it| it.1) }
    }

    fn run(&mut self, engine: &Engine, timed: &mut Timed) {
        let calls = timed.calls();
        let (mut wall, mut processor) = (Duration::ZERO, Duration::ZERO);
        for _ in 0..calls {
            self.scratch.fill(0);
            self.room.fill(0);
            let (processor_start, start) = (processor_time(), Instant::now());
            let answer = self.call(engine);
            wall += start.elapsed();
            processor += processor_time().saturating_sub(processor_start);
            timed.answer = Some(answer);
        }
        timed.wall.push(wall / calls);
        timed.processor.push(processor / calls);
        timed.room.clone_from(&self.room);
    }

    fn call(&mut self, engine: &Engine) -> Verdict {
        let Desk { shape, table, recording, scratch, room } = self;
        let (edition, budget) = (Edition::One, u32::MAX);
        match shape.rule {
            None => (engine.validate)(edition, table, recording, budget, scratch, room),
            Some(rule) => {
                (engine.validate_rule)(edition, rule, table, recording, budget, scratch, room)
            }
        }
    }
}

impl Timed {
    /// How many calls make a run: one in the first round, which says how long a call takes.
    fn calls(&self) -> u32 {
        let whole = |call: &Duration| LEAST.as_nanos().div_ceil(call.as_nanos().max(1));
        self.wall.first().map_or(1, |call| whole(call).min(MOST_CALLS.into()) as u32)
    }
}

impl Measured<'_> {
    /// Accepted by both, with the same witness. The input of R-12 must be as wide as that asks for.
    fn is_fit(&self) -> bool {
        let Some(Verdict { number, second: cost, .. }) = self.ours.answer else { return false };
        let most = self.shape.most();
        let situations = self.shape.situations();
        let as_asked = situations >= 60_000 && self.shape.last_time() == 4_096 && 2 * cost >= most;
        let is_wide = self.shape.name == wide().name;
        number == 0 && (!is_wide || as_asked) && self.same() != Some(false)
    }

    /// Nothing if the library was not called.
    fn same(&self) -> Option<bool> {
        let same = |it: &Timed| it.answer == self.ours.answer && it.room == self.ours.room;
        self.theirs.as_ref().map(same)
    }

    fn line(&self) -> String {
        let Measured { shape, ours, theirs } = self;
        let cost = ours.answer.map_or(0, |it| it.second);
        let share = 100.0 * cost as f64 / shape.most().max(1) as f64;
        let mut cells = vec![
            shape.name.to_string(),
            shape.situations().to_string(),
            shape.last_time().to_string(),
            three_digits(share),
        ];
        for times in [|it: &Timed| median(&it.processor), |it: &Timed| median(&it.wall)] {
            let (ours, theirs) = (times(ours), theirs.as_ref().map_or(0.0, times));
            cells.extend([ours * 1e3, theirs * 1e3, theirs / ours].map(three_digits));
        }
        cells.push(self.same().map_or("-", |same| if same { "yes" } else { "no" }).to_string());
        format!("| {} |", cells.join(" | "))
    }
}

/// At least three digits that count; a stroke where nothing was measured.
fn three_digits(value: f64) -> String {
    if !value.is_normal() {
        return "-".to_string();
    }
    let places = (2 - value.log10().floor() as i32).max(0) as usize;
    format!("{value:.places$}")
}

/// Seconds: the median of the measured runs, without the first round.
fn median(times: &[Duration]) -> f64 {
    let mut measured = times[1..].to_vec();
    measured.sort();
    measured[measured.len() / 2].as_secs_f64()
}

/// How long this thread has been on the processor, as Linux counts it; elsewhere 0. Linux brings
/// the count up to date every few milliseconds, and when a thread offers to make way.
fn processor_time() -> Duration {
    std::thread::yield_now();
    let text = std::fs::read_to_string("/proc/thread-self/schedstat").unwrap_or_default();
    let nanoseconds = text.split(' ').next().and_then(|it| it.parse().ok());
    Duration::from_nanos(nanoseconds.unwrap_or(0))
}

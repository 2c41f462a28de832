//! The command `reference`.

use std::io;
use std::path::Path;
use std::process::ExitCode;
use std::time::{Duration, Instant};

use lutarosa_reference::call::Engine;
use lutarosa_reference::generate::{encode_recording, encode_table};
use lutarosa_reference::{bench, cases, compare, desk, selftest, shapes};

const USAGE: &str = "\
reference desk                             standard input to the desk's lines
reference selftest [SECONDS] [SEED]        the paper's values and the brute-force search
reference compare [FOLDER] SECONDS [SEED]  random calls against the verified library
reference bench [RUNS] [NAME]              the times of all inputs, or of those with NAME in theirs
reference wide FOLDER                      the wide input as files
reference cases FOLDER                     the recorded cases: stdin and stdout of the batch program
";

fn main() -> ExitCode {
    let arguments: Vec<String> = std::env::args().skip(1).collect();
    let arguments: Vec<&str> = arguments.iter().map(String::as_str).collect();
    let outcome = match arguments.as_slice() {
        ["desk"] => desk::run(io::stdin(), io::stdout()).map_err(|it| it.to_string()),
        ["selftest", rest @ ..] => run_selftest(rest),
        ["compare", rest @ ..] => run_compare(rest),
        ["bench", rest @ ..] => run_bench(rest),
        ["wide", folder] => write_wide(Path::new(folder)),
        ["cases", folder] => write_cases(Path::new(folder)),
        _ => {
            eprint!("{USAGE}");
            return ExitCode::from(2);
        }
    };
    match outcome {
        Ok(()) => ExitCode::SUCCESS,
        Err(text) => {
            println!("{}", text.trim_end());
            ExitCode::FAILURE
        }
    }
}

fn run_selftest(arguments: &[&str]) -> Result<(), String> {
    let (time, seed) = time_and_seed(arguments)?;
    print!("{}", selftest::selftest(time, seed)?.report());
    Ok(())
}

fn run_compare(arguments: &[&str]) -> Result<(), String> {
    let verified = verified().ok_or("built without the feature `linked`: nothing to compare")?;
    let rest = match arguments {
        [folder, rest @ ..] if folder.parse::<u64>().is_err() => {
            is_linked_from(folder)?;
            rest
        }
        rest => rest,
    };
    let (time, seed) = time_and_seed(rest)?;
    println!("seed {seed}");
    let end = Instant::now() + time;
    let draw = compare::with_and_without_rule;
    let (tally, difference) = compare::compare(&verified, draw, seed, |_| Instant::now() < end);
    if let Some(difference) = difference {
        return Err(format!("{}after {} calls", difference.report(), tally.calls));
    }
    print!("{}", tally.report());
    Ok(())
}

/// Seven runs of every input where nothing is said.
fn run_bench(arguments: &[&str]) -> Result<(), String> {
    let runs = number(arguments, 0, 7)?.max(1) as usize;
    let wanted = arguments.get(1).copied().unwrap_or_default();
    bench::bench(verified().as_ref(), runs, wanted, |line| println!("{line}"))
}

fn write_wide(folder: &Path) -> Result<(), String> {
    let wide = shapes::wide();
    let files = [
        ("wide.table", encode_table(&wide.table)),
        ("wide.recording", encode_recording(&wide.recording)),
    ];
    for (name, bytes) in files {
        std::fs::write(folder.join(name), bytes).map_err(|it| format!("{name}: {it}"))?;
    }
    Ok(())
}

fn write_cases(folder: &Path) -> Result<(), String> {
    let made = cases::cases(1).map_err(|it| it.to_string())?;
    for (name, bytes) in [("stdin", &made.input), ("stdout", &made.output)] {
        std::fs::write(folder.join(name), bytes).map_err(|it| format!("{name}: {it}"))?;
    }
    let tallies = [
        ("from files", &made.from_files),
        ("from files under rules", &made.under_rules),
        ("from writing", &made.from_writing),
        ("from writing and reading back", &made.from_back),
        ("unreached states", &made.unreached_states),
    ];
    for (from, numbers) in tallies {
        let times = numbers.iter().map(|(number, times)| format!("{number} x {times}"));
        println!("{from}: {}", times.collect::<Vec<_>>().join(", "));
    }
    for (from, tally) in [("read", &made.read), ("written", &made.written)] {
        let versions = [0, 1, 2, 3, 255].map(|it| tally.versions.get(&it).copied().unwrap_or(0));
        println!("tables {from} of the versions 0, 1, 2, 3 and 255: {versions:?}");
        println!("devices refused in tables {from}: {:?}", tally.reasons());
    }
    print!("{}", made.pairs.line());
    Ok(())
}

/// 20 seconds and seed 1 where nothing is said.
fn time_and_seed(arguments: &[&str]) -> Result<(Duration, u64), String> {
    Ok((Duration::from_secs(number(arguments, 0, 20)?), number(arguments, 1, 1)?))
}

fn number(arguments: &[&str], place: usize, usual: u64) -> Result<u64, String> {
    match arguments.get(place) {
        Some(text) => text.parse().map_err(|_| format!("not a number: {text}")),
        None => Ok(usual),
    }
}

#[cfg(feature = "linked")]
fn verified() -> Option<Engine> {
    Some(lutarosa_reference::linked::VERIFIED)
}

#[cfg(not(feature = "linked"))]
fn verified() -> Option<Engine> {
    None
}

/// A named folder must be the one linked, so that no stale library is compared unseen.
#[cfg(feature = "linked")]
fn is_linked_from(folder: &str) -> Result<(), String> {
    let linked = lutarosa_reference::linked::FOLDER;
    let same = std::fs::canonicalize(folder).ok() == std::fs::canonicalize(linked).ok();
    same.then_some(()).ok_or_else(|| format!("built with the library in {linked}"))
}

#[cfg(not(feature = "linked"))]
fn is_linked_from(_: &str) -> Result<(), String> {
    Ok(())
}

// The differential test: random cases through the static library and the program `trace`, against the twin.
//
// differ [--seed S] [--cases N] [--programs N --trace FILE --twin FILE --folder DIR] [--case K | --program K]
#![forbid(unsafe_code)]

use differ::programs::Programs;
use differ::tally::Tally;
use differ::{cases, Same};
use std::panic::{catch_unwind, AssertUnwindSafe};
use std::process::ExitCode;
use std::time::Instant;

/// Failures after which nothing more is tried.
const ENOUGH: usize = 5;

#[derive(Default)]
struct Wanted {
    seed: u64,
    cases: u64,
    programs: u64,
    case: Option<u64>,
    program: Option<u64>,
    trace: Option<String>,
    twin: Option<String>,
    folder: Option<String>,
}

fn wanted() -> Result<Wanted, String> {
    let mut wanted = Wanted { seed: 20_000_101, cases: 80_000, ..Wanted::default() };
    let mut words = std::env::args().skip(1);
    while let Some(word) = words.next() {
        let value = words.next().ok_or(format!("{word} wants a value"))?;
        let number = || value.parse::<u64>().map_err(|_| format!("{word} {value}: no number"));
        match word.as_str() {
            "--seed" => wanted.seed = number()?,
            "--cases" => wanted.cases = number()?,
            "--programs" => wanted.programs = number()?,
            "--case" => wanted.case = Some(number()?),
            "--program" => wanted.program = Some(number()?),
            "--trace" => wanted.trace = Some(value),
            "--twin" => wanted.twin = Some(value),
            "--folder" => wanted.folder = Some(value),
            _ => return Err(format!("{word}: no such word")),
        }
    }
    Ok(wanted)
}

/// A case whose panic is a failure like another.
fn held(one: impl FnOnce() -> Same) -> Same {
    catch_unwind(AssertUnwindSafe(one)).unwrap_or_else(|_| Err("a panic".into()))
}

fn main() -> ExitCode {
    let wanted = match wanted() {
        Ok(wanted) => wanted,
        Err(why) => {
            eprintln!("differ: {why}");
            return ExitCode::from(2);
        }
    };
    let programs = match (&wanted.trace, &wanted.twin, &wanted.folder) {
        (Some(trace), Some(twin), Some(folder)) => {
            Some(Programs { trace: trace.into(), twin: twin.into(), folder: folder.into() })
        }
        _ => None,
    };
    let single = wanted.case.is_some() || wanted.program.is_some();
    let mut tally = Tally::default();
    let mut failures = Vec::new();
    let began = Instant::now();
    let run = |first: u64, last: u64, word: &str, one: &mut dyn FnMut(u64) -> Same, failures: &mut Vec<String>| {
        for case in first..last {
            if failures.len() >= ENOUGH {
                return;
            }
            if let Err(why) = held(|| one(case)) {
                failures.push(format!("{word} {case}: {why}\n    again: differ/run --seed {} --{word} {case}", wanted.seed));
            }
        }
    };
    let (first, last) = wanted.case.map_or((0, if single { 0 } else { wanted.cases }), |case| (case, case + 1));
    run(first, last, "case", &mut |case| cases::compare(wanted.seed, case, &mut tally), &mut failures);
    if last > first {
        println!("seed {}: {} cases through the library, {:.1} s", wanted.seed, last - first, began.elapsed().as_secs_f32());
    }
    if let Some(programs) = &programs {
        let began = Instant::now();
        let (first, last) = wanted.program.map_or((0, if single { 0 } else { wanted.programs }), |case| (case, case + 1));
        run(first, last, "program", &mut |case| programs.compare(wanted.seed, case, &mut tally), &mut failures);
        if last > first {
            println!("seed {}: {} cases through trace, {:.1} s", wanted.seed, last - first, began.elapsed().as_secs_f32());
        }
    }
    if !single && failures.is_empty() {
        failures = tally.report(programs.is_some());
    }
    for failure in &failures {
        println!("FAILED {failure}");
    }
    if failures.is_empty() {
        println!("no difference");
        ExitCode::SUCCESS
    } else {
        ExitCode::FAILURE
    }
}

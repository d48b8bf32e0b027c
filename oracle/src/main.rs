//! The oracle: the Rust itself as the judge. See README.md for the commands.

mod options;
mod outcome;

/// What is put to both sides, and how it is drafted and made smaller.
mod cases {
    pub mod case;
    pub mod chance;
    pub mod generate;
    pub mod shrink;
}

/// The Rust's answers.
mod judge {
    pub mod as_is;
    pub mod original;
    pub mod quiet;
}

/// A voice's answers, and what sets them beside the Rust's.
mod voices {
    pub mod difference;
    pub mod drive;
    #[cfg(feature = "library")]
    pub mod face;
    #[cfg(feature = "library")]
    pub mod library;
}

/// The files of recorded answers: their layout, what stands in them, and their writer and reader.
mod recorded {
    pub mod corners;
    pub mod layout;
    pub mod record;
    pub mod replay;
}

/// The other commands, and what they count.
mod commands {
    pub mod bench;
    pub mod compare;
    pub mod disagree;
    pub mod distance_check;
    #[cfg(feature = "library")]
    pub mod fuzz;
    pub mod slips;
    pub mod tally;
}

use std::process::ExitCode;

#[cfg(feature = "library")]
use commands::fuzz;
use commands::{bench, compare, disagree, distance_check, slips};
use judge::quiet;
use options::Options;
use outcome::Outcome;
use recorded::{record, replay};

/// Runs the command. The exit code tells whether all is well, and so does the last line.
fn main() -> ExitCode {
    if cfg!(debug_assertions) {
        eprintln!("run with --release: document 01 fixes a 64-bit release build");
        return ExitCode::FAILURE;
    }
    quiet::install();
    match Options::read(std::env::args().skip(1)).and_then(|options| run(&options)) {
        Ok(outcome) => outcome.tell(),
        Err(words) => {
            eprintln!("{words}");
            ExitCode::FAILURE
        }
    }
}

/// Runs a command: what came of it, or why it cannot be run.
fn run(options: &Options) -> Result<Outcome, String> {
    let seed = options.number("--seed")?.unwrap_or(1);
    let cases = options.number("--cases")?;
    match options.command() {
        "compare" => {
            let (voice, cases) = (options.voice()?, cases.unwrap_or(10_000));
            let kinds = compare::kinds(voice, options.kind()?)?;
            Ok(compare::compare(voice, &compare::Order { cases, seed, kinds }))
        }
        "slips" => match options.number("--smallest")? {
            Some(number) => slips::show_smallest(number, cases.unwrap_or(10_000), seed),
            None => Ok(slips::show(cases.unwrap_or(10_000), seed)),
        },
        "distance-check" => Ok(distance_check::check(cases.unwrap_or(2_000_000), seed)),
        "record" => Ok(record::record(options.paths().first().map(|path| path.as_path()))),
        "replay" => Ok(replay::replay_all(options.voice()?, &options.paths())),
        "disagree" => Ok(disagree::show(options.voice()?)),
        "bench" => {
            let (kind, quick) = (options.kind()?, options.is_given("--quick"));
            bench::bench(options.voice()?, &bench::Order { kind, quick })
        }
        "fuzz" => {
            let calls = options.count()?.unwrap_or(1_000_000);
            fuzz(calls, seed, options.number("--call")?, options.is_given("--heap"))
        }
        name => unreachable!("{name} is read, and not run"),
    }
}

/// Calls of the library with anything.
#[cfg(feature = "library")]
fn fuzz(calls: usize, seed: u64, only: Option<usize>, heap: bool) -> Result<Outcome, String> {
    Ok(fuzz::fuzz(&fuzz::Order { calls, seed, only, heap }))
}

/// Without the library there is nothing to call.
#[cfg(not(feature = "library"))]
fn fuzz(_calls: usize, _seed: u64, _only: Option<usize>, _heap: bool) -> Result<Outcome, String> {
    Err("fuzz calls the library: build with --features library".to_string())
}
